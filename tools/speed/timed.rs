//! What is timed, and the lines that tell it.

use crate::board::{Kind, Man, Side, Square};
use crate::decode::{cells, decode};
use crate::index::index;
use crate::material::Class;
use crate::moves::{Move, earlier, is_legal, legal_moves, played, unmoves, unplayed};
use crate::position::Position;
use crate::retro::{ClassGame, Tables};
use std::hint::black_box;
use std::time::Instant;

/// A position, and a legal move.
struct Turn {
    position: Position,
    by: Move,
}

struct Sample {
    label: &'static str,
    positions: Vec<Position>,
    turns: Vec<Turn>,
}

const SAMPLES: [(&str, Kind, Kind, Side, u8); 6] = [
    ("KRKQ_white", Kind::Rook, Kind::Queen, Side::White, 20),
    ("KRKQ_black", Kind::Rook, Kind::Queen, Side::Black, 20),
    ("KPKP_white", Kind::Pawn, Kind::Pawn, Side::White, 51),
    ("KPKP_black", Kind::Pawn, Kind::Pawn, Side::Black, 51),
    ("KQKB_white", Kind::Queen, Kind::Bishop, Side::White, 20),
    ("KQKB_black", Kind::Queen, Kind::Bishop, Side::Black, 20),
];

/// Every position with the fourth man on one square, and each legal move of every eighth.
fn sample((label, ours, theirs, side, fixed): (&'static str, Kind, Kind, Side, u8)) -> Sample {
    let man = |side, kind, number| Man {
        side,
        kind,
        at: Square(number),
    };
    let mut positions = Vec::new();
    for number in 0..64 * 64 * 64u32 {
        let men = [
            man(Side::White, Kind::King, (number / 64 / 64) as u8),
            man(Side::Black, Kind::King, (number / 64 % 64) as u8),
            man(Side::White, ours, (number % 64) as u8),
            man(Side::Black, theirs, fixed),
        ];
        positions.extend(Position::new(&men, side, None));
    }
    let mut turns = Vec::new();
    for position in positions.iter().step_by(8) {
        let moves = legal_moves(position);
        turns.extend(moves.as_slice().iter().map(|by| Turn {
            position: *position,
            by: *by,
        }));
    }
    Sample {
        label,
        positions,
        turns,
    }
}

fn line(name: &str, label: &str, items: usize, nanoseconds: u128, sum: u64) {
    println!(
        "{name} {label} {} {sum}",
        nanoseconds * 1000 / items as u128
    );
}

/// Does some work five times, and prints how long the fastest took.
fn show(name: &str, label: &str, items: usize, work: impl Fn() -> u64) {
    let mut best = u128::MAX;
    let mut sum = 0;
    for _ in 0..5 {
        let start = Instant::now();
        sum = black_box(work());
        best = best.min(start.elapsed().as_nanos());
    }
    line(name, label, items, best, sum);
}

fn legal_by(turns: &[Turn]) -> u64 {
    turns
        .iter()
        .filter(|turn| is_legal(&turn.position, turn.by))
        .count() as u64
}

fn men_after(turns: &[Turn]) -> u64 {
    turns
        .iter()
        .map(|turn| played(&turn.position, turn.by).men().len() as u64)
        .sum()
}

/// How many of the squares of the long diagonal White attacks, and how many Black.
fn attacks(positions: &[Position]) -> u64 {
    let mut sum = 0;
    for position in positions {
        for step in 0..8 {
            sum += u64::from(position.attacked(Square(9 * step), Side::White));
            sum += u64::from(position.attacked(Square(9 * step), Side::Black));
        }
    }
    sum
}

/// The squares of the men of a position, added up.
fn squares(position: &Position) -> u64 {
    position.men().iter().map(|man| u64::from(man.at.0)).sum()
}

fn unplayed_from(position: &Position) -> u64 {
    unmoves(position)
        .as_slice()
        .iter()
        .map(|by| squares(&unplayed(position, *by)))
        .sum()
}

pub fn calls() {
    for each in SAMPLES {
        let sample = sample(each);
        let (positions, turns) = (sample.positions.as_slice(), sample.turns.as_slice());
        let count = positions.len();
        show("legal_moves", sample.label, count, || {
            positions
                .iter()
                .map(|position| legal_moves(position).as_slice().len() as u64)
                .sum()
        });
        show("earlier", sample.label, count, || {
            positions
                .iter()
                .map(|position| {
                    earlier(position)
                        .as_slice()
                        .iter()
                        .map(squares)
                        .sum::<u64>()
                })
                .sum()
        });
        show("unmoves", sample.label, count, || {
            positions
                .iter()
                .map(|position| unmoves(position).as_slice().len() as u64)
                .sum()
        });
        show("position_before", sample.label, count, || {
            positions.iter().map(unplayed_from).sum()
        });
        show("played", sample.label, turns.len(), || men_after(turns));
        show("is_legal", sample.label, turns.len(), || legal_by(turns));
        show("in_check", sample.label, count, || {
            positions
                .iter()
                .filter(|position| position.in_check())
                .count() as u64
        });
        show("attacked", sample.label, 16 * count, || attacks(positions));
        show("index", sample.label, count, || {
            positions
                .iter()
                .map(|position| u64::from(index(position)))
                .sum()
        });
    }
}

/// The men of all positions of a class.
fn men_decoded(class: Class) -> u64 {
    (0..cells(class))
        .filter_map(|number| decode(class, number))
        .map(|position| position.men().len() as u64)
        .sum()
}

pub fn numbers() {
    for class in [Class::KRK, Class::KPK, Class::KRKN, Class::KQQK] {
        show(
            "decode",
            &format!("{class:?}"),
            cells(class) as usize,
            || men_decoded(class),
        );
    }
}

/// Builds and verifies tables, each from those before it.
pub fn tables(classes: &[Class]) {
    let mut tables = Tables::new();
    for class in classes {
        let game = ClassGame {
            class: *class,
            tables: &tables,
        };
        let label = format!("{class:?}");
        let start = Instant::now();
        let (cells, examined) = game.build();
        let built = start.elapsed().as_nanos();
        let sum = examined + cells.iter().map(|cell| u64::from(*cell)).sum::<u64>();
        line("build", &label, 1, built, sum);
        let start = Instant::now();
        let right = game.verify(&cells);
        line(
            "verify",
            &label,
            1,
            start.elapsed().as_nanos(),
            u64::from(right),
        );
        tables.add(*class, cells);
    }
}
