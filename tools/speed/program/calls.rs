// Rattle: `rt` builds this file as src/calls.rt of the crate study_speed, which ../build.sh puts together outside of the repository.
//! How long the calls of the inner loop take.
use crate::samples::{Setting, Turn, turns};
use crate::timed::show;
use std::io;
use study_board::{Kind, Position, Side, Square};
use study_index::index;
use study_moves::{in_check, is_legal, legal_moves, played, position_before, unmoves};

fn count_moves(positions: &[Position]) -> u64 {
    let mut sum = 0u64;
    for position in positions {
        sum = sum.saturating_add(legal_moves(position).len() as u64);
    }
    sum
}

fn count_unmoves(positions: &[Position]) -> u64 {
    let mut sum = 0u64;
    for position in positions {
        sum = sum.saturating_add(unmoves(position).len() as u64);
    }
    sum
}

/// The squares of the men of a position, added up.
fn add_squares(position: &Position) -> u64 {
    let mut sum = 0u64;
    for man in position.men() {
        sum = sum.saturating_add(u64::from(man.at.number()));
    }
    sum
}

fn add_squares_before(position: &Position) -> u64 {
    let moves = unmoves(position);
    let mut sum = 0u64;
    for by in moves.as_slice() {
        sum = sum.saturating_add(add_squares(&position_before(position, *by)));
    }
    sum
}

fn add_unplayed(positions: &[Position]) -> u64 {
    let mut sum = 0u64;
    for position in positions {
        sum = sum.saturating_add(add_squares_before(position));
    }
    sum
}

fn count_men_after(turns: &[Turn]) -> u64 {
    let mut sum = 0u64;
    for turn in turns {
        let next = played(&turn.position, turn.by);
        sum = sum.saturating_add(next.men().len() as u64);
    }
    sum
}

fn count_legal(turns: &[Turn]) -> u64 {
    let mut sum = 0u64;
    for turn in turns {
        if is_legal(&turn.position, turn.by) {
            sum = sum.saturating_add(1);
        }
    }
    sum
}

fn count_checks(positions: &[Position]) -> u64 {
    let mut sum = 0u64;
    for position in positions {
        if in_check(position) {
            sum = sum.saturating_add(1);
        }
    }
    sum
}

/// How many of eight squares each side attacks.
fn count_attacks(positions: &[Position], squares: &[Square]) -> u64 {
    let mut sum = 0u64;
    for position in positions {
        for square in squares {
            for side in [Side::White, Side::Black] {
                if position.attacked(*square, side) {
                    sum = sum.saturating_add(1);
                }
            }
        }
    }
    sum
}

fn add_indexes(positions: &[Position]) -> u64 {
    let mut sum = 0u64;
    for position in positions {
        sum = sum.saturating_add(u64::from(index(position)));
    }
    sum
}

/// The squares of the long diagonal.
fn diagonal(rt: HostRuntime) -> io::Result<Vec<Square>> {
    let mut list = Vec::new(rt.alloc());
    for step in 0..8u8 {
        list.push(Square::at(9 * step))?;
    }
    Ok(list)
}

fn measure_steps_back(rt: HostRuntime, label: &str, positions: &[Position]) -> io::Result<()> {
    let count = positions.len() as u64;
    show(
        rt,
        "unmoves",
        label,
        count,
        || count_unmoves(positions),
    )?;
    show(rt, "position_before", label, count, || add_unplayed(positions))
}

fn measure_at(rt: HostRuntime, setting: Setting) -> io::Result<()> {
    let label = setting.label;
    let list = setting.positions(rt)?;
    let positions = list.as_slice();
    let count = positions.len() as u64;
    show(rt, "legal_moves", label, count, || count_moves(positions))?;
    measure_steps_back(rt, label, positions)?;
    show(rt, "in_check", label, count, || count_checks(positions))?;
    show(rt, "index", label, count, || add_indexes(positions))?;
    let squares = diagonal(rt)?;
    let squares = squares.as_slice();
    let questions = count.saturating_mul(16);
    show(rt, "attacked", label, questions, || {
        count_attacks(positions, squares)
    })?;
    let list = turns(rt, positions)?;
    let turns = list.as_slice();
    let count = turns.len() as u64;
    show(rt, "played", label, count, || count_men_after(turns))?;
    show(rt, "is_legal", label, count, || count_legal(turns))
}

/// Times the calls on six sets of positions.
/// No contract: it measures, and what it prints is read by people alone.
pub fn measure(rt: HostRuntime) -> io::Result<()> {
    for (label, ours, theirs, to_move, fixed) in [
        ("KRKQ_white", Kind::Rook, Kind::Queen, Side::White, 20),
        ("KRKQ_black", Kind::Rook, Kind::Queen, Side::Black, 20),
        ("KPKP_white", Kind::Pawn, Kind::Pawn, Side::White, 51),
        ("KPKP_black", Kind::Pawn, Kind::Pawn, Side::Black, 51),
        ("KQKB_white", Kind::Queen, Kind::Bishop, Side::White, 20),
        ("KQKB_black", Kind::Queen, Kind::Bishop, Side::Black, 20),
    ] {
        let setting = Setting {
            label,
            ours,
            theirs,
            to_move,
            fixed,
        };
        measure_at(rt, setting)?;
    }
    Ok(())
}
