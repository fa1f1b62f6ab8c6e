//! FEN and the moves of PGN, read and written.

use crate::board::{Kind, Man, Side, Square};
use crate::moves::{Move, is_mate, legal_moves, played};
use crate::position::Position;
use crate::retro::Value;
use crate::study::Start;

const KINDS: [(char, Kind); 6] = [
    ('K', Kind::King),
    ('Q', Kind::Queen),
    ('R', Kind::Rook),
    ('B', Kind::Bishop),
    ('N', Kind::Knight),
    ('P', Kind::Pawn),
];

pub fn letter(kind: Kind) -> char {
    KINDS
        .iter()
        .find(|(_, other)| *other == kind)
        .expect("a kind")
        .0
}

pub fn square_name(square: Square) -> String {
    let file = char::from(b'a' + square.file());
    format!("{file}{}", square.rank() + 1)
}

fn read_square(word: &str) -> Option<Square> {
    match word.as_bytes() {
        [file @ b'a'..=b'h', rank @ b'1'..=b'8'] => Some(Square(8 * (rank - b'1') + file - b'a')),
        _ => None,
    }
}

/// The men of a placement, from the eighth rank down.
fn read_placement(word: &str) -> Vec<Man> {
    let mut men = Vec::new();
    for (row, rank) in word.split('/').enumerate() {
        let mut file = 0;
        for x in rank.chars() {
            if let Some(empty) = x.to_digit(10) {
                file += empty as u8;
                continue;
            }
            let upper = x.to_ascii_uppercase();
            let kind = KINDS
                .iter()
                .find(|(other, _)| *other == upper)
                .expect("a man")
                .1;
            let side = if x == upper { Side::White } else { Side::Black };
            men.push(Man {
                side,
                kind,
                at: Square(8 * (7 - row as u8) + file),
            });
            file += 1;
        }
    }
    men
}

pub fn read_fen(text: &str) -> Option<Start> {
    let words: Vec<&str> = text.split_whitespace().collect();
    let side = if words.get(1) == Some(&"b") {
        Side::Black
    } else {
        Side::White
    };
    let passed = words.get(3).copied().and_then(read_square);
    let number = |place: usize, other| {
        words
            .get(place)
            .map_or(Some(other), |word| word.parse().ok())
    };
    Some(Start {
        position: Position::new(&read_placement(words.first()?), side, passed)?,
        clock: number(4, 0)?,
        number: number(5, 1)?,
    })
}

fn rank_text(position: &Position, rank: u8) -> String {
    let (mut text, mut empty) = (String::new(), 0);
    for file in 0..8 {
        let Some(man) = position.man_at(Square(8 * rank + file)) else {
            empty += 1;
            continue;
        };
        if empty > 0 {
            text += &empty.to_string();
            empty = 0;
        }
        let x = letter(man.kind);
        text.push(if man.side == Side::White {
            x
        } else {
            x.to_ascii_lowercase()
        });
    }
    if empty > 0 {
        text += &empty.to_string();
    }
    text
}

pub fn fen(start: &Start) -> String {
    let position = &start.position;
    let ranks: Vec<String> = (0..8).rev().map(|rank| rank_text(position, rank)).collect();
    let side = if position.to_move == Side::White {
        'w'
    } else {
        'b'
    };
    let passed = position.passed.map_or("-".to_string(), square_name);
    format!(
        "{} {side} - {passed} {} {}",
        ranks.join("/"),
        start.clock,
        start.number
    )
}

/// What tells the origin of a piece's move, where another one of its kind goes to the same square.
fn origin_text(position: &Position, kind: Kind, by: Move) -> String {
    let moves = legal_moves(position);
    let rivals: Vec<Square> = moves
        .as_slice()
        .iter()
        .filter(|x| x.target == by.target && x.origin != by.origin)
        .filter(|x| {
            position
                .man_at(x.origin)
                .is_some_and(|man| man.kind == kind)
        })
        .map(|x| x.origin)
        .collect();
    let name = square_name(by.origin);
    if rivals.is_empty() {
        String::new()
    } else if rivals.iter().all(|x| x.file() != by.origin.file()) {
        name[..1].to_string()
    } else if rivals.iter().all(|x| x.rank() != by.origin.rank()) {
        name[1..].to_string()
    } else {
        name
    }
}

/// The move's text in Standard Algebraic Notation.
pub fn san(position: &Position, by: Move) -> String {
    let man = position.man_at(by.origin).expect("a man");
    let passes = man.kind == Kind::Pawn && by.origin.file() != by.target.file();
    let takes = passes || position.man_at(by.target).is_some();
    let mut text = match man.kind {
        Kind::Pawn if takes => square_name(by.origin)[..1].to_string(),
        Kind::Pawn => String::new(),
        Kind::King => "K".to_string(),
        kind => letter(kind).to_string() + &origin_text(position, kind, by),
    };
    if takes {
        text.push('x');
    }
    text += &square_name(by.target);
    if let Some(kind) = by.promoted {
        text.push('=');
        text.push(letter(kind));
    }
    let next = played(position, by);
    if is_mate(&next) {
        text.push('#');
    } else if next.in_check() {
        text.push('+');
    }
    text
}

fn bare(text: &str) -> String {
    text.trim_end_matches(['+', '#', '!', '?']).replace('=', "")
}

/// The legal move with this text, with or without the sign of a promotion and what follows its squares.
pub fn read_san(position: &Position, text: &str) -> Option<Move> {
    let moves = legal_moves(position);
    moves
        .as_slice()
        .iter()
        .copied()
        .find(|by| bare(&san(position, *by)) == bare(text))
}

pub fn value_text(value: Value) -> String {
    match value {
        Value::Win(plies) => format!("win {plies}"),
        Value::Loss(plies) => format!("loss {plies}"),
        Value::Draw => "draw".to_string(),
    }
}
