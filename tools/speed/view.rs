//! What a board shows of a study, in plain Rust: its nodes, the legal moves at one of them, and where else a man could stand.

use crate::board::Square;
use crate::moves::{Move, is_mate, legal_moves, played};
use crate::notation::{fen, letter, san, square_name, value_text};
use crate::pgn::{add_opening_words, stipulation_words};
use crate::position::Position;
use crate::retro::Tables;
use crate::review::path_text;
use crate::study::{Aim, MoveMark, Start, Stipulation, Study};
use std::fmt::Write;

fn squares(by: Move) -> String {
    let promoted = by.promoted.map(|kind| letter(kind).to_ascii_lowercase());
    let promoted = promoted.map(String::from).unwrap_or_default();
    square_name(by.origin) + &square_name(by.target) + &promoted
}

fn mark_text(mark: Option<MoveMark>) -> String {
    match mark {
        None => "-".to_string(),
        Some(MoveMark::Only) => "only".to_string(),
        Some(MoveMark::Dual(count)) => format!("dual {count}"),
        Some(MoveMark::Mistake) => "mistake".to_string(),
        Some(MoveMark::Idle) => "idle".to_string(),
        Some(MoveMark::Reply) => "reply".to_string(),
    }
}

/// The lines of a node at this start, and of all below it.
fn add_nodes(text: &mut String, study: &Study, steps: &mut Vec<u16>, start: &Start) {
    let count = study.shown(steps).map_or(0, |shown| shown.children);
    for place in 0..count {
        steps.push(place);
        let shown = study.shown(steps).expect("a node");
        let by = shown.by.expect("a move");
        let next = start.played(by);
        let _ = writeln!(
            text,
            "node {} {} {} {} {} faults {} {}",
            path_text(steps),
            san(&start.position, by),
            squares(by),
            value_text(shown.value),
            mark_text(shown.mark),
            shown.faults,
            fen(&next)
        );
        add_nodes(text, study, steps, &next);
        steps.pop();
    }
}

/// The legal moves at a node, each with the mark that it would have there.
fn add_moves(text: &mut String, study: &Study, tables: &Tables, steps: &[u16], start: &Start) {
    let moves = legal_moves(&start.position);
    let path = path_text(steps);
    let _ = match moves.as_slice().len() {
        0 if is_mate(&start.position) => writeln!(text, "at {path} mate"),
        0 => writeln!(text, "at {path} stalemate"),
        count => writeln!(text, "at {path} {count}"),
    };
    for by in moves.as_slice() {
        let next = start.played(*by);
        let value = tables.value(&next.position);
        let _ = writeln!(
            text,
            "move {} {} {} {} {}",
            san(&start.position, *by),
            squares(*by),
            value_text(value),
            mark_text(study.mark_of(steps, value)),
            fen(&next)
        );
    }
}

/// All nodes of a study, and the legal moves at one of them, if there is such a node.
pub fn view(study: &Study, tables: &Tables, steps: &[u16]) -> Option<String> {
    let here = study.start_at(steps)?;
    let root = study.shown(&[])?;
    let mut words = Vec::new();
    add_opening_words(&mut words, study, &root);
    let mut text = format!(
        "study {0}\nstipulation {1}\nnode root - - {2} - faults {3} {0}\n",
        fen(&study.start),
        String::from_utf8_lossy(&words),
        value_text(root.value),
        root.faults
    );
    add_nodes(&mut text, study, &mut Vec::new(), &study.start);
    add_moves(&mut text, study, tables, steps, &here);
    Some(text)
}

/// The position with the man of one square on another.
fn moved(position: &Position, from: Square, to: Square) -> Option<Position> {
    if position.man_at(to).is_some() {
        return None;
    }
    let mut men = position.men().to_vec();
    for man in &mut men {
        if man.at == from {
            man.at = to;
        }
    }
    Position::new(&men, position.to_move, position.passed)
}

fn standing(position: &Position, stipulation: Stipulation, tables: &Tables) -> String {
    let value = tables.value(position);
    let words = value_text(value);
    let hero_first = stipulation.hero == position.to_move;
    let aim = Aim::new(stipulation.goal, hero_first);
    if !aim.holds(0, value) {
        return format!("fails {words}");
    }
    if !hero_first {
        return format!("holds {words}");
    }
    let moves = legal_moves(position);
    let holds = |by: &&Move| aim.holds(1, tables.value(&played(position, **by)));
    let held: Vec<&Move> = moves.as_slice().iter().filter(holds).collect();
    match held.as_slice() {
        [by] => format!("only {words} {}", san(position, **by)),
        _ => format!("holds {words} {}", held.len()),
    }
}

/// What a stipulation comes to with the man of a square on each other square, if there is a man.
pub fn survey(
    position: &Position,
    from: Square,
    stipulation: Stipulation,
    tables: &Tables,
) -> Option<String> {
    let man = position.man_at(from)?;
    let name = square_name(from);
    let mut text = format!(
        "survey {}{name} {}\n",
        letter(man.kind),
        stipulation_words(stipulation)
    );
    for to in (0..64).map(Square).filter(|to| *to != from) {
        let told = match moved(position, from, to) {
            None => "-".to_string(),
            Some(other) => standing(&other, stipulation, tables),
        };
        let _ = writeln!(text, "{} {told}", square_name(to));
    }
    Some(text)
}
