//! The review of a study, in plain Rust: a fact a line.

use crate::moves::{Move, legal_moves, played};
use crate::notation::{fen, san, value_text};
use crate::pgn::add_opening_words;
use crate::position::Position;
use crate::retro::{Tables, Value};
use crate::study::{Aim, Goal, MoveMark, Study};
use std::fmt::Write;

const PLIES: usize = 20;

/// A legal move, the position after it, and its value.
struct Continuation {
    by: Move,
    after: Position,
    value: Value,
}

fn continuations(p: &Position, tables: &Tables) -> Vec<Continuation> {
    legal_moves(p)
        .as_slice()
        .iter()
        .map(|by| {
            let after = played(p, *by);
            let value = tables.value(&after);
            Continuation {
                by: *by,
                after,
                value,
            }
        })
        .collect()
}

pub fn path_text(steps: &[u16]) -> String {
    if steps.is_empty() {
        return "root".to_string();
    }
    let words: Vec<String> = steps.iter().map(u16::to_string).collect();
    words.join(".")
}

fn is_same(a: &Position, b: &Position) -> bool {
    a.men() == b.men() && a.to_move == b.to_move && a.passed == b.passed
}

/// Where a review is written.
struct Review<'s, 't> {
    study: &'s Study<'t>,
    tables: &'t Tables,
    aim: Aim,
    text: String,
}

impl Review<'_, '_> {
    fn holding(&self, depth: usize, p: &Position) -> Vec<Continuation> {
        let mut all = continuations(p, self.tables);
        all.retain(|x| self.aim.holds(depth + 1, x.value));
        all
    }

    fn failing(&self, depth: usize, p: &Position) -> Vec<Continuation> {
        let mut all = continuations(p, self.tables);
        all.retain(|x| !self.aim.holds(depth + 1, x.value));
        all
    }

    /// Whether the opponent, who is to move, has a way back to a position of the line. The goal is to win.
    fn is_back(&self, line: &[Position], m: u8, q: &Position) -> bool {
        let among = |p: &Position| line.iter().any(|x| is_same(x, p));
        if among(q) {
            return true;
        }
        let moves = legal_moves(q);
        let replies: Vec<Position> = moves.as_slice().iter().map(|by| played(q, *by)).collect();
        if replies.iter().any(|r| among(r)) {
            return true;
        }
        m > 0
            && replies.iter().any(|r| {
                let mut wins = continuations(r, self.tables);
                wins.retain(|x| matches!(x.value, Value::Loss(_)));
                !wins.is_empty() && wins.iter().all(|x| self.is_back(line, m - 1, &x.after))
            })
    }

    fn time_lost(&self, line: &[Position], q: &Position) -> Option<u8> {
        match self.aim.goal {
            Goal::Win => (0..3).find(|m| self.is_back(line, *m, q)),
            _ => None,
        }
    }

    /// The positions from the root to the node, both counted.
    fn line(&self, steps: &[u16]) -> Vec<Position> {
        (0..=steps.len())
            .map(|end| self.study.start_at(&steps[..end]).expect("a node").position)
            .collect()
    }

    /// The other moves that hold, with the time that they lose.
    fn alternatives(&self, steps: &[u16], by: Move) -> Vec<(Continuation, Option<u8>)> {
        let (_, before) = steps.split_last().expect("a move");
        let line = self.line(before);
        let p = line.last().expect("a position");
        self.holding(before.len(), p)
            .into_iter()
            .filter(|x| x.by != by)
            .map(|x| {
                let time = self.time_lost(&line, &x.after);
                (x, time)
            })
            .collect()
    }

    fn is_solution(&self, steps: &[u16]) -> bool {
        (0..steps.len()).all(|d| !self.aim.hero_moves(d) || steps[d] == 0)
    }

    /// Whether a move of the hero is idle and only solution steps lead to it, none of them idle.
    fn is_first_idle(&self, steps: &[u16]) -> bool {
        let (_, before) = steps.split_last().expect("a move");
        let idle = |steps: &[u16]| {
            self.mark(steps)
                .is_some_and(|mark| matches!(mark, MoveMark::Idle))
        };
        self.is_solution(before) && idle(steps) && !(1..steps.len()).any(|end| idle(&steps[..end]))
    }

    fn mark(&self, steps: &[u16]) -> Option<MoveMark> {
        self.study.shown(steps)?.mark
    }

    fn add_fault(&mut self, steps: &[u16]) {
        let Some((_, before)) = steps.split_last() else {
            return;
        };
        if !self.aim.hero_moves(before.len()) || !self.is_solution(steps) {
            return;
        }
        let shown = self.study.shown(steps).expect("a node");
        let by = shown.by.expect("a move");
        let head = format!(
            "fault {} {} {}",
            path_text(steps),
            self.san_at(before, by),
            value_text(shown.value)
        );
        match shown.mark {
            Some(MoveMark::Dual(count)) => {
                let times = self
                    .alternatives(steps, by)
                    .iter()
                    .filter(|(_, time)| time.is_some())
                    .count();
                let _ = writeln!(self.text, "{head} dual {count} time {times}");
            }
            Some(MoveMark::Mistake) => {
                let _ = writeln!(self.text, "{head} mistake");
            }
            _ => {}
        }
    }

    fn position(&self, steps: &[u16]) -> Position {
        self.study.start_at(steps).expect("a node").position
    }

    fn san_at(&self, steps: &[u16], by: Move) -> String {
        san(&self.position(steps), by)
    }

    fn add_also(&mut self, steps: &[u16]) {
        let Some(MoveMark::Dual(_)) = self.mark(steps) else {
            return;
        };
        let (_, before) = steps.split_last().expect("a move");
        let by = self
            .study
            .shown(steps)
            .and_then(|shown| shown.by)
            .expect("a move");
        for (x, time) in self.alternatives(steps, by) {
            let line = format!(
                "also {} {} {}",
                path_text(steps),
                self.san_at(before, x.by),
                value_text(x.value)
            );
            let _ = match time {
                Some(m) => writeln!(self.text, "{line} time {m}"),
                None => writeln!(self.text, "{line}"),
            };
        }
    }

    fn add_refuted(&mut self, steps: &[u16]) {
        let Some((_, before)) = steps.split_last() else {
            return;
        };
        let mistake = matches!(self.mark(steps), Some(MoveMark::Mistake));
        if !self.aim.hero_moves(before.len()) || !(mistake || self.is_first_idle(steps)) {
            return;
        }
        let p = self.position(steps);
        let path = path_text(steps);
        if legal_moves(&p).as_slice().is_empty() && !p.in_check() {
            let _ = writeln!(self.text, "refuted {path} stalemate");
        }
        for x in self.failing(steps.len(), &p) {
            let _ = writeln!(
                self.text,
                "refuted {path} {} {}",
                san(&p, x.by),
                value_text(x.value)
            );
        }
    }

    fn children(&self, steps: &[u16]) -> Vec<Move> {
        let count = self.study.shown(steps).map_or(0, |shown| shown.children);
        let child = |place| {
            self.study
                .shown(&[steps, &[place]].concat())
                .and_then(|shown| shown.by)
        };
        (0..count).filter_map(child).collect()
    }

    fn add_missing(&mut self, steps: &[u16]) {
        let depth = steps.len();
        let value = self.study.shown(steps).expect("a node").value;
        if self.aim.hero_moves(depth) || !self.aim.holds(depth, value) || !self.is_solution(steps) {
            return;
        }
        let p = self.position(steps);
        let there = self.children(steps);
        for x in continuations(&p, self.tables)
            .into_iter()
            .filter(|x| !there.contains(&x.by))
        {
            let answers = self.holding(depth + 1, &x.after);
            let one = match answers.as_slice() {
                [] => " stalemate".to_string(),
                [y] => format!(" {}", san(&x.after, y.by)),
                _ => String::new(),
            };
            let (path, count) = (path_text(steps), answers.len());
            let _ = writeln!(
                self.text,
                "missing {path} {} {} {count}{one}",
                san(&p, x.by),
                value_text(x.value)
            );
        }
    }

    /// The first of the moves that are best for the side to move, where the position is not drawn.
    fn best(&self, p: &Position) -> Option<Continuation> {
        let mut best: Option<(i16, Continuation)> = None;
        for x in continuations(p, self.tables) {
            let rank = match x.value {
                Value::Loss(plies) => 512 - i16::from(plies),
                Value::Draw => 256,
                Value::Win(plies) => i16::from(plies),
            };
            if best.as_ref().is_none_or(|(other, _)| rank > *other) {
                best = Some((rank, x));
            }
        }
        best.map(|(_, x)| x)
    }

    fn add_end(&mut self, steps: &[u16]) {
        let shown = self.study.shown(steps).expect("a node");
        let p = self.position(steps);
        if shown.children > 0 || legal_moves(&p).as_slice().is_empty() {
            return;
        }
        let path = path_text(steps);
        if shown.value == Value::Draw {
            let all = continuations(&p, self.tables);
            let kept: Vec<String> = all
                .iter()
                .filter(|x| x.value == Value::Draw)
                .map(|x| san(&p, x.by))
                .collect();
            let _ = writeln!(
                self.text,
                "keep {path} {} {} {}",
                kept.len(),
                all.len(),
                kept.join(" ")
            );
            return;
        }
        let mut line = format!("play {path} {}", value_text(shown.value));
        let mut p = p;
        for _ in 0..PLIES {
            let Some(x) = self.best(&p) else { break };
            line += " ";
            line += &san(&p, x.by);
            p = x.after;
        }
        let _ = writeln!(self.text, "{line}");
    }

    fn add_node(&mut self, steps: &[u16]) {
        self.add_also(steps);
        self.add_refuted(steps);
        self.add_missing(steps);
        self.add_end(steps);
    }

    fn add_each(&mut self, steps: &mut Vec<u16>, add: fn(&mut Self, &[u16])) {
        add(self, steps);
        let count = self.study.shown(steps).map_or(0, |shown| shown.children);
        for place in 0..count {
            steps.push(place);
            self.add_each(steps, add);
            steps.pop();
        }
    }

    fn is_empty(&self) -> bool {
        let count = self.study.shown(&[]).map_or(0, |shown| shown.children);
        let has_child = |place| {
            self.study
                .shown(&[place])
                .is_some_and(|shown| shown.children > 0)
        };
        if self.aim.hero_moves(0) {
            count == 0
        } else {
            !(0..count).any(has_child)
        }
    }
}

/// The lines of the study, the one of this number.
pub fn review(study: &Study, tables: &Tables, number: u32) -> String {
    let mut text = format!("study {number} {}\nstipulation ", fen(&study.start));
    let mut words = Vec::new();
    add_opening_words(&mut words, study, &study.shown(&[]).expect("a root"));
    text += &String::from_utf8_lossy(&words);
    text += "\n";
    let mut review = Review {
        study,
        tables,
        aim: study.aim(),
        text,
    };
    if review.is_empty() {
        review.text += "empty\n";
    }
    review.add_each(&mut Vec::new(), Review::add_fault);
    review.add_each(&mut Vec::new(), Review::add_node);
    review.text
}
