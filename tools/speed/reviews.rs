//! Reviews of the studies of a script, or what a board shows of them, in plain Rust, over the tables of a folder.
//!
//! `reviews DIR N < SCRIPT` writes the lines of each study, and to standard error, for each, the nanoseconds of its review, the
//! least of N. `reviews DIR N views < SCRIPT` does the same of each view along its main line, and of the survey of each of its men.
//! Lines that studybench would refuse are passed over.
#![allow(dead_code)] // what the builder alone uses

mod board;
mod decode;
mod index;
mod list;
mod material;
mod moves;
mod notation;
mod passing;
mod pgn;
mod position;
mod retro;
mod review;
mod sets;
mod study;
mod view;

use board::Side;
use decode::cells;
use material::Class;
use notation::{read_fen, read_san};
use retro::Tables;
use std::io::{BufRead, Write};
use std::time::Instant;
use study::{Goal, Start, Stipulation, Study};

const HEADER: usize = 64;
const PAGE: usize = 4096;
const DIGEST: usize = 32;

/// The cells of a file, if it is there.
fn read_table(folder: &str, class: Class) -> Option<Vec<u8>> {
    let bytes = std::fs::read(format!("{folder}/{class:?}.dtm")).ok()?;
    let pages = bytes.get(HEADER..)?.chunks(PAGE + DIGEST);
    let mut all: Vec<u8> = pages
        .flat_map(|page| page[..PAGE].iter().copied())
        .collect();
    all.truncate(cells(class) as usize);
    Some(all)
}

fn read_tables(folder: &str) -> Tables {
    let mut tables = Tables::new();
    for class in Class::ALL {
        if let Some(cells) = read_table(folder, class) {
            tables.add(class, cells);
        }
    }
    tables
}

fn read_stipulation(words: &[&str]) -> Option<Stipulation> {
    let hero = match *words.first()? {
        "white" => Side::White,
        "black" => Side::Black,
        _ => return None,
    };
    let goal = match &words[1..] {
        ["win"] => Goal::Win,
        ["draw"] => Goal::Draw,
        ["mate", count] => Goal::MateIn(count.parse().ok()?),
        _ => return None,
    };
    Some(Stipulation { hero, goal })
}

fn read_path(word: &str) -> Option<Vec<u16>> {
    if word == "root" {
        return Some(Vec::new());
    }
    word.split('.').map(|step| step.parse().ok()).collect()
}

/// What a script has come to.
struct Desk<'t> {
    tables: &'t Tables,
    start: Option<Start>,
    study: Option<Study<'t>>,
    count: u32,
    goes: u32,
    views: bool,
}

impl Desk<'_> {
    fn put_start(&mut self, text: &str) -> Option<()> {
        let start = read_fen(text)?;
        if let Some(study) = &self.study {
            self.study = Some(Study::new(self.tables, start, study.stipulation));
        }
        self.start = Some(start);
        Some(())
    }

    fn stipulate(&mut self, words: &[&str]) -> Option<()> {
        let stipulation = read_stipulation(words)?;
        match &mut self.study {
            Some(study) => study.set_stipulation(stipulation),
            None => self.study = Some(Study::new(self.tables, self.start?, stipulation)),
        }
        Some(())
    }

    fn insert(&mut self, path: &str, text: &str) -> Option<()> {
        let steps = read_path(path)?;
        let study = self.study.as_mut()?;
        let by = read_san(&study.start_at(&steps)?.position, text)?;
        study.insert(&steps, by).map(|_| ())
    }

    /// Writes a text, if there is one, and how long the fastest of some goes took.
    fn time(&self, name: &str, make: impl Fn() -> Option<String>) -> Option<()> {
        let (mut text, mut least) = (None, u128::MAX);
        for _ in 0..self.goes {
            let begun = Instant::now();
            text = make();
            least = least.min(begun.elapsed().as_nanos());
        }
        std::io::stdout().write_all(text?.as_bytes()).ok()?;
        eprintln!("{name} {least}");
        Some(())
    }

    fn tell_views(&self, study: &Study) -> Option<()> {
        let mut steps = Vec::new();
        while self
            .time("view", || view::view(study, self.tables, &steps))
            .is_some()
        {
            steps.push(0);
        }
        let position = &study.start.position;
        for man in position.men() {
            self.time("survey", || {
                view::survey(position, man.at, study.stipulation, self.tables)
            })?;
        }
        Some(())
    }

    fn tell(&mut self) -> Option<()> {
        self.count += 1;
        let study = self.study.as_ref()?;
        if self.views {
            return self.tell_views(study);
        }
        self.time("review", || Some(review::review(study, self.tables, self.count)))
    }

    fn answer(&mut self, line: &str) -> Option<()> {
        let words: Vec<&str> = line.split_whitespace().collect();
        match words.as_slice() {
            ["position", ..] => self.put_start(line.trim_start().strip_prefix("position")?),
            ["shift", ..] => self
                .study
                .as_mut()?
                .shift(read_fen(line.trim_start().strip_prefix("shift")?)?),
            ["stipulate", rest @ ..] => self.stipulate(rest),
            ["insert", path, text] => self.insert(path, text),
            ["delete", path] => self.study.as_mut()?.delete(&read_path(path)?),
            ["promote", path] => self.study.as_mut()?.promote(&read_path(path)?),
            ["pgn"] => self.tell(),
            _ => None,
        }
    }
}

fn main() {
    let words: Vec<String> = std::env::args().skip(1).collect();
    let (folder, goes, views) = match words.as_slice() {
        [folder, goes] => (folder, goes, false),
        [folder, goes, what] if what == "views" => (folder, goes, true),
        _ => {
            eprintln!("reviews DIR N [views] < SCRIPT");
            std::process::exit(2);
        }
    };
    let tables = read_tables(folder);
    let mut desk = Desk {
        tables: &tables,
        start: None,
        study: None,
        count: 0,
        goes: goes.parse().unwrap_or(1),
        views,
    };
    for line in std::io::stdin().lock().lines().map_while(Result::ok) {
        let _ = desk.answer(&line);
    }
}
