// Rattle: `rt` builds this file as src/studies.rt of the crate study_speed, which ../build.sh puts together outside of the repository.
//! Large studies of kings alone: how long their edits and their PGN take, and how many bytes a node takes.

use crate::timed::tell;
use linked_list_allocator::LocalHeap;
use std::alloc::Allocator;
use std::io;
use std::io::ErrorKind;
use std::time::Instant;
use study_board::Side;
use study_values::cells;
use study_marks::{Bench, Goal, MateMoves, Stipulation};
use study_material::Class;
use study_moves::{Move, legal_moves};
use study_notation::{Start, read_fen};
use study_pgn::write_pgn;
use study_prober::WholeTables;
use study_retro::{BuildRoom, build};
use study_table::TableSet;
use study_tree::Path;

const DRAW: Stipulation = Stipulation {
    hero: Side::White,
    goal: Goal::Draw,
};

const WIN: Stipulation = Stipulation {
    hero: Side::White,
    goal: Goal::Win,
};

/// A study that grows to so many nodes, and the values of kings alone.
#[derive(Drop)]
struct Study<'a, A: Allocator> {
    alloc: &'a A,
    bench: Bench<'a, A>,
    values: WholeTables<'a, A>,
    limit: usize,
}

/// Which moves a tree has: all from the root on, level by level, or a line of 256 plies, all moves beside it, and the
/// first move below each of them.
#[derive(Clone, Copy)]
enum Shape {
    Wide,
    Deep,
}

/// What no study of kings alone meets.
fn broken() -> io::Error {
    io::Error::from(ErrorKind::Other)
}

/// White's king on a1, Black's on a8, White to move.
fn start() -> io::Result<Start> {
    read_fen("k7/8/8/8/8/8/8/K7 w - - 0 1")
        .ok()
        .ok_or_else(broken)
}

fn kings<'a, A: Allocator>(alloc: &'a A) -> io::Result<WholeTables<'a, A>> {
    let mut set = TableSet::new(alloc)?;
    let room = BuildRoom::new(alloc, cells(Class::KK))?;
    if let Ok((table, _)) = build(Class::KK, &set, room) {
        let _added = set.add(table);
    }
    Ok(WholeTables::new(set))
}

fn path_of<'a, A: Allocator>(alloc: &'a A, steps: &[u16]) -> io::Result<Path<'a, A>> {
    let mut path = Path::root(alloc);
    for step in steps {
        path.push(*step)?;
    }
    Ok(path)
}

/// The path that goes on from these steps to the child at this place.
fn with<'a, A: Allocator>(alloc: &'a A, steps: &[u16], place: u16) -> io::Result<Path<'a, A>> {
    let mut path = path_of(alloc, steps)?;
    path.push(place)?;
    Ok(path)
}

impl<'a, A: Allocator> Study<'a, A> {
    fn new(alloc: &'a A, limit: usize) -> io::Result<Study<'a, A>> {
        let mut values = kings(alloc)?;
        match Bench::new(alloc, start()?, DRAW, &mut values) {
            Err(_) => Err(broken()),
            Ok(bench) => Ok(Study {
                alloc,
                bench,
                values,
                limit,
            }),
        }
    }

    /// Puts the first so many legal moves below the node, and lists the new nodes.
    fn add(
        &mut self,
        path: &Path<'a, A>,
        most: usize,
        nodes: &mut Vec<Path<'a, A>>,
    ) -> io::Result<()> {
        let Some(start) = self.bench.start_at(path) else {
            return Ok(());
        };
        let moves = legal_moves(&start.position);
        for by in moves.as_slice().iter().take(most) {
            if self.bench.size() < self.limit {
                if let Ok(place) = self.bench.insert(path, *by, &mut self.values) {
                    nodes.push(with(self.alloc, path.steps(), place)?)?;
                }
            }
        }
        Ok(())
    }

    /// The same below each node of the list up to this place, which grows with it.
    fn spread(
        &mut self,
        nodes: &mut Vec<Path<'a, A>>,
        most: usize,
        count: usize,
    ) -> io::Result<()> {
        for at in 0..count {
            if at < nodes.len() {
                let path = path_of(self.alloc, nodes[at].steps())?;
                self.add(&path, most, nodes)?;
            }
        }
        Ok(())
    }

    fn grow(&mut self, rt: HostRuntime, shape: Shape) -> io::Result<()> {
        let limit = self.limit;
        let mut nodes = Vec::new(rt.alloc());
        nodes.push(Path::root(self.alloc))?;
        match shape {
            Shape::Wide => self.spread(&mut nodes, 256, limit),
            Shape::Deep => {
                self.spread(&mut nodes, 1, 256)?;
                let mut aside = Vec::new(rt.alloc());
                for path in nodes.as_slice() {
                    self.add(path, 256, &mut aside)?;
                }
                self.spread(&mut aside, 1, limit)
            }
        }
    }

    /// A sum that tells the study's PGN from others.
    fn text_sum(&self) -> u64 {
        let mut text = Vec::new(self.alloc);
        let _written = write_pgn(self.alloc, &self.bench, &mut text);
        let mut sum = 0u64;
        for byte in text.as_slice() {
            sum = sum.wrapping_mul(31).wrapping_add(u64::from(*byte));
        }
        sum
    }

    /// Gives the study three other stipulations.
    fn stipulate(&mut self, mate: MateMoves) -> u64 {
        let mate = Stipulation {
            hero: Side::Black,
            goal: Goal::MateIn(mate),
        };
        for stipulation in [WIN, mate, DRAW] {
            self.bench.set_stipulation(stipulation);
        }
        self.bench.relabelled()
    }

    fn shift(&mut self) -> io::Result<u64> {
        match self.bench.shift_position(start()?, &mut self.values) {
            Err(_) => Err(broken()),
            Ok(()) => Ok(self.bench.relabelled()),
        }
    }
}

/// Times the fastest of five goes of each call that goes through the whole tree.
fn time_whole<A: Allocator>(
    rt: HostRuntime,
    label: &str,
    study: &mut Study<'_, A>,
) -> io::Result<()> {
    let mate = MateMoves::new(5).ok_or_else(broken)?;
    let (mut written, mut stipulated, mut shifted) = (u128::MAX, u128::MAX, u128::MAX);
    let (mut text, mut after, mut last) = (0u64, 0u64, 0u64);
    for _ in 0..5u8 {
        let start = Instant::now(&rt)?;
        text = study.text_sum();
        written = written.min(start.elapsed(&rt)?.as_nanos());
    }
    for _ in 0..5u8 {
        let start = Instant::now(&rt)?;
        after = study.stipulate(mate);
        stipulated = stipulated.min(start.elapsed(&rt)?.as_nanos());
    }
    for _ in 0..5u8 {
        let start = Instant::now(&rt)?;
        last = study.shift()?;
        shifted = shifted.min(start.elapsed(&rt)?.as_nanos());
    }
    tell(rt, "write_pgn", label, 1, written, text)?;
    tell(rt, "set_stipulation", label, 3, stipulated, after)?;
    tell(rt, "shift_position", label, 1, shifted, last)
}

/// How long each of three edits took.
#[derive(Clone, Copy, Default)]
struct Spent {
    insert: u128,
    promote: u128,
    delete: u128,
}

/// Puts a move more below the node, makes it the first but one, and takes it out again.
fn edit_once<'a, A: Allocator>(
    rt: HostRuntime,
    study: &mut Study<'a, A>,
    path: &Path<'a, A>,
    by: Move,
    spent: Spent,
) -> io::Result<Spent> {
    let start = Instant::now(&rt)?;
    let inserted = study.bench.insert(path, by, &mut study.values);
    let insert = spent.insert.saturating_add(start.elapsed(&rt)?.as_nanos());
    let place = inserted.ok().ok_or_else(broken)?;
    let last = with(study.alloc, path.steps(), place)?;
    let first = with(study.alloc, path.steps(), place.saturating_sub(1))?;
    let start = Instant::now(&rt)?;
    let promoted = study.bench.promote(&last);
    let promote = spent.promote.saturating_add(start.elapsed(&rt)?.as_nanos());
    let start = Instant::now(&rt)?;
    let deleted = study.bench.delete(&first);
    let delete = spent.delete.saturating_add(start.elapsed(&rt)?.as_nanos());
    if promoted.is_err() || deleted.is_err() {
        return Err(broken());
    }
    Ok(Spent {
        insert,
        promote,
        delete,
    })
}

/// Times edits of a node at depth 10, a thousand of each.
fn time_edits<A: Allocator>(
    rt: HostRuntime,
    label: &str,
    study: &mut Study<'_, A>,
) -> io::Result<()> {
    let path = path_of(study.alloc, &[0, 0, 0, 0, 0, 0, 0, 0, 1])?;
    let before = study.bench.start_at(&path).ok_or_else(broken)?;
    let moves = legal_moves(&before.position);
    let by = *moves.as_slice().last().ok_or_else(broken)?;
    let mut spent = Spent::default();
    for _ in 0..1000u16 {
        spent = edit_once(rt, study, &path, by, spent)?;
    }
    let sum = study.bench.relabelled();
    tell(rt, "insert", label, 1000, spent.insert, sum)?;
    tell(rt, "promote", label, 1000, spent.promote, sum)?;
    tell(rt, "delete", label, 1000, spent.delete, sum)
}

/// Prints how many bytes a node takes, where memory is one block and what is taken of it is counted.
fn tell_bytes(rt: HostRuntime, label: &str, shape: Shape) -> io::Result<()> {
    let heap = LocalHeap::new(rt.alloc(), 16_777_216)?;
    let mut study = Study::new(&heap, 4096)?;
    let root = heap.used();
    study.grow(rt, shape)?;
    let taken = heap.used().saturating_sub(root) as u64;
    let nodes = study.bench.size().saturating_sub(1).max(1) as u64;
    println!(rt; "bytes {label} {} {taken}", taken / nodes)
}

/// Times the calls on trees of 1,024 and of 4,096 nodes, and counts the bytes of a node.
/// No contract: it measures, and what it prints is read by people alone.
pub fn measure(rt: HostRuntime) -> io::Result<()> {
    let alloc = rt.alloc();
    for (label, shape, limit) in [
        ("wide_1024", Shape::Wide, 1024usize),
        ("wide_4096", Shape::Wide, 4096),
        ("deep_1024", Shape::Deep, 1024),
        ("deep_4096", Shape::Deep, 4096),
    ] {
        let mut study = Study::new(&alloc, limit)?;
        study.grow(rt, shape)?;
        time_whole(rt, label, &mut study)?;
    }
    let mut study = Study::new(&alloc, 4096)?;
    study.limit = 4095;
    study.grow(rt, Shape::Deep)?;
    time_edits(rt, "deep_4096", &mut study)?;
    tell_bytes(rt, "wide_4096", Shape::Wide)?;
    tell_bytes(rt, "deep_4096", Shape::Deep)
}
