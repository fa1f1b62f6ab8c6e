// Rattle: `rt` builds this file as src/reviews.rt of the crate study_speed, which ../build.sh puts together outside of the repository.
//! How long the reviews of a script's studies take, or what a board shows of them, over the tables of a folder, held whole.
use crate::views;
use std::alloc::Allocator;
use std::io;
use std::io::{BufReader, ErrorKind, Read, Write};
use std::time::Instant;
use study_command::Line;
use study_marks::Bench;
use study_prober::WholeTables;
use study_values::Values;
use study_program::FolderStore;
use study_table::TableSet;
use study_review::write_review;
use study_script::{Document, Interpreter, Session, TableStore, Tables};
use study_text::MemoryWriter;

/// What is measured of a study.
#[derive(Clone, Copy, Debug, PartialEq, Eq)]
pub enum Measured {
    Review,
    Views,
}

/// How often each study is reviewed.
const GOES: u16 = 200;

/// What no script of the gallery meets.
fn broken() -> io::Error {
    io::Error::from(ErrorKind::Other)
}

/// Prints the review of a study, and on standard error how long the fastest of its goes took.
fn tell<A: Allocator, V: Values>(
    rt: HostRuntime,
    bench: &Bench<'_, A>,
    values: &mut V,
    number: u32,
) -> io::Result<()> {
    let alloc = rt.alloc();
    let mut best = u128::MAX;
    let mut told = MemoryWriter::new(&alloc);
    for _ in 0..GOES {
        let mut text = MemoryWriter::new(&alloc);
        let start = Instant::now(&rt)?;
        let answer = write_review(&alloc, bench, values, number, &mut text);
        best = best.min(start.elapsed(&rt)?.as_nanos());
        if answer.is_err() {
            return Err(broken());
        }
        told = text;
    }
    eprintln!(rt; "review {best}")?;
    rt.stdout().write_all(told.taken.as_slice())
}

/// Answers a line, and measures the study that an accepted `pgn` line finds in the document, as the one after so many.
fn follow_line<'a, 's, S: TableStore, A: Allocator>(
    rt: HostRuntime,
    what: Measured,
    session: &mut Session<'a, 's, S, A>,
    line: &[u8],
    studies: u32,
) -> io::Result<u32> {
    let mut reply = MemoryWriter::new(session.alloc);
    if session.answer(line, &mut reply).is_err() {
        return Err(broken());
    }
    if line != b"pgn".as_slice() {
        return Ok(studies);
    }
    let number = studies.wrapping_add(1);
    let Document::Study(bench) = &session.document else {
        return Ok(studies);
    };
    match what {
        Measured::Review => tell(rt, bench, &mut session.tables, number)?,
        Measured::Views => views::measure(rt, session.alloc, bench, &mut session.tables)?,
    }
    Ok(number)
}

/// Follows a script from an empty document over a store, and measures its studies. Refused lines are passed over.
fn follow<'a, R: Read, S: TableStore, A: Allocator>(
    rt: HostRuntime,
    what: Measured,
    alloc: &'a A,
    script: &mut R,
    store: &mut S,
) -> io::Result<()> {
    let mut line = Line::new(alloc)?;
    let mut session = Session {
        alloc,
        document: Document::Empty,
        tables: Tables::Whole(WholeTables::new(TableSet::new(alloc)?)),
        store,
        separate: true,
    };
    let mut studies = 0u32;
    for _ in 0..100_000u32 {
        match line.read(script) {
            Ok(true) => studies = follow_line(rt, what, &mut session, line.as_slice(), studies)?,
            Ok(false) => return Ok(()),
            Err(_) => return Err(broken()),
        }
    }
    Ok(())
}

/// Measures the studies of the script on standard input, over the tables of the folder.
/// No contract: it measures, and what it prints is read by people alone.
pub fn measure(rt: HostRuntime, what: Measured, folder: &str) -> io::Result<()> {
    let alloc = rt.alloc();
    let mut store = FolderStore::new(&rt, &alloc, folder)?;
    let mut script = BufReader::new(&alloc, rt.stdin())?;
    follow(rt, what, &alloc, &mut script, &mut store)
}
