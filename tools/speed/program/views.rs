// Rattle: `rt` builds this file as src/views.rt of the crate study_speed, which ../build.sh puts together outside of the repository.
//! How long it takes to write what a board shows of a study: its views along the main line, and a survey of each of its men.
use std::alloc::Allocator;
use std::io;
use std::io::{ErrorKind, Write};
use std::time::Instant;
use study_marks::Bench;
use study_values::Values;
use study_text::MemoryWriter;
use study_tree::Path;
use study_view::{SurveyQuestion, ViewFault, write_survey, write_view};

/// How often each text is made.
const GOES: u16 = 200;

/// What no script of the gallery meets.
fn broken() -> io::Error {
    io::Error::from(ErrorKind::Other)
}

/// Prints a text, and on standard error how long the fastest of its goes took.
fn tell(rt: HostRuntime, name: &str, best: u128, text: &[u8]) -> io::Result<()> {
    eprintln!(rt; "{name} {best}")?;
    rt.stdout().write_all(text)
}

/// Tells of the view of a study at a path, and says whether a node stands there.
fn tell_view<'a, A: Allocator, V: Values>(
    rt: HostRuntime,
    bench: &Bench<'a, A>,
    path: &Path<'a, A>,
    values: &mut V,
) -> io::Result<bool> {
    let alloc = rt.alloc();
    let mut best = u128::MAX;
    let mut told = MemoryWriter::new(&alloc);
    for _ in 0..GOES {
        let mut text = MemoryWriter::new(&alloc);
        let start = Instant::now(&rt)?;
        let answer = write_view(&alloc, bench, path, values, &mut text);
        best = best.min(start.elapsed(&rt)?.as_nanos());
        match answer {
            Ok(()) => told = text,
            Err(ViewFault::NoSuchNode) => return Ok(false),
            Err(_) => return Err(broken()),
        }
    }
    tell(rt, "view", best, told.taken.as_slice())?;
    Ok(true)
}

/// Tells of the survey of a man.
fn tell_survey<V: Values>(
    rt: HostRuntime,
    question: &SurveyQuestion<'_>,
    values: &mut V,
) -> io::Result<()> {
    let alloc = rt.alloc();
    let mut best = u128::MAX;
    let mut told = MemoryWriter::new(&alloc);
    for _ in 0..GOES {
        let mut text = MemoryWriter::new(&alloc);
        let start = Instant::now(&rt)?;
        let answer = write_survey(&alloc, question, values, &mut text);
        best = best.min(start.elapsed(&rt)?.as_nanos());
        if answer.is_err() {
            return Err(broken());
        }
        told = text;
    }
    tell(rt, "survey", best, told.taken.as_slice())
}

/// Tells of the views of a study from its root to the end of its main line, and of the surveys of the men of its start.
/// No contract: it measures, and what it prints is read by people alone.
pub fn measure<'a, A: Allocator, V: Values>(
    rt: HostRuntime,
    alloc: &'a A,
    bench: &Bench<'a, A>,
    values: &mut V,
) -> io::Result<()> {
    let mut path = Path::root(alloc);
    for _ in 0..257u16 {
        if !tell_view(rt, bench, &path, values)? {
            break;
        }
        path.push(0)?;
    }
    let position = &bench.start().position;
    let stipulation = bench.stipulation();
    for man in position.men() {
        let question = SurveyQuestion {
            position,
            square: man.at,
            stipulation: &stipulation,
        };
        tell_survey(rt, &question, values)?;
    }
    Ok(())
}
