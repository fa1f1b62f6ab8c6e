// Rattle: `rt` builds this file as src/all_tables.rt of the crate study_speed, which ../build.sh puts together outside of the repository.
//! All tables, or one and those that it needs: how long each takes to build, what was examined, and what its cells are.
use sha2::{Digest, Sha256};
use std::alloc::Allocator;
use std::io;
use std::time::Instant;
use study_values::cells;
use study_material::{Class, order};
use study_retro::{BuildReport, BuildRoom, build};
use study_table::TableSet;

/// Prints a distance in plies, or a dash where there is none.
fn print_distance(rt: HostRuntime, plies: Option<u8>) -> io::Result<()> {
    match plies {
        None => print!(rt; " -"),
        Some(plies) => print!(rt; " {plies}"),
    }
}

/// Prints the SHA-256 of cells, in hexadecimal digits, and ends the line.
fn print_digest(rt: HostRuntime, cells: &[u8]) -> io::Result<()> {
    let mut hasher = Sha256::new();
    hasher.update(cells);
    let digest = hasher.finalize();
    print!(rt; " ")?;
    for byte in digest.as_slice() {
        print!(rt; "{byte:02x}")?;
    }
    println!(rt; "")
}

/// Prints whole seconds and hundredths.
fn print_seconds(rt: HostRuntime, name: &str, nanoseconds: u128) -> io::Result<()> {
    let hundredths = nanoseconds / 10_000_000;
    print!(rt; "{name} {}.{:02}", hundredths / 100, hundredths % 100)
}

fn print_report(rt: HostRuntime, report: &BuildReport, cells: &[u8]) -> io::Result<()> {
    print!(rt; " {}", report.examined)?;
    print_distance(rt, report.deepest_win)?;
    print_distance(rt, report.deepest_loss)?;
    print_digest(rt, cells)
}

/// Builds one table, tells of it, and adds it to the set; answers the nanoseconds of its building.
fn build_one<'a, A: Allocator>(
    rt: HostRuntime,
    alloc: &'a A,
    tables: &mut TableSet<'a, A>,
    class: Class,
) -> io::Result<u128> {
    let start = Instant::now(&rt)?;
    let room = BuildRoom::new(alloc, cells(class))?;
    let Ok((table, report)) = build(class, tables, room) else {
        println!(rt; "{} is not built", class.name())?;
        return Ok(0);
    };
    let nanoseconds = start.elapsed(&rt)?.as_nanos();
    print_seconds(rt, class.name(), nanoseconds)?;
    print_report(rt, &report, table.cells())?;
    if tables.add(table).is_err() {
        println!(rt; "{} is not added", class.name())?;
    }
    Ok(nanoseconds)
}

/// Builds what these classes need and their own tables, each once, in the order of `order`, and tells the sum of seconds.
/// No contract: it measures, and what it prints is read by people alone.
pub fn measure(rt: HostRuntime, classes: &[Class]) -> io::Result<()> {
    let alloc = rt.alloc();
    let mut tables = TableSet::new(&alloc)?;
    let mut sum = 0u128;
    for class in classes {
        for each in order(*class) {
            if !tables.has(each) {
                let nanoseconds = build_one(rt, &alloc, &mut tables, each)?;
                sum = sum.saturating_add(nanoseconds);
            }
        }
    }
    print_seconds(rt, "sum", sum)?;
    println!(rt; "")
}
