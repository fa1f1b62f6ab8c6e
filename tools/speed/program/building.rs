// Rattle: `rt` builds this file as src/building.rt of the crate study_speed, which ../build.sh puts together outside of the repository.
//! How long tables take to build and to verify.

use crate::timed::tell;
use std::alloc::Allocator;
use std::io;
use std::time::Instant;
use study_values::cells;
use study_material::{Class, order};
use study_retro::{BuildRoom, build, verify};
use study_table::{Table, TableSet};

/// The sum of a table's cells, and of what its building examined.
fn add_cells<A: Allocator>(table: &Table<A>, examined: u64) -> u64 {
    let mut sum = examined;
    for cell in table.cells() {
        sum = sum.saturating_add(u64::from(*cell));
    }
    sum
}

/// Times the check of a table.
fn verify_one<'a, A: Allocator>(
    rt: HostRuntime,
    tables: &TableSet<'a, A>,
    table: &Table<'a, A>,
) -> io::Result<()> {
    if !tables.ready(table.class()) {
        return println!(rt; "a needed table is missing");
    }
    let label = table.class().name();
    let start = Instant::now(&rt)?;
    let right = u64::from(verify(table, tables));
    let nanoseconds = start.elapsed(&rt)?.as_nanos();
    tell(rt, "verify", label, 1, nanoseconds, right)
}

/// Builds and verifies one table, and adds it to the set.
fn build_one<'a, A: Allocator>(
    rt: HostRuntime,
    alloc: &'a A,
    tables: &mut TableSet<'a, A>,
    class: Class,
) -> io::Result<()> {
    let label = class.name();
    let start = Instant::now(&rt)?;
    let room = BuildRoom::new(alloc, cells(class))?;
    let Ok((table, report)) = build(class, tables, room) else {
        return println!(rt; "{label} is not built");
    };
    let nanoseconds = start.elapsed(&rt)?.as_nanos();
    let sum = add_cells(&table, report.examined);
    tell(rt, "build", label, 1, nanoseconds, sum)?;
    verify_one(rt, tables, &table)?;
    if tables.add(table).is_err() {
        return println!(rt; "{label} is not added");
    }
    Ok(())
}

/// Builds all tables that a class needs, and its own.
/// No contract: it measures, and what it prints is read by people alone.
pub fn measure(rt: HostRuntime, class: Class) -> io::Result<()> {
    let alloc = rt.alloc();
    let mut tables = TableSet::new(&alloc)?;
    for each in order(class) {
        build_one(rt, &alloc, &mut tables, each)?;
    }
    Ok(())
}
