// Rattle: `rt` builds this file as src/probes.rt of the crate study_speed, which ../build.sh puts together outside of the repository.
//! How long a probe takes through a cache that keeps every page, beside one of a whole table.

use crate::timed::tell;
use std::alloc::Allocator;
use std::io;
use std::time::Instant;
use study_board::Position;
use study_index::decode;
use study_values::{Values, cells};
use study_material::{Class, order};
use study_prober::{PagedTables, WholeTables};
use study_retro::{BuildRoom, build};
use study_table::TableSet;
use study_tablefile::MemorySource;
use study_tablefile::{PageSource, file_bytes, write_table};

/// The plies to mate of all positions.
fn probe<V: Values>(values: &mut V, positions: &[Position]) -> u64 {
    let mut sum = 0u64;
    for position in positions {
        if let Ok(value) = values.value(position) {
            sum = sum.saturating_add(u64::from(value.distance().unwrap_or(0)));
        }
    }
    sum
}

/// Probes all positions once, and then times the fastest of five further goes.
fn time<V: Values>(
    rt: HostRuntime,
    name: &str,
    values: &mut V,
    positions: &[Position],
) -> io::Result<()> {
    let mut sum = probe(values, positions);
    let mut best = u128::MAX;
    for _ in 0..5u8 {
        let start = Instant::now(&rt)?;
        sum = probe(values, positions);
        best = best.min(start.elapsed(&rt)?.as_nanos());
    }
    tell(rt, name, "KRK", positions.len() as u64, best, sum)
}

/// The positions of a class.
fn positions_of<'a, A: Allocator>(alloc: &'a A, class: Class) -> io::Result<Vec<Position, &'a A>> {
    let mut positions = Vec::new(alloc);
    for number in 0..cells(class) {
        if let Some(position) = decode(class, number) {
            positions.push(position)?;
        }
    }
    Ok(positions)
}

/// The tables that the class needs, and its own.
fn tables_of<'a, A: Allocator>(alloc: &'a A, class: Class) -> io::Result<TableSet<'a, A>> {
    let mut tables = TableSet::new(alloc)?;
    for each in order(class) {
        let room = BuildRoom::new(alloc, cells(each))?;
        if let Ok((table, _)) = build(each, &tables, room) {
            let _added = tables.add(table);
        }
    }
    Ok(tables)
}

/// Times probes through pages that are all kept.
fn time_pages<S: PageSource, A: Allocator>(
    rt: HostRuntime,
    alloc: &A,
    class: Class,
    source: S,
    positions: &[Position],
) -> io::Result<()> {
    let mut paged = PagedTables::new(alloc, 64)?;
    if paged.add(class, source).is_err() {
        return println!(rt; "no source");
    }
    time(rt, "paged", &mut paged, positions)
}

/// Times probes of all positions of a class: of the whole table, and through pages that are all kept.
/// No contract: it measures, and what it prints is read by people alone.
pub fn measure(rt: HostRuntime) -> io::Result<()> {
    let alloc = rt.alloc();
    let class = Class::KRK;
    let tables = tables_of(&alloc, class)?;
    let mut file = Vec::with_capacity(&alloc, file_bytes(class) as usize)?;
    let Some(table) = tables.table(class) else {
        return println!(rt; "no table");
    };
    let _written = write_table(table, &mut file);
    let positions = positions_of(&alloc, class)?;
    time(
        rt,
        "whole",
        &mut WholeTables::new(tables),
        positions.as_slice(),
    )?;
    let source = MemorySource {
        text: file.as_slice(),
        asked: 0,
        fails_at: None,
        failures: 0,
    };
    time_pages(rt, &alloc, class, source, positions.as_slice())
}
