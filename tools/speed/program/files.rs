// Rattle: `rt` builds this file as src/files.rt of the crate study_speed, which ../build.sh puts together outside of the repository.
//! How long table files take to write and to read, beside SHA-256 alone over the same bytes.
use crate::timed::{show, tell};
use sha2::{Digest, Sha256};
use std::alloc::Allocator;
use std::io;
use std::time::Instant;
use study_values::cells;
use study_material::Class;
use study_table::Table;
use study_tablefile::{file_bytes, read_table, write_table};

/// The first byte of the digest of the bytes.
fn digest(bytes: &[u8]) -> u64 {
    let mut hasher = Sha256::new();
    hasher.update(bytes);
    let digest = hasher.finalize();
    u64::from(digest[0])
}

/// The bytes of the file.
fn write<'a, A: Allocator>(table: &Table<'a, A>, file: &mut Vec<u8, &'a A>) -> u64 {
    match write_table(table, file) {
        Ok(()) => file.len() as u64,
        Err(_) => 0,
    }
}

/// The cells of the table that is read.
fn read<A: Allocator>(alloc: &A, bytes: &[u8]) -> u64 {
    let mut input = bytes;
    match read_table(alloc, &mut input) {
        Ok(table) => table.cells().len() as u64,
        Err(_) => 0,
    }
}

/// Times the file of a class whose cells are 0, in memory, and SHA-256 of its bytes. A call is one byte.
/// No contract: it measures, and what it prints is read by people alone.
pub fn measure(rt: HostRuntime) -> io::Result<()> {
    let alloc = rt.alloc();
    let class = Class::KRKN;
    let table = Table::from_cells(class, vec![in &alloc; 0u8; cells(class) as usize]?);
    let size = u64::from(file_bytes(class));
    let mut file = Vec::with_capacity(&alloc, file_bytes(class) as usize)?;
    let start = Instant::now(&rt)?;
    let bytes = write(&table, &mut file);
    let nanoseconds = start.elapsed(&rt)?.as_nanos();
    tell(rt, "write_table", "KRKN", size, nanoseconds, bytes)?;
    let start = Instant::now(&rt)?;
    let count = read(&alloc, file.as_slice());
    let nanoseconds = start.elapsed(&rt)?.as_nanos();
    tell(rt, "read_table", "KRKN", size, nanoseconds, count)?;
    show(rt, "sha256", "KRKN", size, || digest(file.as_slice()))
}
