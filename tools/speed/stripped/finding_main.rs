//! studymine in plain Rust: the proved sources without their contracts, over the files of a folder, to count the positions of a request.
#![allow(dead_code)]

mod arrayvec;
mod lru;
mod sha2;
mod shim;
mod study_board;
mod study_command;
mod study_index;
mod study_listing;
mod study_marks;
mod study_material;
mod study_moves;
mod study_notation;
mod study_prober;
mod study_search;
mod study_table;
mod study_tablefile;
mod study_text;
mod study_tree;
mod study_values;
mod study_zugzwang;

use shim::Global;
use std::fs::File;
use std::io::{ErrorKind, Read, Seek, SeekFrom};
use study_listing::{NoWatch, count_found, read_request, selection_of};
use study_material::Class;
use study_prober::PagedTables;
use study_tablefile::PageSource;
use study_values::{HEADER_BYTES, PAGE_BYTES, SourceFault};

struct FilePages(File);

impl FilePages {
    fn bytes(&mut self, start: u64, into: &mut [u8]) -> Result<(), SourceFault> {
        self.0.seek(SeekFrom::Start(start)).map_err(|_| SourceFault::Device)?;
        self.0.read_exact(into).map_err(|error| match error.kind() {
            ErrorKind::UnexpectedEof => SourceFault::Short,
            _ => SourceFault::Device,
        })
    }
}

impl PageSource for FilePages {
    fn header(&mut self, into: &mut [u8; HEADER_BYTES]) -> Result<(), SourceFault> {
        self.bytes(0, into)
    }

    fn page(&mut self, n: u32, into: &mut [u8; PAGE_BYTES]) -> Result<(), SourceFault> {
        self.bytes(HEADER_BYTES as u64 + PAGE_BYTES as u64 * n as u64, into)
    }

    fn failures(&self) -> u64 {
        0
    }
}

/// The words are those of studymine: `--tables FOLDER --count CLASS THEME..`
fn main() {
    let words: Vec<String> = std::env::args().collect();
    let [_, _, folder, _, class, theme @ ..] = &words[..] else { panic!("--tables FOLDER --count CLASS THEME..") };
    let mut tables = PagedTables::new(&Global, 4096).unwrap();
    for each in Class::all() {
        if let Ok(file) = File::open(format!("{folder}/{}.dtm", each.name())) {
            tables.add(*each, FilePages(file)).unwrap();
        }
    }
    let theme: Vec<&[u8]> = theme.iter().map(|word| word.as_bytes()).collect();
    let request = read_request(Class::parse(class).unwrap(), &theme).unwrap();
    let selection = selection_of(&request, &mut tables).unwrap();
    println!("{}", selection.map_or(0, |selection| count_found(&selection, &mut tables, &mut NoWatch).unwrap()));
}
