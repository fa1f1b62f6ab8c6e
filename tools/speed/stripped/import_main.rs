//! studyimport in plain Rust: the proved sources without their contracts, over the whole of standard input.
#![allow(dead_code)]

mod arrayvec;
mod shim;
mod study_board;
mod study_command;
mod study_games;
mod study_import;
mod study_marks;
mod study_material;
mod study_moves;
mod study_notation;
mod study_reading;
mod study_remark;
mod study_reply;
mod study_tails;
mod study_text;
mod study_tree;
mod study_values;
mod study_wide;
mod study_wide_text;

use shim::Global;
use std::io::{self, BufWriter, Read, Write};
use study_import::{Choice, Importer};
use study_text::Text;

fn main() -> io::Result<()> {
    let alloc = Global;
    let tails = std::env::args().any(|word| word == "--tails");
    let choice = Choice { given: None, from: 1, to: u32::MAX, tails, up_to_faults: false };
    let mut importer = Importer::new(&alloc, choice);
    let mut out = BufWriter::new(io::stdout().lock());
    let mut games = std::vec::Vec::new();
    io::stdin().read_to_end(&mut games)?;
    for byte in games {
        let mut text = Text::new(&alloc);
        importer.take(byte, &mut text)?;
        out.write_all(text.as_slice())?;
    }
    let mut text = Text::new(&alloc);
    importer.finish(&mut text)?;
    out.write_all(text.as_slice())?;
    out.flush()
}
