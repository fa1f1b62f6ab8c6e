//! The builder of tables without its contracts: seconds, numbers examined, and a sum that differs where a cell does.
//!
//!     PROGRAM CLASS|all [verify] [FOLDER]    FOLDER keeps the cells of the classes that are built, for those that need them
#![allow(warnings)]
mod arrayvec;
mod shim;
mod study_board;
mod study_index;
mod study_levels;
mod study_material;
mod study_moves;
mod study_retro;
mod study_table;
mod study_values;

use shim::{Cells, Host};
use std::hash::{DefaultHasher, Hash, Hasher};
use std::time::Instant;
use study_material::{Class, needs};
use study_retro::*;

struct Wanted {
    classes: Vec<Class>,
    verify: bool,
    folder: Option<String>,
}

/// The table of a class that was built before.
fn kept<'a>(class: Class, wanted: &Wanted) -> Option<Table<'a, Host>> {
    let bytes = std::fs::read(format!("{}/{}.cells", wanted.folder.as_ref()?, class.name())).ok()?;
    let mut cells = Cells::zeros(bytes.len());
    cells.as_mut_slice().copy_from_slice(&bytes);
    Some(Table::from_cells(class, cells))
}

fn built<'a>(class: Class, tables: &TableSet<'a, Host>, host: &'a Host, wanted: &Wanted) -> Table<'a, Host> {
    let start = Instant::now();
    let room = BuildRoom::new(host, study_index::cells(class)).ok().unwrap();
    let (table, report) = build(class, tables, room).ok().unwrap();
    let seconds = start.elapsed().as_secs_f64();
    let mut sum = DefaultHasher::new();
    table.cells().hash(&mut sum);
    print!("{} {seconds:.2} {} {:016x}", class.name(), report.examined, sum.finish());
    if wanted.verify {
        let start = Instant::now();
        assert!(verify(&table, tables));
        print!(" verify {:.2}", start.elapsed().as_secs_f64());
    }
    println!();
    if let Some(folder) = &wanted.folder {
        std::fs::write(format!("{folder}/{}.cells", class.name()), table.cells()).unwrap();
    }
    table
}

fn add<'a>(class: Class, tables: &mut TableSet<'a, Host>, host: &'a Host, wanted: &Wanted) {
    if tables.has(class) {
        return;
    }
    for need in needs(class).as_slice() {
        add(*need, tables, host, wanted);
    }
    let old = if wanted.classes.contains(&class) { None } else { kept(class, wanted) };
    let table = old.unwrap_or_else(|| built(class, tables, host, wanted));
    tables.add(table).ok().unwrap();
}

fn main() {
    let mut words: Vec<String> = std::env::args().skip(1).collect();
    let name = words.remove(0);
    let verify = words.iter().any(|word| word == "verify");
    let classes = if name == "all" { Class::all().to_vec() } else { vec![Class::parse(&name).ok().unwrap()] };
    let wanted = Wanted { classes, verify, folder: words.into_iter().find(|word| word != "verify") };
    let mut tables = TableSet::new(&Host).ok().unwrap();
    for class in &wanted.classes {
        add(*class, &mut tables, &Host, &wanted);
    }
}
