// Rattle: `rt` builds this file as src/main.rt of the crate study_speed, which ../build.sh puts together outside of the repository.
//! Times the calls that a builder of tables makes most, the building of tables, and their files.
//!
//! Each line has four words: what was timed, on what, picoseconds a call, and a sum of what the calls answered.
//! `tools/speed/speed.sh` sets the lines beside those of plain Rust. With no argument nothing is printed, so that `rt run` builds the
//! program and measures nothing.
#![tactic(auto)]

mod all_tables;
mod building;
mod calls;
mod files;
mod numbers;
mod probes;
mod reviews;
mod samples;
mod studies;
mod timed;
mod views;

use reviews::Measured;
use std::io;
use std::process::ExitCode;
use study_material::Class;

/// Times the building of the table that a word names.
fn measure_tables(rt: HostRuntime, name: &str) -> io::Result<()> {
    match Class::parse(name) {
        Ok(class) => building::measure(rt, class),
        Err(_) => println!(rt; "no class that is built: {name}"),
    }
}

/// Tells of all tables, or of the one that a word names and those that it needs.
fn tell_tables(rt: HostRuntime, name: &str) -> io::Result<()> {
    match Class::parse(name) {
        Ok(class) => all_tables::measure(rt, &[class]),
        Err(_) => all_tables::measure(rt, Class::all()),
    }
}

/// Times what the words ask for.
fn measure(rt: HostRuntime, what: &str, name: Option<&str>) -> io::Result<()> {
    match what {
        "all" => tell_tables(rt, name.unwrap_or("")),
        "calls" => calls::measure(rt),
        "numbers" => numbers::measure(rt),
        "files" => files::measure(rt),
        "probes" => probes::measure(rt),
        "reviews" => reviews::measure(rt, Measured::Review, name.unwrap_or(".")),
        "studies" => studies::measure(rt),
        "views" => reviews::measure(rt, Measured::Views, name.unwrap_or(".")),
        "tables" => measure_tables(rt, name.unwrap_or("KPK")),
        _ => println!(rt;
            "calls, numbers, files, probes, studies, all, tables and a class, or reviews or views and a folder"
        ),
    }
}

fn main(rt: HostRuntime) -> io::Result<ExitCode> {
    let mut words = std::env::args(&rt)?.skip(1);
    if let Some(what) = words.next() {
        let name = words.next();
        measure(rt, what.as_str(), name.as_deref())?;
    }
    Ok(ExitCode::from(0))
}
