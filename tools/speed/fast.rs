//! The fastest builder of tables that we know of one byte a cell, in plain Rust without crates: how far the proved builder is from the limit.
//! Classes of four men are built by whole rows of squares (`sets.rs`), the smaller ones number by number (`builder.rs`).
//!
//!     fast all | CLASS..    builds the classes and what they need: a line each with the class, processor seconds, and the sum of its cells
//!     fast DIR all          the same, and writes the cells of each class to DIR/CLASS.cells
#[path = "fast/builder.rs"]
mod builder;
#[path = "fast/classes.rs"]
mod classes;
#[path = "fast/geometry.rs"]
mod geometry;
#[path = "fast/images.rs"]
mod images;
#[path = "fast/leaving.rs"]
mod leaving;
#[path = "fast/lines.rs"]
mod lines;
#[path = "fast/sets.rs"]
mod sets;
#[path = "fast/small.rs"]
mod small;
#[path = "fast/sweeps.rs"]
mod sweeps;

use builder::Builder;
use classes::{Conversions, NAMES};
use geometry::*;
use lines::Lines;
use sets::Sets;
use small::Small;
use std::time::Instant;

/// The cells of a class, with each image of a position and as a table has them.
fn build(
    class: usize,
    geometry: &Geometry,
    lines: &Lines,
    small: &mut Option<Small>,
    tables: &[Vec<u8>],
) -> (f64, Vec<u8>, Vec<u8>) {
    macro_rules! classes {
        ($($name:literal $men:literal $third:ident $fourth:ident $white:literal),*) => {
            match NAMES[class] {
                $($name => {
                    let begun = Instant::now();
                    let conversions = Conversions::new(class, tables);
                    let builder = Builder::<$men, $third, $fourth, $white> { geometry, conversions };
                    let cells = if $men == 4 {
                        let small = small.get_or_insert_with(|| Small::new(geometry, tables));
                        let conversions = Conversions::new(class, tables);
                        Sets::<$third, $fourth, $white> { geometry, lines, small, conversions }.build()
                    } else {
                        builder.build()
                    };
                    let seconds = begun.elapsed().as_secs_f64();
                    let cleared = builder.cleared(&cells);
                    (seconds, cells, cleared)
                })*
                _ => unreachable!(),
            }
        };
    }
    classes!(
        "KK" 2 NOBODY NOBODY true, "KQK" 3 QUEEN NOBODY true, "KRK" 3 ROOK NOBODY true, "KBK" 3 BISHOP NOBODY true,
        "KNK" 3 KNIGHT NOBODY true, "KPK" 3 PAWN NOBODY true, "KQQK" 4 QUEEN QUEEN true, "KQRK" 4 QUEEN ROOK true,
        "KQBK" 4 QUEEN BISHOP true, "KQNK" 4 QUEEN KNIGHT true, "KQPK" 4 QUEEN PAWN true, "KRRK" 4 ROOK ROOK true,
        "KRBK" 4 ROOK BISHOP true, "KRNK" 4 ROOK KNIGHT true, "KRPK" 4 ROOK PAWN true, "KBBK" 4 BISHOP BISHOP true,
        "KBNK" 4 BISHOP KNIGHT true, "KBPK" 4 BISHOP PAWN true, "KNNK" 4 KNIGHT KNIGHT true, "KNPK" 4 KNIGHT PAWN true,
        "KPPK" 4 PAWN PAWN true, "KQKQ" 4 QUEEN QUEEN false, "KQKR" 4 QUEEN ROOK false, "KQKB" 4 QUEEN BISHOP false,
        "KQKN" 4 QUEEN KNIGHT false, "KQKP" 4 QUEEN PAWN false, "KRKR" 4 ROOK ROOK false, "KRKB" 4 ROOK BISHOP false,
        "KRKN" 4 ROOK KNIGHT false, "KRKP" 4 ROOK PAWN false, "KBKB" 4 BISHOP BISHOP false, "KBKN" 4 BISHOP KNIGHT false,
        "KBKP" 4 BISHOP PAWN false, "KNKN" 4 KNIGHT KNIGHT false, "KNKP" 4 KNIGHT PAWN false, "KPKP" 4 PAWN PAWN false
    )
}

fn main() -> std::io::Result<()> {
    let mut words: Vec<String> = std::env::args().skip(1).collect();
    let is_folder = |word: &String| word != "all" && !NAMES.contains(&word.as_str());
    let folder = words
        .first()
        .is_some_and(is_folder)
        .then(|| words.remove(0));
    // the classes of two and three men come first, since each class of four is built over all of them
    let mut list: Vec<usize> = (0..6).collect();
    for word in &words {
        let wanted = NAMES
            .iter()
            .position(|name| name == word)
            .map_or(classes::all(), classes::up_to);
        list.extend(
            wanted
                .into_iter()
                .filter(|class| !list.contains(class))
                .collect::<Vec<_>>(),
        );
    }
    let geometry = Geometry::new();
    let lines = Lines::new(&geometry);
    let mut small = None;
    let mut tables = vec![vec![]; 36];
    let mut all = 0.0;
    for class in list {
        let (seconds, cells, table) = build(class, &geometry, &lines, &mut small, &tables);
        all += seconds;
        println!(
            "{} {seconds:.2} {}",
            NAMES[class],
            table.iter().map(|cell| u64::from(*cell)).sum::<u64>()
        );
        if let Some(folder) = &folder {
            std::fs::write(format!("{folder}/{}.cells", NAMES[class]), table)?;
        }
        tables[class] = cells;
    }
    println!("sum {all:.2}");
    Ok(())
}
