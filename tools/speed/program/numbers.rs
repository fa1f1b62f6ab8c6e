// Rattle: `rt` builds this file as src/numbers.rt of the crate study_speed, which ../build.sh puts together outside of the repository.
//! How long it takes to read a number as a position.

use crate::timed::show;
use std::io;
use study_index::decode;
use study_values::cells;
use study_material::Class;

/// The men of all positions of a class.
fn count_men(class: Class) -> u64 {
    let mut sum = 0u64;
    for number in 0..cells(class) {
        if let Some(position) = decode(class, number) {
            sum = sum.saturating_add(position.men().len() as u64);
        }
    }
    sum
}

/// Times the reading of all numbers of some classes.
/// No contract: it measures, and what it prints is read by people alone.
pub fn measure(rt: HostRuntime) -> io::Result<()> {
    for (class, label) in [
        (Class::KRK, "KRK"),
        (Class::KPK, "KPK"),
        (Class::KRKN, "KRKN"),
        (Class::KQQK, "KQQK"),
    ] {
        let count = u64::from(cells(class));
        show(rt, "decode", label, count, || count_men(class))?;
    }
    Ok(())
}
