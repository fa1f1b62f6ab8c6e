// Rattle: `rt` builds this file as src/timed.rt of the crate study_speed, which ../build.sh puts together outside of the repository.
//! Work that is timed.
use std::io;
use std::time::Instant;

/// Prints what was timed, on what, picoseconds for each of so many items, and a sum.
/// No contract: it measures, and what it prints is read by people alone.
pub fn tell(
    rt: HostRuntime,
    name: &str,
    label: &str,
    items: u64,
    nanoseconds: u128,
    sum: u64,
) -> io::Result<()> {
    let each = nanoseconds.saturating_mul(1000) / u128::from(items.max(1));
    println!(rt; "{name} {label} {each} {sum}")
}

/// Does some work five times, and prints how long the fastest took.
/// No contract: it measures, and what it prints is read by people alone.
pub fn show<F: Fn() -> u64>(
    rt: HostRuntime,
    name: &str,
    label: &str,
    items: u64,
    work: F,
) -> io::Result<()>
    requires { F.IsAlwaysCallable work }
{
    let mut best = u128::MAX;
    let mut sum = 0u64;
    for _ in 0..5u8 {
        let start = Instant::now(&rt)?;
        sum = work();
        best = best.min(start.elapsed(&rt)?.as_nanos());
    }
    tell(rt, name, label, items, best, sum)
}
