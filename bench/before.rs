// Times a close and the tables of call files by the proved library as it was at an earlier commit, as it is now, and in plain
// Rust, in one run and in turns.
mod book;
mod calls;
mod lines;
mod measures;
mod table;
mod texts;

use measures::timed;
use texts::{proved, repeated, rust_table, ROOM};

// What the earlier library exports has `before_` in front of its name: see bench/before.
extern "C" {
    fn closes(times: u64) -> u64;
    fn before_closes(times: u64) -> u64;
    fn table_of(text: *const u8, length: usize, buffer: *mut [u8; ROOM]) -> usize;
    fn before_table_of(text: *const u8, length: usize, buffer: *mut [u8; ROOM]) -> usize;
}

// A line of figures: the three times, how much of the time before is left, and the ratio to plain Rust.
fn print_line(name: &str, calls_each: u64, times: u64, sides: [&dyn Fn(u64) -> u64; 3]) {
    let [before, now, rust] = timed(name, calls_each, times, sides);
    println!("{name:<38}{before:>9.2} µs{now:>9.2} µs{rust:>9.2} µs{:>8.2}{:>8.2}", now / before, now / rust);
}

fn main() {
    println!("{:<38}{:>12}{:>12}{:>12}{:>8}{:>8}", "", "before", "now", "Rust", "left", "ratio");
    let (before, now) = (|n| unsafe { before_closes(n) }, |n| unsafe { closes(n) });
    print_line("close of 1,024 failing pairs", 64, 20, [&before, &now, &calls::closes]);
    for path in std::env::args().skip(1) {
        let file = std::fs::read(&path).expect("a call file");
        let before = |n| repeated(n, || proved(before_table_of, &file));
        let now = |n| repeated(n, || proved(table_of, &file));
        let rust = |n| repeated(n, || rust_table(&file));
        let name = format!("table of {}", path.rsplit('/').next().unwrap_or(&path));
        print_line(&name, 1, 20, [&before, &now, &rust]);
    }
}
