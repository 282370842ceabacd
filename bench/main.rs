// Times the proved calls, the proved reader, the proved table and the proved lists against plain Rust, in one run, and
// measures the stack that they need.
mod book;
mod calls;
mod lines;
mod list;
mod measures;
mod table;
mod texts;

use lines::{next_line, read_line, Line};
use measures::{stack_of, timed};
use std::hint::black_box;
use texts::{proved, repeated, rust_table, ROOM};

extern "C" {
    fn closes(times: u64) -> u64;
    fn closes_in_place(times: u64) -> u64;
    fn empty_closes(times: u64) -> u64;
    fn empty_closes_in_place(times: u64) -> u64;
    fn holds(times: u64) -> u64;
    fn holds_in_place(times: u64) -> u64;
    fn settles(times: u64) -> u64;
    fn settles_in_place(times: u64) -> u64;
    fn enters(times: u64) -> u64;
    fn enters_in_place(times: u64) -> u64;
    fn replaces(times: u64) -> u64;
    fn replaces_in_place(times: u64) -> u64;
    fn replaces_first_in_place(times: u64) -> u64;
    fn reads(times: u64) -> u64;
    fn largest_room() -> usize;
    fn table_of(text: *const u8, length: usize, buffer: *mut [u8; ROOM]) -> usize;
    fn lists_of(text: *const u8, length: usize, buffer: *mut [u8; ROOM]) -> usize;
}

// The file that crates/timing_c reads: lines of an enter, 65,536 bytes, the last line cut off.
#[inline(never)]
fn rust_reads(times: u64) -> u64 {
    let mut text: Vec<u8> = b"1,12345,1,5,20,1,1234567890,12,34\n".iter().copied().cycle().take(65536).collect();
    let mut sum = 0u64;
    for n in 0..times {
        text[0] = b'1' + (n % 6) as u8;
        sum = 0;
        let mut rest = black_box(&text[..]);
        while !rest.is_empty() {
            sum = sum.wrapping_add(match read_line(rest) {
                Line::Correct(values) => values[1..].iter().sum(),
                Line::Wrong(place) => place as u64,
            });
            rest = next_line(rest);
        }
    }
    sum
}

#[inline(never)]
fn rust_lists(file: &[u8]) -> Vec<u8> {
    let mut text = Vec::with_capacity(ROOM);
    list::lists(file, &mut text);
    text
}

// The names line of a file and so many of its lines.
fn first_lines(file: &[u8], lines: usize) -> &[u8] {
    let length = file.split_inclusive(|&byte| byte == b'\n').take(1 + lines).map(<[u8]>::len).sum();
    &file[..length]
}

// A line of figures: both times, their ratio, and the stack of the proved side.
fn print_line(name: &str, calls_each: u64, times: u64, proved: impl Fn(u64) -> u64 + Sync, rust: impl Fn(u64) -> u64) {
    let [a, b] = timed(name, calls_each, times, [&proved, &rust]);
    println!("{name:<38}{a:>9.2} µs{b:>9.2} µs{:>8.2}{:>8} KB", a / b, stack_of(&proved));
}

fn main() {
    let path = std::env::args().nth(1).expect("a call file");
    let file = std::fs::read(path).expect("a call file");
    assert!(unsafe { largest_room() } <= ROOM, "a text has room in its buffer");
    assert_eq!(proved(table_of, &file), rust_table(&file), "both write the same table");
    assert_eq!(proved(lists_of, &file), rust_lists(&file), "both write the same lists");
    println!("{:<38}{:>12}{:>12}{:>8}{:>11}", "", "proved", "Rust", "ratio", "stack");
    let both = |name: &str, calls_each, times, by_value: fn(u64) -> u64, in_place: fn(u64) -> u64, rust: fn(u64) -> u64| {
        print_line(name, calls_each, times, by_value, rust);
        print_line("  in place", calls_each, times, in_place, rust);
    };
    both("close of 1,024 failing pairs", 64, 20, |n| unsafe { closes(n) }, |n| unsafe { closes_in_place(n) }, calls::closes);
    both("close with no open pair", 64, 20, |n| unsafe { empty_closes(n) }, |n| unsafe { empty_closes_in_place(n) }, calls::empty_closes);
    both("hold of the last of 1,024 pairs", 1, 3000, |n| unsafe { holds(n) }, |n| unsafe { holds_in_place(n) }, calls::holds);
    both("settle of the last of 1,024 pairs", 1, 3000, |n| unsafe { settles(n) }, |n| unsafe { settles_in_place(n) }, calls::settles);
    both("enter refused, 1,024 pairs open", 1, 3000, |n| unsafe { enters(n) }, |n| unsafe { enters_in_place(n) }, calls::enters);
    both("cancel and enter in the last place", 1, 3000, |n| unsafe { replaces(n) }, |n| unsafe { replaces_in_place(n) }, calls::replaces);
    print_line("cancel of the first, and enter, in place", 1, 3000, |n| unsafe { replaces_first_in_place(n) }, calls::replaces_first);
    print_line("65,536 bytes of call lines read", 1, 100, |n| unsafe { reads(n) }, rust_reads);
    let lines = file.split_inclusive(|&byte| byte == b'\n').count() - 1;
    for part in 0..=6 {
        let begin = first_lines(&file, lines * part / 6);
        let name = format!("table of {} lines, {} bytes", lines * part / 6, begin.len());
        print_line(&name, 1, 20, |n| repeated(n, || proved(table_of, begin)), |n| repeated(n, || rust_table(begin)));
    }
    let name = format!("lists of {lines} lines, {} bytes", file.len());
    print_line(&name, 1, 20, |n| repeated(n, || proved(lists_of, &file)), |n| repeated(n, || rust_lists(&file)));
}
