//! Call files from seeds. Seeds `SORTS` apart are files of one sort, so a run of consecutive seeds has its share of each.

mod bookings;
mod damage;
mod desk;
mod edges;
mod participants;
mod random;
mod wrong_lines;

use bookings::{all_days, crossing_orders, ends_of_ranges, full_book, large_values, late_pairs, months, one_day, spent_ids};
use desk::Desk;
use participants::{level_rates, near_rates};
use random::Random;

/// Sorts of bookings, some of them twice or more since they are short.
const BOOKINGS: [fn(&mut Desk); 16] = [
    months,
    months,
    months,
    crossing_orders,
    crossing_orders,
    late_pairs,
    late_pairs,
    one_day,
    one_day,
    ends_of_ranges,
    spent_ids,
    all_days,
    level_rates,
    near_rates,
    full_book,
    large_values,
];

/// Sorts of files: those bookings, damaged ones, wrong lines, the edges of files, and full files.
const SORTS: u64 = 22;

/// The file of a seed.
pub fn file(seed: u64) -> Vec<u8> {
    let mut random = Random::new(seed);
    match (seed % SORTS) as usize {
        sort @ 0..=15 => booked(BOOKINGS[sort], random),
        16 | 17 => {
            let bookings = random.pick(&BOOKINGS[..15]);
            damage::damaged(booked(bookings, Random::new(random.any())), &mut random)
        }
        18 | 19 => wrong_lines::file(&mut random),
        20 => edges::file(&mut random),
        _ => edges::full_file(&mut random),
    }
}

/// A file of bookings.
fn booked(bookings: fn(&mut Desk), random: Random) -> Vec<u8> {
    let mut desk = Desk::new(random);
    bookings(&mut desk);
    desk.text.into_bytes()
}

/// A run of days to ask reports and lists for, as arguments: mostly of days that may be closed, at times the wrong way round
/// or of no day that a book has, and numbers that would be such days if they were cut to a machine's width.
pub fn run_of_days(seed: u64) -> [String; 2] {
    let mut random = Random::new(!seed);
    let mut day = || match random.between(0, 11) {
        0 | 1 => random.between(0, 65).to_string(),
        2 => random.pick(&["64", "007", "256", "257", "4294967296"]).to_string(),
        3 => random.pick(&["18446744073709551616", "99999999999999999999999999999999"]).to_string(),
        _ => random.between(0, 9).to_string(),
    };
    [day(), day()]
}
