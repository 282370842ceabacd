//! Files at the edges of what a file is: its names line and its length.

use super::bookings::booking;
use super::desk::Desk;
use super::random::Random;
use crate::reference::lines::{FILE_LIMIT, NAMES, NAMES_WITHOUT_CODES};

/// A file that is empty, or whose names line is not quite one or not its lines', or that is of an odd length.
pub fn file(random: &mut Random) -> Vec<u8> {
    let calls = "1,1,1,1,0,1,100,1,40\n6,0,0,0,0,0,0,0,0\n";
    let calls_without_codes = "1,1,1,1,0,1,100\n6,0,0,0,0,0,0\n";
    let named = &NAMES[..NAMES.len() - 1];
    let text = match random.between(0, 15) {
        0 => String::new(),
        1 => NAMES.to_string(),
        2 => named.to_string(),
        3 => format!("{named}\r\n{calls}"),
        4 => format!("\u{feff}{NAMES}{calls}"),
        5 => format!("{named} \n{calls}"),
        6 => format!("\n{NAMES}{calls}"),
        7 => format!("{}{calls}", NAMES.to_uppercase()),
        8 => calls.to_string(),
        9 => NAMES[..random.place(NAMES.len())].to_string(),
        10 => format!("{NAMES}{}", &calls[..random.place(calls.len())]),
        11 => format!("{NAMES}{calls}{}", "\n".repeat(random.place(FILE_LIMIT))),
        12 => format!("{NAMES}{calls_without_codes}"),
        13 => format!("{NAMES_WITHOUT_CODES}{calls_without_codes}"),
        14 => format!("{NAMES_WITHOUT_CODES}{calls}"),
        _ => return full_file(random),
    };
    text.into_bytes()
}

/// Usual days up to the last byte that a file may have, or to one about there.
pub fn full_file(random: &mut Random) -> Vec<u8> {
    let length = FILE_LIMIT - 2 + random.place(5);
    let mut desk = Desk::new(Random::new(random.any()));
    let calls_a_day = desk.random.between(20, 90);
    while desk.text.len() < length {
        match desk.random.once_in(calls_a_day) {
            true => desk.close(),
            false => booking(&mut desk),
        }
    }
    let mut bytes = desk.text.into_bytes();
    bytes.truncate(length);
    if random.once_in(2) {
        bytes[length - 1] = b'\n';
    }
    bytes
}
