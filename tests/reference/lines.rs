//! Call lines as text, by the rules' own words: a place is wrong where the bytes up to and including it begin no correct
//! line. So each beginning of a line is tried, from the shortest on. docs/RULES.md, 'The calls as text'.

use super::calls::{Call, Entry};
use super::mistakes::{Mistake, Planted};
use std::ops::Range;

pub const NAMES: &str = "call,id,kind,category,day,side,amount,deliverer,receiver\n";
pub const FILE_LIMIT: usize = 65_536;

/// The names line of before the participants' codes.
pub const NAMES_WITHOUT_CODES: &str = "call,id,kind,category,day,side,amount\n";

/// A line read is a call, or the place of its first wrong byte.
#[derive(Clone, Copy)]
pub enum Line {
    Correct(Call),
    Wrong(usize),
}

/// The columns of a line in their order, each with the numbers of the calls that use it.
pub const USERS: &[&[u8]] = &[
    b"123456", // call
    b"12345",  // id
    b"1",      // kind
    b"1",      // category
    b"1",      // day
    b"123",    // side
    b"124",    // amount
    b"1",      // deliverer
    b"1",      // receiver
];
pub const COLUMNS: usize = USERS.len();
/// Of these, the participants' codes.
pub const CODES: Range<usize> = 7..9;

/// Names line wrong or over 65,536 bytes.
pub fn is_faulty(file: &[u8], planted: Planted) -> bool {
    let limit = planted.right_or(Mistake::FullFileFaulty, FILE_LIMIT, FILE_LIMIT - 1);
    behind_names(file, planted).is_none() || file.len() > planted.right_or(Mistake::OneByteOver, limit, limit + 1)
}

/// What a file has behind its names line, where that is right.
fn behind_names(file: &[u8], planted: Planted) -> Option<&[u8]> {
    if planted.has(Mistake::NamesWithoutLf) && file == NAMES.trim_end().as_bytes() {
        return Some(&[]);
    }
    if planted.has(Mistake::NamesWithoutCodes) && file.starts_with(NAMES_WITHOUT_CODES.as_bytes()) {
        return Some(&file[NAMES_WITHOUT_CODES.len()..]);
    }
    file.strip_prefix(NAMES.as_bytes())
}

/// The lines of a file behind its names line, each with what it is read as.
pub fn lines_of(file: &[u8], planted: Planted) -> Vec<Line> {
    behind_names(file, planted)
        .unwrap_or_default()
        .split_inclusive(|&byte| byte == b'\n')
        .filter(|line| !(planted.has(Mistake::EmptyLinesPassedOver) && *line == b"\n"))
        .map(|line| read(line, planted))
        .collect()
}

/// One line: its bytes up to its LF, or up to the end of the text.
fn read(line: &[u8], planted: Planted) -> Line {
    let mut bytes = line.to_vec();
    if planted.has(Mistake::LastLineWithoutLf) && !bytes.ends_with(b"\n") {
        bytes.push(b'\n');
    }
    if planted.has(Mistake::CarriageReturn) && bytes.ends_with(b"\r\n") {
        bytes.remove(bytes.len() - 2);
    }
    if lacks_codes(&bytes, planted) {
        bytes.pop();
        bytes.extend(if bytes.starts_with(b"1") { b",1,1\n" } else { b",0,0\n" });
    }
    let first = planted.right_or(Mistake::PlacesFromOne, 0, 1);
    match (1..=bytes.len()).find(|&n| !begins_correct(&bytes[..n], planted)) {
        Some(n) => Line::Wrong(n - 1 + first),
        None if bytes.ends_with(b"\n") => Line::Correct(call_of(&bytes)),
        None => Line::Wrong(bytes.len() + first),
    }
}

/// Whether these bytes are a line as long as one without codes, and a mistake is planted that takes it.
fn lacks_codes(bytes: &[u8], planted: Planted) -> bool {
    let mistake = if bytes.starts_with(b"1") { Mistake::EnterWithoutCodes } else { Mistake::LineWithoutCodes };
    planted.has(mistake) && bytes.ends_with(b"\n") && bytes.split(|&byte| byte == b',').count() == CODES.start
}

/// Whether some correct line begins with these bytes, the last of which alone may be an LF.
fn begins_correct(bytes: &[u8], planted: Planted) -> bool {
    let ended = bytes.ends_with(b"\n");
    let fields: Vec<&[u8]> = bytes[..bytes.len() - usize::from(ended)].split(|&byte| byte == b',').collect();
    let last = fields.len() - 1;
    let whole = |n: usize| is_field(n, fields[n], fields[0], planted);
    last < COLUMNS
        && (0..last).all(whole)
        && if ended { last == COLUMNS - 1 && whole(last) } else { fields[last].is_empty() || whole(last) }
}

/// Whether the text is the nth field of a correct line with this call number. All that a field may begin with is a field.
fn is_field(n: usize, text: &[u8], call: &[u8], planted: Planted) -> bool {
    let most = planted.right_or(Mistake::TwelfthDigit, 11, 12);
    let zero_first = text.starts_with(b"0") && text.len() > 1 && !planted.has(Mistake::LeadingZero);
    let number = (1..=most).contains(&text.len()) && text.iter().all(u8::is_ascii_digit) && !zero_first;
    match n {
        0 => text.len() == 1 && USERS[0].contains(&text[0]),
        _ if USERS[n].contains(&call[0]) => number && !(planted.has(Mistake::CodeMakesWrong) && is_no_code(n, text)),
        _ => text == b"0" || number && unused_is_free(n, planted),
    }
}

/// Whether the nth field is one of the codes, and the text no number of 1 to 40.
fn is_no_code(n: usize, text: &[u8]) -> bool {
    CODES.contains(&n) && !matches!(text, [b'1'..=b'9'] | [b'1'..=b'3', b'0'..=b'9'] | b"40")
}

/// Whether a mistake is planted that takes any number in an unused nth field.
fn unused_is_free(n: usize, planted: Planted) -> bool {
    planted.has(Mistake::UnusedFieldFree) || planted.has(Mistake::UnusedCodeFree) && CODES.contains(&n)
}

/// The call of a correct line: hold has its on/off in amount, lack its value in side, settle its part in amount.
fn call_of(line: &[u8]) -> Call {
    let text = std::str::from_utf8(&line[..line.len() - 1]).expect("digits and commas");
    let numbers: Vec<u64> = text.split(',').map(|field| field.parse().expect("a number")).collect();
    let [call, id, kind, category, isd, side, amount, deliverer, receiver] = numbers[..] else { panic!("all fields") };
    match call {
        1 => Call::Enter(Entry { id, kind, category, isd, side, amount, deliverer, receiver }),
        2 => Call::Hold { id, side, on: amount },
        3 => Call::Lack { id, lack: side },
        4 => Call::Settle { id, part: amount },
        5 => Call::Cancel { id },
        _ => Call::Close,
    }
}
