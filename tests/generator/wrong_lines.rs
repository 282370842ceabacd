//! Lines of all calls, many of them wrong: in each field, used or not, and in each byte.

use super::damage::damage_byte;
use super::random::Random;
use crate::reference::lines::{CODES, COLUMNS, NAMES, USERS};

/// Texts that are no field, or not everywhere.
const TEXTS: [&[u8]; 13] =
    [b"", b"0", b"00", b"1", b"7", b"10", b"66", b"-1", b"+1", b"1.0", b"1e3", b"100000000000", b"123456789012"];

pub fn file(random: &mut Random) -> Vec<u8> {
    let mut text = NAMES.as_bytes().to_vec();
    for id in 1..random.between(50, 300) {
        let mut line = fields(id, random).join(&b',');
        line.push(b'\n');
        if random.once_in(3) {
            damage_byte(&mut line, random);
        }
        text.extend(line);
    }
    text
}

/// The fields of a call with small numbers or the longest ones, and now and then one field that is wrong, or wrong there,
/// no codes at all, or codes whatever the call.
fn fields(id: u64, random: &mut Random) -> Vec<Vec<u8>> {
    let call = random.pick(USERS[0]);
    let longest = random.once_in(8);
    let mut fields = vec![vec![call]];
    for users in &USERS[1..] {
        let number: &[u8] = if !users.contains(&call) {
            b"0"
        } else if longest && !random.once_in(9) {
            b"99999999999"
        } else {
            b"1"
        };
        fields.push(number.to_vec());
    }
    if call == b'1' && !longest {
        fields[1] = id.to_string().into_bytes();
    }
    let at = random.place(COLUMNS);
    match random.between(0, 11) {
        0 | 1 => fields[at] = random.pick(&TEXTS).to_vec(),
        2 => fields[at].insert(0, b'0'),
        3 => fields[at].extend(b"99999999999"),
        4 if random.once_in(3) => drop(fields.remove(at)),
        5 if random.once_in(3) => fields.truncate(CODES.start),
        6 => fields[CODES].fill(b"7".to_vec()),
        _ => {}
    }
    fields
}
