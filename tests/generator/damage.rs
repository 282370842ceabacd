//! Files damaged in a few places: bytes and lines.

use super::random::Random;
use crate::reference::lines::{CODES, NAMES};

/// Bytes that no correct line has, or not there.
const BYTES: &[u8] = b"0123456789,,\n\n\r -+.x\0\x7f\x80\xb1\xff";

/// A file with some damage behind its names line; once in a while also in it.
pub fn damaged(file: Vec<u8>, random: &mut Random) -> Vec<u8> {
    let (head, body) = file.split_at(if random.once_in(12) { 0 } else { NAMES.len() });
    let mut body = body.to_vec();
    for _ in 0..random.between(1, 12) {
        if body.is_empty() {
            break;
        }
        match random.once_in(2) {
            true => damage_byte(&mut body, random),
            false => damage_line(&mut body, random),
        }
    }
    match random.between(0, 7) {
        0 => body.truncate(random.place(body.len() + 1)),
        1 | 2 => drop(body.pop()),
        _ => {}
    }
    [head, &body].concat()
}

/// Another byte at some place, one more, one less, or one more before the last.
pub fn damage_byte(bytes: &mut Vec<u8>, random: &mut Random) {
    let (at, byte) = (random.place(bytes.len()), random.pick(BYTES));
    match random.between(0, 3) {
        0 => bytes[at] = byte,
        1 => bytes.insert(at, byte),
        2 => drop(bytes.remove(at)),
        _ => bytes.insert(bytes.len() - 1, byte),
    }
}

/// A line changed as someone would who writes such files wrongly.
fn damage_line(body: &mut Vec<u8>, random: &mut Random) {
    let mut lines: Vec<Vec<u8>> = body.split_inclusive(|&byte| byte == b'\n').map(<[u8]>::to_vec).collect();
    let at = random.place(lines.len());
    let line = lines[at].strip_suffix(b"\n").unwrap_or(&lines[at]).to_vec();
    let digits = "7".repeat(random.pick(&[1, 11, 2_000]));
    lines[at] = match random.between(0, 12) {
        0 => [&line[..], b"\r\n"].concat(),
        1 => line,
        2 => [b"\n", &line[..], b"\n"].concat(),
        3 => [&line[..], b"\n", &line, b"\n"].concat(),
        4 => [&line[..], b",0\n"].concat(),
        5 => [NAMES.as_bytes(), &line, b"\n"].concat(),
        6 => [&line[..], &line, b"\n"].concat(),
        7 => [b" ", &line[..], b"\n"].concat(),
        8 => [&line[..], digits.as_bytes(), b"\n"].concat(),
        9 => [b"0", &line[..], b"\n"].concat(),
        10 => b"\n".to_vec(),
        11 => [&without_codes(&line)[..], b"\n"].concat(),
        _ => [line.strip_prefix(b"1,").unwrap_or(&line), b"\n"].concat(),
    };
    *body = lines.concat();
}

/// The fields that a line has before its codes.
fn without_codes(line: &[u8]) -> Vec<u8> {
    let fields: Vec<&[u8]> = line.split(|&byte| byte == b',').take(CODES.start).collect();
    fields.join(&b',')
}
