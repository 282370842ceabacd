//! Bookings of several sorts: what a depository sends, and orders that no one would.

use super::desk::{numbers_of, Desk};
use crate::reference::calls::Call;
use crate::reference::lines::{COLUMNS, USERS};

/// Numbers at the ends of their ranges and beyond them, by column: id, kind, category, day, side, amount, and the two codes.
const ENDS: [&[u64]; COLUMNS - 1] = [
    &[0, 1, 65_535, 65_536],
    &[0, 1, 4, 5],
    &[0, 1, 9, 10],
    &[0, 63, 64],
    &[0, 0, 1, 2, 3],
    &[0, 1, 2, 9_999_999_999, 10_000_000_000, 10_000_000_001],
    &[0, 1, 40, 41],
    &[0, 1, 40, 41],
];

/// Numbers that are out of most ranges, at the ends of machine numbers, up to the largest of 11 digits.
const BEYOND: [u64; 9] = [255, 256, 257, 65_537, 4_294_967_295, 4_294_967_296, 4_294_967_297, 4_294_967_298, 99_999_999_999];

/// What a depository sends: pairs a few days before they are due, some late, and work on those that are open.
pub fn months(desk: &mut Desk) {
    for _ in 0..desk.random.between(2, 24) {
        for _ in 0..desk.random.between(1, 14) {
            booking(desk);
        }
        desk.close();
    }
}

/// A call of a usual day.
pub fn booking(desk: &mut Desk) {
    let amount = desk.amount();
    match (desk.random.between(0, 19), desk.some_open()) {
        (0..=7, _) | (_, None) => {
            let ahead = desk.random.pick(&[0, 0, 1, 2, 2, 3]);
            desk.enter((desk.today + ahead).min(63), amount);
        }
        (8, _) => {
            let behind = desk.random.between(1, 3);
            desk.enter(desk.today.saturating_sub(behind), amount);
        }
        (9, Some(at)) => desk.call(Call::Settle { id: desk.open[at].id, part: amount }),
        (10, Some(_)) => desk.offer(desk.last_id, 1, desk.today.min(63), amount),
        (_, Some(at)) => desk.work_on(at),
    }
}

/// Few ids, small numbers, any order: calls cross each other on the same pairs and days.
pub fn crossing_orders(desk: &mut Desk) {
    for _ in 0..desk.random.between(10, 250) {
        let random = &mut desk.random;
        let id = (desk.last_id + random.between(0, 3)).saturating_sub(random.between(0, 5));
        let (isd, small) = ((desk.today + random.between(0, 3)).saturating_sub(2), random.between(0, 5));
        match random.between(0, 9) {
            0..=2 => {
                let (kind, amount) = (random.between(1, 4), random.between(1, 5));
                desk.offer(id, kind, isd, amount);
                desk.last_id = desk.last_id.max(id);
            }
            3 | 4 => {
                let (side, on) = (random.between(1, 2), random.between(0, 1));
                desk.call(Call::Hold { id, side, on });
            }
            5 => desk.call(Call::Lack { id, lack: small % 3 }),
            6 | 7 => desk.call(Call::Settle { id, part: small }),
            8 if small < 2 => desk.call(Call::Cancel { id }),
            8 => desk.call(Call::Hold { id, side: small, on: small % 3 }),
            _ => desk.close(),
        }
    }
}

/// 1,024 open pairs and more: which calls free a place, and which number comes first where the book is full.
pub fn full_book(desk: &mut Desk) {
    let before = desk.random.between(0, 2);
    for _ in 0..before {
        desk.enter(0, 7);
        desk.cancel(0);
    }
    for _ in 0..1024 {
        let (isd, amount) = (desk.random.between(0, 2), desk.random.between(1, 9));
        desk.enter(isd, amount);
    }
    for _ in 0..desk.random.between(4, 60) {
        let at = desk.random.place(desk.open.len());
        let pair = desk.open[at];
        match desk.random.between(0, 10) {
            0 => desk.offer(desk.last_id, 1, 0, 5),
            1 => desk.offer(desk.last_id + 1, 5, 0, 5),
            2 => offer_wrong_code(desk),
            3 if pair.isd <= desk.today && pair.rest > 1 => desk.settle(at, 1),
            4 if pair.isd <= desk.today => desk.settle(at, pair.rest),
            5 => desk.cancel(at),
            6 => desk.close(),
            _ => another(desk),
        }
    }
}

/// One pair more; refused where the book is full, so its id may be given again.
fn another(desk: &mut Desk) {
    let full = desk.open.len() >= 1024;
    let isd = desk.random.between(0, 2);
    desk.enter(isd, 3);
    if full {
        desk.open.pop();
        desk.last_id -= desk.random.between(0, 1);
    }
}

/// An enter with a code that no participant has, at one of its ends.
fn offer_wrong_code(desk: &mut Desk) {
    let mut entry = desk.entry(desk.last_id + 1, 1, 0, 5);
    let end = if desk.random.once_in(2) { &mut entry.deliverer } else { &mut entry.receiver };
    *end = desk.random.pick(&[0, 41]);
    desk.call(Call::Enter(entry));
}

/// All 64 days and calls behind the last one, with pairs due on the first and on the last day.
pub fn all_days(desk: &mut Desk) {
    desk.enter(63, 1_000);
    for _ in 0..desk.random.between(62, 64) {
        for _ in 0..desk.random.between(0, 3) {
            booking(desk);
        }
        desk.close();
    }
    for isd in [0, 62, 63] {
        let amount = desk.amount();
        desk.enter(isd, amount);
    }
    for _ in 0..desk.random.between(0, 3) {
        desk.close();
    }
    for _ in 0..desk.random.between(0, 6) {
        let at = desk.random.place(desk.open.len());
        desk.work_on(at);
        let some = desk.random.between(0, 3);
        desk.call(Call::Hold { id: some, side: some, on: some });
        desk.call(Call::Lack { id: some, lack: some });
        desk.call(Call::Cancel { id: some });
        desk.enter(61 + some, 5);
        offer_wrong_code(desk);
    }
}

/// Pairs matched after their ISD, of all kinds and sides, some of them worked on at once.
pub fn late_pairs(desk: &mut Desk) {
    for _ in 0..desk.random.between(2, 40) {
        for _ in 0..desk.random.between(0, 3) {
            let (isd, amount) = (desk.random.between(0, desk.today + 1).min(63), desk.amount());
            desk.enter(isd, amount);
            if desk.random.once_in(2) {
                desk.work_on(desk.open.len() - 1);
            }
        }
        if let Some(at) = desk.some_open() {
            desk.work_on(at);
        }
        desk.close();
    }
}

/// Few pairs and few days: parts, holds, lacks and cancels on one day, over and over.
pub fn one_day(desk: &mut Desk) {
    for _ in 0..desk.random.between(1, 5) {
        for _ in 0..desk.random.between(1, 4) {
            let (isd, amount) = (desk.today.saturating_sub(desk.random.between(0, 1)), desk.random.between(2, 40));
            desk.enter(isd, amount);
        }
        for _ in 0..desk.random.between(3, 25) {
            let Some(at) = desk.some_open() else { break };
            let pair = desk.open[at];
            match desk.random.between(0, 9) {
                0..=5 => {
                    let part = desk.random.between(1, 1 + pair.rest / 2);
                    desk.settle(at, part);
                }
                6 => desk.hold(pair.id),
                7 => desk.call(Call::Hold { id: pair.id, side: 1 + pair.id % 2, on: 0 }),
                8 => desk.cancel(at),
                _ => desk.work_on(at),
            }
        }
        desk.close();
    }
}

/// Each call with values at the ends of their ranges and beyond them, up to 11 digits.
pub fn ends_of_ranges(desk: &mut Desk) {
    for n in 0..desk.random.between(20, 120) {
        let call = in_range(desk, 1 + n / 2);
        let mut numbers = numbers_of(call);
        let random = &mut desk.random;
        for _ in 0..random.between(0, 2) {
            let column = random.place(ENDS.len());
            if USERS[1 + column].contains(&(b'0' + numbers[0] as u8)) {
                numbers[1 + column] = if random.once_in(4) { random.pick(&BEYOND) } else { random.pick(ENDS[column]) };
            }
        }
        desk.today += u64::from(matches!(call, Call::Close));
        desk.line(numbers);
    }
}

/// A call on an id with values in their ranges.
fn in_range(desk: &mut Desk, id: u64) -> Call {
    let random = &mut desk.random;
    match random.between(0, 9) {
        0..=3 => {
            let (kind, amount) = (random.between(1, 4), random.between(1, 9));
            Call::Enter(desk.entry(id, kind, desk.today, amount))
        }
        4 => Call::Hold { id, side: random.between(1, 2), on: random.between(0, 1) },
        5 => Call::Lack { id, lack: random.between(0, 2) },
        6 | 7 => Call::Settle { id, part: random.between(0, 9) },
        8 => Call::Cancel { id },
        _ => Call::Close,
    }
}

/// Ids that rise, stand, fall and jump to the last; refused enters whose id is given again.
pub fn spent_ids(desk: &mut Desk) {
    let mut id: u64 = 0;
    for _ in 0..desk.random.between(8, 60) {
        let random = &mut desk.random;
        id = match random.between(0, 15) {
            0 => random.pick(&[65_534, 65_535, 65_536, 0]),
            1 | 2 => id,
            3 => id.saturating_sub(random.between(1, 3)),
            4 => id + random.between(2, 500),
            _ => id + 1,
        };
        let kind = random.pick(&[1, 2, 3, 4, 5]);
        let isd = desk.today.saturating_sub(random.between(0, 1));
        desk.offer(id, kind, isd, 100);
        match desk.random.between(0, 7) {
            0 => desk.call(Call::Settle { id, part: 100 }),
            1 => desk.call(Call::Cancel { id }),
            2 => desk.hold(id),
            3 => desk.close(),
            _ => {}
        }
    }
}

/// Pairs of the largest amounts, late by up to 63 days, so many that a rate's product passes 64 bits, and no more than a
/// file holds. Day 1 may have one cent of ISD value alone, and so a duration of over 50 bits.
pub fn large_values(desk: &mut Desk) {
    for _ in 0..desk.random.between(61, 63) {
        desk.close();
    }
    let all_on_day_0 = desk.random.once_in(2);
    desk.enter(1, 1);
    for n in 0..desk.random.between(1_470, 1_600) {
        let kind = desk.random.pick(&[1, 1, 2, 3, 4]);
        let isd = u64::from(!all_on_day_0 && desk.random.once_in(9));
        let less = desk.random.between(0, 3);
        desk.enter_kind(kind, isd, 10_000_000_000 - less);
        if n >= 1_022 {
            let at = desk.open.len() - 1;
            desk.cancel(at);
        }
    }
    for _ in 0..desk.random.between(0, 2) {
        let Some(at) = desk.some_open() else { break };
        let rest = desk.open[at].rest;
        desk.settle(at, rest);
    }
    desk.close();
}
