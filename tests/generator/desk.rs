//! A desk that writes call lines and follows roughly what is open, so that most of what it writes is accepted.

use super::random::Random;
use crate::reference::book::LARGEST_CODE;
use crate::reference::calls::{Call, Entry};
use crate::reference::lines::{COLUMNS, NAMES};

/// A pair that is thought to be open.
#[derive(Clone, Copy)]
pub struct Open {
    pub id: u64,
    pub isd: u64,
    pub rest: u64,
}

pub struct Desk {
    pub random: Random,
    pub text: String,
    pub today: u64,
    pub last_id: u64,
    pub open: Vec<Open>,
    participants: Vec<u64>,
}

impl Desk {
    pub fn new(mut random: Random) -> Desk {
        let participants = some_participants(&mut random);
        Desk { random, text: NAMES.to_string(), today: 0, last_id: 0, open: Vec::new(), participants }
    }

    /// The line of a call.
    pub fn call(&mut self, call: Call) {
        self.line(numbers_of(call));
    }

    /// One line of numbers, whatever they are.
    pub fn line(&mut self, numbers: [u64; COLUMNS]) {
        let fields: Vec<String> = numbers.iter().map(u64::to_string).collect();
        self.text += &fields.join(",");
        self.text.push('\n');
    }

    pub fn enter(&mut self, isd: u64, amount: u64) {
        let kind = self.random.between(1, 4);
        self.enter_kind(kind, isd, amount);
    }

    pub fn enter_kind(&mut self, kind: u64, isd: u64, amount: u64) {
        let entry = self.entry(self.last_id + 1, kind, isd, amount);
        self.follow(entry);
    }

    /// An enter of the next id from one participant to another.
    pub fn enter_between(&mut self, [deliverer, receiver]: [u64; 2], isd: u64, amount: u64) {
        let kind = self.random.between(1, 4);
        let entry = Entry { deliverer, receiver, ..self.entry(self.last_id + 1, kind, isd, amount) };
        self.follow(entry);
    }

    /// An enter of the next id, which is thought to be accepted.
    fn follow(&mut self, entry: Entry) {
        self.call(Call::Enter(entry));
        self.last_id = entry.id;
        self.open.push(Open { id: entry.id, isd: entry.isd, rest: entry.amount });
    }

    /// An enter of any id, which is not followed.
    pub fn offer(&mut self, id: u64, kind: u64, isd: u64, amount: u64) {
        let entry = self.entry(id, kind, isd, amount);
        self.call(Call::Enter(entry));
    }

    /// A pair to enter; category 1 comes more often than the others, so that one category has much.
    pub fn entry(&mut self, id: u64, kind: u64, isd: u64, amount: u64) -> Entry {
        let category = self.random.between(0, 11).clamp(1, 9);
        let side = self.random.between(1, 2);
        let (deliverer, receiver) = (self.participant(), self.participant());
        Entry { id, kind, category, isd, side, amount, deliverer, receiver }
    }

    /// A participant of the file; the first three come more often, so that a few have much.
    fn participant(&mut self) -> u64 {
        let all = self.participants.len();
        let among = if self.random.once_in(2) { all.min(3) } else { all };
        self.participants[self.random.place(among)]
    }

    pub fn hold(&mut self, id: u64) {
        let (side, on) = (self.random.between(1, 2), u64::from(!self.random.once_in(3)));
        self.call(Call::Hold { id, side, on });
    }

    pub fn lack(&mut self, id: u64) {
        let lack = self.random.between(0, 2);
        self.call(Call::Lack { id, lack });
    }

    /// A part of the rest of the pair at a place, which leaves the list with its last part.
    pub fn settle(&mut self, at: usize, part: u64) {
        let pair = self.open[at];
        self.call(Call::Settle { id: pair.id, part });
        if part < pair.rest {
            self.open[at].rest -= part;
        } else {
            self.open.swap_remove(at);
        }
    }

    pub fn cancel(&mut self, at: usize) {
        let pair = self.open.swap_remove(at);
        self.call(Call::Cancel { id: pair.id });
    }

    pub fn close(&mut self) {
        self.call(Call::Close);
        self.today += 1;
    }

    /// The place of some pair that is thought to be open.
    pub fn some_open(&mut self) -> Option<usize> {
        (!self.open.is_empty()).then(|| self.random.place(self.open.len()))
    }

    /// A call other than an enter or a close on an open pair: mostly a part or the rest settled.
    pub fn work_on(&mut self, at: usize) {
        let pair = self.open[at];
        match self.random.between(0, 9) {
            0 | 1 => self.hold(pair.id),
            2 => self.lack(pair.id),
            3 => self.cancel(at),
            4..=6 => self.settle(at, pair.rest),
            _ => {
                let part = self.random.between(1, pair.rest);
                self.settle(at, part);
            }
        }
    }

    /// An amount of any size up to the largest, at times round.
    pub fn amount(&mut self) -> u64 {
        let top = self.random.pick(&[5, 100, 10_000, 1_000_000, 100_000_000, 10_000_000_000]);
        match self.random.once_in(8) {
            true => top,
            false => self.random.between(1, top),
        }
    }
}

/// The numbers of a call's line, by column: 0 where the call uses none.
pub fn numbers_of(call: Call) -> [u64; COLUMNS] {
    let other = |number, id, side, amount| [number, id, 0, 0, 0, side, amount, 0, 0];
    match call {
        Call::Enter(Entry { id, kind, category, isd, side, amount, deliverer, receiver }) => {
            [1, id, kind, category, isd, side, amount, deliverer, receiver]
        }
        Call::Hold { id, side, on } => other(2, id, side, on),
        Call::Lack { id, lack } => other(3, id, lack, 0),
        Call::Settle { id, part } => other(4, id, 0, part),
        Call::Cancel { id } => other(5, id, 0, 0),
        Call::Close => other(6, 0, 0, 0),
    }
}

/// The participants of a file: all of them or a few, with consecutive codes from any one on, 1 following the last.
fn some_participants(random: &mut Random) -> Vec<u64> {
    let (before, count) = (random.between(0, LARGEST_CODE - 1), random.pick(&[2, 4, 12, LARGEST_CODE, LARGEST_CODE]));
    (0..count).map(|n| 1 + (before + n) % LARGEST_CODE).collect()
}
