//! The book as the calls that it accepted. What a pair is on a day, and what a row has, is recounted from them each time.

use super::calls::{Call, Entry};
use super::mistakes::{Mistake, Planted};
use std::ops::AddAssign;

pub const DAYS: u64 = 64;
const OPEN_AT_MOST: usize = 1024;
pub const LARGEST_CODE: u64 = 40;

/// SIs and their value in cents.
#[derive(Clone, Copy, Default)]
pub struct Figure {
    pub number: u64,
    pub value: u64,
}

/// The figures of a day and category; total is their sum.
#[derive(Clone, Copy, Default)]
pub struct Row {
    pub settled: Figure,
    pub securities: Figure,
    pub cash: Figure,
    pub isd_value: u64,
}

/// What a pair gives to the figures of a closed day.
pub struct Share {
    pub entry: Entry,
    /// Whether the pair was matched later, so that its enter changed the day when it was closed already.
    pub charged_late: bool,
    pub row: Row,
}

/// A pair: its accepted enter, the day it fell on, and the accepted calls of its id since, each with its day.
struct Pair {
    entry: Entry,
    matched: u64,
    calls: Vec<(u64, Call)>,
}

/// How a pair stands after some of its calls.
struct Standing {
    rest: u64,
    deliverer_holds: bool,
    receiver_holds: bool,
    lack: u64,
    cancelled: Option<u64>,
}

/// Where the two SIs of a fail go.
#[derive(Clone, Copy)]
enum Sides {
    Securities,
    Cash,
    OneEach,
}

pub struct Book {
    pairs: Vec<Pair>,
    today: u64,
    planted: Planted,
    highest_refused: u64,
}

impl AddAssign for Figure {
    fn add_assign(&mut self, other: Figure) {
        self.number += other.number;
        self.value += other.value;
    }
}

impl AddAssign for Row {
    fn add_assign(&mut self, other: Row) {
        self.settled += other.settled;
        self.securities += other.securities;
        self.cash += other.cash;
        self.isd_value += other.isd_value;
    }
}

impl Row {
    pub fn fails(&self) -> Figure {
        let mut fails = self.securities;
        fails += self.cash;
        fails
    }

    pub fn total(&self) -> Figure {
        let mut total = self.fails();
        total += self.settled;
        total
    }
}

impl Standing {
    fn is_open(&self) -> bool {
        self.rest > 0 && self.cancelled.is_none()
    }
}

/// docs/RULES.md, 'The pair'.
fn is_in_range(entry: &Entry, planted: Planted) -> bool {
    let largest = planted.right_or(Mistake::AmountOneMore, 10_000_000_000, 10_000_000_001);
    let side_unused = planted.has(Mistake::SideNotAlwaysGiven) && entry.kind >= 3 && entry.side == 0;
    (1..=65_535).contains(&entry.id)
        && (1..=4).contains(&entry.kind)
        && (1..=9).contains(&entry.category)
        && entry.isd < DAYS
        && ((1..=2).contains(&entry.side) || side_unused)
        && (1..=largest).contains(&entry.amount)
        && (is_code(entry.deliverer, planted) || planted.has(Mistake::DelivererNotChecked))
        && (is_code(entry.receiver, planted) || planted.has(Mistake::ReceiverNotChecked))
        && !(planted.has(Mistake::SameCodeRefused) && entry.deliverer == entry.receiver)
}

/// Whether a number is the code of a participant.
fn is_code(number: u64, planted: Planted) -> bool {
    let code = planted.right_or(Mistake::CodeCutToByte, number, number % 256);
    let first = planted.right_or(Mistake::Code0Accepted, 1, 0);
    let last = planted.right_or(Mistake::Code40Refused, LARGEST_CODE, LARGEST_CODE - 1);
    let last = planted.right_or(Mistake::Code41Accepted, last, last + 1);
    (first..=last).contains(&code)
}

impl Book {
    pub fn fresh(planted: Planted) -> Book {
        Book { pairs: Vec::new(), today: 0, planted, highest_refused: 0 }
    }

    /// Makes a call: 0, or the number by which it is refused.
    pub fn make(&mut self, call: Call) -> u64 {
        let number = self.refusal(&call);
        if number == 0 {
            self.keep(call);
        } else if let Call::Enter(entry) = call {
            self.highest_refused = self.highest_refused.max(entry.id);
        }
        number
    }

    fn keep(&mut self, call: Call) {
        match (call, call.id()) {
            (Call::Enter(entry), _) => self.pairs.push(Pair { entry, matched: self.today, calls: Vec::new() }),
            (_, Some(id)) => {
                let today = self.today;
                let pair = self.pairs.iter_mut().rev().find(|pair| pair.entry.id == id);
                pair.expect("an open pair").calls.push((today, call));
            }
            (_, None) => self.today += 1,
        }
    }

    // ---- numbers given back

    /// The lowest number that applies, or 0.
    fn refusal(&self, call: &Call) -> u64 {
        let mut numbers = self.numbers(call);
        if self.planted.has(Mistake::ValuesBeforeFinished) && numbers.contains(&2) {
            numbers.retain(|&n| n == 2);
        }
        let chosen = self.planted.right_or(Mistake::HighestNumberFirst, numbers.iter().min(), numbers.iter().max());
        chosen.copied().unwrap_or(0)
    }

    /// All numbers whose condition applies.
    fn numbers(&self, call: &Call) -> Vec<u64> {
        let last_day = self.planted.has(Mistake::Day63NotClosed) && self.today == 63 && matches!(call, Call::Close);
        let mut numbers = vec![(1, self.today == DAYS || last_day)];
        match *call {
            Call::Enter(entry) => numbers.extend([
                (2, !is_in_range(&entry, self.planted)),
                (3, entry.id <= self.highest_spent()),
                (4, self.taken() >= self.planted.right_or(Mistake::FullAt1023, OPEN_AT_MOST, OPEN_AT_MOST - 1)),
            ]),
            Call::Hold { id, side, on } => {
                let bad_id = self.planted.has(Mistake::HoldIdOutOfRange) && !(1..=65_535).contains(&id);
                numbers.extend([(2, !(1..=2).contains(&side) || on > 1 || bad_id), (5, self.open(id).is_none())]);
            }
            Call::Lack { id, lack } => numbers.extend([(2, lack > 2), (5, self.open(id).is_none())]),
            Call::Settle { id, part } => numbers.extend(self.settle_numbers(id, part)),
            Call::Cancel { id } => numbers.push((5, self.open(id).is_none())),
            Call::Close => {}
        }
        numbers.iter().filter(|&&(_, applies)| applies).map(|&(number, _)| number).collect()
    }

    fn settle_numbers(&self, id: u64, part: u64) -> Vec<(u64, bool)> {
        let large = self.planted.has(Mistake::LargePartOutOfRange) && part > 10_000_000_000;
        let Some((pair, standing)) = self.open(id) else { return vec![(2, large), (5, true)] };
        let (one, other) = (standing.deliverer_holds, standing.receiver_holds);
        vec![
            (2, large),
            (6, self.today < pair.entry.isd && !self.planted.has(Mistake::SettledBeforeIsd)),
            (7, self.planted.right_or(Mistake::OneHoldDoesNotStop, one || other, one && other)),
            (8, part == 0 || part > standing.rest),
        ]
    }

    /// The highest id accepted.
    fn highest_spent(&self) -> u64 {
        let accepted = self.pairs.last().map_or(0, |pair| pair.entry.id);
        let spent = self.planted.right_or(Mistake::RefusedIdSpent, accepted, accepted.max(self.highest_refused));
        self.planted.right_or(Mistake::LastIdAgain, spent, spent.saturating_sub(1))
    }

    /// How many places are taken.
    fn taken(&self) -> usize {
        let since = self.planted.right_or(Mistake::PlaceFreeAtClose, self.today + 1, self.today);
        self.pairs.iter().filter(|pair| self.planted.has(Mistake::PlaceNeverFree) || self.was_open(pair, since)).count()
    }

    /// Whether a pair is open, or was until a call of this day or a later one.
    fn was_open(&self, pair: &Pair, since: u64) -> bool {
        let ended_since = pair.calls.last().is_some_and(|&(day, _)| day >= since);
        ended_since || self.standing(pair, self.today).is_open()
    }

    /// The open pair of an id.
    fn open(&self, id: u64) -> Option<(&Pair, Standing)> {
        let pair = self.pairs.iter().rev().find(|pair| pair.entry.id == id)?;
        Some((pair, self.standing(pair, self.today))).filter(|(_, standing)| standing.is_open())
    }

    // ---- a pair

    /// How a pair stands after its calls up to the end of a day.
    fn standing(&self, pair: &Pair, day: u64) -> Standing {
        let mut standing =
            Standing { rest: pair.entry.amount, deliverer_holds: false, receiver_holds: false, lack: 0, cancelled: None };
        for &(on, call) in pair.calls.iter().filter(|&&(on, _)| on <= day) {
            match call {
                Call::Hold { .. } if self.planted.has(Mistake::HoldEndsAtClose) && on < day => {}
                Call::Lack { .. } if self.planted.has(Mistake::LackEndsAtClose) && on < day => {}
                Call::Hold { side: 1, on, .. } => standing.deliverer_holds = on == 1,
                Call::Hold { on, .. } => standing.receiver_holds = on == 1,
                Call::Lack { lack, .. } => standing.lack = lack,
                Call::Settle { part, .. } => standing.rest -= part,
                Call::Cancel { .. } => standing.cancelled = Some(on),
                Call::Enter(_) | Call::Close => {}
            }
        }
        standing
    }

    /// What a pair gives to the row of a day, which is closed.
    fn share(&self, pair: &Pair, day: u64) -> Row {
        let mut row = Row { settled: self.settled_on(pair, day), ..Row::default() };
        let missed = pair.entry.isd..pair.matched;
        let once_more = self.planted.has(Mistake::LateOnMatchingDayToo) && !missed.is_empty() && day == pair.matched;
        if missed.contains(&day) && !self.planted.has(Mistake::LateFromMatchingDay) || once_more {
            row += self.late_fail(pair, day);
        }
        if day >= pair.matched && day >= pair.entry.isd {
            row += self.fail_at_close(pair, day);
        }
        row
    }

    /// The same, with the mistakes that are made in a row.
    fn spoilt(&self, row: Row, day: u64) -> Row {
        let mut spoilt = row;
        if self.planted.has(Mistake::PartSettledOnce) && row.fails().number > 0 {
            spoilt.settled.number = 0;
        }
        if self.planted.has(Mistake::NothingSettledOnDay0) && day == 0 {
            spoilt.settled = Figure::default();
        }
        if self.planted.has(Mistake::NoFailsOnLastDay) && day + 1 == self.today {
            spoilt = Row { settled: row.settled, ..Row::default() };
        }
        spoilt
    }

    /// The parts settled on a day: 2 SIs once, and twice their value.
    fn settled_on(&self, pair: &Pair, day: u64) -> Figure {
        let parts: Vec<u64> =
            pair.calls.iter().filter(|&&(on, _)| on == day).filter_map(|&(_, call)| part_of(call)).collect();
        let cancelled = self.standing(pair, day).cancelled == Some(day);
        if parts.is_empty() || cancelled && self.planted.has(Mistake::SettledPartCancelled) {
            return Figure::default();
        }
        let counted = self.planted.right_or(Mistake::PartsAsInstructions, 1, parts.len() as u64);
        Figure { number: 2 * counted, value: 2 * parts.iter().sum::<u64>() }
    }

    /// A day from the ISD to the day before the matching: both SIs fail at full value.
    fn late_fail(&self, pair: &Pair, day: u64) -> Row {
        let to = match pair.entry.kind {
            _ if self.planted.has(Mistake::LateByRulesAToF) => self.sides(pair, day),
            2 if self.planted.has(Mistake::LateKind2OneEach) => Sides::OneEach,
            3 => Sides::Securities,
            4 => Sides::Cash,
            _ => one_side(pair.entry.side == 1),
        };
        let isd_counted = !self.planted.has(Mistake::LateIsdValueOnMatchingDay) && day == pair.entry.isd;
        self.fail(to, pair.entry.amount, if isd_counted { pair.entry.amount } else { 0 })
    }

    /// A close: an open pair that is due fails with its rest.
    fn fail_at_close(&self, pair: &Pair, day: u64) -> Row {
        let standing = self.standing(pair, day);
        let cancelled_today = self.planted.has(Mistake::CancelledStillFails) && standing.cancelled == Some(day);
        let too_early = self.planted.has(Mistake::NotFailingOnIsd) && day == pair.entry.isd;
        if too_early || standing.rest == 0 || !(standing.is_open() || cancelled_today) {
            return Row::default();
        }
        let moved = self.planted.has(Mistake::LateIsdValueOnMatchingDay) && day == pair.matched && pair.entry.isd < day;
        let isd_value = match day == pair.entry.isd || moved {
            true => self.planted.right_or(Mistake::IsdValueAtFullAmount, standing.rest, pair.entry.amount),
            false => 0,
        };
        let value = self.planted.right_or(Mistake::FailsAtFullAmount, standing.rest, pair.entry.amount);
        self.fail(self.sides(pair, day), value, isd_value)
    }

    /// Both SIs to a side, or one and its value to each.
    fn fail(&self, to: Sides, value: u64, isd_value: u64) -> Row {
        let both = Figure { number: 2, value: 2 * value };
        let one = self.planted.right_or(Mistake::BothHoldsInFull, Figure { number: 1, value }, both);
        let (securities, cash) = match to {
            Sides::Securities => (both, Figure::default()),
            Sides::Cash => (Figure::default(), both),
            Sides::OneEach => (one, one),
        };
        Row { settled: Figure::default(), securities, cash, isd_value: 2 * isd_value }
    }

    /// The side of a fail at close, the first that applies: docs/RULES.md, rules a to f.
    fn sides(&self, pair: &Pair, day: u64) -> Sides {
        use Sides::{Cash, OneEach, Securities};
        let standing = self.standing(pair, day);
        let kind = pair.entry.kind;
        let holds = u64::from(standing.deliverer_holds) + u64::from(standing.receiver_holds);
        let for_kind_2 = self.planted.right_or(Mistake::Kind2NeedsBothHolds, 1, 2);
        let planted = self.planted;
        if kind == 3 {
            planted.right_or(Mistake::RuleAToCash, Securities, Cash)
        } else if kind == 4 {
            planted.right_or(Mistake::RuleBToSecurities, Cash, Securities)
        } else if planted.has(Mistake::LackBeforeHolds) && standing.lack != 0 {
            one_side(standing.lack == 1)
        } else if kind == 1 && holds == 2 || kind == 2 && holds >= for_kind_2 {
            planted.right_or(Mistake::RuleCToSecurities, OneEach, Securities)
        } else if kind == 1 && holds == 1 {
            one_side(standing.deliverer_holds != planted.has(Mistake::RuleDOtherSide))
        } else if standing.lack != 0 {
            one_side((standing.lack == 1) != planted.has(Mistake::RuleEOtherSide))
        } else {
            planted.right_or(Mistake::RuleFToCash, Securities, Cash)
        }
    }

    // ---- closed days

    /// How many days are closed.
    pub fn closed(&self) -> u64 {
        self.planted.right_or(Mistake::LastRowNotGiven, self.today, self.today.saturating_sub(1))
    }

    /// What each pair gives on a closed day.
    pub fn shares(&self, day: u64) -> Vec<Share> {
        let share_of = |pair: &Pair| Share {
            entry: pair.entry,
            charged_late: day < pair.matched,
            row: self.spoilt(self.share(pair, day), day),
        };
        self.pairs.iter().map(share_of).collect()
    }
}

/// The rows of a day, by category 0 (all) to 9.
pub fn rows_of(shares: &[Share], planted: Planted) -> [Row; 10] {
    let mut rows = [Row::default(); 10];
    for Share { entry, row, .. } in shares {
        let category = entry.category as usize;
        rows[planted.right_or(Mistake::Category9As8, category, category.min(8))] += *row;
        if category < 9 || !planted.has(Mistake::Category9NotInAll) {
            rows[0] += *row;
        }
    }
    rows
}

/// Both SIs to securities, or to cash.
fn one_side(securities: bool) -> Sides {
    if securities {
        Sides::Securities
    } else {
        Sides::Cash
    }
}

/// The part that a settle takes.
fn part_of(call: Call) -> Option<u64> {
    match call {
        Call::Settle { part, .. } => Some(part),
        _ => None,
    }
}
