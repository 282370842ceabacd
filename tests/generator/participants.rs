//! Bookings in which the lists of participants show: rates that are equal, and rates that nearly are.

use super::desk::Desk;
use crate::reference::book::LARGEST_CODE;

/// Pairs that settle and pairs that fail, of one couple on one day; a file has the first few of these.
const PROPORTIONS: [[u64; 2]; 6] = [[1, 1], [0, 1], [1, 0], [2, 1], [1, 2], [3, 1]];

/// Two participants, or one at both ends, that have pairs with each other alone, so that these make their rates.
struct Couple {
    ends: [u64; 2],
    settled: u64,
    failing: u64,
    amount: u64,
}

/// Participants that have few rates among them, so that all are level, or many are level with the tenth; those of one rate have
/// different totals. Some have no fails, and some no pair that is due.
pub fn level_rates(desk: &mut Desk) {
    let rates = desk.random.between(1, PROPORTIONS.len() as u64) as usize;
    let couples: Vec<Couple> = ends_of_couples(desk).into_iter().map(|ends| couple(desk, ends, rates)).collect();
    for _ in 0..desk.random.between(1, 4) {
        for couple in &couples {
            day_of_couple(desk, couple);
        }
        desk.enter(63, 100);
        desk.close();
        // What failed is cancelled before the next close, so that each day has the same rates.
        while !desk.open.is_empty() {
            desk.cancel(0);
        }
    }
}

/// A couple with one of the file's first few rates.
fn couple(desk: &mut Desk, ends: [u64; 2], rates: usize) -> Couple {
    let [settled, failing] = PROPORTIONS[desk.random.place(rates)];
    Couple { ends, settled, failing, amount: desk.amount() }
}

/// The pairs of a couple that are due today, once or two times as many.
fn day_of_couple(desk: &mut Desk, couple: &Couple) {
    let times = desk.random.between(1, 2);
    for _ in 0..times * couple.failing {
        desk.enter_between(couple.ends, desk.today, couple.amount);
    }
    for _ in 0..times * couple.settled {
        desk.enter_between(couple.ends, desk.today, couple.amount);
        desk.settle(desk.open.len() - 1, couple.amount);
    }
}

/// Rates that differ by less than a hundredth of a percent, and at times by less than floating point numbers can
/// tell apart; of the largest amounts, so that the products of a comparison pass 64 bits. By number all are level.
pub fn near_rates(desk: &mut Desk) {
    for _ in 0..desk.random.between(0, 3) {
        desk.close();
    }
    let isd = desk.random.between(0, desk.today);
    let part = desk.random.pick(&[1, 1, 1_000_000, 3_333_333_333, 5_000_000_000]);
    for ends in ends_of_couples(desk) {
        let (less, more) = (desk.random.between(0, 9), desk.random.between(0, 1));
        desk.enter_between(ends, isd, 10_000_000_000 - less);
        desk.settle(desk.open.len() - 1, part + more);
    }
    for _ in 0..desk.random.between(1, 3) {
        desk.close();
    }
}

/// Some participants in couples, one in three by itself, in an order that is not that of their codes.
fn ends_of_couples(desk: &mut Desk) -> Vec<[u64; 2]> {
    let count = desk.random.pick(&[5, 9, 10, 11, 12, 20, 40]);
    let (before, step) = (desk.random.between(0, LARGEST_CODE - 1), desk.random.pick(&[1, 7, 13, 39]));
    let mut codes = (0..count).map(|n| 1 + (before + step * n) % LARGEST_CODE);
    let mut couples = Vec::new();
    while let Some(one) = codes.next() {
        let other = if desk.random.once_in(3) { None } else { codes.next() };
        couples.push([one, other.unwrap_or(one)]);
    }
    couples
}
