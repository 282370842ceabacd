//! The daily balance of a file's rows, with closed days, newly due, cancelled and part-settled pairs read off
//! the calls and their answers alone. docs/RULES.md, 'The daily balance'.

use crate::reference::calls::{Call, Entry};

/// A number of SIs, and a value in cents.
pub type Measures = [u64; 2];

/// What the balance needs of a row.
#[derive(Clone, Copy, Default)]
pub struct RowFigures {
    pub settled: Measures,
    pub securities: Measures,
    pub cash: Measures,
}

/// An accepted call with the day that it falls on: the count of accepted closes before it.
struct Accepted {
    call: Call,
    day: u64,
}

/// What the calls give for a day and category.
#[derive(Clone, Copy, Default)]
struct Readings {
    newly_due: Measures,
    cancelled: Measures,
    part_settled: u64,
}

/// The rows of the closed days, by category 0 to 9, against the calls, each with whether it was accepted: the first day and
/// category that do not balance, if any.
pub fn unbalanced(calls: &[(Call, bool)], rows: &[[RowFigures; 10]]) -> Option<String> {
    let accepted = accepted_of(calls);
    let closed = accepted.iter().filter(|made| matches!(made.call, Call::Close)).count();
    if closed != rows.len() {
        return Some(format!("{closed} closed days by the calls, {} rows", rows.len()));
    }
    let readings = readings_of(&accepted, closed);
    let no_rows = [RowFigures::default(); 10];
    let days_and_categories = (0..closed).flat_map(|day| (0..10).map(move |category| (day, category)));
    days_and_categories
        .filter_map(|(day, category)| {
            let before = if day == 0 { &no_rows } else { &rows[day - 1] };
            let equation = |measure| equation(&rows[day][category], &before[category], &readings[day][category], measure);
            let (number, value) = (equation(0), equation(1));
            let balances = number.0 == number.1 && value.0 == value.1;
            (!balances).then(|| format!("day {day}, category {category}: {number:?} in number, {value:?} in cents"))
        })
        .next()
}

/// Both sides: settled + securities fails + cash fails + cancelled, and previous day's fails + newly due, with the part-settled
/// pairs in number.
fn equation(row: &RowFigures, before: &RowFigures, readings: &Readings, measure: usize) -> (u64, u64) {
    let part_settled = if measure == 0 { readings.part_settled } else { 0 };
    (
        row.settled[measure] + row.securities[measure] + row.cash[measure] + readings.cancelled[measure],
        before.securities[measure] + before.cash[measure] + readings.newly_due[measure] + part_settled,
    )
}

fn accepted_of(calls: &[(Call, bool)]) -> Vec<Accepted> {
    let mut today = 0;
    let mut accepted = Vec::new();
    for &(call, _) in calls.iter().filter(|&&(_, accepted)| accepted) {
        accepted.push(Accepted { call, day: today });
        today += u64::from(matches!(call, Call::Close));
    }
    accepted
}

/// The readings of each closed day, by category.
fn readings_of(accepted: &[Accepted], closed: usize) -> Vec<[Readings; 10]> {
    let mut sums = vec![[Readings::default(); 10]; closed];
    for made in accepted {
        let Call::Enter(entry) = made.call else { continue };
        let own: Vec<&Accepted> = accepted.iter().filter(|other| other.call.id() == Some(entry.id)).collect();
        for (day, by_category) in (0..).zip(&mut sums) {
            let pair = readings_of_pair(&entry, &own, day);
            for category in [0, entry.category as usize] {
                let sum = &mut by_category[category];
                for measure in [0, 1] {
                    sum.newly_due[measure] += pair.newly_due[measure];
                    sum.cancelled[measure] += pair.cancelled[measure];
                }
                sum.part_settled += pair.part_settled;
            }
        }
    }
    sums
}

/// What one pair gives on a day, from the accepted calls of its id in their order.
fn readings_of_pair(entry: &Entry, own: &[&Accepted], day: u64) -> Readings {
    let is_cancel = |made: &Accepted| matches!(made.call, Call::Cancel { .. });
    let cancelled_before = own.iter().any(|made| is_cancel(made) && made.day < day);
    let cancel = own.iter().position(|made| is_cancel(made) && made.day == day);
    let settles = own.iter().any(|made| made.day == day && matches!(made.call, Call::Settle { .. }));
    let until_close = own.iter().take_while(|made| made.day <= day).count();
    let mut readings = Readings::default();
    if entry.isd == day && !cancelled_before {
        readings.newly_due = [2, 2 * entry.amount];
    }
    if let Some(at) = cancel.filter(|_| entry.isd <= day) {
        readings.cancelled = [2, 2 * rest(entry, &own[..at])];
    }
    if settles && rest(entry, &own[..until_close]) > 0 {
        readings.part_settled = 2;
    }
    readings
}

/// The amount less the parts of these settles.
fn rest(entry: &Entry, own: &[&Accepted]) -> u64 {
    let parts = own.iter().map(|made| if let Call::Settle { part, .. } = made.call { part } else { 0 });
    entry.amount.saturating_sub(parts.sum())
}
