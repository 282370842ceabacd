//! Reports over runs of days. docs/RULES.md, 'A report'.

use super::book::Row;
use super::mistakes::{Mistake, Planted};

/// The sums of the rows of a run of days, the rates in hundredths of a percent and the duration in hundredths of a day.
pub struct Report {
    pub sums: Row,
    pub rate_by_number: u64,
    pub rate_by_value: u64,
    pub duration: Option<u64>,
}

/// The report over the rows of a run of days.
pub fn report(rows: &[Row], planted: Planted) -> Report {
    let mut sums = Row::default();
    for &row in &rows[..rows.len() - usize::from(planted.has(Mistake::LastDayLeftOut))] {
        sums += row;
    }
    let (fails, total) = (sums.fails(), sums.total());
    let averaged = planted.right_or(Mistake::AverageOfDurations, duration(&sums, planted), average_of_durations(rows));
    Report {
        sums,
        rate_by_number: rate(fails.number, total.number, planted),
        rate_by_value: rate(fails.value, total.value, planted),
        duration: planted.right_or(Mistake::AbsentDuration0, averaged, averaged.or(Some(0))),
    }
}

/// Fails over total.
pub fn rate(fails: u64, total: u64, planted: Planted) -> u64 {
    if total == 0 {
        return 0;
    }
    if planted.has(Mistake::RateIn64Bits) {
        return fails.wrapping_mul(10_000).wrapping_add(total / 2) / total;
    }
    rounded(u128::from(fails) * 10_000, u128::from(total), planted)
}

/// Fail values over ISD values, absent where these are 0.
fn duration(sums: &Row, planted: Planted) -> Option<u64> {
    (sums.isd_value > 0).then(|| rounded(u128::from(sums.fails().value) * 100, u128::from(sums.isd_value), planted))
}

/// A misreading: the mean of the days' own durations.
fn average_of_durations(rows: &[Row]) -> Option<u64> {
    let each: Vec<u64> = rows.iter().filter_map(|row| duration(row, Planted::NONE)).collect();
    (!each.is_empty()).then(|| each.iter().sum::<u64>() / each.len() as u64)
}

/// A quotient, half up.
fn rounded(top: u128, bottom: u128, planted: Planted) -> u64 {
    let half_more = planted.right_or(Mistake::HalfDown, bottom, bottom - 1);
    u64::try_from((2 * top + half_more) / (2 * bottom)).expect("a quotient of 64 bits")
}
