//! What the four programs write. The table and the fault stand in docs/RULES.md, 'A call file'; the columns of reports,
//! answers and lists in the README.

use super::book::{rows_of, Book, Row, Share, DAYS};
use super::calls::Call;
use super::lines::{is_faulty, lines_of, Line};
use super::mistakes::{Mistake, Planted};
use super::participants::{list, summaries_of, Measure, Participant, Summaries};
use super::reports::report;
use std::fmt::Write;
use std::ops::RangeInclusive;

const FAULT: &str = "fault\n10\n";
const REFUSED_RUN: &str = "refused\n9\n";

/// What came of a line: the call that was made and the number that came back, or the place of the first wrong byte.
pub enum Answered {
    Made(Call, u64),
    Wrong(usize),
}

/// A file that is not faulty, all its calls made.
pub struct Replayed {
    pub lines: Vec<Answered>,
    pub rows: Vec<[Row; 10]>,
    summaries: Vec<Summaries>,
    planted: Planted,
}

pub fn replay(file: &[u8], planted: Planted) -> Option<Replayed> {
    if is_faulty(file, planted) {
        return None;
    }
    let mut book = Book::fresh(planted);
    let made = |line| match line {
        Line::Correct(call) => Answered::Made(call, book.make(call)),
        Line::Wrong(place) => Answered::Wrong(place),
    };
    let lines = lines_of(file, planted).into_iter().map(made).collect();
    let figures = |shares: Vec<Share>| (rows_of(&shares, planted), summaries_of(&shares, planted));
    let (rows, summaries) = (0..book.closed()).map(|day| figures(book.shares(day))).unzip();
    Some(Replayed { lines, rows, summaries, planted })
}

/// The table: a line for each closed day over all categories, then the counts.
pub fn table(replayed: Option<&Replayed>) -> String {
    let Some(replayed) = replayed else { return FAULT.to_string() };
    let mut text = "day,total_n,settled_n,sec_n,cash_n,total_v,settled_v,sec_v,cash_v,isd_v\n".to_string();
    for (day, rows) in replayed.rows.iter().enumerate() {
        writeln!(text, "{day},{}", fields(&rows[0])).expect("text");
    }
    let accepted = replayed.lines.iter().filter(|line| matches!(line, Answered::Made(_, 0))).count();
    text + &format!("accepted,refused\n{accepted},{}\n", replayed.lines.len() - accepted)
}

/// The reports of categories 0 to 9 over a run of days, or over all that are closed.
pub fn reports(replayed: Option<&Replayed>, run: Option<(u64, u64)>) -> String {
    let Some(replayed) = replayed else { return FAULT.to_string() };
    let mut text =
        "first,last,category,total_n,settled_n,sec_n,cash_n,total_v,settled_v,sec_v,cash_v,isd_v,rate_n,rate_v,duration\n"
            .to_string();
    let Some(days) = closed_run(replayed, run) else { return text + REFUSED_RUN };
    let (first, last) = (days.start(), days.end());
    for category in 0..10 {
        let rows: Vec<Row> = replayed.rows[days.clone()].iter().map(|rows| rows[category]).collect();
        let given = report(&rows, replayed.planted);
        let duration = given.duration.map_or("-".to_string(), |hundredths| hundredths.to_string());
        let rates = format!("{},{},{duration}", given.rate_by_number, given.rate_by_value);
        writeln!(text, "{first},{last},{category},{},{rates}", fields(&given.sums)).expect("text");
    }
    text
}

/// The lists over a run of days, or over all that are closed: by number, and then by value.
pub fn lists(replayed: Option<&Replayed>, run: Option<(u64, u64)>) -> String {
    let Some(replayed) = replayed else { return FAULT.to_string() };
    let text = "measure,code,fails,total\n".to_string();
    let run = replayed.planted.right_or(Mistake::OpenDaysPassedOver, run, closed_days_of(replayed, run));
    let Some(days) = closed_run(replayed, run) else { return text + REFUSED_RUN };
    let listed = |measure| list(&replayed.summaries[days.clone()], measure, replayed.planted);
    text + &list_lines("number", listed(Measure::Number)) + &list_lines("value", listed(Measure::Value))
}

/// The lines of a list.
fn list_lines(measure: &str, listed: Vec<Participant>) -> String {
    let line = |Participant { code, rate }: Participant| format!("{measure},{code},{},{}\n", rate.fails, rate.total);
    listed.into_iter().map(line).collect()
}

/// What came of each line.
pub fn answers(replayed: Option<&Replayed>) -> String {
    let Some(replayed) = replayed else { return FAULT.to_string() };
    let mut text = "line,answer,place\n".to_string();
    for (line, answered) in (1..).zip(&replayed.lines) {
        match answered {
            Answered::Made(_, number) => writeln!(text, "{line},{number},-"),
            Answered::Wrong(place) => writeln!(text, "{line},wrong,{place}"),
        }
        .expect("text");
    }
    text
}

/// A run of days, or all that are closed; none where it is refused: the first after the last, or the last not closed.
fn closed_run(replayed: &Replayed, run: Option<(u64, u64)>) -> Option<RangeInclusive<usize>> {
    let closed = replayed.rows.len() as u64;
    let (first, last) = run.unwrap_or((0, closed.saturating_sub(1)));
    (first <= last && last < closed).then_some(first as usize..=last as usize)
}

/// A misreading: a run of days up to the last closed one.
fn closed_days_of(replayed: &Replayed, run: Option<(u64, u64)>) -> Option<(u64, u64)> {
    let closed = replayed.rows.len() as u64;
    run.map(|(first, last)| (first, last.min(closed.saturating_sub(1))))
}

/// A day as a program is given it: each number over 63 is a day that no book closes.
pub fn parse_day(digits: &str) -> u64 {
    digits.parse().map_or(DAYS, |day: u64| day.min(DAYS))
}

/// The nine figures of a row, in the table's order.
fn fields(row: &Row) -> String {
    let figures = [row.total(), row.settled, row.securities, row.cash];
    let numbers = figures.iter().map(|figure| figure.number);
    let values = figures.iter().map(|figure| figure.value);
    let all: Vec<String> = numbers.chain(values).chain([row.isd_value]).map(|n| n.to_string()).collect();
    all.join(",")
}
