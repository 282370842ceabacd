//! A file through the proved programs and the reference: the texts of both, and the balance.

use crate::balance::{unbalanced, RowFigures};
use crate::programs::{Days, Text};
use crate::reference::book::{Figure, Row};
use crate::reference::calls::Call;
use crate::reference::lines::{lines_of, Line};
use crate::reference::mistakes::Planted;
use crate::reference::texts::{replay, Answered, Replayed};

/// Of a file up to so many bytes each beginning is tried, for the smallest one.
const TRIED_BY_BYTES: usize = 4096;

/// Reports are asked for each closed day, since the balance needs them; lists for days so far apart, to be done sooner.
const LISTED_DAYS_APART: usize = 4;

/// A file to compare: its name, its bytes, and a run of days to ask reports and lists for.
pub struct Sample {
    pub name: String,
    pub file: Vec<u8>,
    pub run: [String; 2],
}

/// What the proved programs wrote of a file, and what is wrong with that, if anything.
pub struct Compared {
    pub sample: Sample,
    pub written: Vec<(Text, Vec<u8>)>,
    pub difference: Option<Difference>,
}

/// A text that is not the reference's, with the first line where they part; or a day that is out of balance.
pub enum Difference {
    Texts(Text, String),
    Balance(String),
}

/// Table and answers; reports and lists over all closed days, over a run of days, and of closed days by themselves.
fn texts_of(sample: &Sample, closed: usize) -> Vec<Text> {
    let runs = [Days::AllClosed, Days::Run(sample.run.clone())];
    let mut texts = vec![Text::Table, Text::Answers];
    texts.extend(runs.iter().cloned().map(Text::Reports));
    texts.extend(runs.iter().cloned().map(Text::Lists));
    texts.extend((0..closed).map(|day| Text::Reports(Days::One(day))));
    texts.extend((0..closed).step_by(LISTED_DAYS_APART).map(|day| Text::Lists(Days::One(day))));
    texts
}

/// Compares one file.
pub fn compare(sample: Sample, planted: Planted) -> Compared {
    let replayed = replay(&sample.file, planted);
    let closed = replayed.as_ref().map_or(0, |replayed| replayed.rows.len());
    let written_of = |text: Text| {
        let written = text.by_program(&sample.file);
        (text, written)
    };
    let written: Vec<(Text, Vec<u8>)> = texts_of(&sample, closed).into_iter().map(written_of).collect();
    let difference = first_difference(&written, replayed.as_ref())
        .or_else(|| balance_of_programs(&sample.file, &written).map(Difference::Balance));
    Compared { sample, written, difference }
}

/// The first text that is not the reference's.
fn first_difference(written: &[(Text, Vec<u8>)], replayed: Option<&Replayed>) -> Option<Difference> {
    written.iter().find_map(|(text, program)| {
        let reference = text.by_reference(replayed);
        (*program != reference).then(|| Difference::Texts(text.clone(), parting_line(program, &reference)))
    })
}

/// The first line where two texts part.
fn parting_line(program: &[u8], reference: &[u8]) -> String {
    let lines = |text: &[u8]| -> Vec<String> { text.split(|&b| b == b'\n').map(|l| l.escape_ascii().to_string()).collect() };
    let (one, other) = (lines(program), lines(reference));
    let shown = |of: &[String], at: usize| of.get(at).map_or("no line".to_string(), |line| format!("'{line}'"));
    let at = (0..).find(|&at| one.get(at) != other.get(at)).expect("two texts that differ");
    format!("line {}: the program has {}, the reference {}", at + 1, shown(&one, at), shown(&other, at))
}

// ---- the balance

/// The daily balance of the proved programs: the calls of the file, and answers and rows as the programs wrote them.
fn balance_of_programs(file: &[u8], written: &[(Text, Vec<u8>)]) -> Option<String> {
    let mut accepted = Vec::new();
    let mut rows = Vec::new();
    for (text, program) in written {
        match text {
            Text::Answers if program.starts_with(b"fault") => return None,
            Text::Answers => accepted = accepted_lines(program),
            Text::Reports(Days::One(day)) => match rows_in(program) {
                Some(of_day) => rows.push(of_day),
                None => return Some(format!("the reports of day {day} are not ten lines of figures")),
            },
            Text::Table | Text::Reports(_) | Text::Lists(_) => {}
        }
    }
    let lines = lines_of(file, Planted::NONE);
    if lines.len() != accepted.len() {
        return Some(format!("{} lines, {} answers", lines.len(), accepted.len()));
    }
    unbalanced(&calls_with(lines, accepted), &rows)
}

/// Whether each line of a file was accepted, by the answers.
fn accepted_lines(answers: &[u8]) -> Vec<bool> {
    let answers = String::from_utf8_lossy(answers);
    answers.lines().skip(1).map(|line| line.split(',').nth(1) == Some("0")).collect()
}

/// The calls of some lines, each with whether its line was accepted.
fn calls_with(lines: Vec<Line>, accepted: Vec<bool>) -> Vec<(Call, bool)> {
    let call_of = |(line, accepted)| match line {
        Line::Correct(call) => Some((call, accepted)),
        Line::Wrong(_) => None,
    };
    lines.into_iter().zip(accepted).filter_map(call_of).collect()
}

/// The rows of a day, by category, in the reports of that day alone.
fn rows_in(reports: &[u8]) -> Option<[RowFigures; 10]> {
    let rows: Option<Vec<RowFigures>> = String::from_utf8_lossy(reports).lines().skip(1).map(row_in).collect();
    rows?.try_into().ok()
}

/// The row that a report of one day has in its line.
fn row_in(line: &str) -> Option<RowFigures> {
    let numbers: Vec<u64> = line.split(',').take(12).map(|field| field.parse().ok()).collect::<Option<_>>()?;
    let [_, _, _, _, settled_n, sec_n, cash_n, _, settled_v, sec_v, cash_v, _] = numbers[..] else { return None };
    Some(RowFigures { settled: [settled_n, settled_v], securities: [sec_n, sec_v], cash: [cash_n, cash_v] })
}

/// The daily balance of the reference, by its own answers and rows.
pub fn balance_of_reference(replayed: &Replayed) -> Option<String> {
    let made = |line: &Answered| match *line {
        Answered::Made(call, number) => Some((call, number == 0)),
        Answered::Wrong(_) => None,
    };
    let calls: Vec<(Call, bool)> = replayed.lines.iter().filter_map(made).collect();
    let both = |figure: Figure| [figure.number, figure.value];
    let given = |row: Row| RowFigures { settled: both(row.settled), securities: both(row.securities), cash: both(row.cash) };
    let rows: Vec<[RowFigures; 10]> = replayed.rows.iter().map(|rows| rows.map(given)).collect();
    unbalanced(&calls, &rows)
}

// ---- what shows a difference

impl Compared {
    /// Whether a reference that replayed the file writes another text than a program did.
    pub fn parts_from(&self, replayed: Option<&Replayed>) -> bool {
        self.written.iter().any(|(text, program)| *program != text.by_reference(replayed))
    }
}

impl Difference {
    /// The smallest beginning of a file that still shows the difference. Of a long file first the fewest lines are looked for,
    /// and then the fewest bytes of the last of them.
    pub fn smallest_prefix<'a>(&self, sample: &'a Sample, planted: Planted) -> &'a [u8] {
        let file = &sample.file;
        let shows = |length: &usize| self.shows(&file[..*length], &sample.run, planted);
        if file.len() <= TRIED_BY_BYTES {
            return &file[..(0..file.len()).find(shows).unwrap_or(file.len())];
        }
        let ends = (0..file.len()).filter(|&at| file[at] == b'\n').map(|at| at + 1);
        let end = ends.clone().find(shows).unwrap_or(file.len());
        let start = ends.take_while(|&other| other < end).last().unwrap_or(0);
        &file[..(start + 1..end).find(shows).unwrap_or(end)]
    }

    /// Whether a file shows it.
    fn shows(&self, file: &[u8], run: &[String; 2], planted: Planted) -> bool {
        match self {
            Difference::Texts(text, _) => text.by_program(file) != text.by_reference(replay(file, planted).as_ref()),
            Difference::Balance(_) => {
                let prefix = Sample { name: String::new(), file: file.to_vec(), run: run.clone() };
                matches!(compare(prefix, planted).difference, Some(Difference::Balance(_)))
            }
        }
    }
}
