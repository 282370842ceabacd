//! The texts that the proved programs write of a file, and what the reference says that they are.

use crate::reference::texts::{answers, lists, parse_day, reports, table, Replayed};
use std::io::Write;
use std::path::PathBuf;
use std::process::{Command, Stdio};

/// A text: the table, the answers, and the reports and the lists of participants over days.
#[derive(Clone)]
pub enum Text {
    Table,
    Answers,
    Reports(Days),
    Lists(Days),
}

/// All closed days, a run of days as it is given to a program, or one day.
#[derive(Clone)]
pub enum Days {
    AllClosed,
    Run([String; 2]),
    One(usize),
}

impl Days {
    /// The arguments of a program that say which days.
    fn arguments(&self) -> Vec<String> {
        match self {
            Days::AllClosed => Vec::new(),
            Days::Run(run) => run.to_vec(),
            Days::One(day) => vec![day.to_string(); 2],
        }
    }

    /// The first and the last day, where they are said.
    fn run(&self) -> Option<(u64, u64)> {
        match self {
            Days::AllClosed => None,
            Days::Run([first, last]) => Some((parse_day(first), parse_day(last))),
            Days::One(day) => Some((*day as u64, *day as u64)),
        }
    }
}

impl Text {
    /// The program that writes it, and its arguments.
    pub fn command(&self) -> Vec<String> {
        let (program, arguments) = match self {
            Text::Table => ("table", Vec::new()),
            Text::Answers => ("answers", Vec::new()),
            Text::Reports(days) => ("report", days.arguments()),
            Text::Lists(days) => ("worst", days.arguments()),
        };
        [vec![program.to_string()], arguments].concat()
    }

    /// The text of the proved program. A message on standard error, or another status than 0, makes it a wrong one.
    pub fn by_program(&self, file: &[u8]) -> Vec<u8> {
        let command = self.command();
        let path: PathBuf = ["crates", &command[0], "out", &command[0]].iter().collect();
        let mut child = Command::new(path)
            .args(&command[1..])
            .stdin(Stdio::piped())
            .stdout(Stdio::piped())
            .stderr(Stdio::piped())
            .spawn()
            .expect("a program that was built");
        // A program reads no further than one byte too many, so it may not take all of a long file.
        let _ = child.stdin.take().expect("its input").write_all(file);
        let output = child.wait_with_output().expect("its output");
        let failed = if output.status.success() { String::new() } else { format!("{}\n", output.status) };
        [output.stdout, output.stderr, failed.into_bytes()].concat()
    }

    /// The text of the reference, of a file that it replayed.
    pub fn by_reference(&self, replayed: Option<&Replayed>) -> Vec<u8> {
        match self {
            Text::Table => table(replayed),
            Text::Answers => answers(replayed),
            Text::Reports(days) => reports(replayed, days.run()),
            Text::Lists(days) => lists(replayed, days.run()),
        }
        .into_bytes()
    }
}
