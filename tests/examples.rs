//! The files of `examples/`, and what the programs are given and must write in `rt ci`: call files that are written by hand are
//! edited by column, and all that can be made from them is made, the texts by the reference.
//!
//!     tools/examples check [--mistake NAME]             says what is not as it is made, or not as a paper quotes it; with a
//!                                                       mistake planted in the reference, what would differ
//!     tools/examples texts                              makes it anew
//!     tools/examples add COLUMN VALUE [NAME..]          a column more, the last: in all call files, or in those that are named
//!     tools/examples drop COLUMN [NAME..]               a column less
//!     tools/examples set COLUMN VALUE CALL [NAME..]     another value in the lines of a call

// The comparison has its uses for what is left over here.
#[allow(dead_code)]
mod programs;
#[allow(dead_code)]
mod reference;

use programs::{Days, Text};
use reference::lines::{CODES, FILE_LIMIT};
use reference::mistakes::{Planted, ALL};
use reference::texts::replay;
use std::collections::{BTreeMap, BTreeSet};
use std::path::{Path, PathBuf};
use std::process::ExitCode;

const FOLDER: &str = "examples";
const USAGE: &str = "usage: tools/examples check [--mistake NAME]
       tools/examples texts
       tools/examples add COLUMN VALUE [NAME..]
       tools/examples drop COLUMN [NAME..]
       tools/examples set COLUMN VALUE CALL [NAME..]";

/// The worked file, from which others are made.
const WORKED: &str = "paper_example";
/// A call file as long as a file may be.
const FULL: &str = "full";
/// A longer text is not stored: the answers of `empty_lines` have 0.9 MB.
const STORED_AT_MOST: usize = 100_000;

/// The programs with their ending in `examples/`, and the example that each is given in `rt ci`, if it is one.
const PROGRAMS: [(&str, Option<&str>); 4] =
    [("table", Some(WORKED)), ("report", None), ("worst", Some("ties")), ("answers", None)];

fn main() -> ExitCode {
    let arguments: Vec<String> = std::env::args().skip(1).collect();
    let words: Vec<&str> = arguments.iter().map(String::as_str).collect();
    match words[..] {
        ["check"] => check(Planted::NONE),
        ["check", "--mistake", name] => match ALL.iter().find(|declared| format!("{:?}", declared.mistake) == name) {
            Some(declared) => check(Planted(Some(declared.mistake))),
            None => failed(&format!("there is no mistake '{name}'")),
        },
        ["texts"] => make(),
        ["add", column, value, ref names @ ..] => edit(&Edit::Add { column, value }, names),
        ["drop", column, ref names @ ..] => edit(&Edit::Drop { column }, names),
        ["set", column, value, call, ref names @ ..] => edit(&Edit::Set { column, value, call }, names),
        _ => failed(USAGE),
    }
}

fn failed(message: &str) -> ExitCode {
    eprintln!("{message}");
    ExitCode::from(2)
}

fn read(path: &Path) -> Vec<u8> {
    std::fs::read(path).unwrap_or_else(|problem| panic!("{}: {problem}", path.display()))
}

// ---- call files

/// A call file of `examples/`, or that of a program that is given no example.
fn path_of(name: &str) -> PathBuf {
    match PROGRAMS.iter().any(|&(program, example)| program == name && example.is_none()) {
        true => ["crates", name, "stdin"].iter().collect(),
        false => Path::new(FOLDER).join(name).with_extension("csv"),
    }
}

/// The names of files of `examples/` with an ending.
fn names_with(ending: &str) -> BTreeSet<String> {
    let folder = std::fs::read_dir(FOLDER).expect("the folder examples");
    let files = folder.map(|entry| PathBuf::from(entry.expect("an example").file_name()));
    let named = files.filter(|file| file.extension().is_some_and(|found| found == ending));
    named.map(|file| file.with_extension("").display().to_string()).collect()
}

/// The names of the call files that are written by hand.
fn names_by_hand() -> BTreeSet<String> {
    let made = made_files();
    let own = PROGRAMS.iter().filter(|(_, example)| example.is_none()).map(|&(program, _)| program.to_string());
    names_with("csv").into_iter().filter(|name| !made.contains_key(name.as_str())).chain(own).collect()
}

/// The call files that are made from others, each the case that its name says.
fn made_files() -> BTreeMap<&'static str, Vec<u8>> {
    let (worked, mut full) = (read(&path_of(WORKED)), read(&path_of(FULL)));
    full.resize(FILE_LIMIT + 1, b'\n');
    let (names, calls) = worked.split_at(1 + worked.iter().position(|&byte| byte == b'\n').expect("a names line"));
    let named = &names[..names.len() - 1];
    BTreeMap::from([
        ("empty", Vec::new()),
        ("no_calls", names.to_vec()),
        ("names_without_lf", named.to_vec()),
        ("names_with_crlf", [named, b"\r\n", calls].concat()),
        ("no_final_lf", worked[..worked.len() - 1].to_vec()),
        ("crlf", [names, &each_line(calls, |line| [line, b"\r"].concat())].concat()),
        ("old_names", each_line(&worked, without_codes)),
        ("old_lines", [names, &each_line(calls, without_codes)].concat()),
        ("empty_lines", [names, &vec![b'\n'; FILE_LIMIT - names.len()]].concat()),
        ("one_byte_over", full),
    ])
}

fn each_line(text: &[u8], changed: impl Fn(&[u8]) -> Vec<u8>) -> Vec<u8> {
    let lines = text.split_inclusive(|&byte| byte == b'\n').map(|line| line.strip_suffix(b"\n").unwrap_or(line));
    lines.flat_map(|line| [changed(line), b"\n".to_vec()].concat()).collect()
}

/// A line as it was before the participants' codes.
fn without_codes(line: &[u8]) -> Vec<u8> {
    line.split(|&byte| byte == b',').take(CODES.start).collect::<Vec<_>>().join(&b',')
}

// ---- what is made

/// All that is made, by its path: call files, the texts of each, and what `rt ci` gives to the programs and compares.
fn made(planted: Planted) -> BTreeMap<PathBuf, Vec<u8>> {
    let made_files = made_files();
    let mut made: BTreeMap<PathBuf, Vec<u8>> = made_files.iter().map(|(name, file)| (path_of(name), file.clone())).collect();
    let mut files: BTreeMap<String, Vec<u8>> =
        names_with("csv").into_iter().map(|name| (name.clone(), read(&path_of(&name)))).collect();
    files.extend(made_files.into_iter().map(|(name, file)| (name.to_string(), file)));
    let mut stored: BTreeMap<&str, String> = BTreeMap::new();
    for (name, file) in &files {
        let says = stored.entry(name).or_default();
        for (program, _) in PROGRAMS {
            let text = text_of(program, file, &[], planted);
            if text.len() <= STORED_AT_MOST {
                made.insert(Path::new(FOLDER).join(name).with_extension(program), text);
                *says += &format!(" {program}");
            }
        }
    }
    for (program, example) in PROGRAMS {
        let folder = Path::new("crates").join(program);
        let file = example.map_or_else(|| read(&path_of(program)), |example| files[example].clone());
        let arguments = std::fs::read_to_string(folder.join("args")).unwrap_or_default();
        let arguments: Vec<&str> = arguments.lines().collect();
        made.insert(folder.join("stdout"), text_of(program, &file, &arguments, planted));
        made.insert(folder.join("stdin"), file);
    }
    let names = in_order(&stored);
    let lines = |line: &dyn Fn(&str) -> String| names.iter().map(|name| line(name)).collect::<String>().into_bytes();
    made.insert(PathBuf::from("crates/samples/args"), lines(&|name| format!("{name}\n")));
    made.insert(PathBuf::from("crates/samples/stdout"), lines(&|name| format!("{name}:{} as stored\n", stored[name])));
    made
}

/// The examples in the order in which `samples` is given them; new ones come last.
fn in_order<'a>(stored: &BTreeMap<&'a str, String>) -> Vec<&'a str> {
    let given = String::from_utf8(read(Path::new("crates/samples/args"))).expect("names");
    let place = |name: &str| given.lines().position(|line| line == name).unwrap_or(usize::MAX);
    let mut names: Vec<&str> = stored.keys().copied().collect();
    names.sort_by_key(|name| place(name));
    names
}

/// The text that a program must write of a file, by the reference.
fn text_of(program: &str, file: &[u8], arguments: &[&str], planted: Planted) -> Vec<u8> {
    let days = match arguments {
        [first, last] => Days::Run([first.to_string(), last.to_string()]),
        _ => Days::AllClosed,
    };
    let text = match program {
        "table" => Text::Table,
        "report" => Text::Reports(days),
        "worst" => Text::Lists(days),
        _ => Text::Answers,
    };
    text.by_reference(replay(file, planted).as_ref())
}

/// What is not stored as it is made, and why.
fn differing(made: &BTreeMap<PathBuf, Vec<u8>>) -> Vec<(&PathBuf, String)> {
    let problem = |path: &PathBuf, bytes: &Vec<u8>| match std::fs::read(path) {
        Err(problem) => Some(problem.to_string()),
        Ok(stored) if stored == *bytes => None,
        Ok(stored) => {
            let same = stored.iter().zip(bytes).take_while(|(one, other)| one == other).count();
            let line = 1 + stored[..same].iter().filter(|&&byte| byte == b'\n').count();
            Some(format!("differs in line {line}, at byte {same} of {}; it is made with {}", stored.len(), bytes.len()))
        }
    };
    made.iter().filter_map(|(path, bytes)| Some((path, problem(path, bytes)?))).collect()
}

/// Texts of `examples/` that no call file has, or that are too long to be stored.
fn strays(made: &BTreeMap<PathBuf, Vec<u8>>) -> Vec<PathBuf> {
    let stored = PROGRAMS.iter().flat_map(|(ending, _)| {
        let path = move |name: String| Path::new(FOLDER).join(name).with_extension(ending);
        names_with(ending).into_iter().map(path)
    });
    stored.filter(|path| !made.contains_key(path)).collect()
}

/// Lines of the worked file and of its texts that a paper quotes, and does not have.
fn misquoted(made: &BTreeMap<PathBuf, Vec<u8>>) -> Vec<String> {
    let text = |ending: &str| {
        let path = Path::new(FOLDER).join(WORKED).with_extension(ending);
        String::from_utf8(made.get(&path).cloned().unwrap_or_else(|| read(&path))).expect("a text")
    };
    // Of the reports the names line and that of category 0.
    let report = text("report").lines().take(2).map(|line| format!("{line}\n")).collect();
    let quoted = [
        ("README.md", vec![text("csv"), text("table"), report, text("worst")]),
        ("docs/RULES.md", vec![text("csv"), text("table")]),
    ];
    let lacking = quoted.iter().flat_map(|(paper, texts)| {
        let has = String::from_utf8(read(Path::new(paper))).expect("a paper");
        // A note may stand behind a line.
        let is_quoted = move |line: &&str| {
            let at = format!("    {line}");
            has.lines().any(|found| found.strip_prefix(&at).is_some_and(|rest| rest.is_empty() || rest.starts_with("   ")))
        };
        let lines = texts.iter().flat_map(|text| text.lines());
        lines.filter(move |line| !is_quoted(line)).map(move |line| format!("{paper}: lacks the line '{line}' of '{WORKED}'"))
    });
    lacking.collect()
}

/// Call files that a column changes which is added and dropped again.
fn not_undone() -> Vec<String> {
    let (add, drop) = (Edit::Add { column: "more", value: "0" }, Edit::Drop { column: "more" });
    let undone = |file: &[u8]| edited(&edited(file, &add)?.0, &drop).map(|(after, _)| after);
    let files = names_by_hand().into_iter().map(|name| (read(&path_of(&name)), name));
    let changed = files.filter(|(file, _)| undone(file).as_ref() != Ok(file));
    changed.map(|(_, name)| format!("{}: a column added and dropped changes it", path_of(&name).display())).collect()
}

/// Says what is not as it is made.
fn check(planted: Planted) -> ExitCode {
    let made = made(planted);
    let (differing, strays) = (differing(&made), strays(&made));
    let others = [misquoted(&made), not_undone()].concat();
    for (path, problem) in &differing {
        println!("{}: {problem}", path.display());
    }
    for path in &strays {
        println!("{}: stored, and not made", path.display());
    }
    for problem in &others {
        println!("{problem}");
    }
    let wrong = differing.len() + strays.len() + others.len();
    let verdict = if wrong == 0 { "passed" } else { "FAILED" };
    println!("tools/examples: {} files and the papers, {wrong} not as they are made: {verdict}", made.len());
    ExitCode::from(u8::from(wrong > 0))
}

/// Makes what is not as it is made.
fn make() -> ExitCode {
    let made = made(Planted::NONE);
    let (differing, strays) = (differing(&made), strays(&made));
    for (path, _) in &differing {
        std::fs::write(path, &made[*path]).expect("a file that can be written");
        println!("{}: made anew", path.display());
    }
    for path in &strays {
        std::fs::remove_file(path).expect("a file that can be removed");
        println!("{}: removed", path.display());
    }
    println!("tools/examples: {} files, {} made anew, {} removed", made.len(), differing.len(), strays.len());
    ExitCode::SUCCESS
}

// ---- columns

/// A change of a column in the lines of a call file.
enum Edit<'a> {
    Add { column: &'a str, value: &'a str },
    Drop { column: &'a str },
    Set { column: &'a str, value: &'a str, call: &'a str },
}

/// Edits the call files that are written by hand, or those that are named, and says which lines it left. Then it makes the
/// call files that are made from them.
fn edit(edit: &Edit, names: &[&str]) -> ExitCode {
    let made_before = made_files();
    let by_hand = names_by_hand();
    if let Some(name) = names.iter().find(|&&name| !by_hand.contains(name)) {
        return failed(&format!("no call file '{name}' is written by hand"));
    }
    let names_line = first_line(&read(&path_of(WORKED))).to_vec();
    let mut changed = 0;
    for name in by_hand.iter().filter(|name| names.is_empty() || names.contains(&name.as_str())) {
        let path = path_of(name);
        let file = read(&path);
        if names.is_empty() && first_line(&file) != names_line {
            println!("{}: left as it is, with another names line than '{WORKED}'", path.display());
            continue;
        }
        match edited(&file, edit) {
            Ok((after, says)) => {
                changed += usize::from(after != file);
                println!("{}: {says}", path.display());
                std::fs::write(&path, after).expect("a file that can be written");
            }
            Err(problem) => return failed(&format!("{}: {problem}", path.display())),
        }
    }
    for (name, file) in made_files() {
        if made_before[name] != file {
            changed += 1;
            println!("{}: made from '{}'", path_of(name).display(), if name == "one_byte_over" { FULL } else { WORKED });
        }
        std::fs::write(path_of(name), file).expect("a file that can be written");
    }
    println!("tools/examples: {changed} call files changed; their texts are made by tools/examples texts");
    ExitCode::SUCCESS
}

fn first_line(file: &[u8]) -> &[u8] {
    file.split(|&byte| byte == b'\n').next().unwrap_or_default()
}

/// A call file after an edit, and what to say of it.
fn edited(file: &[u8], edit: &Edit) -> Result<(Vec<u8>, String), String> {
    let names_line = first_line(file);
    let columns: Vec<&[u8]> = names_line.split(|&byte| byte == b',').collect();
    let place = |column: &str| {
        let found = columns.iter().position(|name| *name == column.as_bytes());
        found.ok_or_else(|| format!("there is no column '{column}'"))
    };
    let at = match edit {
        Edit::Add { column, .. } if place(column).is_ok() => return Err(format!("there is a column '{column}'")),
        Edit::Add { .. } => columns.len(),
        Edit::Drop { column } | Edit::Set { column, .. } => place(column)?,
    };
    let (mut after, mut changed, mut left) = (Vec::new(), 0, Vec::new());
    for (number, line) in (1..).zip(file.split_inclusive(|&byte| byte == b'\n')) {
        let end = line.iter().rev().take_while(|byte| b"\r\n".contains(byte)).count();
        let (text, end) = line.split_at(line.len() - end);
        let mut fields: Vec<&[u8]> = text.split(|&byte| byte == b',').collect();
        if fields.len() < columns.len() {
            left.push(number);
        } else {
            match edit {
                Edit::Add { column, .. } if text == names_line => fields.insert(at, column.as_bytes()),
                Edit::Add { value, .. } => fields.insert(at, value.as_bytes()),
                Edit::Drop { .. } => drop(fields.remove(at)),
                Edit::Set { value, call, .. } if fields[0] == call.as_bytes() => fields[at] = value.as_bytes(),
                Edit::Set { .. } => {}
            }
        }
        let line_after = [&fields.join(&b','), end].concat();
        changed += usize::from(line_after != line);
        after.extend(line_after);
    }
    let mut says = format!("{changed} lines changed");
    if !left.is_empty() {
        let numbers: Vec<String> = left.iter().map(usize::to_string).collect();
        says += &format!("; left as they are, since they lack columns: {}", numbers.join(" "));
    }
    if after.len() > FILE_LIMIT {
        says += &format!("; {} bytes, so it is faulty now", after.len());
    }
    Ok((after, says))
}
