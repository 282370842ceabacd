//! Compares the proved programs with a reference written from the rules in plain Rust, on the files of `examples/` and on
//! files made from seeds, and holds both to the daily balance. Then it plants mistakes in the reference, one at a time, and
//! looks whether the same files find them.
//!
//!     tests/run [FILES [SEED]]                     files from SEED on, 400 from 0 where nothing is said
//!     tests/run --mistake NAME [FILES [SEED]]      the same with a mistake planted: shows what a difference looks like

mod balance;
mod compare;
mod generator;
mod programs;
mod reference;

use compare::{balance_of_reference, compare, Compared, Difference, Sample};
use reference::mistakes::{Declared, Planted, ALL};
use reference::texts::{replay, Answered};
use std::collections::BTreeMap;
use std::process::ExitCode;
use std::sync::atomic::{AtomicUsize, Ordering};
use std::sync::Mutex;

/// As many files as a run makes from seeds where nothing is said; from so many on mistakes are planted.
const SAMPLE: u64 = 400;
/// Mistakes are planted in no more files than these, the first ones of a long run.
const PLANTED_IN: usize = 450;
/// The smallest prefix is shown of so many files that differ, the shortest ones.
const SHOWN: usize = 3;

/// What the command line asks for.
struct Asked {
    planted: Planted,
    files: u64,
    seed: u64,
}

fn main() -> ExitCode {
    let arguments: Vec<String> = std::env::args().skip(1).collect();
    let Some(asked) = asked_by(&arguments) else {
        eprintln!("usage: tests/run [--mistake NAME] [FILES [SEED]], where NAME is one of");
        for Declared { mistake, says, .. } in ALL {
            eprintln!("    {mistake:?}: {says}");
        }
        return ExitCode::from(2);
    };
    let mut samples = examples();
    samples.extend((asked.seed..asked.seed + asked.files).map(sample_of));
    let compared = in_parallel(samples, |sample| compare(sample, asked.planted));
    println!("{}", contents(&compared));
    let differing = show_differences(&compared, asked.planted);
    let (verdict, passed) = match asked.planted.0 {
        Some(mistake) => (format!("with {mistake:?} planted {differing} differ"), differing > 0),
        None if asked.files < SAMPLE => (format!("{differing} differ; no mistakes planted in so few"), differing == 0),
        None => {
            let missed = plant_all(&compared[..compared.len().min(PLANTED_IN)]);
            let verdict = format!("{differing} differ; {} mistakes planted, {missed} not found", ALL.len());
            (verdict, differing == 0 && missed == 0)
        }
    };
    println!("tests/run: {} files, {verdict}: {}", compared.len(), if passed { "passed" } else { "FAILED" });
    ExitCode::from(u8::from(!passed))
}

fn asked_by(arguments: &[String]) -> Option<Asked> {
    let (planted, numbers) = match arguments {
        [flag, name, numbers @ ..] if flag == "--mistake" => {
            let declared = ALL.iter().find(|declared| format!("{:?}", declared.mistake) == *name)?;
            (Planted(Some(declared.mistake)), numbers)
        }
        numbers => (Planted::NONE, numbers),
    };
    let number = |at: usize, otherwise| numbers.get(at).map_or(Some(otherwise), |text| text.parse().ok());
    (numbers.len() <= 2).then_some(Asked { planted, files: number(0, SAMPLE)?, seed: number(1, 0)? })
}

// ---- files

/// The file that a seed makes.
fn sample_of(seed: u64) -> Sample {
    Sample { name: format!("seed {seed}"), file: generator::file(seed), run: generator::run_of_days(seed) }
}

/// The files of `examples/`.
fn examples() -> Vec<Sample> {
    let folder = std::fs::read_dir("examples").expect("the folder examples");
    let mut paths: Vec<_> = folder.map(|entry| entry.expect("an example").path()).collect();
    paths.retain(|path| path.extension().is_some_and(|extension| extension == "csv"));
    paths.sort();
    let sample = |path: &std::path::PathBuf| Sample {
        name: path.display().to_string(),
        file: std::fs::read(path).expect("an example"),
        run: ["1".to_string(), "2".to_string()],
    };
    paths.iter().map(sample).collect()
}

/// What the files have in them: so many lines of each answer.
fn contents(compared: &[Compared]) -> String {
    let mut by_answer: BTreeMap<String, usize> = BTreeMap::new();
    let (mut faulty, mut closed, mut texts) = (0, 0, 0);
    for file in compared {
        texts += file.written.len();
        let Some(replayed) = replay(&file.sample.file, Planted::NONE) else {
            faulty += 1;
            continue;
        };
        closed += replayed.rows.len();
        for line in &replayed.lines {
            let answer = match line {
                Answered::Made(_, 0) => "accepted".to_string(),
                Answered::Made(_, number) => format!("refused by {number}"),
                Answered::Wrong(0) => "wrong in the first byte, empty ones too".to_string(),
                Answered::Wrong(_) => "wrong behind it".to_string(),
            };
            *by_answer.entry(answer).or_default() += 1;
        }
    }
    let answers: Vec<String> = by_answer.iter().map(|(answer, count)| format!("{count} {answer}")).collect();
    format!(
        "{} files, {faulty} of them faulty; {texts} texts; {closed} closed days; lines: {}",
        compared.len(),
        answers.join(", ")
    )
}

// ---- differences

/// Which files differ, and of the shortest the smallest beginning that shows it. How many differ.
fn show_differences(compared: &[Compared], planted: Planted) -> usize {
    let mut differing: Vec<(&Sample, &Difference)> =
        compared.iter().filter_map(|file| Some((&file.sample, file.difference.as_ref()?))).collect();
    differing.sort_by_key(|(sample, _)| sample.file.len());
    for (sample, difference) in &differing {
        match difference {
            Difference::Texts(text, line) => println!("{} differs: {}, {line}", sample.name, text.command().join(" ")),
            Difference::Balance(line) => println!("{} is out of balance: {line}", sample.name),
        }
    }
    for (sample, difference) in differing.iter().take(SHOWN) {
        let prefix = difference.smallest_prefix(sample, planted);
        println!("the smallest prefix found of {} that still shows it, {} bytes:", sample.name, prefix.len());
        for line in prefix.split_inclusive(|&byte| byte == b'\n') {
            println!("    {}", line.escape_ascii());
        }
    }
    differing.len()
}

/// Plants each mistake and says how many of the files find it; how many mistakes none does.
fn plant_all(compared: &[Compared]) -> usize {
    let counts = in_parallel(ALL.iter().collect(), |declared| find(declared, compared));
    let mut missed = 0;
    for (Declared { mistake, by_balance, says }, (texts, balances)) in ALL.iter().zip(counts) {
        let balance = if *by_balance { format!(", by the balance alone in {balances}") } else { String::new() };
        println!("planted {mistake:?}, {says}: found in {texts} files{balance}");
        missed += usize::from(texts == 0 || *by_balance && balances == 0);
    }
    missed
}

/// How many files find a mistake by their texts, and how many by the balance, where it has to be found by that.
fn find(declared: &Declared, compared: &[Compared]) -> (usize, usize) {
    let mut counts = (0, 0);
    for file in compared {
        let replayed = replay(&file.sample.file, Planted(Some(declared.mistake)));
        counts.0 += usize::from(file.parts_from(replayed.as_ref()));
        let replayed = replayed.filter(|_| declared.by_balance);
        counts.1 += usize::from(replayed.is_some_and(|replayed| balance_of_reference(&replayed).is_some()));
    }
    counts
}

/// Works on each item, on all cores, and gives the results in the items' order.
fn in_parallel<T: Send, R: Send>(items: Vec<T>, work: impl Fn(T) -> R + Sync) -> Vec<R> {
    let cores = std::thread::available_parallelism().map_or(1, usize::from);
    let slots: Vec<Mutex<(Option<T>, Option<R>)>> = items.into_iter().map(|item| Mutex::new((Some(item), None))).collect();
    let next = AtomicUsize::new(0);
    std::thread::scope(|scope| {
        for _ in 0..cores {
            scope.spawn(|| {
                while let Some(slot) = slots.get(next.fetch_add(1, Ordering::Relaxed)) {
                    let item = slot.lock().expect("a slot").0.take();
                    let result = item.map(&work);
                    slot.lock().expect("a slot").1 = result;
                }
            });
        }
    });
    slots.into_iter().filter_map(|slot| slot.into_inner().expect("a slot").1).collect()
}
