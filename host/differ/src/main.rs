//! The static library and the programs `list` and `diff`, compared with the second implementation over seeded
//! cases. A seed and a number make a case again.

#![deny(unsafe_code)]

mod batches;
mod compare;
mod counted;
mod course;
mod coverage;
mod diff;
mod features;
mod inputs;
mod lent;
#[allow(unsafe_code)]
#[path = "../../hodsplinter/src/raw.rs"]
mod library;
mod padding;
mod pairs;
mod program;
mod run;
mod searches;
mod sides;
mod twins;

use compare::Differ;
use program::Programs;
use std::env;
use std::ops::Range;
use std::panic::{catch_unwind, AssertUnwindSafe};
use std::path::{Path, PathBuf};
use std::process::ExitCode;
use std::time::{Duration, Instant};

const USAGE: &str =
    "differ --seed S (--cases N | --seconds T | --case I) [--covered] [--list PATH] [--diff PATH]
  --cases N    the cases 0 to N - 1 of this seed
  --seconds T  as many of them as T seconds allow
  --case I     one of them
  --covered    fails also if something never came up
  --list PATH  this program instead of target/bin/list
  --diff PATH  this program instead of target/bin/diff";

const LIST: &str = concat!(env!("CARGO_MANIFEST_DIR"), "/../../target/bin/list");
const DIFF: &str = concat!(env!("CARGO_MANIFEST_DIR"), "/../../target/bin/diff");

/// How much is asked for.
enum Extent {
    Cases(u64),
    Seconds(u64),
    Case(u64),
}

impl Extent {
    fn indexes(&self) -> Range<u64> {
        match *self {
            Extent::Cases(cases) => 0..cases,
            Extent::Seconds(_) => 0..u64::MAX,
            Extent::Case(index) => index..index.saturating_add(1),
        }
    }

    fn is_over(&self, started: Instant) -> bool {
        match *self {
            Extent::Seconds(seconds) => started.elapsed() >= Duration::from_secs(seconds),
            _ => false,
        }
    }
}

struct Options {
    seed: u64,
    extent: Extent,
    covered: bool,
    list: PathBuf,
    diff: PathBuf,
}

/// The options, or nothing if they are not as in the usage.
fn options(mut words: impl Iterator<Item = String>) -> Option<Options> {
    let (mut seed, mut extent, mut covered) = (None, None, false);
    let (mut list, mut diff) = (PathBuf::from(LIST), PathBuf::from(DIFF));
    while let Some(word) = words.next() {
        let mut number = || words.next()?.parse().ok();
        match word.as_str() {
            "--seed" => seed = Some(number()?),
            "--cases" => extent = Some(Extent::Cases(number()?)),
            "--seconds" => extent = Some(Extent::Seconds(number()?)),
            "--case" => extent = Some(Extent::Case(number()?)),
            "--covered" => covered = true,
            "--list" => list = words.next()?.into(),
            "--diff" => diff = words.next()?.into(),
            _ => return None,
        }
    }
    Some(Options {
        seed: seed?,
        extent: extent?,
        covered,
        list,
        diff,
    })
}

fn main() -> ExitCode {
    let options = match options(env::args().skip(1)) {
        Some(options) => options,
        None => {
            eprintln!("{USAGE}");
            return ExitCode::from(2);
        }
    };
    let programs = match programs(&options) {
        Ok(programs) => programs,
        Err(reason) => {
            eprintln!("{reason}");
            return ExitCode::from(2);
        }
    };
    println!("seed {}", options.seed);
    if compared(&options, &programs) {
        ExitCode::SUCCESS
    } else {
        ExitCode::FAILURE
    }
}

/// Both programs, or why they cannot be run.
fn programs(options: &Options) -> Result<Programs, String> {
    let there = |path: &Path, name: &str| match path.is_file() {
        true => Ok(path.to_owned()),
        false => {
            let path = path.display();
            Err(format!(
                "no program {path}: `python3 tests/archive.py {name}` makes it"
            ))
        }
    };
    let list = there(&options.list, "list")?;
    let diff = there(&options.diff, "diff")?;
    Programs::new(list, diff).map_err(|error| format!("no folder for files: {error}"))
}

/// Whether all answers agree and, if that is asked for, everything came up.
fn compared(options: &Options, programs: &Programs) -> bool {
    let mut differ = Differ::new();
    let started = Instant::now();
    let mut cases = 0;
    for index in options.extent.indexes() {
        if options.extent.is_over(started) {
            break;
        }
        if !agrees(&mut differ, programs, options.seed, index) {
            return false;
        }
        cases += 1;
    }
    match options.extent {
        Extent::Case(index) => {
            let label = second::generate::case(options.seed, index).label;
            println!("case {index}: {label}");
        }
        _ => differ.coverage.print(),
    }
    let missing = differ.coverage.missing();
    if options.covered {
        for missing in &missing {
            println!("never came up: {missing}");
        }
    }
    let kinds = differ.coverage.len();
    println!(
        "differ: seed {}, {cases} cases, {} comparisons, no difference, \
         {} of {kinds} kinds came up, {} s",
        options.seed,
        differ.comparisons,
        kinds - missing.len(),
        started.elapsed().as_secs()
    );
    missing.is_empty() || !options.covered
}

/// Compares one case and tells what differs.
fn agrees(differ: &mut Differ, programs: &Programs, seed: u64, index: u64) -> bool {
    let run = || run::run(differ, programs, seed, index);
    match catch_unwind(AssertUnwindSafe(run)) {
        Ok(Ok(())) => true,
        Ok(Err(difference)) => {
            println!(
                "difference: seed {seed}, case {index} ({})",
                difference.label
            );
            println!("asked: {}\n{}", difference.asked, difference.answers);
            false
        }
        Err(_) => {
            println!("seed {seed}, case {index}: the second implementation or its case failed");
            false
        }
    }
}
