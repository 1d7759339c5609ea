//! Times the library's comparing of names (`bench_compare`) beside the plain way, which folds both bytes at every step (`bench_compare_plain`).
//!
//!     compare                          the table of docs/BENCHMARKS.md, and the goals judged
//!     compare --count PAIR FUNCTION    one call of one function, for a tool that counts its instructions

#![deny(unsafe_code)]

mod ask;
mod pairs;
#[allow(unsafe_code)]
mod raw;
mod report;
mod timing;

use pairs::PAIRS;
use std::env;
use std::process::ExitCode;

fn main() -> ExitCode {
    let words: Vec<String> = env::args().skip(1).collect();
    let words: Vec<&str> = words.iter().map(String::as_str).collect();
    let done = match words[..] {
        [] => table(),
        ["--count", pair, function] => count(pair, function),
        _ => Err(usage()),
    };
    match done {
        Ok(()) => ExitCode::SUCCESS,
        Err(why) => {
            eprintln!("compare: {}", why);
            ExitCode::FAILURE
        }
    }
}

/// Fails on the first wrong answer; a goal that is missed is told and no failure, as for the other figures.
fn table() -> Result<(), String> {
    report::head();
    let mut all = Vec::new();
    for pair in &PAIRS {
        let times = timing::timed(pair)?;
        report::row(pair, &times);
        all.push((pair, times));
    }
    println!();
    for (pair, times) in &all {
        report::goal(pair, times);
    }
    Ok(())
}

/// One call, and none of the other function.
fn count(key: &str, name: &str) -> Result<(), String> {
    let pair = PAIRS.iter().find(|pair| pair.key == key);
    let function = [&raw::PLAIN, &raw::NOW]
        .into_iter()
        .find(|f| f.name == name);
    match (pair, function) {
        (Some(pair), Some(function)) => ask::Asked::new(pair).ask(function, 1),
        _ => Err(usage()),
    }
}

fn usage() -> String {
    let keys: Vec<&str> = PAIRS.iter().map(|pair| pair.key).collect();
    format!(
        "arguments: none, or --count PAIR FUNCTION\n  PAIR: {}\n  FUNCTION: {}, {}",
        keys.join(", "),
        raw::PLAIN.name,
        raw::NOW.name
    )
}
