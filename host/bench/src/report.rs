//! The table and the goals of docs/BENCHMARKS.md.

use crate::pairs::{Goal, Pair};
use crate::timing::Times;

/// How many times as fast as the plain way, at least.
const FASTER: f64 = 10.0;
/// How many times the plain way's time, at most.
const NO_SLOWER: f64 = 1.3;

pub fn head() {
    println!("| pair | plain | now | plain / now |\n|---|---|---|---|");
}

pub fn row(pair: &Pair, times: &Times) {
    let Times { plain, now } = times;
    let ratio = plain / now;
    println!(
        "| {} | {:.1} ns | {:.1} ns | {:.2} |",
        pair.what, plain, now, ratio
    );
}

pub fn goal(pair: &Pair, times: &Times) {
    let (faster, slower) = (times.plain / times.now, times.now / times.plain);
    match pair.goal {
        Goal::Faster => {
            let asked = format!("at least {} times as fast as plain", FASTER);
            judged(pair, &asked, faster, faster >= FASTER);
        }
        Goal::NoSlower => {
            let asked = format!("at most {} times plain", NO_SLOWER);
            judged(pair, &asked, slower, slower <= NO_SLOWER);
        }
        Goal::Nothing => {}
    }
}

fn judged(pair: &Pair, asked: &str, ratio: f64, met: bool) {
    let said = if met { "met" } else { "missed" };
    println!("goal, {}: {}: {:.2}, {}", pair.what, asked, ratio, said);
}
