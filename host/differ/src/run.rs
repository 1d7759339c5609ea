//! A case: what it asks, more questions about the same bytes, and what a written head reads like.

use crate::compare::{Asked, Differ};
use crate::program::Programs;
use crate::{counted, course, coverage, diff, features, twins};
use second::generate::pairs::{pairs, Pair};
use second::generate::questions::{about, names_in, questions};
use second::generate::{self, Aim, Call, Case, Input, Random};
use second::{chunk_listed, own_bytes, Record, NONE};

/// The program `list` is run on the file of every so many cases.
const PROGRAM_RUNS: u64 = 32;

/// Changes the seed for the pairs of names.
const PAIRS: u64 = u64::from_be_bytes(*b"in order");

/// Changes the seed for lookups in other bytes that agree in their chunks.
const TWINS: u64 = u64::from_be_bytes(*b"the same");

/// Content that is appended to a head to read it back has at most this length.
const CONTENT: u64 = 65_536;

/// How the answers to a case differ.
pub struct Difference {
    pub label: &'static str,
    /// What was asked, shortened.
    pub asked: String,
    /// Both answers.
    pub answers: String,
}

/// Compares all that this case brings with it.
pub fn run(
    differ: &mut Differ,
    programs: &Programs,
    seed: u64,
    index: u64,
) -> Result<(), Difference> {
    ask(differ, programs, seed, index)?;
    course::run(differ, seed, index)?;
    counted::run(differ, seed, index)?;
    diff::run(differ, programs, seed, index)
}

/// Compares all that is about the file of the case, or the input of its writer.
fn ask(differ: &mut Differ, programs: &Programs, seed: u64, index: u64) -> Result<(), Difference> {
    let case = generate::case(seed, index);
    differ.coverage.count("case", case.label);
    // Another stream than that of the case, so that neither depends on what the other draws.
    let random = &mut Random::of_case(!seed, index);
    let failed = |asked: String, answers: String| Difference {
        label: case.label,
        asked,
        answers,
    };

    let before = case.file.clone();
    let asked = Asked::new(&case.file);
    let mut calls = vec![case.call.clone()];
    calls.extend(questions(random, &case));
    let other = &mut Random::of_case(seed ^ TWINS, index);
    for call in &calls {
        let told = differ.compare(&asked, call);
        told.and_then(|()| twins::ask_some(differ, other, &asked, call))
            .map_err(|answers| failed(shown(&case.file, call), answers))?;
    }
    if case.file != before {
        let told = "changed by the library".to_owned();
        return Err(failed(format!("the file of {} bytes", before.len()), told));
    }
    if let Call::Write(input) = &case.call {
        read_back(differ, random, input)
            .map_err(|answers| failed(shown(&[], &case.call), answers))?;
    } else if runs_program(&case, index) {
        list(differ, programs, &case.file).map_err(|(asked, answers)| failed(asked, answers))?;
    }
    put_in_order(differ, seed, index, &case.file)
        .map_err(|(asked, answers)| failed(asked, answers))?;
    aim_is_hit(differ, &case).map_err(|answers| failed(shown(&case.file, &case.call), answers))?;
    if let Ok(record) = &asked.opening {
        features::count(&mut differ.coverage, &case.file, record);
    }
    Ok(())
}

/// Runs `list` on a file; what was asked and the answers where they differ.
fn list(differ: &mut Differ, programs: &Programs, file: &[u8]) -> Result<(), (String, String)> {
    let written = programs.list(file).map_err(|error| error.to_string());
    let told = written.and_then(|written| differ.program(file, &written));
    told.map_err(|answers| (format!("list with {} bytes", file.len()), answers))
}

/// Both may be wrong alike: what the case was made for has to come of it.
fn aim_is_hit(differ: &mut Differ, case: &Case) -> Result<(), String> {
    let outcome = generate::outcome_of(&case.file, &case.call);
    if let (Aim::Likely(_), Some(refusal)) = (&case.aim, outcome.refusal()) {
        let number = coverage::number(refusal.number);
        differ.coverage.count("the earlier of two damages", number);
    }
    if case.aim.allows(&outcome) {
        Ok(())
    } else {
        Err(format!("aim: {:?}\nboth: {outcome:?}", case.aim))
    }
}

/// Asks for the order of names, those of the file among them; what was asked and the answers where
/// they differ.
fn put_in_order(
    differ: &mut Differ,
    seed: u64,
    index: u64,
    file: &[u8],
) -> Result<(), (String, String)> {
    // A third stream, so that nothing else depends on what this draws.
    let random = &mut Random::of_case(seed ^ PAIRS, index);
    let names = names_in(random, file);
    for pair in pairs(random, &names) {
        let told = differ.pair(&pair);
        told.map_err(|answers| (shown_pair(&pair), answers))?;
    }
    Ok(())
}

/// On every so many cases, and on all that are about as long as the program takes.
fn runs_program(case: &Case, index: u64) -> bool {
    index % PROGRAM_RUNS == 0 || (59_999..=60_002).contains(&case.file.len())
}

/// Opens a written head with content behind it, asks it, and lists it whole.
fn read_back(differ: &mut Differ, random: &mut Random, input: &Input) -> Result<(), String> {
    // The library's head has been found equal to this one.
    let mut file = match input.head() {
        Ok(head) => head,
        Err(_) => return Ok(()),
    };
    if input.content_length > CONTENT {
        return Ok(());
    }
    file.extend(random.bytes(input.content_length as usize));
    let asked = Asked::new(&file);
    let mut compare = |call: &Call| {
        let told = differ.compare(&asked, call);
        told.map_err(|answers| format!("read back: {}\n{answers}", shown(&file, call)))
    };
    for call in about(random, &file, None) {
        compare(&call)?;
    }
    let record = match asked.opening {
        Ok(record) => record,
        Err(refusal) => return Err(format!("read back: both refuse, {refusal:?}")),
    };
    if listed(&file, record, compare)? != input.entries {
        return Err("read back: both list other entries than were given".to_owned());
    }
    count_read_back(differ, &file, &record);
    Ok(())
}

/// The bytes of all entries, chunk by chunk; each chunk is compared.
fn listed(
    file: &[u8],
    record: Record,
    mut compare: impl FnMut(&Call) -> Result<(), String>,
) -> Result<Vec<u8>, String> {
    let mut entries = Vec::new();
    let mut chunk = record.first;
    while chunk != u64::from(NONE) {
        compare(&Call::Page {
            record,
            chunk,
            numbers: 4070,
        })?;
        let (listed, next) = chunk_listed(file, &record, chunk)
            .map_err(|refusal| format!("read back: both refuse chunk {chunk}, {refusal:?}"))?;
        entries.extend(listed.iter().flat_map(|listed| own_bytes(file, listed)));
        chunk = next.into();
    }
    Ok(entries)
}

fn count_read_back(differ: &mut Differ, file: &[u8], record: &Record) {
    let chunks = match record.count {
        1 => "1 chunk",
        2..=127 => "several chunks",
        _ => "128 chunks or more",
    };
    differ.coverage.count("head read back", chunks);
    features::count(&mut differ.coverage, file, record);
}

/// What was asked, without the file, which a seed and a number make again.
pub fn shown(file: &[u8], call: &Call) -> String {
    let text = shortened(format!("{call:?}"));
    format!("{text} of a file of {} bytes", file.len())
}

fn shown_pair(pair: &Pair) -> String {
    let name = |bytes: &[u8]| shortened(bytes.escape_ascii().to_string());
    let (left, right) = (name(&pair.left), name(&pair.right));
    format!("the order of \"{left}\" and \"{right}\" ({})", pair.label)
}

fn shortened(text: String) -> String {
    const MOST: usize = 1000;
    if text.len() <= MOST {
        return text;
    }
    let half = MOST / 2;
    format!("{} ... {}", &text[..half], &text[text.len() - half..])
}
