//! Lookups in other bytes that have to be answered alike (FORMAT K27).

use crate::compare::{Asked, Differ};
use crate::coverage::{number, Coverage};
use second::generate::{kept, twin, Call, Random};
use second::{lookup, met, Answer, Record};

/// Of the lookups of a case, one in so many is asked there.
const ONE_IN: u64 = 16;

const OTHER: &str = "bytes that agree in the chunks of a lookup alone";
const FOUND: &str = "found in bytes that agree in so many chunks alone";
const ABSENT: &str = "absent in bytes that agree in so many chunks alone";
const REFUSED: &str = "17 in bytes that agree in so many chunks alone";

/// Asks some lookups once more, in bytes that agree with those of the case in the chunks they meet.
pub fn ask_some(
    differ: &mut Differ,
    random: &mut Random,
    asked: &Asked,
    call: &Call,
) -> Result<(), String> {
    match call {
        Call::Lookup {
            record,
            name,
            places,
        } if random.once_in(ONE_IN) => {
            let met = met(asked.file, record, name, *places);
            ask(differ, random, asked, call, &met)
        }
        _ => Ok(()),
    }
}

/// Asks a lookup that meets these chunks in bytes that agree in them alone.
pub fn ask(
    differ: &mut Differ,
    random: &mut Random,
    asked: &Asked,
    call: &Call,
    met: &[u64],
) -> Result<(), String> {
    let (record, name, places) = match call {
        Call::Lookup {
            record,
            name,
            places,
        } => (record, name, *places),
        _ => return Ok(()),
    };
    let other = twin(random, asked.file, record, met);
    let there = lookup(&other, record, name, places);
    let told = differ.compare(&Asked::new(&other), call);
    let here = lookup(asked.file, record, name, places);
    told.and_then(|()| match here == there {
        true => Ok(()),
        false => Err(format!("both, FORMAT K27: {here:?}, then {there:?}")),
    })
    .map_err(|answers| format!("in bytes that agree in the chunks {met:?} alone\n{answers}"))?;
    let beside = match asked.gave(record) {
        true => "beside a book that opens",
        false => "beside other bytes",
    };
    differ.coverage.count(OTHER, beside);
    let chunks = kept(asked.file, record, met).len();
    count(&mut differ.coverage, &there, record, chunks);
    Ok(())
}

/// Counts an answer that comes of so many chunks.
fn count(coverage: &mut Coverage, answer: &Answer, record: &Record, chunks: usize) {
    let group = match answer {
        Answer::Found { .. } => FOUND,
        Answer::Absent { .. } => ABSENT,
        Answer::Refused(refusal) if refusal.number == 17 => REFUSED,
        Answer::Refused(refusal) => return coverage.count(OTHER, number(refusal.number)),
    };
    coverage.count(group, number(chunks as u8));
    if group == ABSENT && (chunks as u64) < record.depth {
        coverage.count(OTHER, "absent in an index chunk");
    }
}
