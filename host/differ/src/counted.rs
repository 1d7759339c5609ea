//! Lookups that say beforehand what is answered, with the trail and the comparisons.

use crate::compare::{Asked, Differ};
use crate::run::{shown, Difference};
use crate::twins;
use second::generate::counted::{counted, Counted, Extent, Told};
use second::generate::{Call, Random};
use second::lookup;

/// They come with one of so many cases, this one of them.
const COUNTED: u64 = 8;
const TURN: u64 = 2;

/// Changes the seed for them.
const SEED: u64 = u64::from_be_bytes(*b"counting");

/// What coverage has for a kind of lookups.
pub fn group(extent: Extent) -> &'static str {
    match extent {
        Extent::Whole => "counted lookups in a whole tree",
        Extent::Descent => "counted lookups in the chunks of a descent",
    }
}

/// Asks counted lookups if it is the turn of this case to bring them.
pub fn run(differ: &mut Differ, seed: u64, index: u64) -> Result<(), Difference> {
    if index % COUNTED != TURN {
        return Ok(());
    }
    // A stream of its own, so that nothing else depends on what this draws.
    let random = &mut Random::of_case(seed ^ SEED, index);
    let counted = counted(random, index / COUNTED);
    differ.coverage.count(group(counted.extent), counted.label);
    let before = counted.file.clone();
    let asked = Asked::new(&counted.file);
    for told in &counted.lookups {
        ask(differ, random, &asked, &counted, told)?;
    }
    if counted.file != before {
        return Err(Difference {
            label: counted.label,
            asked: format!("the file of {} bytes", before.len()),
            answers: "changed by the library".to_owned(),
        });
    }
    Ok(())
}

/// Asks a lookup, once more in other bytes that agree in its chunks, and as in an opened book.
fn ask(
    differ: &mut Differ,
    random: &mut Random,
    asked: &Asked,
    counted: &Counted,
    told: &Told,
) -> Result<(), Difference> {
    let (record, name) = (counted.record, told.name.clone());
    let opened = Call::Opened {
        record,
        name: name.clone(),
    };
    let places = random.pick(&[5, 5, 6, 7, 16]);
    let call = Call::Lookup {
        record,
        name,
        places,
    };
    differ
        .compare(asked, &call)
        .and_then(|()| keeps_its_aim(asked, counted, told))
        .and_then(|()| twins::ask(differ, random, asked, &call, &told.met))
        .and_then(|()| differ.compare(asked, &opened))
        .map_err(|answers| Difference {
            label: counted.label,
            asked: shown(asked.file, &call),
            answers,
        })
}

/// Both may be wrong alike: what the plan says has to come of it.
fn keeps_its_aim(asked: &Asked, counted: &Counted, told: &Told) -> Result<(), String> {
    let answer = lookup(asked.file, &counted.record, &told.name, 5);
    match answer == told.answer {
        true => Ok(()),
        false => Err(format!("aim: {:?}\nboth: {answer:?}", told.answer)),
    }
}
