//! What the programs write for their input (FORMAT, Programs).

use crate::{chunk_listed, compare_start, compare_step, open, part, require};
use crate::{Compared, Difference, Listed, Record, Refusal, Side};

/// What `list` writes: one line for each entry of the book, or one for the refusal.
pub fn frames(input: &[u8]) -> String {
    lines(match open_within(input, 60_000) {
        Ok(record) => entry_frames(input, &record),
        Err(refusal) => vec![refusal_frame(refusal)],
    })
}

/// What `diff` writes for two files: one line for each difference, or one for the refusal.
pub fn diff_frames(one: &[u8], two: &[u8]) -> String {
    let opened = |file| open_within(file, 30_000);
    let records = opened(one).and_then(|first| Ok((first, opened(two)?)));
    lines(match records {
        Ok((first, second)) => difference_frames(
            Side {
                file: one,
                record: &first,
            },
            Side {
                file: two,
                record: &second,
            },
        ),
        Err(refusal) => vec![refusal_frame(refusal)],
    })
}

/// Opens a book of so many bytes at most (FORMAT R29).
fn open_within(file: &[u8], most: usize) -> Result<Record, Refusal> {
    require(file.len() <= most, 29)?;
    open(file)
}

fn lines(frames: Vec<Vec<u8>>) -> String {
    let line = |frame: &Vec<u8>| hexadecimal(frame) + "\n";
    frames.iter().map(line).collect()
}

fn refusal_frame(refusal: Refusal) -> Vec<u8> {
    let mut frame = vec![0xEE, refusal.number];
    frame.extend(refusal.place.to_be_bytes());
    frame
}

/// The entries along the chain. The book has been opened, so no chunk is refused.
fn entry_frames(file: &[u8], record: &Record) -> Vec<Vec<u8>> {
    let mut frames = Vec::new();
    let mut chunk = record.first;
    while let Ok((listed, next)) = chunk_listed(file, record, chunk) {
        frames.extend(listed.iter().map(|listed| own_bytes(file, listed).to_vec()));
        chunk = u64::from(next);
    }
    frames
}

/// The differences in their order (FORMAT P8). Both books have been opened, so no step is refused.
fn difference_frames(one: Side, two: Side) -> Vec<Vec<u8>> {
    let own = |side: Side, listed: &Listed| own_bytes(side.file, listed).to_vec();
    let mut frames = Vec::new();
    let mut progress = compare_start(one.record, two.record);
    while let Compared::Difference(difference, behind) = compare_step(one, two, &progress) {
        frames.push(match &difference {
            Difference::OnlyFirst(first) => [vec![1], own(one, first)].concat(),
            Difference::OnlySecond(second) => [vec![2], own(two, second)].concat(),
            Difference::Changed(first, second) => {
                [vec![3], own(one, first), own(two, second)].concat()
            }
        });
        progress = behind;
    }
    frames
}

/// An entry's own bytes as they stand, leading 80 bytes with them (FORMAT P3, P8).
pub fn own_bytes<'a>(file: &'a [u8], listed: &Listed) -> &'a [u8] {
    part(file, listed.place, listed.length)
}

fn hexadecimal(bytes: &[u8]) -> String {
    bytes.iter().map(|byte| format!("{byte:02x}")).collect()
}
