//! Batches about some bytes.

use super::{some_name, Bytes};
use crate::generate::ask::{break_names, joined, joined_padded};
use crate::generate::{Call, Random};
use crate::ANSWER;

/// Longer files take too long to be opened for every cut.
const SHORT_FILE: usize = 100_000;

/// Names up to this length are used where the names are cut at every byte.
const SHORT_NAME: usize = 12;

impl Bytes<'_> {
    /// Some names, whole for the most part, with room for the answers, or about that.
    pub fn batch(&self, random: &mut Random, names: &[Vec<u8>]) -> Call {
        let count = random.pick(&[0, 1, 2, 3, 5, 8]);
        let asked: Vec<Vec<u8>> = (0..count).map(|_| some_name(random, names)).collect();
        let bytes = match random.below(5) {
            0 if count > 0 => break_names(random, &asked),
            1 => joined_padded(random, &asked),
            _ => joined(&asked),
        };
        let needed = ANSWER * count;
        let less = random.pick(&[1, 31, 32, needed]);
        let room = match random.below(6) {
            0 => needed.saturating_sub(less),
            1 => needed + 1 + random.index(64),
            _ => needed,
        };
        Call::Batch { names: bytes, room }
    }

    /// A batch of a few short names, cut at every byte.
    pub fn every_cut(&self, random: &mut Random, names: &[Vec<u8>]) -> Vec<Call> {
        if self.file.len() > SHORT_FILE {
            return Vec::new();
        }
        let short = names.iter().filter(|name| name.len() <= SHORT_NAME);
        let mut asked: Vec<Vec<u8>> = short.take(2).cloned().collect();
        asked.extend([Vec::new(), b"/".to_vec()]);
        random.shuffle(&mut asked);
        let bytes = match random.once_in(2) {
            true => joined_padded(random, &asked),
            false => joined(&asked),
        };
        let room = ANSWER * asked.len();
        let cut = |length| Call::Batch {
            names: bytes[..length].to_vec(),
            room,
        };
        (0..=bytes.len()).map(cut).collect()
    }
}
