//! Names by ranks: which of two comes first is known from numbers, and no names are compared for it.

use super::pairs::{at_place, PLACES};
use super::Random;

/// A number for each level of a tree, the root's first. Names come in the order of their ranks: the
/// first number that differs decides.
pub type Rank = Vec<usize>;

/// A way to write ranks as names.
#[derive(Debug, Clone)]
pub struct Ranked {
    /// What all names begin with.
    prefix: Vec<u8>,
    /// The digits, by their places in the order of bytes; they rise.
    digits: Vec<usize>,
    /// How many digits a number has at each level.
    widths: Vec<usize>,
    /// Whether each 1 at the end of a rank is left out. Then no number but the first may be 0: a name
    /// comes before all that begin with it.
    shortened: bool,
}

impl Ranked {
    /// Some way for ranks whose numbers are these at most.
    pub fn some(random: &mut Random, most: &[usize]) -> Ranked {
        let any = random.index(20);
        let long = random.pick(&[200, 900]);
        // Many names have to be short to fit into a chunk.
        let (base, length) = match most.iter().any(|&most| most > 600) {
            true => (PLACES, 0),
            false => (
                random.pick(&[PLACES, PLACES, 100, 26, 10]),
                random.pick(&[0, 0, 0, 0, 0, 0, 1, any, any, long]),
            ),
        };
        let mut digits: Vec<usize> = (0..PLACES).collect();
        random.shuffle(&mut digits);
        digits.truncate(base);
        digits.sort_unstable();
        let width = |&most: &usize| (1..).find(|&width| base.pow(width) > most).unwrap_or(1);
        Ranked {
            prefix: random.bytes(length),
            digits,
            widths: most.iter().map(|most| width(most) as usize).collect(),
            shortened: random.once_in(2),
        }
    }

    /// The least length of a name whose number of this level is not 1.
    pub fn least_length(&self, level: usize) -> usize {
        let levels = match self.shortened {
            true => level + 1,
            false => self.widths.len(),
        };
        self.prefix.len() + self.widths[..levels].iter().sum::<usize>()
    }

    /// The name of a rank, letters in either case.
    pub fn name(&self, random: &mut Random, rank: &Rank) -> Vec<u8> {
        let levels = match rank.iter().rposition(|&number| number != 1) {
            Some(last) if self.shortened => last + 1,
            None if self.shortened => 1,
            _ => rank.len(),
        };
        let mut name = self.prefix.clone();
        for byte in name.iter_mut().filter(|byte| byte.is_ascii_alphabetic()) {
            *byte ^= random.pick(&[0x00, 0x20]);
        }
        for (&number, &width) in rank[..levels].iter().zip(&self.widths) {
            let base = self.digits.len();
            for place in (0..width as u32).rev() {
                let digit = number / base.pow(place) % base;
                name.push(random.pick(&at_place(self.digits[digit])));
            }
        }
        name
    }
}

#[cfg(test)]
mod tests {
    use super::*;
    use crate::compare;

    /// The names have the order of their ranks.
    #[test]
    fn names_rise_with_ranks() {
        let random = &mut Random::new(40);
        for _ in 0..200 {
            let ranked = Ranked::some(random, &[40, 600, 3]);
            let mut rank = || vec![random.index(41), 1 + random.index(600), 1 + random.index(3)];
            let mut ranks: Vec<Rank> = (0..60).map(|_| rank()).collect();
            let beginning = vec![ranks[0][0], 1, 1];
            ranks.extend([beginning, vec![0, 1, 1], vec![1, 1, 1], vec![1, 1, 2]]);
            for one in &ranks {
                for two in &ranks {
                    let names = [ranked.name(random, one), ranked.name(random, two)];
                    assert_eq!(
                        compare(&names[0], &names[1]),
                        one.cmp(two),
                        "{one:?} {two:?}"
                    );
                }
            }
        }
    }
}
