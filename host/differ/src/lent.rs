//! Places that are lent to the library, beside what has to stand in them afterwards.

use std::fmt::Debug;
use std::ops::Range;

/// How many places in front of a lent slice and behind it have to stay as they are.
const GUARD: usize = 8;

/// Slices up to this length are told whole.
const SHORT: usize = 16;

/// What a place holds beforehand. Neighbours differ, so that a place that was moved or written
/// without need is seen.
pub trait Mark: Copy + PartialEq + Debug {
    fn mark(at: usize) -> Self;
}

impl Mark for u8 {
    fn mark(at: usize) -> u8 {
        (at as u8).wrapping_mul(37) ^ 0xA5
    }
}

impl Mark for u32 {
    fn mark(at: usize) -> u32 {
        0xA5C3_0000 ^ (at as u32)
    }
}

impl Mark for u64 {
    fn mark(at: usize) -> u64 {
        0xA5C3_9600_0000_0000 ^ (at as u64)
    }
}

/// A lent slice between guards, and the same places as they have to be after the call.
pub struct Lent<T> {
    name: &'static str,
    places: Vec<T>,
    expected: Vec<T>,
}

impl<T: Mark> Lent<T> {
    pub fn new(name: &'static str, length: usize) -> Lent<T> {
        let places: Vec<T> = (0..length + 2 * GUARD).map(T::mark).collect();
        Lent {
            name,
            expected: places.clone(),
            places,
        }
    }

    /// A lent slice that holds these values beforehand, for places that are read.
    pub fn with(name: &'static str, values: &[T]) -> Lent<T> {
        let mut lent = Lent::new(name, values.len());
        lent.places[GUARD..GUARD + values.len()].copy_from_slice(values);
        lent.expect(values);
        lent
    }

    /// The front of the slice has to become this; the rest stays.
    pub fn expect(&mut self, values: &[T]) {
        self.expect_at(0, values);
    }

    /// The same from a place on.
    pub fn expect_at(&mut self, place: usize, values: &[T]) {
        let end = self.places.len() - GUARD;
        self.expected[GUARD..end][place..place + values.len()].copy_from_slice(values);
    }

    pub fn lend(&mut self) -> &mut [T] {
        let end = self.places.len() - GUARD;
        &mut self.places[GUARD..end]
    }

    pub fn lend_array<const N: usize>(&mut self) -> &mut [T; N] {
        let slice = self.lend();
        slice.try_into().expect("a slice of this length")
    }

    /// Both sides of a short slice, or the first place of a long one that differs.
    pub fn difference(&self) -> Option<String> {
        if self.places == self.expected {
            return None;
        }
        let pairs = || self.expected.iter().zip(&self.places);
        let differs = |(expected, place): (&T, &T)| expected != place;
        let at = pairs().position(differs)?;
        let many = pairs().filter(|pair| differs(*pair)).count();
        let length = self.places.len() - 2 * GUARD;
        let (name, lent) = (self.name, GUARD..GUARD + length);
        Some(if length <= SHORT && lent.contains(&at) {
            let second = shown(&self.expected, lent.clone());
            let library = shown(&self.places, lent);
            format!("{name}: second {second}, library {library}")
        } else {
            // Places below 0 and from the length on are guards.
            let place = at as i64 - GUARD as i64;
            let second = shown(&self.expected, at..at + 1);
            let library = shown(&self.places, at..at + 1);
            format!(
                "{name}: {many} places differ, the first is {place} of {length}: \
                 second {second}, library {library}"
            )
        })
    }
}

/// Values, with a dash for what is as it was before the call.
fn shown<T: Mark>(places: &[T], range: Range<usize>) -> String {
    let value = |at: usize| match places[at] {
        value if value == T::mark(at) => "-".to_owned(),
        value => format!("{value:?}"),
    };
    let values: Vec<String> = range.map(value).collect();
    format!("[{}]", values.join(" "))
}

#[cfg(test)]
mod tests {
    use super::*;

    fn told(change: fn(&mut Lent<u32>)) -> bool {
        let mut lent = Lent::new("trail", 3);
        lent.expect(&[7, 8]);
        lent.lend()[..2].copy_from_slice(&[7, 8]);
        change(&mut lent);
        lent.difference().is_some()
    }

    #[test]
    fn every_place_counts() {
        assert!(!told(|_| ()));
        assert!(told(|lent| lent.lend()[0] = 8));
        assert!(told(|lent| lent.lend()[2] = 0));
        assert!(told(|lent| lent.places[GUARD - 1] = 0));
        assert!(told(|lent| lent.places[GUARD + 3] = 0));
    }

    #[test]
    fn places_in_front_stay() {
        let mut lent = Lent::<u64>::new("answer", 3);
        lent.expect_at(2, &[7]);
        assert!(lent.difference().is_some());
        lent.lend()[2] = 7;
        assert_eq!(lent.difference(), None);
        lent.lend()[1] = 7;
        assert!(lent.difference().is_some());
    }

    #[test]
    fn a_slice_without_places_is_guarded() {
        let mut lent = Lent::<u64>::new("entries", 0);
        assert!(lent.lend().is_empty());
        assert_eq!(lent.difference(), None);
        lent.places[GUARD] = 0;
        assert!(lent.difference().is_some());
    }
}
