//! Asks a function for the order of a pair's names.

use crate::pairs::Pair;
use crate::raw::Function;

/// The names of a pair, lent to both functions.
pub struct Asked<'a> {
    pair: &'a Pair,
    names: (Vec<u8>, Vec<u8>),
}

impl<'a> Asked<'a> {
    pub fn new(pair: &'a Pair) -> Asked<'a> {
        let names = pair.names();
        Asked { pair, names }
    }

    /// So many calls, whose answers must be the pair's order.
    pub fn ask(&self, function: &Function, times: u64) -> Result<(), String> {
        let sum = (function.repeated)(&self.names.0, &self.names.1, times);
        let order = self.pair.order;
        if sum == order * times {
            return Ok(());
        }
        Err(format!(
            "{} on {}: the answers of {} calls sum up to {}, where each should be {}",
            function.name, self.pair.key, times, sum, order
        ))
    }
}
