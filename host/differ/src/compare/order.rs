//! The order of two names.

use super::{Both, Differ};
use crate::coverage::ORDERS;
use crate::lent::Lent;
use crate::{library, pairs};
use second::generate::pairs::Pair;
use second::{compare, order};

/// Stands behind the right name, and a guard behind the left one: other bytes, so that an answer
/// that comes of them shows where the names themselves are equal.
const BEHIND: u8 = 0xFF;

fn order_text(answer: u64) -> String {
    match ORDERS.get(answer as usize) {
        Some(name) => format!("{answer} ({name})"),
        None => answer.to_string(),
    }
}

impl Differ {
    /// Asks for the order of two names both ways round, and of one of them and itself.
    pub fn pair(&mut self, pair: &Pair) -> Result<(), String> {
        let Pair { left, right, .. } = pair;
        let there = self.order(left, right)?;
        let back = self.order(right, left);
        let back = back.map_err(|answers| format!("the other way round\n{answers}"))?;
        let same = self.order_of_one(left);
        let same = same.map_err(|answers| format!("the left name and itself\n{answers}"))?;
        // Both may be wrong alike.
        if there + back != 2 || same != 1 {
            let numbers = format!("{there}, the other way round {back}, of one name {same}");
            return Err(format!("both, FORMAT S5: {numbers}"));
        }
        if let Some(aim) = pair.aim.filter(|aim| *aim != compare(left, right)) {
            return Err(format!("aim: {aim:?}\nboth: {}", order_text(there)));
        }
        pairs::count(&mut self.coverage, pair);
        Ok(())
    }

    fn order(&mut self, left: &[u8], right: &[u8]) -> Result<u64, String> {
        let mut lent_left = Lent::with("left name", left);
        let mut lent_right = Lent::with("right name", &[right, &[BEHIND]].concat());
        let got = library::name_order(lent_left.lend(), &lent_right.lend()[..right.len()]);
        let both = Both::new(order(left, right), got)
            .lent(lent_left.difference())
            .lent(lent_right.difference());
        self.told_order(both)
    }

    /// Of a name that is lent as the left and as the right one.
    fn order_of_one(&mut self, name: &[u8]) -> Result<u64, String> {
        let mut lent = Lent::with("name", name);
        let slice: &[u8] = lent.lend();
        let got = library::name_order(slice, slice);
        self.told_order(Both::new(order(name, name), got).lent(lent.difference()))
    }

    fn told_order(&mut self, both: Both) -> Result<u64, String> {
        self.comparisons += 1;
        let answer = both.second;
        both.told_as(order_text)?;
        self.coverage.count("order", ORDERS[answer as usize]);
        Ok(answer)
    }
}
