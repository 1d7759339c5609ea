//! Where an asked name stands among the names of a chunk, and how many comparisons its search makes
//! there. It follows from numbers (FORMAT Q8 to Q10): no names are compared for it.

/// Where an asked name stands in a chunk.
#[derive(Debug, Clone, Copy, PartialEq, Eq)]
pub struct Standing {
    /// How many names the chunk has.
    pub entries: usize,
    /// How many of them are below the asked one.
    pub below: usize,
    /// Whether the next one is equal to it.
    pub equal: bool,
}

impl Standing {
    /// The last entry that is not above the asked name.
    pub fn taken(&self) -> Option<usize> {
        (self.below + usize::from(self.equal)).checked_sub(1)
    }

    /// The group of that entry, which is left when the groups have been halved.
    fn group(&self, density: u64) -> usize {
        self.taken().unwrap_or(0) / step(density)
    }

    /// How often the groups are halved until that one is alone.
    pub fn halvings(&self, density: u64) -> u64 {
        halvings(groups(self.entries, density))[self.group(density)]
    }

    /// How many names of that group are compared: those up to one that is not below, or all.
    fn gone_through(&self, density: u64) -> u64 {
        let first = self.group(density) * step(density);
        let end = self.entries.min(first + step(density));
        (end.min(self.below + 1) - first) as u64
    }

    /// How many comparisons the search makes.
    pub fn comparisons(&self, density: u64) -> u64 {
        self.halvings(density) + self.gone_through(density)
    }
}

/// How many entries a group has that is full.
pub fn step(density: u64) -> usize {
    1 + (1 << density)
}

/// How many groups so many entries have, the last one full or not.
pub fn groups(entries: usize, density: u64) -> usize {
    let step = step(density);
    (entries + step - 1) / step
}

/// How often so many groups are halved before each of them is alone. Of those that are left the
/// lower part has half, rounded down.
pub fn halvings(groups: usize) -> Vec<u64> {
    if groups == 1 {
        return vec![0];
    }
    let low = groups / 2;
    let parts = [halvings(low), halvings(groups - low)].concat();
    parts.into_iter().map(|often| often + 1).collect()
}

#[cfg(test)]
mod tests {
    use super::*;

    /// Written down by hand from FORMAT Q9: with three groups the second is compared first, with
    /// five and with six the third and the fourth.
    #[test]
    fn groups_by_halvings() {
        let rows: [&[u64]; 6] = [
            &[0],
            &[1, 1],
            &[1, 2, 2],
            &[2, 2, 2, 2],
            &[2, 2, 2, 3, 3],
            &[2, 3, 3, 2, 3, 3],
        ];
        for (groups, row) in (1..).zip(rows) {
            assert_eq!(halvings(groups), row);
        }
        assert_eq!(halvings(256), [8; 256]);
        assert_eq!(halvings(257).iter().max(), Some(&9));
    }
}
