//! Vector clocks and the numbers of the field.

use std::collections::BTreeMap;

/// "Cards 1 to 8, numbered from 1; 0 means nobody." A processor is a card;
/// nobody is `None` of an `Option<ProcId>`.
#[derive(Clone, Copy, PartialEq, Eq, PartialOrd, Ord, Debug)]
pub struct ProcId(pub u8);

/// "an interval number 1 to 63"
#[derive(Clone, Copy, PartialEq, Eq, PartialOrd, Ord, Debug)]
pub struct IntervalId(pub u32);

/// "Pages 1 to 8 ... numbered from 0"
#[derive(Clone, Copy, PartialEq, Eq, PartialOrd, Ord, Debug)]
pub struct PageId(pub u16);

/// "locks 1 to 16 ... numbered from 0"
#[derive(Clone, Copy, PartialEq, Eq, PartialOrd, Ord, Debug)]
pub struct LockId(pub u16);

/// "16 tallies of 32 bits, numbered from 0"
#[derive(Clone, Copy, PartialEq, Eq, PartialOrd, Ord, Debug)]
pub struct TallyId(pub u16);

/// "A clock has eight entries, one a card: how many of that card's intervals
/// are known." An entry that is not in the map is 0.
#[derive(Clone, Default, PartialEq, Eq, Debug)]
pub struct VectorClock(BTreeMap<ProcId, u32>);

impl VectorClock {
    /// "the clock of zeros"
    pub fn zeros() -> VectorClock {
        VectorClock(BTreeMap::new())
    }

    pub fn entry(&self, of: ProcId) -> u32 {
        self.0.get(&of).copied().unwrap_or(0)
    }

    /// The entries that are not 0.
    pub fn entries(&self) -> impl Iterator<Item = (ProcId, u32)> + '_ {
        self.0.iter().map(|(card, n)| (*card, *n))
    }

    /// "the card's own entry rises by 1"
    pub fn raise(&mut self, of: ProcId) {
        *self.0.entry(of).or_insert(0) += 1;
    }

    /// A clock that knows one card's entry alone (only for a fault).
    pub fn with_entry_alone(&self, of: ProcId) -> VectorClock {
        let alone = self.0.iter().filter(|(card, _)| **card == of);
        VectorClock(alone.map(|(card, n)| (*card, *n)).collect())
    }

    /// "A clock that joins another becomes the join of the two" (the "larger
    /// entry at each place"); "the other keeps its entries."
    pub fn join(&mut self, other: &VectorClock) {
        for (card, n) in &other.0 {
            let mine = self.0.entry(*card).or_insert(0);
            *mine = (*mine).max(*n);
        }
    }

    /// "the test whether one covers another"
    pub fn covers(&self, other: &VectorClock) -> bool {
        other.0.iter().all(|(card, n)| self.entry(*card) >= *n)
    }

    /// The sum of the entries, by which a fetch orders records.
    pub fn sum(&self) -> u32 {
        self.0.values().sum()
    }
}
