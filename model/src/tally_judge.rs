//! What a read of a tally must answer, from the accepted steps alone (document
//! 02, request L4): "A card reads the total posted at the last completed round
//! plus its own adds since", and "The posted total is the sum of all accepted
//! adds of finished rounds".
//!
//! So the sum is over the accepted adds to the tally that stand earlier in the
//! list and are the reader's own or of a round that is finished by then. It is
//! taken whole and wrapped once. Two ways to it, for the two judges.

use crate::judge::Accepted;
use crate::model::{Step, ARRIVE, TALLY_ADD, WRAP};
use std::collections::BTreeMap;

/// The value due at the place of a read, from the places of the list. `ends`
/// has for each arrival of a completed round the place of its last arrival.
pub fn due_by_places(list: &[Accepted], ends: &[Option<usize>], read: usize) -> u32 {
    let reader = list[read].step;
    let last_end = ends[..read].iter().flatten().filter(|end| **end < read);
    let last_end = last_end.max();
    let counts = |place: &usize| {
        let add = list[*place].step;
        let finished = last_end.is_some_and(|end| place < end);
        add.kind == TALLY_ADD
            && add.object == reader.object
            && (add.card == reader.card || finished)
    };
    let values = (0..read).filter(counts).map(|place| list[place].step.value);
    wrapped(values.map(u64::from).sum())
}

/// "Totals wrap at 4,294,967,296."
fn wrapped(sum: u64) -> u32 {
    (sum % WRAP) as u32
}

/// The same with sums kept along the list. A list of a million adds stays far
/// below what a sum can hold.
#[derive(Default)]
pub struct Totals {
    /// By tally, over the finished rounds.
    finished: BTreeMap<u16, u64>,
    /// By tally and card, over the open round.
    open: BTreeMap<(u16, u8), u64>,
    arrivals: usize,
}

impl Totals {
    pub fn take(&mut self, step: &Step, cards: usize) {
        if step.kind == TALLY_ADD {
            let sum = self.open.entry((step.object, step.card)).or_insert(0);
            *sum += u64::from(step.value);
        }
        if step.kind == ARRIVE {
            self.arrivals += 1;
            if self.arrivals.is_multiple_of(cards) {
                self.finish_round();
            }
        }
    }

    fn finish_round(&mut self) {
        for ((tally, _), sum) in std::mem::take(&mut self.open) {
            *self.finished.entry(tally).or_insert(0) += sum;
        }
    }

    pub fn due(&self, read: &Step) -> u32 {
        let finished = self.finished.get(&read.object).unwrap_or(&0);
        let own = self.open.get(&(read.object, read.card)).unwrap_or(&0);
        wrapped(finished + own)
    }
}
