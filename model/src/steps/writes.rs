//! The accepted writes to each word so far, and what a read of it meets: the
//! premise of demand 3, or what is missing for it.

use super::order::{Order, CARDS};
use crate::model::WRITE;
use std::collections::BTreeMap;

/// Which of the three a read is.
#[derive(Debug, PartialEq, Eq)]
pub enum Finding {
    /// Ordered, none written: 0 is due.
    NoneWritten,
    /// Ordered: the value of this write is due, the last in the list.
    Ordered {
        write: usize,
    },
    NotOrdered(Disorder),
}

/// Why a read is not ordered.
#[derive(Debug, PartialEq, Eq)]
pub struct Disorder {
    /// Of each card that has any, the writes that are not before the read.
    pub unknown: Vec<Unknown>,
    /// Two writes that are not ordered with one another, the first such two.
    pub pair: Option<(usize, usize)>,
    /// How many later writes are not ordered with an earlier one either.
    pub more_pairs: usize,
    /// The last write of the value that the read answered.
    pub like: Option<usize>,
}

/// Writes of one card that are not before a read.
#[derive(Debug, PartialEq, Eq)]
pub struct Unknown {
    pub first: usize,
    pub last: usize,
    pub count: usize,
}

#[derive(Default)]
pub struct Writes {
    words: BTreeMap<u16, WordWrites>,
}

/// The writes to one word, as places.
#[derive(Default)]
struct WordWrites {
    by_card: [Vec<usize>; CARDS],
    last: Option<usize>,
    pair: Option<(usize, usize)>,
    more_pairs: usize,
    by_value: BTreeMap<u32, usize>,
}

impl Writes {
    /// The write at `place` comes behind those so far.
    pub fn add(&mut self, order: &Order, place: usize) {
        let step = order.list[place].step;
        debug_assert_eq!(step.kind, WRITE);
        let word = self.words.entry(step.object).or_default();
        let racing = word.last_unknown(order, place).next();
        match (word.pair, racing) {
            (_, None) => {}
            (None, Some(earlier)) => word.pair = Some((earlier, place)),
            (Some(_), Some(_)) => word.more_pairs += 1,
        }
        word.by_card[usize::from(step.card)].push(place);
        word.last = Some(place);
        word.by_value.insert(step.value, place);
    }

    /// What the read at `place` meets.
    pub fn found_by(&self, order: &Order, place: usize) -> Finding {
        let Some(word) = self.words.get(&order.list[place].step.object) else {
            return Finding::NoneWritten;
        };
        let all_known = word.last_unknown(order, place).next().is_none();
        match word.last {
            None => Finding::NoneWritten,
            Some(write) if word.pair.is_none() && all_known => Finding::Ordered { write },
            Some(_) => Finding::NotOrdered(word.disorder(order, place)),
        }
    }
}

impl WordWrites {
    /// Of each other card the last write, if it is not before `place`. A card's
    /// last write is known only after its earlier ones.
    fn last_unknown<'a>(
        &'a self,
        order: &'a Order,
        place: usize,
    ) -> impl Iterator<Item = usize> + 'a {
        let lasts = self
            .by_card
            .iter()
            .filter_map(|writes| writes.last().copied());
        lasts.filter(move |write| !order.before(*write, place))
    }

    fn disorder(&self, order: &Order, read: usize) -> Disorder {
        let unknown_of = |writes: &Vec<usize>| {
            let known = writes.partition_point(|write| order.before(*write, read));
            let unknown = &writes[known..];
            Some(Unknown {
                first: *unknown.first()?,
                last: *unknown.last()?,
                count: unknown.len(),
            })
        };
        Disorder {
            unknown: self.by_card.iter().filter_map(unknown_of).collect(),
            pair: self.pair,
            more_pairs: self.more_pairs,
            like: self.by_value.get(&order.list[read].answered).copied(),
        }
    }
}
