//! What the lines must say of arrivals with a lock in hand (document 02, request
//! L7): none is accepted, and 18 is given for no other step. Who holds a lock is
//! counted off from the accepted acquires and releases.

use crate::model::{Step, ACQUIRE, ARRIVE, RELEASE};
use crate::stepfile::{record_at, Line};
use std::collections::BTreeMap;

/// The turns of a lock: who asked for it, in their order, and how many turns a
/// release has ended.
#[derive(Default)]
struct Turns {
    askers: Vec<u8>,
    ended: usize,
}

impl Turns {
    fn holder(&self) -> Option<u8> {
        self.askers.get(self.ended).copied()
    }
}

#[derive(Default)]
struct Locks(BTreeMap<u16, Turns>);

impl Locks {
    fn take(&mut self, step: &Step) {
        let turns = self.0.entry(step.object);
        match step.kind {
            ACQUIRE => turns.or_default().askers.push(step.card),
            RELEASE => turns.or_default().ended += 1,
            _ => {}
        }
    }

    fn holds_any(&self, card: u8) -> bool {
        self.0.values().any(|turns| turns.holder() == Some(card))
    }
}

/// The first line that is wrong about an arrival, in words.
pub fn arrivals_fit(file: &[u8], lines: &[Line]) -> Result<(), String> {
    let mut locks = Locks::default();
    for line in lines.iter().skip(1) {
        let Some(step) = record_at(file, line.number).map(Step::from_bytes) else {
            continue;
        };
        let with_lock = step.kind == ARRIVE && locks.holds_any(step.card);
        match line.refusal {
            0 if with_lock => return Err(wrong(line, "arrives with a lock in hand")),
            18 if !with_lock => return Err(wrong(line, "is no arrival with a lock in hand")),
            0 => locks.take(&step),
            _ => {}
        }
    }
    Ok(())
}

fn wrong(line: &Line, what: &str) -> String {
    format!("record {} {what}: {}", line.number, line.text())
}
