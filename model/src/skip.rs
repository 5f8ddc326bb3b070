//! Which records of a fetch are applied (document 02, request L5): "Within a
//! fetch, a record each of whose words is set again by later records of that
//! fetch is skipped; a record with no words is always skipped."

use crate::fault::Fault;
use crate::model::Record;

/// Whether each of the record's words is set by one of the others. With no
/// words it is, whatever the others are.
pub fn is_replaced(record: &Record, others: &[Record]) -> bool {
    let mut words = record.diff.0.iter();
    words.all(|(at, _)| others.iter().any(|other| other.diff.sets(*at)))
}

/// The records that are applied, of the records of a fetch in its order. "Later
/// records" are all that come later, skipped or not.
pub fn unreplaced(records: &[Record]) -> Vec<Record> {
    let later = |at: usize| &records[at + 1..];
    let all = records.iter().enumerate();
    let applied = all.filter(|(at, record)| !is_replaced(record, later(*at)));
    applied.map(|(_, record)| record.clone()).collect()
}

/// The same with a fault, for `model run --fault NAME` alone.
pub fn unreplaced_faulty(fault: Fault, records: &[Record]) -> Vec<Record> {
    let is_skipped = |at: usize| {
        let (record, later) = (&records[at], &records[at + 1..]);
        match fault {
            Fault::CountPending => false,
            Fault::SkipByEarlier => is_replaced(record, &records[..at]),
            Fault::NextAlone => is_replaced(record, &later[..later.len().min(1)]),
            Fault::DropLast => later.is_empty() || is_replaced(record, later),
            Fault::SkipTouched => is_touched(record, later),
            Fault::KeepEmpty => !record.diff.is_empty() && is_replaced(record, later),
            // The others show elsewhere.
            _ => is_replaced(record, later),
        }
    };
    let applied = (0..records.len()).filter(|at| !is_skipped(*at));
    applied.map(|at| records[at].clone()).collect()
}

/// Whether it has no words, or one of them is set by one of the others.
fn is_touched(record: &Record, others: &[Record]) -> bool {
    let mut words = record.diff.0.iter();
    let set = |at: usize| others.iter().any(|other| other.diff.sets(at));
    record.diff.is_empty() || words.any(|(at, _)| set(*at))
}
