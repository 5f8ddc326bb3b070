//! The names of the switches of `model forecast --fault NAME`: what a forecast
//! of space could get wrong (document 02, requests L8 and L9).

#[derive(Clone, Copy, PartialEq, Eq, Debug)]
pub enum SpaceFault {
    /// A closing counts one record, whatever the number of dirty pages.
    CloseOne,
    /// A closing with nothing dirty uses up an interval.
    CloseClean,
    /// A card that has to wait does not close.
    AskerOpen,
    /// A release makes the lock free and forgets who waits.
    LineForgotten,
    /// An arrival leaves no mark.
    MarkForgotten,
    /// A collection keeps the own entries.
    EntriesKept,
    /// A collection keeps the records.
    RecordsKept,
    /// The wish stands after the round that served it.
    WishKept,
    /// Every round that is completed collects.
    EveryRound,
    /// Dirty pages are left out of 10.
    TenByRecords,
    /// 10 comes before 9.
    TenFirst,
    /// A store that is refused leaves its page dirty.
    RefusedStores,
    /// A page that several cards have dirty counts once.
    DirtyOnce,
    /// The figures of a line are those before its record.
    FiguresBefore,
    /// The figures of a line of 15 or 16 are 0 and 0.
    StopZero,
    /// "most" is the sum of the last line.
    MostLast,
    /// "most" is the largest number of records.
    MostRecords,
    /// "most" is not printed after 2, 15 or 16.
    MostUnstopped,
    /// An enqueue does not close.
    EnqueueOpen,
    /// A dequeue does not close.
    DequeueOpen,
    /// A dequeue leaves the number of jobs as it was.
    JobsKept,
    /// A collection takes the jobs away.
    JobsCollected,
    /// An enqueue or a dequeue that is refused by 19 or 20 closes.
    RefusedJobs,
}

pub const SPACE_FAULTS: [(&str, SpaceFault); 23] = [
    ("close-one", SpaceFault::CloseOne),
    ("close-clean", SpaceFault::CloseClean),
    ("asker-open", SpaceFault::AskerOpen),
    ("line-forgotten", SpaceFault::LineForgotten),
    ("mark-forgotten", SpaceFault::MarkForgotten),
    ("entries-kept", SpaceFault::EntriesKept),
    ("records-kept", SpaceFault::RecordsKept),
    ("wish-kept", SpaceFault::WishKept),
    ("every-round", SpaceFault::EveryRound),
    ("ten-by-records", SpaceFault::TenByRecords),
    ("ten-first", SpaceFault::TenFirst),
    ("refused-stores", SpaceFault::RefusedStores),
    ("dirty-once", SpaceFault::DirtyOnce),
    ("figures-before", SpaceFault::FiguresBefore),
    ("stop-zero", SpaceFault::StopZero),
    ("most-last", SpaceFault::MostLast),
    ("most-records", SpaceFault::MostRecords),
    ("most-unstopped", SpaceFault::MostUnstopped),
    ("enqueue-open", SpaceFault::EnqueueOpen),
    ("dequeue-open", SpaceFault::DequeueOpen),
    ("jobs-kept", SpaceFault::JobsKept),
    ("jobs-collected", SpaceFault::JobsCollected),
    ("refused-jobs", SpaceFault::RefusedJobs),
];

pub fn by_name(name: &str) -> Option<SpaceFault> {
    let found = SPACE_FAULTS.iter().find(|(known, _)| *known == name);
    found.map(|(_, fault)| *fault)
}
