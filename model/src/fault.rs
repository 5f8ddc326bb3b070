//! The names of the switches of `model run --fault NAME`: document 01's
//! "Faults that pass on a two-card bench", one against request L2 of document
//! 02, five against request L4, six against request L5, seven against request L6,
//! four against request L7 and fifteen against request L9.

#[derive(Clone, Copy, PartialEq, Eq, Debug)]
pub enum Fault {
    /// "A lock that carries only its holder's own intervals"
    LockOwn,
    /// "Applying records by card"
    ByCard,
    /// "Joining several of a card's changes over another card's store": the
    /// pending changes of one card are joined in the place of the last.
    Join,
    /// The same as figure 2.16 draws it: the writer joins all its changes of
    /// the page, also those the reader has applied before.
    JoinAll,
    /// "Copying the whole page from the last writer"
    WholePage,
    /// "Learning before closing, so an interval's clock claims news its
    /// stores had not seen."
    LearnFirst,
    /// Against L2, "each dirty page now gets a record": a page without a
    /// word that differs gets none, and makes no interval.
    SkipEqual,
    /// Against L4: totals are posted only where collection is wanted.
    PostWanted,
    /// Against L4: a card's adds are kept after posting.
    AddsKept,
    /// Against L4: the last card's adds are not posted.
    PostShort,
    /// Against L4: card 1's adds are posted in the place of each card's.
    PostFirst,
    /// Against L4, "Totals wrap": they stop at 4,294,967,295.
    Saturate,
    /// Against L5, "set again by later records": a record is skipped whose
    /// words are set by earlier ones.
    SkipByEarlier,
    /// Against L5: only the next record is looked at.
    NextAlone,
    /// Against L5: the last record of a fetch is never applied.
    DropLast,
    /// Against L5, "each of whose words": one word that is set again will do.
    SkipTouched,
    /// Against L5, "a record with no words is always skipped": it is applied.
    KeepEmpty,
    /// Against L5, "the records applied": all pending ones are counted.
    CountPending,
    /// Against L6: the words of skipped records count, too.
    WordsSkipped,
    /// Against L6: a run of words counts as one.
    WordsByRun,
    /// Against L6, "A word that is set to the value it had counts": it does not.
    WordsAltered,
    /// Against L6: a word that several records of a fetch set counts once.
    WordsOnce,
    /// Against L6: the number of records stands for that of words.
    WordsByCount,
    /// Against L6, "fetch, read, write and the collecting arrival hand on their
    /// sums": only a read does.
    WordsOfReads,
    /// Against L6, "A run that did not stop at 2, 15 or 16": the last line stands
    /// behind these, too.
    WordsAlways,
    /// Against L7: a card with a lock in hand arrives.
    ArriveHolding,
    /// Against L7: only lock 0 is looked at.
    LockZeroAlone,
    /// Against L7: only a lock for which others wait is looked at.
    AwaitedAlone,
    /// Against L7, "18, an arrival by a holder, after 17": it comes before 5, 6
    /// and 17.
    HolderFirst,
    /// Against L9, "first in first out": the newest job is removed.
    JobNewest,
    /// Against L9, "learns its clock": a dequeue learns nothing.
    JobSilent,
    /// Against L9: a job's clock is that before the closing.
    JobEarly,
    /// Against L9: a job carries only its card's own intervals.
    JobOwn,
    /// Against L9: a dequeue learns before it closes.
    JobLearnFirst,
    /// Against L9, "kind 11 closes": it does not.
    DequeueOpen,
    /// Against L9, "and of itself no other": the jobs that wait tell what those
    /// removed before them told.
    JobsHeard,
    /// Against L9, "and of itself no other": a dequeue learns the clocks of all
    /// jobs that wait.
    JobsAll,
    /// Against L9: a collecting round keeps the clocks of jobs.
    JobClocksKept,
    /// Against L9: a collecting round takes the jobs away.
    JobsCollected,
    /// Against L9, "19, enqueue with 32 jobs waiting": 31 will do.
    FullAt31,
    /// Against L9: a job more than 32 is taken.
    FullAt33,
    /// Against L9, "space is used again after each removal": it is not.
    FullForGood,
    /// Against L9, "both after 18": 19 and 20 come before 5, 6 and 17.
    QueueFirst,
    /// Against L9, "20, dequeue with none": it answers 0.
    EmptyPasses,
}

pub const FAULTS: [(&str, Fault); 44] = [
    ("lock-own", Fault::LockOwn),
    ("by-card", Fault::ByCard),
    ("join", Fault::Join),
    ("join-all", Fault::JoinAll),
    ("whole-page", Fault::WholePage),
    ("learn-first", Fault::LearnFirst),
    ("skip-equal", Fault::SkipEqual),
    ("post-wanted", Fault::PostWanted),
    ("adds-kept", Fault::AddsKept),
    ("post-short", Fault::PostShort),
    ("post-first", Fault::PostFirst),
    ("saturate", Fault::Saturate),
    ("by-earlier", Fault::SkipByEarlier),
    ("next-alone", Fault::NextAlone),
    ("drop-last", Fault::DropLast),
    ("touched", Fault::SkipTouched),
    ("keep-empty", Fault::KeepEmpty),
    ("all-counted", Fault::CountPending),
    ("words-skip", Fault::WordsSkipped),
    ("words-runs", Fault::WordsByRun),
    ("words-new", Fault::WordsAltered),
    ("words-once", Fault::WordsOnce),
    ("words-count", Fault::WordsByCount),
    ("words-reads", Fault::WordsOfReads),
    ("words-ever", Fault::WordsAlways),
    ("18-never", Fault::ArriveHolding),
    ("18-lock-0", Fault::LockZeroAlone),
    ("18-awaited", Fault::AwaitedAlone),
    ("18-first", Fault::HolderFirst),
    ("job-newest", Fault::JobNewest),
    ("job-silent", Fault::JobSilent),
    ("job-early", Fault::JobEarly),
    ("job-own", Fault::JobOwn),
    ("job-first", Fault::JobLearnFirst),
    ("job-open", Fault::DequeueOpen),
    ("job-heard", Fault::JobsHeard),
    ("job-all", Fault::JobsAll),
    ("job-clocks", Fault::JobClocksKept),
    ("job-gone", Fault::JobsCollected),
    ("19-at-31", Fault::FullAt31),
    ("19-at-33", Fault::FullAt33),
    ("19-for-good", Fault::FullForGood),
    ("19-first", Fault::QueueFirst),
    ("20-never", Fault::EmptyPasses),
];

pub fn by_name(name: &str) -> Option<Fault> {
    let found = FAULTS.iter().find(|(known, _)| *known == name);
    found.map(|(_, fault)| *fault)
}
