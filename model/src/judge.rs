//! Demand 3 over a whole list of steps, straight from happens-before-1.
//!
//! "Happens-before-1 is made from the number of cards, the fields of the
//! steps and whether each step was refused, and from nothing else in answers
//! or state." So the judge sees a file and its printed lines only; the lines
//! may come from the model or from any other program. Document 02's request
//! L1 adds the order of a release before what the waiter that it serves does
//! next; which waiter that is, is counted off from the accepted steps too.
//! Request L9 adds the order of an enqueue before the dequeue that returns its
//! job, which is counted off as well; what the dequeue must answer, and when the
//! queue is full or empty, is in `queue_judge.rs`.
//! Tallies are no words: they order nothing, and what a read of one must answer
//! is in `tally_judge.rs`. Of the last line the judge asks whether it is due, and
//! whether the records applied can have set so many words. That nobody arrives
//! with a lock in hand is asked in `arrival_judge.rs`.
//!
//! Two judges of the same claim: `by_relation` builds the order as the
//! document defines it (bit sets, short lists only), `by_clocks` counts steps
//! with vectors of its own (any length). Short lists go through both.

use crate::arrival_judge::arrivals_fit;
use crate::diff::PAGE_WORDS;
use crate::model::{Step, ACQUIRE, ARRIVE, DEQUEUE, ENQUEUE, READ, RELEASE, TALLY_READ, WRITE};
use crate::queue_judge::{job_due, queue_fits, returned_at, Waiting};
use crate::stepfile::{record_at, stops, Line, Printed};
use crate::tally_judge::{due_by_places, Totals};
use std::collections::{BTreeMap, BTreeSet, VecDeque};

/// Lists up to this many accepted steps are judged both ways.
const SHORT: usize = 2500;

/// An accepted step: "A step is accepted exactly when its refusal is 0; a
/// refused one has no place in the order."
#[derive(Clone, Copy)]
pub struct Accepted {
    pub number: usize,
    pub step: Step,
    /// The value answered.
    pub answered: u32,
}

/// What was found.
#[derive(Clone, Debug, Default, PartialEq, Eq)]
pub struct Verdict {
    pub accepted: usize,
    pub reads: usize,
    /// Reads of which the strong half names the value.
    pub strong: usize,
    /// Their record numbers.
    pub strong_numbers: Vec<usize>,
    /// Of those, the reads with at least one earlier write.
    pub strong_written: usize,
    /// Reads of tallies; each has one value that is due.
    pub tally_reads: usize,
    /// Dequeues; each has one value that is due.
    pub dequeues: usize,
    pub broken: Vec<Broken>,
}

/// A read that breaks demand 3, or a read of a tally or a dequeue with another
/// value than the one that is due.
#[derive(Clone, Debug, PartialEq, Eq)]
pub struct Broken {
    pub number: usize,
    /// The word or the tally; 0 for a dequeue.
    pub object: u16,
    pub answered: u32,
    pub rule: Rule,
}

/// The rule that a read breaks, with the value that is due by it.
#[derive(Clone, Debug, PartialEq, Eq)]
pub enum Rule {
    Strong(u32),
    Weak,
    Tally(u32),
    Job(u32),
}

impl Broken {
    pub fn text(&self) -> String {
        let Broken {
            number,
            object,
            answered,
            rule,
        } = self;
        let (what, rule) = match rule {
            Rule::Strong(due) => {
                let rule = format!("strong half: {due} is due");
                (format!("read of word {object}"), rule)
            }
            Rule::Weak => {
                let rule = "weak half: neither 0 nor a value written before";
                (format!("read of word {object}"), rule.to_string())
            }
            Rule::Tally(due) => (format!("read of tally {object}"), format!("{due} is due")),
            Rule::Job(due) => ("dequeue".to_string(), format!("{due} is due")),
        };
        format!("record {number}: {what} answered {answered}; {rule}")
    }
}

/// What one judge makes of one read, before the value is looked at.
struct Finding {
    /// "every two of them by different cards are ordered, and each of them is
    /// before the read"
    premise: bool,
    last: Option<u32>,
    /// Whether the value answered is 0 or one of the values written.
    weak: bool,
}

impl Verdict {
    fn take(&mut self, read: &Accepted, finding: Finding) {
        let due = finding.last.unwrap_or(0);
        self.reads += 1;
        self.strong += usize::from(finding.premise);
        self.strong_numbers
            .extend(finding.premise.then_some(read.number));
        self.strong_written += usize::from(finding.premise && finding.last.is_some());
        let strong_broken = finding.premise && due != read.answered;
        if strong_broken {
            self.add_broken(read, Rule::Strong(due));
        } else if !finding.weak {
            self.add_broken(read, Rule::Weak);
        }
    }

    fn take_tally(&mut self, read: &Accepted, due: u32) {
        self.tally_reads += 1;
        if read.answered != due {
            self.add_broken(read, Rule::Tally(due));
        }
    }

    fn take_job(&mut self, dequeue: &Accepted, due: u32) {
        self.dequeues += 1;
        if dequeue.answered != due {
            self.add_broken(dequeue, Rule::Job(due));
        }
    }

    fn add_broken(&mut self, read: &Accepted, rule: Rule) {
        self.broken.push(Broken {
            number: read.number,
            object: read.step.object,
            answered: read.answered,
            rule,
        });
    }
}

/// Judges a file by what was printed; an error if that does not fit the file.
pub fn judge(file: &[u8], printed: &Printed) -> Result<Verdict, String> {
    let (cards, list) = accepted_steps(file, &printed.lines)?;
    words_fit(printed)?;
    arrivals_fit(file, &printed.lines)?;
    queue_fits(file, &printed.lines)?;
    let verdict = by_clocks(cards, &list);
    if list.len() <= SHORT && by_relation(cards, &list) != verdict {
        return Err("the two judges differ".to_string());
    }
    Ok(verdict)
}

/// The number of cards and the accepted steps in their order.
fn accepted_steps(file: &[u8], lines: &[Line]) -> Result<(usize, Vec<Accepted>), String> {
    let Some(opening) = lines.first() else {
        return Err("no lines".to_string());
    };
    if opening.refusal != 0 {
        return one_line_only(lines);
    }
    let cards = record_at(file, 0).ok_or("a line for an opening that is not there")?[1];
    if cards == 0 {
        return Err("an opening without cards was accepted".to_string());
    }
    let mut list = Vec::new();
    let mut stopped = false;
    for (number, line) in lines.iter().enumerate().skip(1) {
        // 2 is the opening's alone.
        if line.number != number || stopped || line.refusal == 2 {
            return Err(format!("line {number} does not fit: {}", line.text()));
        }
        stopped = stops(line.refusal);
        list.extend(accepted_step(file, line)?);
    }
    let whole = stopped || 8 * lines.len() == file.len();
    let short = || format!("{} lines do not end the file", lines.len());
    whole.then_some((cards.into(), list)).ok_or_else(short)
}

/// After a refused opening nothing follows and the list is empty.
fn one_line_only(lines: &[Line]) -> Result<(usize, Vec<Accepted>), String> {
    if lines.len() == 1 && lines[0].number == 0 {
        return Ok((1, Vec::new()));
    }
    Err("lines follow a refused opening".to_string())
}

/// The last line is there exactly if the run did not stop at 2, 15 or 16. Each
/// record applied has set between one word and a whole page, since one with no
/// words is skipped; so the counts bound the total.
fn words_fit(printed: &Printed) -> Result<(), String> {
    let stopped = printed.lines.iter().any(|line| stops(line.refusal));
    let counts = printed.lines.iter().map(|line| u64::from(line.count));
    let applied: u64 = counts.sum();
    match printed.words {
        None if stopped => Ok(()),
        None => Err("the last line, of words, is missing".to_string()),
        Some(words) if stopped => Err(format!("words {words} behind a line that stops")),
        Some(words) if (applied..=PAGE_WORDS as u64 * applied).contains(&words) => Ok(()),
        Some(words) => Err(format!("words {words} by {applied} records")),
    }
}

fn accepted_step(file: &[u8], line: &Line) -> Result<Option<Accepted>, String> {
    if line.refusal != 0 {
        return Ok(None);
    }
    let absent = || format!("line {} has no record", line.number);
    let record = record_at(file, line.number).ok_or_else(absent)?;
    Ok(Some(Accepted {
        number: line.number,
        step: Step::from_bytes(record),
        answered: line.value,
    }))
}

// The order as the document defines it.

/// A set of places in the list.
#[derive(Clone)]
struct Set(Vec<u64>);

impl Set {
    fn has(&self, place: usize) -> bool {
        self.0[place / 64] >> (place % 64) & 1 == 1
    }

    fn put(&mut self, place: usize) {
        self.0[place / 64] |= 1 << (place % 64);
    }

    fn unite(&mut self, other: &Set) {
        for (mine, theirs) in self.0.iter_mut().zip(&other.0) {
            *mine |= theirs;
        }
    }
}

/// "Accepted arrivals are counted off from the opening in groups of as many
/// as there are cards; each full group is a completed round." For each place
/// in the list: if it is an arrival of a completed round, the place of that
/// round's last arrival.
fn round_ends(cards: usize, list: &[Accepted]) -> Vec<Option<usize>> {
    let is_arrival = |place: &usize| list[*place].step.kind == ARRIVE;
    let arrivals: Vec<usize> = (0..list.len()).filter(is_arrival).collect();
    let mut ends = vec![None; list.len()];
    for round in arrivals.chunks_exact(cards) {
        for arrival in round {
            ends[*arrival] = round.last().copied();
        }
    }
    ends
}

/// The places of one kind of step, by lock, in the order of the list.
fn places_by_lock(list: &[Accepted], kind: u8) -> BTreeMap<u16, Vec<usize>> {
    let mut places: BTreeMap<u16, Vec<usize>> = BTreeMap::new();
    for (place, taken) in list.iter().enumerate() {
        if taken.step.kind == kind {
            places.entry(taken.step.object).or_default().push(place);
        }
    }
    places
}

/// For each place in the list: if it is a release that serves a waiter, the
/// waiter's card. A lock goes to its askers in their order, so release m of a
/// lock (from 0) ends the turn of acquire m and serves acquire m + 1, if that
/// one stands before it and so had to wait.
fn served_cards(list: &[Accepted]) -> Vec<Option<u8>> {
    let acquires = places_by_lock(list, ACQUIRE);
    let mut served = vec![None; list.len()];
    for (lock, releases) in places_by_lock(list, RELEASE) {
        let next_in_turn = acquires.get(&lock).into_iter().flatten().skip(1);
        for (release, acquire) in releases.iter().zip(next_in_turn) {
            if acquire < release {
                served[*release] = Some(list[*acquire].step.card);
            }
        }
    }
    served
}

/// The releases that serve a waiter, by record number, with its card.
#[cfg(test)]
pub fn grants(file: &[u8], printed: &Printed) -> Result<Vec<(usize, u8)>, String> {
    let (_, list) = accepted_steps(file, &printed.lines)?;
    let served = served_cards(&list);
    let grants = list.iter().zip(served);
    Ok(grants
        .filter_map(|(release, card)| Some((release.number, card?)))
        .collect())
}

/// The enqueues whose jobs are returned, by record number, with their dequeues.
#[cfg(test)]
pub fn jobs_returned(file: &[u8], printed: &Printed) -> Result<Vec<(usize, usize)>, String> {
    let (_, list) = accepted_steps(file, &printed.lines)?;
    let returned = returned_at(&list).into_iter().enumerate();
    let number = |place: usize| list[place].number;
    let pair = |(place, dequeue): (usize, Option<usize>)| Some((number(place), number(dequeue?)));
    Ok(returned.filter_map(pair).collect())
}

/// What makes one step directly before another, beside the steps themselves.
pub struct Ties {
    pub ends: Vec<Option<usize>>,
    pub served: Vec<Option<u8>>,
    /// For each enqueue the dequeue that returns its job.
    pub returned: Vec<Option<usize>>,
}

impl Ties {
    pub fn of(cards: usize, list: &[Accepted]) -> Ties {
        Ties {
            ends: round_ends(cards, list),
            served: served_cards(list),
            returned: returned_at(list),
        }
    }
}

/// Whether the step at `s` is before the later one at `t` without chaining:
/// "a card's steps in their order; each release before every later acquire of
/// that lock; every arrival of a completed round before every step any card
/// takes after that round's last arrival"; L1's "the release precedes the
/// waiter's next step"; and L9's "An enqueue precedes ... the dequeue that returns
/// its job, and of itself no other."
pub fn directly_before(list: &[Accepted], ties: &Ties, s: usize, t: usize) -> bool {
    let (first, second) = (list[s].step, list[t].step);
    let same_card = first.card == second.card;
    let by_lock = first.kind == RELEASE && second.kind == ACQUIRE && first.object == second.object;
    let by_round = ties.ends[s].is_some_and(|end| end < t);
    let by_grant = ties.served[s] == Some(second.card);
    let by_job = ties.returned[s] == Some(t);
    same_card || by_lock || by_round || by_grant || by_job
}

/// "and what follows by chaining": for each step the set of those before it.
fn happens_before(cards: usize, list: &[Accepted]) -> Vec<Set> {
    let ties = Ties::of(cards, list);
    let mut before: Vec<Set> = Vec::new();
    for t in 0..list.len() {
        let mut set = Set(vec![0; list.len().div_ceil(64)]);
        for s in (0..t).rev() {
            if directly_before(list, &ties, s, t) && !set.has(s) {
                set.put(s);
                set.unite(&before[s]);
            }
        }
        before.push(set);
    }
    before
}

fn by_relation(cards: usize, list: &[Accepted]) -> Verdict {
    let before = happens_before(cards, list);
    let Ties { ends, returned, .. } = Ties::of(cards, list);
    let mut verdict = Verdict {
        accepted: list.len(),
        ..Verdict::default()
    };
    for (place, taken) in list.iter().enumerate() {
        match taken.step.kind {
            READ => verdict.take(taken, finding_by_relation(list, &before, place)),
            TALLY_READ => verdict.take_tally(taken, due_by_places(list, &ends, place)),
            DEQUEUE => verdict.take_job(taken, job_due(list, &returned, place)),
            _ => {}
        }
    }
    verdict
}

fn finding_by_relation(list: &[Accepted], before: &[Set], read: usize) -> Finding {
    // "take the accepted writes to w that stand earlier in the list"
    let word = list[read].step.object;
    let to_word = |place: &usize| {
        let step = list[*place].step;
        step.kind == WRITE && step.object == word
    };
    let writes: Vec<usize> = (0..read).filter(to_word).collect();
    let values: Vec<u32> = writes.iter().map(|w| list[*w].step.value).collect();
    let answered = list[read].answered;
    Finding {
        premise: all_ordered(list, before, &writes)
            && writes.iter().all(|write| before[read].has(*write)),
        last: values.last().copied(),
        weak: answered == 0 || values.contains(&answered),
    }
}

/// "every two of them by different cards are ordered"; "Two steps are ordered
/// when either is before the other." None is before an earlier one.
fn all_ordered(list: &[Accepted], before: &[Set], writes: &[usize]) -> bool {
    let ordered = |s: usize, t: usize| {
        list[s].step.card == list[t].step.card || before[t].has(s) || before[s].has(t)
    };
    let with_earlier = |n: usize| (0..n).all(|m| ordered(writes[m], writes[n]));
    (0..writes.len()).all(with_earlier)
}

// The same with vectors that count steps.

/// For each card how many of its accepted steps are known.
pub type Known = BTreeMap<u8, usize>;

fn learn(mine: &mut Known, news: &Known) {
    for (card, steps) in news {
        let entry = mine.entry(*card).or_insert(0);
        *entry = (*entry).max(*steps);
    }
}

/// What the judge remembers of the writes to one word.
#[derive(Default)]
struct WordHistory {
    /// For each card the last of its writes, as a count of its steps.
    last_by_card: Known,
    disordered: bool,
    values: BTreeSet<u32>,
    last: Option<u32>,
}

impl WordHistory {
    /// Whether all the writes so far, but for the card's own, are known to
    /// it. A card's last write is known only after its earlier ones.
    fn known_to(&self, card: u8, known: &Known) -> bool {
        let of = |other: &u8| known.get(other).copied().unwrap_or(0);
        let mut writes = self.last_by_card.iter();
        writes.all(|(other, at)| *other == card || of(other) >= *at)
    }

    fn write(&mut self, step: &Step, known: &Known) {
        self.disordered |= !self.known_to(step.card, known);
        self.last_by_card.insert(step.card, known[&step.card]);
        self.values.insert(step.value);
        self.last = Some(step.value);
    }

    fn read(&self, read: &Accepted, known: &Known) -> Finding {
        Finding {
            premise: !self.disordered && self.known_to(read.step.card, known),
            last: self.last,
            weak: read.answered == 0 || self.values.contains(&read.answered),
        }
    }
}

/// What the judge remembers of a lock.
#[derive(Default)]
struct LockHistory {
    /// What its releases have handed on.
    released: Known,
    /// Who asked for it, in their order.
    askers: Vec<u8>,
    releases: usize,
}

impl LockHistory {
    /// Counts a release, and gives the waiter that it serves: each release
    /// ends one asker's turn, and the next asker is there already or not.
    fn serve(&mut self) -> Option<u8> {
        self.releases += 1;
        self.askers.get(self.releases).copied()
    }
}

/// The judge's own vectors: of each card, of each lock, of each round, of each
/// job that waits.
#[derive(Default)]
pub struct Clocks {
    card: BTreeMap<u8, Known>,
    lock: BTreeMap<u16, LockHistory>,
    round: Known,
    arrivals: usize,
    /// What the arrivals of all completed rounds give to each later step.
    completed: Known,
    /// What the enqueues of the jobs that wait hand on, the oldest first.
    jobs: VecDeque<Known>,
}

impl Clocks {
    /// Counts the step in and gives what is before it, itself included.
    pub fn enter(&mut self, step: &Step) -> Known {
        let known = self.card.entry(step.card).or_default();
        learn(known, &self.completed);
        if step.kind == ACQUIRE {
            let lock = self.lock.entry(step.object).or_default();
            lock.askers.push(step.card);
            learn(known, &lock.released);
        }
        if step.kind == DEQUEUE {
            let job = self.jobs.pop_front().unwrap_or_default();
            learn(known, &job);
        }
        *known.entry(step.card).or_insert(0) += 1;
        known.clone()
    }

    /// What the step hands on.
    pub fn leave(&mut self, step: &Step, known: &Known, cards: usize) {
        if step.kind == RELEASE {
            let lock = self.lock.entry(step.object).or_default();
            learn(&mut lock.released, known);
            if let Some(waiter) = lock.serve() {
                learn(self.card.entry(waiter).or_default(), known);
            }
        }
        if step.kind == ARRIVE {
            learn(&mut self.round, known);
            self.arrivals += 1;
            if self.arrivals.is_multiple_of(cards) {
                learn(&mut self.completed, &self.round);
            }
        }
        if step.kind == ENQUEUE {
            self.jobs.push_back(known.clone());
        }
    }
}

fn by_clocks(cards: usize, list: &[Accepted]) -> Verdict {
    let mut clocks = Clocks::default();
    let mut words: BTreeMap<u16, WordHistory> = BTreeMap::new();
    let mut totals = Totals::default();
    let mut waiting = Waiting::default();
    let mut verdict = Verdict {
        accepted: list.len(),
        ..Verdict::default()
    };
    for taken in list {
        let known = clocks.enter(&taken.step);
        let word = words.entry(taken.step.object);
        match taken.step.kind {
            READ => verdict.take(taken, word.or_default().read(taken, &known)),
            WRITE => word.or_default().write(&taken.step, &known),
            TALLY_READ => verdict.take_tally(taken, totals.due(&taken.step)),
            _ => {}
        }
        if let Some(due) = waiting.take(&taken.step) {
            verdict.take_job(taken, due);
        }
        clocks.leave(&taken.step, &known, cards);
        totals.take(&taken.step, cards);
    }
    verdict
}
