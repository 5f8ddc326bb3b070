//! What is checked of every call. Each check gives what is wrong in words.

use crate::answers::{self, ACQUIRE, ARRIVE, DEQUEUE, ENQUEUE, READ, RELEASE};
use crate::answers::{TALLY_ADD, TALLY_READ};
use crate::areas::{copy_at, lock_row, processor_row, Areas, JOBS, PAGE_WORDS};
use crate::closing;
use crate::fetching::{self, Fetched};
use crate::library::{self, Step};
use crate::order;
use crate::queue;
use crate::random::Random;
use crate::state::State;
use crate::tallies;

/// What the checks have met, for the report.
#[derive(Default)]
pub struct Met {
    /// Steps by refusal, 0 to 20.
    pub refusals: [u64; 21],
    /// States that broke this clause of "in order" and no other.
    pub alone: [u64; order::CLAUSES.len()],
    /// States whose order was asked: in order, not in order.
    pub in_order: u64,
    pub out_of_order: u64,
    /// Accepted acquires of a lock that another held, and releases to one who
    /// waited.
    pub waits: u64,
    pub grants: u64,
    /// Dirty pages that accepted steps closed, and those of them without a
    /// word that differs.
    pub closed: u64,
    pub equal: u64,
    /// Fetches of accepted steps with records pending, those of them that skip
    /// all, and those in collections; records applied, and skipped.
    pub fetches: u64,
    pub all_skipped: u64,
    pub collected: u64,
    pub applied: u64,
    pub skipped: u64,
    /// Words that the records applied set.
    pub words: u64,
    /// Accepted adds to tallies and reads of them; totals that rounds posted
    /// something to, and those of them that wrapped.
    pub adds: u64,
    pub looks: u64,
    pub posted: u64,
    pub wrapped: u64,
    /// Accepted enqueues, those of them that fill the queue, dequeues, and those of
    /// them that pass the end of the ring.
    pub enqueues: u64,
    pub filled: u64,
    pub dequeues: u64,
    pub around: u64,
}

impl Met {
    fn add_lock_use(&mut self, s: State, step: Step) {
        let lock = step.object as usize;
        match step.kind {
            ACQUIRE => self.waits += u64::from(s.holder(lock) != 0),
            RELEASE => self.grants += u64::from(s.waiters(lock).next().is_some()),
            _ => {}
        }
    }

    fn add_closing(&mut self, s: State, step: Step) {
        self.closed += closing::closed_pages(s, step).len() as u64;
        self.equal += closing::equal_pages(s, step) as u64;
    }

    fn add_fetches(&mut self, step: Step, fetches: &[Fetched]) {
        for fetch in fetches.iter().filter(|fetch| fetch.pending > 0) {
            self.fetches += 1;
            self.all_skipped += u64::from(fetch.applied == 0);
            self.collected += u64::from(step.kind == ARRIVE);
            self.applied += fetch.applied as u64;
            self.skipped += (fetch.pending - fetch.applied) as u64;
            self.words += fetch.words as u64;
        }
    }

    fn add_tally_use(&mut self, s: State, step: Step) {
        self.adds += u64::from(step.kind == TALLY_ADD);
        self.looks += u64::from(step.kind == TALLY_READ);
        let (posted, wrapped) = tallies::postings(s, step);
        self.posted += posted;
        self.wrapped += wrapped;
    }

    fn add_queue_use(&mut self, s: State, step: Step) {
        match step.kind {
            ENQUEUE => {
                self.enqueues += 1;
                self.filled += u64::from(s.jobs() == JOBS - 1);
            }
            DEQUEUE => {
                self.dequeues += 1;
                self.around += u64::from(s.first() == JOBS - 1);
            }
            _ => {}
        }
    }
}

/// `in_order` agrees with document 01's list, and writes nothing. Gives
/// whether the state is in order.
pub fn check_order(areas: &Areas, met: &mut Met) -> Result<bool, String> {
    let due = order::in_order(areas.shown());
    if library::in_order(areas.shown()) != due {
        let broken = broken_names(areas);
        return Err(format!("in_order says {}; broken: {broken:?}", !due));
    }
    if due {
        met.in_order += 1;
    } else {
        met.out_of_order += 1;
        if order::sizes_hold(areas.shown()) {
            if let [clause] = order::broken(areas.shown())[..] {
                met.alone[clause] += 1;
            }
        }
    }
    Ok(due)
}

fn broken_names(areas: &Areas) -> Vec<&'static str> {
    match order::sizes_hold(areas.shown()) {
        true => order::broken(areas.shown())
            .iter()
            .map(|n| order::CLAUSES[*n].0)
            .collect(),
        false => vec!["sizes"],
    }
}

/// Asks for the order of the areas, takes the step and looks at everything
/// that it answers and leaves. `before` is room for a copy.
pub fn check_step(
    random: &mut Random,
    areas: &mut Areas,
    before: &mut Areas,
    step: Step,
    met: &mut Met,
) -> Result<(), String> {
    before.copy_from(areas);
    let in_order = check_order(areas, met)?;
    same(areas, before, "in_order writes")?;
    let due = match in_order {
        true => answers::refusal(State(before.shown()), step),
        false => 1,
    };
    let mut answer = [0; library::ANSWER].map(|_| random.word());
    let refusal = library::step(step, &mut answer, areas.lend());
    if refusal != due || answer[0] != due.into() {
        return Err(format!(
            "{step:?}: refusal {refusal}, answer {answer:?}, due {due}"
        ));
    }
    met.refusals[usize::from(due)] += 1;
    let [_, value, count, words] = answer;
    if due == 0 {
        met.add_lock_use(State(before.shown()), step);
        met.add_closing(State(before.shown()), step);
        met.add_tally_use(State(before.shown()), step);
        met.add_queue_use(State(before.shown()), step);
        let fetches = fetching::fetches(State(before.shown()), step);
        met.add_fetches(step, &fetches);
        accepted(areas, before, step, &fetches, [value, count, words])
            .map_err(|e| format!("{step:?}: {e}"))
    } else if [value, count, words] != [0; 3] {
        Err(format!("{step:?}: refused with {answer:?}"))
    } else {
        same(
            areas,
            before,
            &format!("{step:?}: refusal {refusal} writes"),
        )
    }
}

fn same(areas: &Areas, before: &Areas, wrong: &str) -> Result<(), String> {
    match areas == before {
        true => Ok(()),
        false => Err(wrong.to_string()),
    }
}

/// An accepted step leaves a state in order and touches nothing outside; its
/// value is the word that stands in the copy, the tally's total or the oldest job's
/// value, its count the records applied, its words those that they set; locks and
/// their lines are as they must be, and so is what a closing and a fetch leave, the
/// tallies and the queue.
fn accepted(
    areas: &Areas,
    before: &Areas,
    step: Step,
    fetches: &[Fetched],
    answered: [u32; 3],
) -> Result<(), String> {
    if !areas.same_margins(before) {
        return Err("writes outside the areas".to_string());
    }
    let (ours, theirs) = (
        order::in_order(areas.shown()),
        library::in_order(areas.shown()),
    );
    if !ours || !theirs {
        let broken = broken_names(areas);
        return Err(format!(
            "leaves no order; in_order says {theirs}; broken: {broken:?}"
        ));
    }
    let (was, is) = (State(before.shown()), State(areas.shown()));
    if answers::line_marks(is.0.marks) != answers::line_marks_after(was, step) {
        return Err("leaves other holders or lines".to_string());
    }
    if step.kind == RELEASE && !is_told(was, is, step) {
        return Err("tells the lock or the waiter something else".to_string());
    }
    if let Some(wrong) = closing::wrong(was, is, step) {
        return Err(format!("closes wrongly: {wrong}"));
    }
    if let Some(wrong) = fetching::wrong(was, is, step, fetches) {
        return Err(format!("fetches wrongly: {wrong}"));
    }
    if let Some(wrong) = tallies::wrong(was, is, step) {
        return Err(wrong.to_string());
    }
    if let Some(wrong) = queue::wrong(was, is, step) {
        return Err(wrong.to_string());
    }
    let number = match step.kind {
        READ => word_of(areas, step),
        TALLY_READ => tallies::value(was, step),
        DEQUEUE => queue::value(was),
        _ => 0,
    };
    let [count, words] = fetching::moved(fetches);
    let due = [number, count as u32, words as u32];
    match answered == due {
        true => Ok(()),
        false => Err(format!("answers {answered:?}, due {due:?}")),
    }
}

/// After a release: the lock's clock is the releaser's, and a waiter that has
/// become the holder has joined it.
fn is_told(was: State, is: State, step: Step) -> bool {
    let (p, lock) = (step.processor as usize, step.object as usize);
    let told = is.clock(lock_row(lock));
    let joined = |q| {
        let (old, new) = (was.clock(processor_row(q)), is.clock(processor_row(q)));
        let join = old.iter().zip(told).map(|(old, told)| *old.max(told));
        join.eq(new.iter().copied())
    };
    let holder = is.holder(lock);
    told == is.clock(processor_row(p)) && (holder == 0 || joined(holder))
}

/// The word of a read in the reader's copy.
fn word_of(areas: &Areas, step: Step) -> u32 {
    let (p, object) = (step.processor as usize, step.object as usize);
    let at = copy_at(p, object / PAGE_WORDS) + object % PAGE_WORDS;
    areas.words.part()[at]
}

/// A step whose answer has not four words: 1, and nothing is written.
pub fn check_short_answer(
    random: &mut Random,
    areas: &mut Areas,
    before: &mut Areas,
    step: Step,
) -> Result<(), String> {
    before.copy_from(areas);
    let mut answer = vec![7; random.pick(&[0, 1, 2, 3, 5])];
    let refusal = library::step(step, &mut answer, areas.lend());
    if refusal != 1 || answer.iter().any(|word| *word != 7) {
        return Err(format!("answer of {} words: {refusal}", answer.len()));
    }
    same(areas, before, "a step with a short answer writes")
}

/// An opening on areas of any sizes and contents.
pub fn check_opening(opening: &[u8], areas: &mut Areas, before: &mut Areas) -> Result<(), String> {
    before.copy_from(areas);
    let due = match order::sizes_hold(areas.shown()) {
        true if opening_fits(opening) => 0,
        true => 2,
        false => 1,
    };
    let refusal = library::open(opening, areas.lend());
    if refusal != due {
        return Err(format!("opening {opening:?}: {refusal}, due {due}"));
    }
    if due != 0 {
        return same(areas, before, "a refused opening writes");
    }
    if !areas.same_margins(before) {
        return Err("an opening writes outside the areas".to_string());
    }
    opened(opening, areas)
}

/// "The opening record holds 0, cards, pages, locks, four zeros."
fn opening_fits(opening: &[u8]) -> bool {
    matches!(opening, [0, 1..=8, 1..=8, 1..=16, 0, 0, 0, 0])
}

/// The counts are the opening's, and all else that a state has is 0.
fn opened(opening: &[u8], areas: &Areas) -> Result<(), String> {
    let shown = areas.shown();
    let counts = shown.marks[..3] == opening[1..4];
    let marks = shown.marks[3..].iter().all(|mark| *mark == 0);
    let clocks = shown.clocks.iter().all(|entry| *entry == 0);
    let words = shown.words.iter().all(|word| *word == 0);
    if counts && marks && clocks && words && library::in_order(shown) && order::in_order(shown) {
        Ok(())
    } else {
        Err(format!("opening {opening:?}: not the opened state"))
    }
}
