//! What single operations cost through the static library, in nanoseconds.
//! Each call gets a fresh copy of its state; only the call is timed.

mod library;

use library::{Lent, Shown, Step, ANSWER, CLOCKS, MARKS, RECORDS, WORDS};
use std::hint::black_box;
use std::time::Instant;

const READ: u32 = 1;
const WRITE: u32 = 2;
const ACQUIRE: u32 = 3;
const RELEASE: u32 = 4;
const ENQUEUE: u32 = 10;
const DEQUEUE: u32 = 11;

/// Calls timed for each figure, which is their median.
const CALLS: usize = 10_001;

fn main() {
    println!("single operations through the static library, in ns (median of {CALLS} calls)\n");
    whole_steps();
    order_tests();
    closes();
    fetches();
    jobs();
}

/// A public step is the in-order test and then the step itself.
fn whole_steps() {
    for (name, state) in &filled() {
        let [time] = medians([(state, &|state| state.go(read(1, 0)))]);
        print_row(&format!("step (read), {name}"), time, "");
    }
}

/// The in-order test alone, against a plain read of the same bytes.
fn order_tests() {
    for (name, state) in &filled() {
        let order = |state: &mut State| {
            black_box(library::in_order(state.shown()));
        };
        let plain = |state: &mut State| {
            black_box(state.sum());
        };
        let [time, plain] = medians([(state, &order), (state, &plain)]);
        let bytes = State::BYTES;
        let times = time / plain;
        let note = format!("{times:.1} times a sum of {bytes} bytes, {plain:.0}");
        print_row(&format!("in_order, {name}"), time, &note);
    }
}

/// A release that closes a page of 32 stores, against one that closes none.
fn closes() {
    let mut clean = State::opened();
    clean.take(acquire(1, 0), 0);
    let mut dirty = clean.clone();
    (0..32).for_each(|word| dirty.take(write(1, word, word + 1), 0));
    let release = |state: &mut State| state.go(release(1, 0));
    let [nothing, whole] = medians([(&clean, &release), (&dirty, &release)]);
    print_row("release, nothing to close", nothing, "");
    let note = format!("close alone {:.0}", whole - nothing);
    print_row("release after 32 stores", whole, &note);
}

/// A read with records pending, against the same read just after it.
fn fetches() {
    for pending in [1, 16, 127] {
        let before = news(pending);
        let mut after = before.clone();
        // each record sets one word of 32, so that of more only the last 32 are applied (L5)
        after.take(read(1, 0), pending.min(32));
        let read = |state: &mut State| state.go(read(1, 0));
        let [whole, nothing] = medians([(&before, &read), (&after, &read)]);
        let fetch = whole - nothing;
        let each = fetch / f64::from(pending);
        let note = format!("fetch alone {fetch:.0}, {each:.0} a record");
        print_row(&format!("read, {pending} pending"), whole, &note);
    }
}

/// An enqueue and a dequeue with half of the queue full, against a read.
fn jobs() {
    let mut state = State::opened();
    (0..16).for_each(|value| state.take(enqueue(1, value), 0));
    let read = |state: &mut State| state.go(read(1, 0));
    let add = |state: &mut State| state.go(enqueue(1, 16));
    let remove = |state: &mut State| state.go(dequeue(2));
    let [plain, add, remove] = medians([(&state, &read), (&state, &add), (&state, &remove)]);
    for (name, time) in [("enqueue", add), ("dequeue", remove)] {
        let note = format!("{:.0} more than a read", time - plain);
        print_row(&format!("{name}, 16 jobs waiting"), time, &note);
    }
}

fn print_row(name: &str, time: f64, note: &str) {
    let row = format!("{name:<36} {time:>8.0}  {note}");
    println!("{}", row.trim_end());
}

// States.

#[derive(Clone)]
struct State {
    clocks: Vec<u8>,
    words: Vec<u32>,
    records: Vec<u8>,
    marks: Vec<u8>,
}

impl State {
    /// The bytes of the four areas.
    const BYTES: usize = CLOCKS + 4 * WORDS + RECORDS + MARKS;

    /// Eight processors, eight pages and sixteen locks, just opened.
    fn opened() -> State {
        let mut state = State {
            clocks: vec![0; CLOCKS],
            words: vec![0; WORDS],
            records: vec![0; RECORDS],
            marks: vec![0; MARKS],
        };
        let refusal = library::open(&[0, 8, 8, 16, 0, 0, 0, 0], state.lend());
        assert_eq!(refusal, 0, "the opening is refused");
        state
    }

    fn lend(&mut self) -> Lent<'_> {
        Lent {
            clocks: &mut self.clocks,
            words: &mut self.words,
            records: &mut self.records,
            marks: &mut self.marks,
        }
    }

    fn shown(&self) -> Shown<'_> {
        Shown {
            clocks: &self.clocks,
            words: &self.words,
            records: &self.records,
            marks: &self.marks,
        }
    }

    fn copy_from(&mut self, other: &State) {
        self.clocks.copy_from_slice(&other.clocks);
        self.words.copy_from_slice(&other.words);
        self.records.copy_from_slice(&other.records);
        self.marks.copy_from_slice(&other.marks);
    }

    /// A step that must pass with this count.
    fn take(&mut self, step: Step, count: u32) {
        let mut answer = [0; ANSWER];
        library::step(step, &mut answer, self.lend());
        let [refusal, _, found, _] = answer;
        assert_eq!((refusal, found), (0, count), "{step:?}");
    }

    /// A step to be timed.
    fn go(&mut self, step: Step) {
        let mut answer = [0; ANSWER];
        library::step(black_box(step), &mut answer, self.lend());
        black_box(answer);
    }

    /// All bytes of the four areas added up, eight at a time.
    fn sum(&self) -> u64 {
        let areas = [&self.clocks, &self.records, &self.marks];
        let bytes = areas.map(|area| sum_bytes(area));
        let words = self.words.iter().map(|word| u64::from(*word));
        bytes.into_iter().fold(words.sum(), u64::wrapping_add)
    }
}

fn sum_bytes(area: &[u8]) -> u64 {
    let (eights, rest) = area.as_chunks();
    let eights = eights.iter().map(|eight| u64::from_le_bytes(*eight));
    let rest = rest.iter().map(|byte| u64::from(*byte));
    eights.chain(rest).fold(0, u64::wrapping_add)
}

fn read(processor: u32, object: u32) -> Step {
    step(READ, processor, object, 0)
}

fn write(processor: u32, object: u32, value: u32) -> Step {
    step(WRITE, processor, object, value)
}

fn acquire(processor: u32, object: u32) -> Step {
    step(ACQUIRE, processor, object, 0)
}

fn release(processor: u32, object: u32) -> Step {
    step(RELEASE, processor, object, 0)
}

fn enqueue(processor: u32, value: u32) -> Step {
    step(ENQUEUE, processor, 0, value)
}

fn dequeue(processor: u32) -> Step {
    step(DEQUEUE, processor, 0, 0)
}

fn step(kind: u32, processor: u32, object: u32, value: u32) -> Step {
    Step {
        kind,
        processor,
        object,
        value,
    }
}

/// The states on which whole steps and the in-order test are timed.
fn filled() -> [(&'static str, State); 3] {
    [
        ("empty state", State::opened()),
        ("128 records of 1 run", full(1)),
        ("128 records of 16 runs", full(16)),
    ]
}

/// 16 records by each of the eight processors, each of that many runs of one
/// word.
fn full(runs: u32) -> State {
    let mut state = State::opened();
    for turn in 1..=16 {
        for processor in 1..=8 {
            let page = (turn + processor) % 8;
            let words = (0..runs).map(|run| 32 * page + 2 * run);
            words.for_each(|word| state.take(write(processor, word, turn), 0));
            state.take(acquire(processor, processor), 0);
            state.take(release(processor, processor), 0);
        }
    }
    state
}

/// Processor 1 has learnt of that many records of page 0, of one word each,
/// and has applied none.
fn news(pending: u32) -> State {
    let mut state = State::opened();
    let mut last = 1;
    for nth in 0..pending {
        last = 2 + nth / 63;
        state.take(write(last, nth % 32, nth + 1), 0);
        state.take(acquire(last, last), 0);
        state.take(release(last, last), 0);
    }
    (2..=last).for_each(|lock| state.take(acquire(1, lock), 0));
    state
}

// Time.

/// A call, and the state that it finds.
type Job<'a> = (&'a State, &'a dyn Fn(&mut State));

/// The median time of each job, less that of asking the time. The jobs take
/// turns, so that what disturbs one disturbs all.
fn medians<const N: usize>(jobs: [Job; N]) -> [f64; N] {
    let mut room = jobs[0].0.clone();
    let mut asking = Vec::with_capacity(CALLS);
    let mut times = [(); N].map(|_| Vec::with_capacity(CALLS));
    for _ in 0..CALLS {
        asking.push(timed(&mut room, jobs[0].0, &|_| ()));
        for ((state, call), times) in jobs.iter().zip(&mut times) {
            times.push(timed(&mut room, state, call));
        }
    }
    let asking = median(asking);
    times.map(|times| median(times) - asking)
}

/// The time of one call on a copy of the state.
fn timed(room: &mut State, state: &State, call: &dyn Fn(&mut State)) -> f64 {
    room.copy_from(state);
    let start = Instant::now();
    call(black_box(room));
    start.elapsed().as_nanos() as f64
}

fn median(mut times: Vec<f64>) -> f64 {
    times.sort_by(f64::total_cmp);
    times[times.len() / 2]
}
