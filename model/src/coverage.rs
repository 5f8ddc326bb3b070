//! `model coverage`: what happens in the files on which programs are
//! compared, by the model's lines, and in how many of them each fault shows.

use crate::fault::{Fault, FAULTS};
use crate::generate::PROFILES;
use crate::model::{Step, ACQUIRE, ARRIVE, DEQUEUE, ENQUEUE, READ, RELEASE, WRITE};
use crate::model::{TALLY_ADD, TALLY_READ};
use crate::options::Options;
use crate::plan::{plan, Source};
use crate::queue::MOST_JOBS;
use crate::stepfile::{record_at, run, Line, Printed, REFUSALS};
use std::collections::{BTreeMap, VecDeque};
use std::thread;

/// What was seen in some files.
#[derive(Clone, Copy, Default)]
pub struct Seen {
    files: usize,
    one_card: usize,
    eight_cards: usize,
    eight_pages: usize,
    sixteen_locks: usize,
    /// Files with both 9 and 10.
    full_twice: usize,
    lines: usize,
    /// Files with a last line, those of them with more words than records
    /// applied, and the words of all.
    pub last_lines: usize,
    pub many_words: usize,
    words: usize,
    /// How often each refusal was printed.
    pub refusals: [usize; REFUSALS],
    reads: usize,
    pub read_counts: usize,
    read_counts_of_three: usize,
    pub read_values: usize,
    read_large_values: usize,
    write_counts: usize,
    pub collections: usize,
    /// Acquires of a lock that another card holds, and those of them that
    /// make a line of two, and of three or more.
    pub waits: usize,
    pub lines_of_two: usize,
    pub lines_of_three: usize,
    /// Releases that hand the lock to a waiter.
    pub grants: usize,
    /// Accepted adds to tallies, reads of them, and those of the reads that
    /// are not 0.
    pub adds: usize,
    pub looks: usize,
    pub look_values: usize,
    /// Accepted enqueues, dequeues, and those of the dequeues that return a job
    /// which another one than the card enqueued; enqueues that fill the queue.
    pub enqueues: usize,
    pub dequeues: usize,
    pub jobs_of_others: usize,
    pub filled: usize,
    /// Reads, writes and collections that skip a record, and those of the
    /// reads and writes that apply none.
    pub skipping_reads: usize,
    pub skipping_writes: usize,
    pub skipping_collections: usize,
    pub all_skipped: usize,
    /// Files with other lines under each fault.
    pub faults: ByFault,
}

/// A number for each fault.
#[derive(Clone, Copy)]
pub struct ByFault(pub [usize; FAULTS.len()]);

impl Default for ByFault {
    fn default() -> ByFault {
        ByFault([0; FAULTS.len()])
    }
}

/// What is kept of the accepted steps so far: for each lock how many there are,
/// its holder and those that wait for it, and who enqueued the jobs that wait.
#[derive(Default)]
struct Turns {
    locks: BTreeMap<u16, usize>,
    jobs: VecDeque<u8>,
}

impl Seen {
    pub fn add_file(&mut self, file: &[u8], printed: &Printed) {
        let lines = &printed.lines;
        self.files += 1;
        self.add_opening(file, lines);
        self.add_words(printed);
        let before = self.refusals;
        let mut turns = Turns::default();
        for line in lines {
            self.add_line(file, line, &mut turns);
        }
        let rose = |refusal: usize| self.refusals[refusal] > before[refusal];
        self.full_twice += usize::from(rose(9) && rose(10));
    }

    fn add_opening(&mut self, file: &[u8], lines: &[Line]) {
        let opened = lines.first().is_some_and(|line| line.refusal == 0);
        let Some([_, cards, pages, locks, ..]) = record_at(file, 0).filter(|_| opened) else {
            return;
        };
        self.one_card += usize::from(cards == 1);
        self.eight_cards += usize::from(cards == 8);
        self.eight_pages += usize::from(pages == 8);
        self.sixteen_locks += usize::from(locks == 16);
    }

    fn add_line(&mut self, file: &[u8], line: &Line, turns: &mut Turns) {
        self.lines += 1;
        self.refusals[line.refusal as usize] += 1;
        if line.number == 0 || line.refusal != 0 {
            return;
        }
        let Some(step) = record_at(file, line.number).map(Step::from_bytes) else {
            return;
        };
        let counted = usize::from(line.count > 0);
        match step.kind {
            READ => {
                self.reads += 1;
                self.read_counts += counted;
                self.read_counts_of_three += usize::from(line.count >= 3);
                self.read_values += usize::from(line.value != 0);
                self.read_large_values += usize::from(line.value > 0xffff);
            }
            WRITE => self.write_counts += counted,
            ACQUIRE => self.add_acquire(turns.locks.entry(step.object).or_default()),
            RELEASE => self.add_release(turns.locks.entry(step.object).or_default()),
            ARRIVE => self.collections += counted,
            TALLY_ADD => self.adds += 1,
            TALLY_READ => {
                self.looks += 1;
                self.look_values += usize::from(line.value != 0);
            }
            ENQUEUE => self.add_enqueue(step.card, &mut turns.jobs),
            DEQUEUE => self.add_dequeue(step.card, &mut turns.jobs),
            _ => {}
        }
    }

    /// The last line, and whether some record applied has more than one word.
    fn add_words(&mut self, printed: &Printed) {
        let counts = printed.lines.iter().map(|line| u64::from(line.count));
        let records: u64 = counts.sum();
        if let Some(words) = printed.words {
            self.last_lines += 1;
            self.words += words as usize;
            self.many_words += usize::from(words > records);
        }
    }

    fn add_acquire(&mut self, in_turn: &mut usize) {
        self.waits += usize::from(*in_turn >= 1);
        self.lines_of_two += usize::from(*in_turn == 2);
        self.lines_of_three += usize::from(*in_turn >= 3);
        *in_turn += 1;
    }

    fn add_release(&mut self, in_turn: &mut usize) {
        self.grants += usize::from(*in_turn >= 2);
        *in_turn -= 1;
    }

    fn add_enqueue(&mut self, card: u8, jobs: &mut VecDeque<u8>) {
        jobs.push_back(card);
        self.enqueues += 1;
        self.filled += usize::from(jobs.len() == MOST_JOBS);
    }

    fn add_dequeue(&mut self, card: u8, jobs: &mut VecDeque<u8>) {
        let by = jobs.pop_front();
        self.dequeues += 1;
        self.jobs_of_others += usize::from(by != Some(card));
    }

    /// A model that counts all pending records has larger counts where some are
    /// skipped, and all else the same.
    pub fn add_skips(&mut self, file: &[u8], printed: &Printed) {
        let pending = run(file, Some(Fault::CountPending));
        for (line, pending) in printed.lines.iter().zip(&pending.lines) {
            if line.count == pending.count {
                continue;
            }
            let kind = record_at(file, line.number).map(|record| record[0]);
            match kind {
                Some(READ) => self.skipping_reads += 1,
                Some(WRITE) => self.skipping_writes += 1,
                _ => self.skipping_collections += 1,
            }
            let fetches = matches!(kind, Some(READ | WRITE));
            self.all_skipped += usize::from(fetches && line.count == 0);
        }
    }

    pub fn add_faults(&mut self, file: &[u8], right: &Printed) {
        for (files, (_, fault)) in self.faults.0.iter_mut().zip(FAULTS) {
            *files += usize::from(run(file, Some(fault)) != *right);
        }
    }
}

/// A column of the table for each profile, one before for the named files
/// and one for the ends of files.
const COLUMNS: usize = PROFILES.len() + 2;

fn column(source: &Source) -> usize {
    match source {
        Source::Named(_) => 0,
        Source::End(_) => 1,
        Source::Generated(recipe) => {
            let profile = PROFILES.iter().position(|name| *name == recipe.profile);
            2 + profile.unwrap_or(0)
        }
    }
}

pub fn coverage(options: &Options) -> Result<String, String> {
    let plan = plan(&options.dir, options.files, options.seed)?;
    let halves = thread::scope(|scope| {
        let halves = [0, 1].map(|half| {
            let mine = plan.iter().skip(half).step_by(2);
            scope.spawn(|| look_over(mine))
        });
        halves.map(|half| half.join().unwrap_or(Err("a thread failed".to_string())))
    });
    let [one, other] = halves;
    Ok(table(&one?, &other?))
}

fn look_over<'a>(sources: impl Iterator<Item = &'a Source>) -> Result<[Seen; COLUMNS], String> {
    let mut seen = [Seen::default(); COLUMNS];
    for source in sources {
        let file = source.bytes()?;
        let printed = run(&file, None);
        let column = &mut seen[column(source)];
        column.add_file(&file, &printed);
        // The ends are long; the faults, and what is skipped, are asked of all
        // the others.
        if !matches!(source, Source::End(_)) {
            column.add_faults(&file, &printed);
            column.add_skips(&file, &printed);
        }
    }
    Ok(seen)
}

/// A row: what it shows, and the number in it.
type Row = (String, Box<dyn Fn(&Seen) -> usize>);

fn row(name: &str, number: impl Fn(&Seen) -> usize + 'static) -> Row {
    (name.to_string(), Box::new(number))
}

fn rows() -> Vec<Row> {
    let mut rows = vec![
        row("files", |s| s.files),
        row("  with 1 card", |s| s.one_card),
        row("  with 8 cards", |s| s.eight_cards),
        row("  with 8 pages", |s| s.eight_pages),
        row("  with 16 locks", |s| s.sixteen_locks),
        row("  with both 9 and 10", |s| s.full_twice),
        row("  with a last line", |s| s.last_lines),
        row("    more words than records", |s| s.many_words),
        row("lines of records", |s| s.lines),
        row("  refusal 0", |s| s.refusals[0]),
    ];
    for refusal in (2..=10).chain(15..=20) {
        let name = format!("  refusal {refusal}");
        rows.push(row(&name, move |s| s.refusals[refusal]));
    }
    rows.extend([
        row("reads accepted", |s| s.reads),
        row("  count above 0", |s| s.read_counts),
        row("  count above 2", |s| s.read_counts_of_three),
        row("  value not 0", |s| s.read_values),
        row("  value above 65535", |s| s.read_large_values),
        row("writes, count above 0", |s| s.write_counts),
        row("collections, count above 0", |s| s.collections),
        row("words set", |s| s.words),
        row("reads that skip", |s| s.skipping_reads),
        row("writes that skip", |s| s.skipping_writes),
        row("collections that skip", |s| s.skipping_collections),
        row("reads, writes that skip all", |s| s.all_skipped),
        row("acquires that wait", |s| s.waits),
        row("  in a line of 2 then", |s| s.lines_of_two),
        row("  in a line of 3 or more", |s| s.lines_of_three),
        row("releases to a waiter", |s| s.grants),
        row("adds to tallies accepted", |s| s.adds),
        row("reads of tallies accepted", |s| s.looks),
        row("  value not 0", |s| s.look_values),
        row("enqueues accepted", |s| s.enqueues),
        row("  that fill the queue", |s| s.filled),
        row("dequeues accepted", |s| s.dequeues),
        row("  of another card's job", |s| s.jobs_of_others),
    ]);
    for (at, (fault, _)) in FAULTS.iter().enumerate() {
        let name = format!("files where {fault} shows");
        rows.push(row(&name, move |s| s.faults.0[at]));
    }
    rows
}

fn table(one: &[Seen; COLUMNS], other: &[Seen; COLUMNS]) -> String {
    let mut text = format!("{:<29}", "");
    for name in ["named", "ends"].iter().chain(&PROFILES).chain(&["all"]) {
        text.push_str(&format!(" {name:>8}"));
    }
    for (name, number) in rows() {
        text.push_str(&format!("\n{name:<29}"));
        let columns = one.iter().zip(other);
        let numbers: Vec<usize> = columns.map(|(a, b)| number(a) + number(b)).collect();
        let all: usize = numbers.iter().sum();
        for number in numbers.iter().chain(&[all]) {
            text.push_str(&format!(" {number:>8}"));
        }
    }
    text + "\n(the faults and what is skipped are not asked of the ends of files)\n"
}
