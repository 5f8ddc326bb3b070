//! The named files of the queue of jobs (document 02, request L9): what a job
//! tells and does not tell, closings, the ring, rounds. Those of its refusals are
//! in `queue_refusal_cases.rs`.

use crate::case::{acquire, add, arrive, dequeue, enqueue, look, read, release, want, write, Case};
use crate::cases::{make_intervals, write_as};

pub fn queue_cases() -> Vec<Case> {
    vec![
        job_tells(),
        first_in_first_out(),
        space_used_again(),
        collected(),
        collected_clock(),
        chain(),
        race(),
        no_other_job(),
        closes_before_learning(),
        enqueue_closes(),
        dequeue_closes(),
        equal_store(),
        fetches_nothing(),
        own_job(),
        old_job(),
        beside_a_lock(),
        held_lock(),
        tells_no_adds(),
        each_job_tells(),
        around_the_ring(),
        eight_cards(),
        any_value(),
        round_keeps_jobs(),
        over_collections(),
        without_space(),
    ]
}

/// Jobs of one card with these values.
pub fn enqueue_all(c: &mut Case, card: u8, values: impl Iterator<Item = u32>) {
    values.for_each(|value| c.ok(&[enqueue(card, value)]));
}

/// Dequeues of one card, which answer these values.
pub fn dequeue_all(c: &mut Case, card: u8, values: impl Iterator<Item = u32>) {
    values.for_each(|value| c.gives(dequeue(card), value, 0));
}

fn job_tells() -> Case {
    let shows = "A job tells card 2, which dequeues it, of card 1's store, and card 3 nothing; with no job waiting a dequeue is 20.";
    let mut c = Case::open("queue-job-tells", [3, 1, 1], shows);
    c.ok(&[write(1, 0, 5), enqueue(1, 77)]);
    c.gives(dequeue(2), 77, 0);
    c.gives(read(2, 0), 5, 1);
    c.ok(&[read(3, 0)]);
    c.refused(dequeue(2), 20);
    c
}

fn first_in_first_out() -> Case {
    let shows = "Jobs leave in the order in which they came, and each tells what its own enqueue knew: the first nothing of the store behind it.";
    let mut c = Case::open("queue-first-in-first-out", [3, 2, 1], shows);
    c.ok(&[write(1, 0, 1), enqueue(1, 10), write(1, 32, 2)]);
    c.ok(&[enqueue(1, 11)]);
    c.gives(dequeue(2), 10, 0);
    c.gives(read(2, 0), 1, 1);
    c.ok(&[read(2, 32)]);
    c.gives(dequeue(3), 11, 0);
    c.gives(read(3, 32), 2, 1);
    c.gives(read(3, 0), 1, 1);
    c.ok(&[write(2, 0, 3), enqueue(2, 12)]);
    c.gives(dequeue(1), 12, 0);
    c.gives(read(1, 0), 3, 1);
    c
}

fn space_used_again() -> Case {
    let shows = "32 jobs wait, and a 33rd is 19; each removal makes room for one more; all leave in their order, then 20.";
    let mut c = Case::open("queue-space-used-again", [2, 1, 1], shows);
    enqueue_all(&mut c, 1, 100..=131);
    c.refused(enqueue(1, 999), 19);
    dequeue_all(&mut c, 2, 100..=101);
    c.ok(&[enqueue(1, 132), enqueue(1, 133)]);
    c.refused(enqueue(1, 134), 19);
    dequeue_all(&mut c, 2, 102..=133);
    c.refused(dequeue(2), 20);
    c
}

fn collected() -> Case {
    let shows = "A job stays over a collecting round with its value; what card 2 hands on behind it is its own store alone.";
    let mut c = Case::open("queue-collected", [2, 1, 1], shows);
    c.ok(&[write(1, 0, 5), enqueue(1, 1), want(1), arrive(1)]);
    c.gives(arrive(2), 0, 1);
    c.ok(&[write(2, 0, 6)]);
    c.gives(dequeue(2), 1, 0);
    c.ok(&[acquire(2, 0), release(2, 0), acquire(1, 0)]);
    c.gives(read(1, 0), 6, 1);
    c.refused(dequeue(1), 20);
    c
}

fn collected_clock() -> Case {
    let shows = "A collecting round sets a job's clock to zeros: it tells nothing of card 1's new interval 1, the second job does.";
    let mut c = Case::open("queue-collected-clock", [2, 1, 1], shows);
    c.ok(&[write(1, 0, 5), enqueue(1, 1), want(1), arrive(1)]);
    c.gives(arrive(2), 0, 1);
    c.ok(&[write(1, 0, 6), enqueue(1, 2)]);
    c.gives(dequeue(2), 1, 0);
    c.gives(read(2, 0), 5, 0);
    c.gives(dequeue(2), 2, 0);
    c.gives(read(2, 0), 6, 1);
    c
}

fn chain() -> Case {
    let shows = "News goes on from job to job: card 3 hears by card 2's job of card 1's store too.";
    let mut c = Case::open("queue-chain", [3, 1, 1], shows);
    c.ok(&[write(1, 0, 1), enqueue(1, 1), write(2, 1, 2)]);
    c.gives(dequeue(2), 1, 0);
    c.ok(&[enqueue(2, 2)]);
    c.gives(dequeue(3), 2, 0);
    c.gives(read(3, 0), 1, 2);
    c.gives(read(3, 1), 2, 0);
    c
}

fn race() -> Case {
    let shows =
        "A race: two jobs are not ordered with one another, and each tells of its own card's store.";
    let mut c = Case::open("queue-race", [3, 1, 1], shows);
    c.ok(&[write(1, 0, 1), enqueue(1, 1)]);
    c.ok(&[write(2, 0, 2), enqueue(2, 2)]);
    c.gives(dequeue(3), 1, 0);
    c.gives(read(3, 0), 1, 1);
    c.gives(dequeue(3), 2, 0);
    c.gives(read(3, 0), 2, 1);
    c
}

fn no_other_job() -> Case {
    let shows =
        "Card 2 gets card 3's job and hears nothing of card 1's, which was removed before it.";
    let mut c = Case::open("queue-no-other-job", [3, 1, 1], shows);
    c.ok(&[write(1, 0, 5), enqueue(1, 1), enqueue(3, 2)]);
    c.gives(dequeue(3), 1, 0);
    c.gives(dequeue(2), 2, 0);
    c.ok(&[read(2, 0)]);
    c
}

fn closes_before_learning() -> Case {
    let shows = "A race: card 1's dequeue closes before it learns card 2's interval; equal sums, so card 2's goes last.";
    let mut c = Case::open("queue-closes-before-learning", [3, 1, 1], shows);
    c.ok(&[write(2, 0, 2), enqueue(2, 1), write(1, 0, 1)]);
    c.gives(dequeue(1), 1, 0);
    c.ok(&[enqueue(1, 9)]);
    c.gives(dequeue(3), 9, 0);
    c.gives(read(3, 0), 2, 1);
    c
}

fn enqueue_closes() -> Case {
    let shows = "An enqueue closes: the stores before and behind it are two records, of which each job tells one.";
    let mut c = Case::open("queue-enqueue-closes", [2, 1, 1], shows);
    c.ok(&[write(1, 0, 1), enqueue(1, 7)]);
    c.ok(&[write(1, 1, 2), enqueue(1, 8)]);
    c.gives(dequeue(2), 7, 0);
    c.gives(read(2, 0), 1, 1);
    c.ok(&[read(2, 1)]);
    c.gives(dequeue(2), 8, 0);
    c.gives(read(2, 1), 2, 1);
    c
}

fn dequeue_closes() -> Case {
    let shows =
        "A dequeue closes: card 2's stores before and behind it are two records, which card 3 applies.";
    let mut c = Case::open("queue-dequeue-closes", [3, 1, 1], shows);
    c.ok(&[enqueue(1, 7), write(2, 0, 4)]);
    c.gives(dequeue(2), 7, 0);
    c.ok(&[write(2, 1, 5), enqueue(2, 8)]);
    c.gives(dequeue(3), 8, 0);
    c.gives(read(3, 0), 4, 2);
    c.gives(read(3, 1), 5, 0);
    c
}

fn equal_store() -> Case {
    let shows =
        "An enqueue and a dequeue close equal stores: records without words, which nobody applies.";
    let mut c = Case::open("queue-equal-store", [2, 1, 1], shows);
    c.ok(&[write(1, 0, 0), enqueue(1, 3), write(2, 1, 0)]);
    c.gives(dequeue(2), 3, 0);
    c.ok(&[read(2, 0), enqueue(2, 4)]);
    c.gives(dequeue(1), 4, 0);
    c.ok(&[read(1, 0)]);
    c
}

fn fetches_nothing() -> Case {
    let shows =
        "Neither an enqueue nor a dequeue fetches: what a job told is counted by the read behind them.";
    let mut c = Case::open("queue-fetches-nothing", [2, 2, 1], shows);
    c.ok(&[write(1, 0, 1), write(1, 33, 2), enqueue(1, 5)]);
    c.gives(dequeue(2), 5, 0);
    c.ok(&[enqueue(2, 6)]);
    c.gives(dequeue(2), 6, 0);
    c.gives(read(2, 0), 1, 1);
    c.gives(read(2, 33), 2, 1);
    c
}

fn own_job() -> Case {
    let shows = "A card may dequeue its own job, which tells it nothing new; another card's job before it goes first.";
    let mut c = Case::open("queue-own-job", [2, 1, 1], shows);
    c.ok(&[write(1, 0, 3), enqueue(1, 5)]);
    c.gives(dequeue(1), 5, 0);
    c.gives(read(1, 0), 3, 0);
    c.ok(&[read(2, 0), enqueue(2, 6), enqueue(1, 7)]);
    c.gives(dequeue(1), 6, 0);
    c.gives(dequeue(1), 7, 0);
    c.ok(&[read(2, 0)]);
    c
}

fn old_job() -> Case {
    let shows = "An older job takes no knowledge away: card 2 has heard by the lock of card 1's later store, and keeps it.";
    let mut c = Case::open("queue-old-job", [2, 1, 1], shows);
    c.ok(&[write(1, 0, 1), enqueue(1, 7)]);
    c.ok(&[acquire(1, 0), write(1, 0, 2), release(1, 0), acquire(2, 0)]);
    c.gives(dequeue(2), 7, 0);
    c.gives(read(2, 0), 2, 1);
    c
}

fn beside_a_lock() -> Case {
    let shows = "A job enqueued under a lock tells what its enqueue knew; the rest comes with the lock, which tells what jobs told its holder.";
    let mut c = Case::open("queue-beside-a-lock", [3, 1, 1], shows);
    c.ok(&[acquire(1, 0), write(1, 0, 1), enqueue(1, 5), write(1, 0, 2)]);
    c.gives(dequeue(2), 5, 0);
    c.gives(read(2, 0), 1, 1);
    c.ok(&[write(3, 1, 9), enqueue(3, 6)]);
    c.gives(dequeue(1), 6, 0);
    c.ok(&[release(1, 0)]);
    c.gives(read(2, 0), 1, 0);
    c.ok(&[acquire(2, 0)]);
    c.gives(read(2, 0), 2, 2);
    c.gives(read(2, 1), 9, 0);
    c
}

fn held_lock() -> Case {
    let shows = "A holder enqueues and dequeues with the lock in hand, for which card 2 waits; its arrival is 18, and the lock stays where it is.";
    let mut c = Case::open("queue-held-lock", [3, 1, 2], shows);
    c.ok(&[acquire(1, 1), acquire(2, 1), enqueue(1, 4)]);
    c.gives(dequeue(1), 4, 0);
    c.refused(arrive(1), 18);
    c.ok(&[enqueue(3, 5), release(1, 1)]);
    c.gives(dequeue(2), 5, 0);
    c.refused(acquire(2, 1), 7);
    c.ok(&[release(2, 1), arrive(1), arrive(2), arrive(3)]);
    c
}

fn tells_no_adds() -> Case {
    let shows = "A job carries words and no adds: card 2 reads card 1's add to a tally after the round alone.";
    let mut c = Case::open("queue-tells-no-adds", [2, 1, 1], shows);
    c.ok(&[write(1, 0, 3), add(1, 0, 5), enqueue(1, 1)]);
    c.gives(dequeue(2), 1, 0);
    c.ok(&[look(2, 0)]);
    c.gives(read(2, 0), 3, 1);
    c.ok(&[arrive(1), arrive(2)]);
    c.gives(look(2, 0), 5, 0);
    c
}

fn each_job_tells() -> Case {
    let shows = "32 jobs, from the sixth place of the ring on and round its end, with a store before each: every one tells of its own and of none behind it.";
    let mut c = Case::open("queue-each-job-tells", [2, 1, 1], shows);
    enqueue_all(&mut c, 1, 1..=5);
    dequeue_all(&mut c, 1, 1..=5);
    for word in 0..32 {
        c.ok(&[write(1, word, 100 + u32::from(word))]);
        c.ok(&[enqueue(1, u32::from(word))]);
    }
    for word in 0..31 {
        c.gives(dequeue(2), u32::from(word), 0);
        c.gives(read(2, word + 1), 0, 1);
        c.gives(read(2, word), 100 + u32::from(word), 0);
    }
    c.gives(dequeue(2), 31, 0);
    c.gives(read(2, 31), 131, 1);
    c
}

fn around_the_ring() -> Case {
    let shows =
        "The smallest mainframe has the queue too: 20 jobs to and fro, five times, then one at a time.";
    let mut c = Case::open("queue-around-the-ring", [1, 1, 1], shows);
    for turn in 0..5 {
        enqueue_all(&mut c, 1, 20 * turn..20 * turn + 20);
        dequeue_all(&mut c, 1, 20 * turn..20 * turn + 20);
        c.refused(dequeue(1), 20);
    }
    for value in 1..=33 {
        c.ok(&[enqueue(1, value)]);
        c.gives(dequeue(1), value, 0);
    }
    c
}

fn eight_cards() -> Case {
    let shows = "A job goes from card to card over all eight, each adds a word to the page; the first reads them all.";
    let mut c = Case::open("queue-eight-cards", [8, 1, 1], shows);
    c.ok(&[write(1, 0, 10), enqueue(1, 1)]);
    for card in 2..=8 {
        let before = u32::from(card) - 1;
        c.gives(dequeue(card), before, 0);
        let own = write(card, u16::from(card) - 1, 10 * u32::from(card));
        c.gives(own, 0, before);
        c.ok(&[enqueue(card, card.into())]);
    }
    c.gives(dequeue(1), 8, 0);
    c.gives(read(1, 7), 80, 7);
    c.gives(read(1, 0), 10, 0);
    c
}

fn any_value() -> Case {
    let shows = "A job may have any value, 0 and 4,294,967,295 among them, the same one twice too.";
    let mut c = Case::open("queue-any-value", [2, 1, 1], shows);
    let values = [0, u32::MAX, 1, 0, 1 << 31, 0x0102_0304, u32::MAX];
    enqueue_all(&mut c, 1, values.into_iter());
    dequeue_all(&mut c, 2, values.into_iter());
    c
}

fn round_keeps_jobs() -> Case {
    let shows = "A round without a collection keeps the jobs in their order, one behind the other card's arrival too; nobody but the round tells.";
    let mut c = Case::open("queue-round-keeps-jobs", [2, 1, 1], shows);
    c.ok(&[write(1, 0, 4), enqueue(1, 1), arrive(1), write(2, 1, 5)]);
    c.ok(&[enqueue(2, 2), arrive(2)]);
    c.gives(read(2, 0), 4, 1);
    c.ok(&[enqueue(1, 3)]);
    c.gives(dequeue(2), 1, 0);
    c.gives(dequeue(1), 2, 0);
    c.gives(read(1, 1), 5, 1);
    c.gives(dequeue(2), 3, 0);
    c.refused(dequeue(1), 20);
    c
}

fn over_collections() -> Case {
    let shows = "32 jobs stay over two collecting rounds: 19 before and behind each, then all leave in their order.";
    let mut c = Case::open("queue-over-collections", [2, 1, 1], shows);
    enqueue_all(&mut c, 1, 1..=3);
    dequeue_all(&mut c, 1, 1..=3);
    enqueue_all(&mut c, 1, 200..=231);
    for _ in 0..2 {
        c.refused(enqueue(2, 1), 19);
        c.ok(&[want(1), arrive(2), arrive(1)]);
    }
    c.refused(enqueue(2, 1), 19);
    dequeue_all(&mut c, 2, 200..=231);
    c.refused(dequeue(1), 20);
    c
}

fn without_space() -> Case {
    let shows = "Jobs come and go where stores are 9 and 10: they need no interval and no record.";
    let mut c = Case::open("queue-without-space", [2, 8, 2], shows);
    make_intervals(&mut c, 62);
    c.ok(&[write(1, 0, 63), enqueue(1, 5)]);
    c.refused(write(1, 0, 64), 9);
    c.ok(&[enqueue(1, 6)]);
    for value in 1..=8 {
        write_as(&mut c, 2, 8, value, enqueue(2, value));
    }
    c.ok(&[write(2, 3, 9)]);
    c.gives(dequeue(2), 5, 0);
    c.refused(write(2, 3, 10), 10);
    c.gives(dequeue(1), 6, 0);
    dequeue_all(&mut c, 1, 1..=8);
    c.refused(dequeue(2), 20);
    c.refused(write(1, 0, 64), 9);
    c
}
