//! The named files of refusals on the queue of jobs (document 02, request L9):
//! 19 and 20, and 3 to 6 and 17 before them.

use crate::case::{acquire, any, arrive, dequeue, enqueue, read, release, write, Case};
use crate::queue_cases::{dequeue_all, enqueue_all};

pub fn queue_refusal_cases() -> Vec<Case> {
    vec![
        queue_refusals(),
        refusal_3_beside_jobs(),
        refusal_4_job(),
        refusal_5_job(),
        refusal_6_job(),
        refusal_17_job(),
        refusal_19(),
        refusal_20(),
        refused_untouched(),
    ]
}

fn queue_refusals() -> Case {
    let shows = "An object or a value that is not used is 5, kind 12 stays 3; a waiting card is 17, an arrived one 6, and neither takes a job; a holder is 18 at its arrival alone.";
    let mut c = Case::open("queue-refusals", [2, 1, 1], shows);
    c.refused(any(10, 1, 1, 5), 5);
    c.refused(any(11, 1, 0, 3), 5);
    c.refused(any(11, 1, 1, 0), 5);
    c.refused(any(12, 1, 0, 0), 3);
    c.ok(&[acquire(1, 0), acquire(2, 0)]);
    c.refused(enqueue(2, 1), 17);
    c.refused(dequeue(2), 17);
    c.refused(dequeue(1), 20);
    c.refused(arrive(1), 18);
    c.ok(&[enqueue(1, 4), release(1, 0), arrive(1)]);
    c.refused(dequeue(1), 6);
    c.gives(dequeue(2), 4, 0);
    c.ok(&[release(2, 0), arrive(2), enqueue(1, u32::MAX)]);
    c.gives(dequeue(2), u32::MAX, 0);
    c
}

fn refusal_3_beside_jobs() -> Case {
    let shows = "Refusal 3: kind 7 and kinds from 12 on, whatever the other fields; it comes before 4, 5, 6 and 17.";
    let mut c = Case::open("refusal-3-beside-jobs", [3, 1, 1], shows);
    for kind in [0, 7, 12, 13, 128, 138, 139, 255] {
        c.refused(any(kind, 1, 0, 0), 3);
        c.refused(any(kind, 4, 1, 1), 3);
    }
    c.ok(&[arrive(1), acquire(2, 0), acquire(3, 0)]);
    for kind in [7, 12] {
        c.refused(any(kind, 1, 0, 0), 3);
        c.refused(any(kind, 3, 0, 0), 3);
    }
    c
}

fn refusal_4_job() -> Case {
    let shows =
        "Refusal 4 for enqueues and dequeues, before 5 and 20; no job of an absent card waits.";
    let mut c = Case::open("refusal-4-job", [2, 1, 1], shows);
    for card in [0, 3, 8, 9, 255] {
        c.refused(enqueue(card, 1), 4);
        c.refused(dequeue(card), 4);
        c.refused(any(10, card, 1, 1), 4);
        c.refused(any(11, card, 0, 1), 4);
    }
    c.refused(dequeue(2), 20);
    c
}

fn refusal_5_job() -> Case {
    let shows = "Refusal 5: an object at either kind, a value at a dequeue; before 6, 17 and 20. An enqueue may have any value.";
    let mut c = Case::open("refusal-5-job", [3, 1, 1], shows);
    for object in [1, 31, 32, 255, 256, u16::MAX] {
        c.refused(any(10, 1, object, 0), 5);
        c.refused(any(10, 1, object, 7), 5);
        c.refused(any(11, 1, object, 0), 5);
    }
    for value in [1, 256, 1 << 31, u32::MAX] {
        c.refused(any(11, 1, 0, value), 5);
        c.ok(&[enqueue(1, value)]);
    }
    c.ok(&[arrive(1), acquire(2, 0), acquire(3, 0)]);
    for card in [1, 3] {
        c.refused(any(10, card, 1, 0), 5);
        c.refused(any(11, card, 0, 1), 5);
    }
    dequeue_all(&mut c, 2, [1, 256, 1 << 31, u32::MAX].into_iter());
    c
}

fn refusal_6_job() -> Case {
    let shows = "Refusal 6: an arrived card neither adds a job nor takes one, with jobs waiting and without.";
    let mut c = Case::open("refusal-6-job", [2, 1, 1], shows);
    c.ok(&[arrive(1)]);
    c.refused(enqueue(1, 1), 6);
    c.refused(dequeue(1), 6);
    c.refused(dequeue(2), 20);
    c.ok(&[enqueue(2, 9)]);
    c.refused(dequeue(1), 6);
    c.refused(enqueue(1, 2), 6);
    c.ok(&[arrive(2)]);
    c.gives(dequeue(1), 9, 0);
    c.refused(dequeue(2), 20);
    c
}

fn refusal_17_job() -> Case {
    let shows = "Refusal 17: a waiting card neither adds a job nor takes one; what it enqueued before it asked waits on, and a job tells it nothing meanwhile.";
    let mut c = Case::open("refusal-17-job", [3, 1, 1], shows);
    c.ok(&[acquire(1, 0), enqueue(2, 7), acquire(2, 0)]);
    c.refused(enqueue(2, 8), 17);
    c.refused(dequeue(2), 17);
    c.ok(&[write(3, 0, 5), enqueue(3, 9)]);
    c.gives(dequeue(1), 7, 0);
    c.refused(dequeue(2), 17);
    c.ok(&[release(1, 0), read(2, 0)]);
    c.gives(dequeue(2), 9, 0);
    c.gives(read(2, 0), 5, 1);
    c.refused(dequeue(2), 20);
    c
}

fn refusal_19() -> Case {
    let shows = "Refusal 19 with 32 jobs waiting, for every card; it comes after 3, 4, 5, 6 and 17. One removed makes room for one.";
    let mut c = Case::open("refusal-19", [4, 1, 1], shows);
    enqueue_all(&mut c, 1, 1..=31);
    c.ok(&[acquire(2, 0), acquire(3, 0), arrive(4), enqueue(2, 32)]);
    for card in [1, 2] {
        c.refused(enqueue(card, 33), 19);
    }
    c.refused(any(12, 1, 0, 33), 3);
    c.refused(enqueue(5, 33), 4);
    c.refused(any(10, 1, 1, 33), 5);
    c.refused(enqueue(4, 33), 6);
    c.refused(enqueue(3, 33), 17);
    c.gives(dequeue(1), 1, 0);
    c.ok(&[enqueue(2, 33)]);
    c.refused(enqueue(1, 34), 19);
    dequeue_all(&mut c, 2, 2..=33);
    c
}

fn refusal_20() -> Case {
    let shows = "Refusal 20 with no job waiting, for every card; it comes after 3, 4, 5, 6 and 17. One added is one to take.";
    let mut c = Case::open("refusal-20", [4, 1, 1], shows);
    c.ok(&[acquire(2, 0), acquire(3, 0), arrive(4)]);
    for card in [1, 2] {
        c.refused(dequeue(card), 20);
    }
    c.refused(any(12, 1, 0, 0), 3);
    c.refused(dequeue(5), 4);
    c.refused(any(11, 1, 1, 0), 5);
    c.refused(any(11, 1, 0, 1), 5);
    c.refused(dequeue(4), 6);
    c.refused(dequeue(3), 17);
    c.ok(&[enqueue(2, 5)]);
    c.gives(dequeue(1), 5, 0);
    c.refused(dequeue(2), 20);
    c
}

fn refused_untouched() -> Case {
    let shows = "An enqueue refused 19 and a dequeue refused 20 close nothing: the stores before and behind each are one record of two words.";
    let mut c = Case::open("queue-refused-untouched", [2, 1, 1], shows);
    c.ok(&[write(1, 0, 1)]);
    c.refused(dequeue(1), 20);
    c.ok(&[write(1, 1, 2), enqueue(1, 9)]);
    c.gives(dequeue(2), 9, 0);
    c.moves(read(2, 0), 1, 1, 2);
    enqueue_all(&mut c, 2, 1..=32);
    c.ok(&[write(1, 2, 3)]);
    c.refused(enqueue(1, 33), 19);
    c.ok(&[write(1, 3, 4), acquire(1, 0), release(1, 0), acquire(2, 0)]);
    c.moves(read(2, 2), 3, 1, 2);
    c.gives(dequeue(2), 1, 0);
    c
}
