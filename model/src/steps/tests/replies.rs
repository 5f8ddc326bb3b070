//! What the run program prints, read back.

use crate::steps::proved::{parse, Reply};

#[test]
fn lines_and_the_total_of_words() {
    let run = parse("0 0 0 0\n1 0 700 1\nwords 12\n").expect("a run");
    let reply = |refusal, value, count| Reply {
        refusal,
        value,
        count,
    };
    assert_eq!(run.replies, [reply(0, 0, 0), reply(0, 700, 1)]);
    assert_eq!(
        (run.words, run.last(), run.is_opened()),
        (Some(12), 1, true)
    );
    let stopped = parse("0 15 0 0\n").expect("a run");
    assert_eq!((stopped.words, stopped.is_opened()), (None, false));
}

#[test]
fn what_is_no_run() {
    let wrong = [
        "",
        "words 1\n",
        "1 0 0 0\n",
        "0 0 0\n",
        "0 0 0 0 0\n",
        "0 0 x 0\n",
        "0 0 0 0\nwords\n",
        "0 0 0 0\nwords 1\n1 0 0 0\n",
        "0 0 0 4294967296\n",
    ];
    for text in wrong {
        assert!(parse(text).is_none(), "{text:?}");
    }
}
