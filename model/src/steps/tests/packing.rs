//! Texts and bytes: what is packed, what is a mistake and where, and that each
//! byte string has a text that packs back to it.

use super::corpus;
use crate::rng::Rng;
use crate::steps::pack::pack;
use crate::steps::text::text;

fn packs_back(name: &str, file: &[u8]) {
    let back = pack(&text(file));
    assert!(
        back.as_deref() == Ok(file),
        "{name}: its text packs to other bytes"
    );
}

#[test]
fn the_comparisons_files_pack_back() {
    corpus::each(corpus::all(), |tried| packs_back(&tried.name, &tried.file));
}

#[test]
fn random_bytes_pack_back() {
    let mut rng = Rng::new(1);
    for length in (0..2000).chain([100_000, 100_001, 100_007]) {
        let file: Vec<u8> = (0..length).map(|_| rng.next() as u8).collect();
        packs_back(&format!("{length} random bytes"), &file);
    }
}

/// Kinds that there are and next to them, fields that are often 0.
#[test]
fn random_records_pack_back() {
    let mut rng = Rng::new(2);
    for length in 0..2000 {
        let byte = |rng: &mut Rng, most: usize| rng.below(most + 1) as u8;
        let mut file = Vec::new();
        while file.len() < length {
            file.extend([byte(&mut rng, 13), byte(&mut rng, 9)]);
            for _ in 2..8 {
                let most = rng.pick(&[0, 0, 1, 255]);
                file.push(byte(&mut rng, most));
            }
        }
        file.truncate(length);
        packs_back(&format!("{length} bytes of records"), &file);
    }
}

#[test]
fn each_sentence_has_its_bytes() {
    let text = "open 2 cards, 1 page, 16 locks
card 1 reads word 3
card 2 writes 4294967295 to word 258
card 1 acquires lock 15
card 1 releases lock 0
card 255 arrives
card 1 wants collection
card 1 adds 5 to tally 3
card 1 reads tally 15
card 1 enqueues 77
card 2 dequeues
raw 0b 02 00 00 01 00 00 00
raw 07 01 00 00 00 00 00 ff
raw 01 02 03
";
    let bytes = [
        &[0, 2, 1, 16, 0, 0, 0, 0][..],
        &[1, 1, 3, 0, 0, 0, 0, 0],
        &[2, 2, 2, 1, 255, 255, 255, 255],
        &[3, 1, 15, 0, 0, 0, 0, 0],
        &[4, 1, 0, 0, 0, 0, 0, 0],
        &[5, 255, 0, 0, 0, 0, 0, 0],
        &[6, 1, 0, 0, 0, 0, 0, 0],
        &[8, 1, 3, 0, 5, 0, 0, 0],
        &[9, 1, 15, 0, 0, 0, 0, 0],
        &[10, 1, 0, 0, 77, 0, 0, 0],
        &[11, 2, 0, 0, 0, 0, 0, 0],
        &[11, 2, 0, 0, 1, 0, 0, 0],
        &[7, 1, 0, 0, 0, 0, 0, 255],
        &[1, 2, 3],
    ];
    assert_eq!(pack(text), Ok(bytes.concat()));
    assert_eq!(super::super::text::text(&bytes.concat()), text);
}

/// Spaces, comments, empty lines and the other number of a noun do not matter.
#[test]
fn a_text_by_hand() {
    let text = "# a gain\r\n\n  open 1 cards ,2 page,\t1 locks # so\r\n\ncard 1 arrives# now\n\n#";
    let bytes = [[0, 1, 2, 1, 0, 0, 0, 0], [5, 1, 0, 0, 0, 0, 0, 0]];
    assert_eq!(pack(text), Ok(bytes.concat()));
    assert_eq!(pack(""), Ok(Vec::new()));
    assert_eq!(pack("# nothing\n"), Ok(Vec::new()));
}

/// The mistakes of a text as `LINE:COLUMN: ..`.
fn mistakes(text: &str) -> Vec<String> {
    let found = pack(text).expect_err("a mistake");
    found.iter().map(|mistake| mistake.text("f")).collect()
}

#[test]
fn mistakes_have_their_places() {
    let verbs = "`reads` or `writes` or `acquires` or `releases` or `arrives` or `wants` or `adds` or `enqueues` or `dequeues`";
    let cases = [
        ("card 1 arrives", "f:1:1: expected `open` or `raw`, found `card`".to_string()),
        ("open", "f:1:5: expected a number of cards, 0 to 255, found the end of the line".to_string()),
        ("open 2 cards 1 page, 1 lock", "f:1:14: expected `,`, found `1`".to_string()),
        ("open 256 cards, 1 page, 1 lock", "f:1:6: expected a number of cards, 0 to 255, found `256`".to_string()),
        ("open 2 cards, 1 page, 1 lock!", "f:1:25: expected `locks` or `lock`, found `lock!`".to_string()),
        ("OPEN\ncard 1 read word 3", format!("f:1:1: expected `open` or `raw`, found `OPEN`|f:2:8: expected {verbs}, found `read`")),
        ("raw 00\n\ncard 1 arrives", "f:1:7: expected eight bytes: only the last record may have fewer, found the end of the line".to_string()),
        ("raw 0", "f:1:5: expected a byte, two digits of base sixteen, found `0`".to_string()),
        ("raw +1", "f:1:5: expected a byte, two digits of base sixteen, found `+1`".to_string()),
        ("raw", "f:1:4: expected a byte, two digits of base sixteen, found the end of the line".to_string()),
        ("raw 00 00 00 00 00 00 00 00 00", "f:1:29: expected the end of the line, found `00`".to_string()),
        ("raw 00 # é\n\t é", "f:1:7: expected eight bytes: only the last record may have fewer, found the end of the line|f:2:3: expected `card` or `raw`, found `é`".to_string()),
    ];
    for (text, due) in cases {
        assert_eq!(mistakes(text).join("|"), due);
    }
}

#[test]
fn mistakes_in_steps_have_their_places() {
    let cases = [
        (
            "open 1 card, 1 page, 1 lock",
            "1: expected `card` or `raw`, found `open`",
        ),
        (
            "card",
            "5: expected the number of a card, 0 to 255, found the end of the line",
        ),
        (
            "card -1 arrives",
            "6: expected the number of a card, 0 to 255, found `-1`",
        ),
        (
            "card 1 arrives 2",
            "16: expected the end of the line, found `2`",
        ),
        (
            "card 1 reads lock 3",
            "14: expected `word` or `tally`, found `lock`",
        ),
        (
            "card 1 reads word 65536",
            "19: expected the number of a word, 0 to 65535, found `65536`",
        ),
        (
            "card 1 writes 4294967296 to word 3",
            "15: expected a value, 0 to 4294967295, found `4294967296`",
        ),
        ("card 1 writes 7 in word 3", "17: expected `to`, found `in`"),
        (
            "card 1 adds 7 to word 3",
            "18: expected `tally`, found `word`",
        ),
        ("card 1 acquires 0", "17: expected `lock`, found `0`"),
        (
            "card 1 enqueues",
            "16: expected a value, 0 to 4294967295, found the end of the line",
        ),
        (
            "card 1 dequeues 77",
            "17: expected the end of the line, found `77`",
        ),
        (
            "card 1 wants",
            "13: expected `collection`, found the end of the line",
        ),
        ("card 1 wants collection # now, please\nx", ""),
    ];
    for (step, due) in cases {
        let text = format!("open 1 card, 1 page, 1 lock\n{step}\n");
        let found = mistakes(&text).remove(0);
        match due {
            "" => assert_eq!(found, "f:3:1: expected `card` or `raw`, found `x`"),
            _ => assert_eq!(found, format!("f:2:{due}")),
        }
    }
}
