//! What a file of the benchmark holds, by the lines of a run of it, and what
//! differs in two programs' lines.

/// An error with the first line in which a program differs from the model, if a
/// byte does.
pub fn same(name: &str, printed: &[u8], model: &[u8]) -> Result<(), String> {
    if printed == model {
        return Ok(());
    }
    let (mut ours, mut theirs) = (printed.split(newline), model.split(newline));
    loop {
        let (a, b) = (ours.next(), theirs.next());
        if a != b {
            let text =
                |line: Option<&[u8]>| String::from_utf8_lossy(line.unwrap_or(b"")).into_owned();
            return Err(format!("{name} prints `{}`, model `{}`", text(a), text(b)));
        }
    }
}

fn newline(byte: &u8) -> bool {
    *byte == b'\n'
}

/// How many steps of a file are accepted and refused, how many records they
/// apply, and how many words these set.
#[derive(Default)]
pub struct Content {
    accepted: u64,
    refused: u64,
    applied: u64,
    words: u64,
}

impl Content {
    /// Four numbers for each record, then "words" and their total.
    pub fn of(lines: &[u8]) -> Content {
        let mut content = Content::default();
        for line in lines.split(newline).skip(1) {
            let text = String::from_utf8_lossy(line);
            let parts: Vec<&str> = text.split(' ').collect();
            let number = |part: &str| part.parse().unwrap_or(0);
            match parts[..] {
                [_, "0", _, count] => {
                    content.accepted += 1;
                    content.applied += number(count);
                }
                [_, _, _, _] => content.refused += 1,
                ["words", total] => content.words = number(total),
                _ => {}
            }
        }
        content
    }

    /// "774006 accepted, 225994 refused, 1033596 records applied, of 1437015
    /// words"
    pub fn text(&self) -> String {
        let Content {
            accepted,
            refused,
            applied,
            words,
        } = self;
        let steps = format!("{accepted} accepted, {refused} refused");
        format!("{steps}, {applied} records applied, of {words} words")
    }

    /// Accepted steps of 100.
    pub fn share(&self) -> f64 {
        100.0 * self.accepted as f64 / (self.accepted + self.refused) as f64
    }
}
