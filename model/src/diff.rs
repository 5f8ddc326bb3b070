//! Diffs: what one interval changed on one page, as a list of words and as
//! the bytes of document 01's "Changes as bytes".

/// "A page is 32 words of 32 bits."
pub const PAGE_WORDS: usize = 32;

/// The words that differ, as (offset, word), by rising offset.
#[derive(Clone, Debug, PartialEq, Eq)]
pub struct Diff(pub Vec<(usize, u32)>);

impl Diff {
    /// "compare twin and copy"
    pub fn between(twin: &[u32], copy: &[u32]) -> Diff {
        let pairs = twin.iter().zip(copy).enumerate();
        let differing = pairs.filter(|(_, (old, new))| old != new);
        Diff(differing.map(|(at, (_, new))| (at, *new)).collect())
    }

    /// Puts the diff's words into a copy and leaves the others alone. L6 of
    /// document 02: "Applying a change now also reports the number of words it
    /// set"; "A word that is set to the value it had counts."
    pub fn apply(&self, copy: &mut [u32]) -> u32 {
        for (at, word) in &self.0 {
            copy[*at] = *word;
        }
        self.words_set()
    }

    pub fn words_set(&self) -> u32 {
        self.0.len() as u32
    }

    pub fn is_empty(&self) -> bool {
        self.0.is_empty()
    }

    /// Whether the word at this offset is one of its words.
    pub fn sets(&self, at: usize) -> bool {
        self.0.iter().any(|(offset, _)| *offset == at)
    }

    /// The runs of neighbouring words: (first offset, words).
    pub fn runs(&self) -> Vec<(usize, Vec<u32>)> {
        let mut runs: Vec<(usize, Vec<u32>)> = Vec::new();
        for (at, word) in &self.0 {
            match runs.last_mut() {
                Some((start, words)) if *start + words.len() == *at => words.push(*word),
                _ => runs.push((*at, vec![*word])),
            }
        }
        runs
    }

    /// "One byte n, 0 to 16; n pairs of bytes, offset (0 to 31) and length
    /// (1 to 32), sorted by offset; then the words of the runs, four bytes
    /// each, low byte first."
    pub fn to_bytes(&self) -> Vec<u8> {
        let runs = self.runs();
        let mut bytes = vec![runs.len() as u8];
        for (start, words) in &runs {
            bytes.push(*start as u8);
            bytes.push(words.len() as u8);
        }
        for word in runs.iter().flat_map(|(_, words)| words) {
            bytes.extend(word.to_le_bytes());
        }
        bytes
    }
}

/// Writes the change from twin to copy into `dest`; gives its length or the
/// refusal. "Bytes beyond a written change keep their contents."
pub fn write(twin: &[u32], copy: &[u32], dest: &mut [u8]) -> Result<usize, u32> {
    page_lent(twin)?;
    page_lent(copy)?;
    let bytes = Diff::between(twin, copy).to_bytes();
    // "Change write 13: the destination is shorter than the change"
    let room = dest.get_mut(..bytes.len()).ok_or(13u32)?;
    room.copy_from_slice(&bytes);
    Ok(bytes.len())
}

/// Whether the bytes are a change: Ok, or refusal 11 or 12.
pub fn check(bytes: &[u8]) -> Result<(), u32> {
    read(bytes).map(|_| ())
}

/// Applies the bytes of a change to a page lent by the caller; gives the number
/// of words set or the refusal.
pub fn apply(page: &mut [u32], bytes: &[u8]) -> Result<u32, u32> {
    page_lent(page)?;
    Ok(read(bytes)?.apply(page))
}

/// Reads a change: "Change read" of the table, top to bottom.
pub fn read(bytes: &[u8]) -> Result<Diff, u32> {
    // "11: no bytes, n above 16, or bytes end within the pairs"
    let pairs = read_pairs(bytes).ok_or(11u32)?;
    // "12: a pair breaks its rule"
    if !pairs_keep_rule(&pairs) {
        return Err(12);
    }
    // "11: total length is not exact"
    let words: usize = pairs.iter().map(|(_, length)| length).sum();
    if bytes.len() != 1 + 2 * pairs.len() + 4 * words {
        return Err(11);
    }
    Ok(collect_words(&pairs, &bytes[1 + 2 * pairs.len()..]))
}

/// "Change 14: a page lent is not 32 words"
fn page_lent(page: &[u32]) -> Result<(), u32> {
    if page.len() == PAGE_WORDS {
        Ok(())
    } else {
        Err(14)
    }
}

/// The pairs (offset, length), or nothing if they are not all there.
fn read_pairs(bytes: &[u8]) -> Option<Vec<(usize, usize)>> {
    let n = *bytes.first()? as usize;
    if n > 16 {
        return None;
    }
    let pairs = bytes.get(1..1 + 2 * n)?;
    let pair = |two: &[u8]| (two[0] as usize, two[1] as usize);
    Some(pairs.chunks(2).map(pair).collect())
}

/// "offset (0 to 31) and length (1 to 32) ... Offset plus length is at most
/// 32. Each offset exceeds the previous offset plus length."
fn pairs_keep_rule(pairs: &[(usize, usize)]) -> bool {
    let alone = |(at, length): &(usize, usize)| {
        *at <= 31 && (1..=32).contains(length) && at + length <= PAGE_WORDS
    };
    let apart = |two: &[(usize, usize)]| two[1].0 > two[0].0 + two[0].1;
    pairs.iter().all(alone) && pairs.windows(2).all(apart)
}

/// The words behind the pairs, put at their offsets.
fn collect_words(pairs: &[(usize, usize)], words: &[u8]) -> Diff {
    let offsets = pairs.iter().flat_map(|(at, length)| *at..at + length);
    let word = |four: &[u8]| u32::from_le_bytes([four[0], four[1], four[2], four[3]]);
    Diff(offsets.zip(words.chunks(4).map(word)).collect())
}
