//! The floor: what any run program must do and nothing else. Reads a step file from standard input, takes each record apart, and prints
//! a line `number 0 0 0` for each. The sums of the fields go to standard error, so that the compiler must keep the taking apart; the zeros
//! are hidden from it, since a run program has to print any number in their place.

#![forbid(unsafe_code)]

use std::fs::File;
use std::hint::black_box;
use std::io::{self, Read, Write};
use std::os::fd::AsFd;

const CHUNK: usize = 65536;
/// The longest line: four numbers of ten digits, each with a byte behind.
const LONGEST: usize = 44;

/// "00" to "99", so that two digits are printed at a time.
const PAIRS: [u8; 200] = pairs();

const fn pairs() -> [u8; 200] {
    let mut digits = [b'0'; 200];
    let mut n = 0;
    while n < 100 {
        digits[2 * n] += (n / 10) as u8;
        digits[2 * n + 1] += (n % 10) as u8;
        n += 1;
    }
    digits
}

fn main() -> io::Result<()> {
    // The bare files: the library's own buffers would only be in the way.
    let mut input = File::from(io::stdin().as_fd().try_clone_to_owned()?);
    let output = File::from(io::stdout().as_fd().try_clone_to_owned()?);
    let mut lines = Lines::new(output);
    let mut sums = [0u64; 4];
    let mut chunk = vec![0; CHUNK];
    let mut held = 0;
    let mut number = 0;
    let zero = black_box(0);
    loop {
        let read = input.read(&mut chunk[held..])?;
        if read == 0 {
            break;
        }
        held += read;
        for record in chunk[..held].chunks_exact(8) {
            add_fields(&mut sums, record);
            lines.put([number, zero, zero, zero])?;
            number += 1;
        }
        let whole = held / 8 * 8;
        chunk.copy_within(whole..held, 0);
        held -= whole;
    }
    lines.write()?;
    eprintln!("{sums:?}");
    Ok(())
}

/// Kind, card, object and value, each added to its sum.
fn add_fields(sums: &mut [u64; 4], record: &[u8]) {
    sums[0] += u64::from(record[0]);
    sums[1] += u64::from(record[1]);
    sums[2] += u64::from(u16::from_le_bytes([record[2], record[3]]));
    sums[3] += u64::from(u32::from_le_bytes([
        record[4], record[5], record[6], record[7],
    ]));
}

/// Lines on their way out: a buffer that is written when the next line might not fit.
struct Lines {
    output: File,
    buffer: Vec<u8>,
    used: usize,
}

impl Lines {
    fn new(output: File) -> Lines {
        let buffer = vec![0; CHUNK];
        Lines {
            output,
            buffer,
            used: 0,
        }
    }

    fn put(&mut self, numbers: [u32; 4]) -> io::Result<()> {
        if self.used + LONGEST > CHUNK {
            self.write()?;
        }
        for (number, behind) in numbers.into_iter().zip(*b"   \n") {
            let end = self.used + width(number);
            put_digits(&mut self.buffer[self.used..end], number);
            self.buffer[end] = behind;
            self.used = end + 1;
        }
        Ok(())
    }

    fn write(&mut self) -> io::Result<()> {
        self.output.write_all(&self.buffer[..self.used])?;
        self.used = 0;
        Ok(())
    }
}

/// How many digits a number has in base ten.
fn width(number: u32) -> usize {
    number.checked_ilog10().unwrap_or(0) as usize + 1
}

/// Fills the place with the digits, from the right.
fn put_digits(place: &mut [u8], mut number: u32) {
    let mut end = place.len();
    while end >= 2 {
        let pair = 2 * (number % 100) as usize;
        place[end - 2..end].copy_from_slice(&PAIRS[pair..pair + 2]);
        number /= 100;
        end -= 2;
    }
    if end == 1 {
        place[0] = b'0' + (number % 10) as u8;
    }
}
