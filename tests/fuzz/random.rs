//! Pseudo-random numbers: the model's generator, and bytes and words from it.

#[path = "../../model/src/rng.rs"]
#[allow(dead_code)]
mod rng;

pub use rng::Rng as Random;

impl Random {
    pub fn byte(&mut self) -> u8 {
        (self.next() >> 56) as u8
    }

    pub fn word(&mut self) -> u32 {
        (self.next() >> 32) as u32
    }

    pub fn fill(&mut self, bytes: &mut [u8]) {
        for eight in bytes.chunks_mut(8) {
            let number = self.next().to_le_bytes();
            eight.copy_from_slice(&number[..eight.len()]);
        }
    }

    pub fn fill_words(&mut self, words: &mut [u32]) {
        words.iter_mut().for_each(|word| *word = self.word());
    }
}
