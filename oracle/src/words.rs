//! The words of a case and the text of an answer, as the replay program reads and writes them.
use std::fmt::Write;

/// A double as a word; every NaN is the one pattern. The bits are taken first, out of the optimiser's sight: to it one NaN is as good
/// as another, so that on x86_64 it left a negative number's square root the pattern FFF8000000000000 that the processor makes.
pub fn word(x: f64) -> u64 {
    let bits = std::hint::black_box(x.to_bits());
    if bits & 0x7FFF_FFFF_FFFF_FFFF > 0x7FF0_0000_0000_0000 { 0x7FF8_0000_0000_0000 } else { bits }
}

/// A double as text.
pub fn hex(x: f64) -> String {
    format!("{:016X}", word(x))
}

pub fn words_of(xs: &[f64]) -> impl Iterator<Item = u64> + '_ {
    xs.iter().map(|&x| word(x))
}

/// Adds ` X` for each double.
pub fn push_doubles(line: &mut String, xs: &[f64]) {
    for &x in xs {
        write!(line, " {:016X}", word(x)).unwrap();
    }
}

/// The stream ended inside a case, or a count or a kind is none: `X`.
pub struct Unfit;

/// A stream of words as it is read.
pub struct Stream {
    words: Vec<u64>,
    at: usize,
    /// bytes left over after the last whole word
    crumbs: bool,
}

impl Stream {
    pub fn of_words(words: Vec<u64>) -> Stream {
        Stream { words, at: 0, crumbs: false }
    }

    pub fn of_bytes(bytes: &[u8]) -> Stream {
        let chunks = bytes.chunks_exact(8);
        let crumbs = !chunks.remainder().is_empty();
        Stream { words: chunks.map(|c| u64::from_be_bytes(c.try_into().unwrap())).collect(), at: 0, crumbs }
    }

    pub fn at_end(&self) -> bool {
        self.at == self.words.len() && !self.crumbs
    }

    pub fn word(&mut self) -> Result<u64, Unfit> {
        let word = *self.words.get(self.at).ok_or(Unfit)?;
        self.at += 1;
        Ok(word)
    }

    pub fn count(&mut self, most: u64) -> Result<usize, Unfit> {
        let count = self.word()?;
        if count <= most { Ok(count as usize) } else { Err(Unfit) }
    }

    pub fn double(&mut self) -> Result<f64, Unfit> {
        self.word().map(f64::from_bits)
    }

    pub fn doubles(&mut self, count: usize) -> Result<Vec<f64>, Unfit> {
        (0..count).map(|_| self.double()).collect()
    }

    pub fn numbers(&mut self, count: usize) -> Result<Vec<usize>, Unfit> {
        (0..count).map(|_| self.word().map(|w| w as usize)).collect()
    }
}

pub fn to_bytes(words: &[u64]) -> Vec<u8> {
    words.iter().flat_map(|w| w.to_be_bytes()).collect()
}
