//! A text of YAML scanned over a peer that looks ahead.
use crate::items::next_random;
use crate::peers::{Bounded, Crate, Peer};

pub fn yaml<T, D: Scanned, const CAP: usize>(rounds: usize) -> u64 {
    let text = D::text();
    let mut sum = 0u64;
    for _ in 0..rounds {
        sum = sum.wrapping_mul(3).wrapping_add(D::sum_of(&text));
    }
    sum
}

/// A text of so many lines, each a key with a value at a random indentation.
fn text_of(lines: usize, line_of: fn(u64) -> [&'static str; 8]) -> Vec<char> {
    let mut text = String::new();
    let mut state = 1u64;
    for line in 0..lines {
        state = next_random(state);
        if line % 64 == 0 {
            text += "---\n";
        }
        text += &"  ".repeat((state >> 40) as usize % 6);
        text += &line_of(state).concat();
    }
    text.chars().collect()
}

/// How many characters are read ahead at most.
pub const BUFFER_LEN: usize = 16;

/// An iterator of characters, and a buffer of those that were read ahead, as in `uses`.
pub struct BufferedInput<I, D> {
    input: I,
    buffer: D,
}

impl<I: Iterator<Item = char>, D: Peer<char>> BufferedInput<I, D> {
    #[inline]
    fn lookahead(&mut self, count: usize) {
        while self.buffer.len() < count {
            let c = self.input.next().unwrap_or('\0');
            self.buffer.push_back(c);
        }
    }

    #[inline]
    fn buflen(&self) -> usize {
        self.buffer.len()
    }

    #[inline]
    fn buf_is_empty(&self) -> bool {
        self.buffer.len() == 0
    }

    #[inline]
    fn raw_read_non_breakz_ch(&mut self) -> Option<char> {
        let c = self.input.next()?;
        if !is_breakz_char(c) {
            return Some(c);
        }
        self.buffer.push_back(c);
        None
    }

    #[inline]
    fn look_ch(&mut self) -> char {
        self.lookahead(1);
        self.peek()
    }

    #[inline]
    fn skip(&mut self) {
        self.buffer.pop_front();
    }

    #[inline]
    fn skip_n(&mut self, count: usize) {
        drop(self.buffer.drain(0..count));
    }

    #[inline]
    fn peek(&self) -> char {
        *self.buffer.at(0)
    }

    #[inline]
    fn peek_nth(&self, index: usize) -> char {
        *self.buffer.at(index)
    }
}

pub fn is_breakz_char(c: char) -> bool {
    c == '\0' || c == '\n' || c == '\r'
}

/// A peer under the proved workload's scanner.
pub trait Scanned {
    fn text() -> Vec<char>;
    fn sum_of(text: &[char]) -> u64;
}

macro_rules! scanned {
    ($module:ident, $peer:ty) => {
        mod $module {
            mod uses {
                pub mod input {
                    use crate::peers::*;
                    pub use super::super::super::{BUFFER_LEN, is_breakz_char};
                    pub type BufferedInput<I> = super::super::super::BufferedInput<I, $peer>;
                }
            }
            include!("../../crates/arraydeque_bench/src/scanner.rt.txt");
        }

        impl Scanned for $peer {
            fn text() -> Vec<char> {
                text_of($module::LINES, $module::line_of)
            }

            fn sum_of(text: &[char]) -> u64 {
                let mut input = BufferedInput { input: text.iter().copied(), buffer: Self::new() };
                let mut scanner = $module::Scanner::new();
                scanner.scan(&mut input, text.len());
                scanner.sum
            }
        }
    };
}

scanned!(over_crate, Crate<char, 16>);
scanned!(over_std, Bounded<char, 16>);
