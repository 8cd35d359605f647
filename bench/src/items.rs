//! Items of three sizes, as in the proved workloads.

/// An item that is made of a number, and gives one back.
pub trait Item: Copy + 'static {
    fn of(number: u64) -> Self;
    fn number(&self) -> u64;
}

impl Item for u8 {
    #[inline]
    fn of(number: u64) -> u8 {
        number as u8
    }
    #[inline]
    fn number(&self) -> u64 {
        u64::from(*self)
    }
}

impl Item for u64 {
    #[inline]
    fn of(number: u64) -> u64 {
        number
    }
    #[inline]
    fn number(&self) -> u64 {
        *self
    }
}

/// Sixty-four bytes.
#[derive(Clone, Copy, PartialEq)]
pub struct Block([u64; 8]);

impl Item for Block {
    #[inline]
    fn of(number: u64) -> Block {
        Block([number; 8])
    }
    #[inline]
    fn number(&self) -> u64 {
        self.0[0]
    }
}

/// An item that owns memory.
pub trait Owned: Clone + 'static {
    fn make(number: u64) -> Self;
    fn number(&self) -> u64;
}

impl Owned for Box<u64> {
    fn make(number: u64) -> Box<u64> {
        Box::new(number)
    }
    #[inline]
    fn number(&self) -> u64 {
        **self
    }
}

impl Owned for String {
    fn make(number: u64) -> String {
        String::from(if number % 2 == 0 { "an even number's text" } else { "a text of an odd number" })
    }
    #[inline]
    fn number(&self) -> u64 {
        self.len() as u64
    }
}

/// How many bytes go through a pipe at a time.
pub trait Piece {
    const LEN: usize;
}

pub struct Bytes<const LEN: usize>;

impl<const LEN: usize> Piece for Bytes<LEN> {
    const LEN: usize = LEN;
}

/// The next of a row of numbers that look random.
#[inline]
pub fn next_random(number: u64) -> u64 {
    let number = number ^ (number << 13);
    let number = number ^ (number >> 7);
    number ^ (number << 17)
}

/// The items of the numbers from 0 on, `len` of them.
pub fn first_items<T: Item>(len: usize) -> Vec<T> {
    (0..len as u64).map(T::of).collect()
}
