//! Items of four kinds, as in the proved players.
use crate::script::mix;
use std::cell::Cell;
use std::rc::Rc;

/// The sum of the names of the items that were made and not yet dropped.
pub type Alive = Rc<Cell<u64>>;

/// An item that is made of a number.
pub trait Item: Sized + 'static {
    fn make(alive: &Alive, number: u64) -> Self;
    fn digest(&self) -> u64;
    fn set(&mut self, number: u64);
}

impl Item for u8 {
    fn make(_: &Alive, number: u64) -> u8 {
        number as u8
    }
    fn digest(&self) -> u64 {
        u64::from(*self)
    }
    fn set(&mut self, number: u64) {
        *self = number as u8;
    }
}

impl Item for u64 {
    fn make(_: &Alive, number: u64) -> u64 {
        number
    }
    fn digest(&self) -> u64 {
        *self
    }
    fn set(&mut self, number: u64) {
        *self = number;
    }
}

/// Sixteen words.
#[derive(Clone, Copy, Debug, PartialEq, Eq, PartialOrd, Ord)]
pub struct Block([u64; 16]);

impl Block {
    fn of(number: u64) -> Block {
        let mut words = [number; 16];
        words[7] = number.wrapping_mul(7);
        words[15] = !number;
        Block(words)
    }
}

impl Item for Block {
    fn make(_: &Alive, number: u64) -> Block {
        Block::of(number)
    }
    fn digest(&self) -> u64 {
        self.0.iter().fold(0u64, |sum, word| sum.wrapping_mul(31).wrapping_add(*word))
    }
    fn set(&mut self, number: u64) {
        *self = Block::of(number);
    }
}

/// An item that owns memory, and whose name is in the sum of those alive until it is dropped.
pub struct Owned {
    name: u64,
    number: Box<u64>,
    alive: Alive,
}

impl Item for Owned {
    fn make(alive: &Alive, number: u64) -> Owned {
        let name = mix(1, number);
        alive.set(alive.get().wrapping_add(name));
        Owned { name, number: Box::new(number), alive: alive.clone() }
    }
    fn digest(&self) -> u64 {
        mix(self.name, *self.number)
    }
    fn set(&mut self, number: u64) {
        *self.number = number;
    }
}

impl Drop for Owned {
    fn drop(&mut self) {
        self.alive.set(self.alive.get().wrapping_sub(self.name));
    }
}

/// The items of a number and those behind it, `len` of them.
pub fn items_from<T: Item>(alive: &Alive, number: u64, len: usize) -> Vec<T> {
    (0..len as u64).map(|i| T::make(alive, number.wrapping_add(i))).collect()
}
