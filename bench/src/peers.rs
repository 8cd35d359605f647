//! The two peers, by one set of calls.
use arraydeque::{ArrayDeque, Saturating, Wrapping};
use std::cmp::Ordering;
use std::collections::VecDeque;
use std::hash::Hash;
use std::hint::black_box;
use std::io::{Read, Write};
use std::iter::repeat;
use std::ops::Range;

/// A deque of at most `CAP` items. A push into a full one is refused.
pub trait Peer<T>: Sized {
    /// The same, but a push into a full one gives up the item at the other end.
    type History: History<T>;

    fn new() -> Self;
    fn len(&self) -> usize;
    fn push_back(&mut self, item: T) -> bool;
    fn push_front(&mut self, item: T) -> bool;
    fn pop_back(&mut self) -> Option<T>;
    fn pop_front(&mut self) -> Option<T>;
    fn get(&self, index: usize) -> Option<&T>;
    fn at(&self, index: usize) -> &T;
    fn back(&self) -> Option<&T>;
    fn back_mut(&mut self) -> Option<&mut T>;
    fn get_mut(&mut self, index: usize) -> Option<&mut T>;
    fn contains(&self, item: &T) -> bool
    where
        T: PartialEq;
    fn swap(&mut self, i: usize, j: usize);
    fn from_vec(items: Vec<T>) -> Self;
    fn from_array<const N: usize>(items: [T; N]) -> Self;
    fn into_vec(self) -> Vec<T>;
    fn insert(&mut self, index: usize, item: T) -> bool;
    fn remove(&mut self, index: usize) -> Option<T>;
    fn extend_back(&mut self, items: impl IntoIterator<Item = T>);
    fn clear(&mut self);
    fn drain(&mut self, range: Range<usize>) -> impl Iterator<Item = T>;
    fn split_off(&mut self, at: usize) -> Self;
    fn append(&mut self, other: Self);
    fn truncate(&mut self, len: usize);
    fn resize(&mut self, len: usize, value: T)
    where
        T: Clone;
    fn into_items(self) -> impl Iterator<Item = T>;
    fn retain(&mut self, keeps: impl FnMut(&T) -> bool);
    fn rotate_left(&mut self, count: usize);
    fn binary_search_by(&self, order: impl FnMut(&T) -> Ordering) -> Result<usize, usize>;
    fn pop_back_if(&mut self, is_wanted: impl FnOnce(&mut T) -> bool) -> Option<T>;
    fn pop_front_if(&mut self, is_wanted: impl FnOnce(&mut T) -> bool) -> Option<T>;
    fn iter<'a>(&'a self) -> impl DoubleEndedIterator<Item = &'a T>
    where
        T: 'a;
    fn iter_mut<'a>(&'a mut self) -> impl Iterator<Item = &'a mut T>
    where
        T: 'a;
    fn range_mut<'a>(&'a mut self, range: Range<usize>) -> impl Iterator<Item = &'a mut T>
    where
        T: 'a;
    fn linearize(&mut self);
    fn first_slice(&self) -> &[T];
    fn second_slice(&self) -> &[T];
}

/// A deque of bytes as a stream.
pub trait Stream: Peer<u8> {
    fn write(&mut self, bytes: &[u8]) -> usize;
    /// Reads as many bytes as there are, or as there is room for.
    fn read(&mut self, room: &mut [u8]) -> usize;
}

/// A deque whose oldest item goes when a new one comes.
pub trait History<T> {
    fn new() -> Self;
    fn push_back(&mut self, item: T) -> Option<T>;
}

/// The calls that both peers have under the same names.
macro_rules! shared {
    () => {
        #[inline]
        fn len(&self) -> usize {
            self.0.len()
        }
        #[inline]
        fn pop_back(&mut self) -> Option<T> {
            self.0.pop_back()
        }
        #[inline]
        fn pop_front(&mut self) -> Option<T> {
            self.0.pop_front()
        }
        #[inline]
        fn get(&self, index: usize) -> Option<&T> {
            self.0.get(index)
        }
        #[inline]
        fn at(&self, index: usize) -> &T {
            &self.0[index]
        }
        #[inline]
        fn back(&self) -> Option<&T> {
            self.0.back()
        }
        #[inline]
        fn back_mut(&mut self) -> Option<&mut T> {
            self.0.back_mut()
        }
        #[inline]
        fn get_mut(&mut self, index: usize) -> Option<&mut T> {
            self.0.get_mut(index)
        }
        #[inline]
        fn contains(&self, item: &T) -> bool
        where
            T: PartialEq,
        {
            self.0.contains(item)
        }
        #[inline]
        fn swap(&mut self, i: usize, j: usize) {
            self.0.swap(i, j);
        }
        #[inline]
        fn from_vec(items: Vec<T>) -> Self {
            Self(items.into())
        }
        #[inline]
        fn from_array<const N: usize>(items: [T; N]) -> Self {
            Self(items.into())
        }
        #[inline]
        fn into_vec(self) -> Vec<T> {
            self.0.into()
        }
        #[inline]
        fn remove(&mut self, index: usize) -> Option<T> {
            self.0.remove(index)
        }
        #[inline]
        fn clear(&mut self) {
            self.0.clear();
        }
        #[inline]
        fn drain(&mut self, range: Range<usize>) -> impl Iterator<Item = T> {
            self.0.drain(range)
        }
        #[inline]
        fn split_off(&mut self, at: usize) -> Self {
            Self(self.0.split_off(at))
        }
        #[inline]
        fn into_items(self) -> impl Iterator<Item = T> {
            self.0.into_iter()
        }
        #[inline]
        fn retain(&mut self, keeps: impl FnMut(&T) -> bool) {
            self.0.retain(keeps);
        }
        #[inline]
        fn iter<'a>(&'a self) -> impl DoubleEndedIterator<Item = &'a T>
        where
            T: 'a,
        {
            self.0.iter()
        }
        #[inline]
        fn iter_mut<'a>(&'a mut self) -> impl Iterator<Item = &'a mut T>
        where
            T: 'a,
        {
            self.0.iter_mut()
        }
        #[inline]
        fn first_slice(&self) -> &[T] {
            self.0.as_slices().0
        }
        #[inline]
        fn second_slice(&self) -> &[T] {
            self.0.as_slices().1
        }
    };
}

/// The Rust crate arraydeque.
#[derive(Clone, PartialEq, Hash)]
pub struct Crate<T, const CAP: usize>(ArrayDeque<T, CAP, Saturating>);

impl<T, const CAP: usize> Peer<T> for Crate<T, CAP> {
    type History = ArrayDeque<T, CAP, Wrapping>;

    shared!();

    fn new() -> Self {
        Self(ArrayDeque::new())
    }
    #[inline]
    fn push_back(&mut self, item: T) -> bool {
        self.0.push_back(item).is_ok()
    }
    #[inline]
    fn push_front(&mut self, item: T) -> bool {
        self.0.push_front(item).is_ok()
    }
    #[inline]
    fn insert(&mut self, index: usize, item: T) -> bool {
        self.0.insert(index, item).is_ok()
    }
    #[inline]
    fn extend_back(&mut self, items: impl IntoIterator<Item = T>) {
        self.0.extend_back(items);
    }
    #[inline]
    fn append(&mut self, other: Self) {
        self.0.extend_back(other.0);
    }
    #[inline]
    fn truncate(&mut self, len: usize) {
        if len < self.0.len() {
            self.0.drain(len..);
        }
    }
    #[inline]
    fn resize(&mut self, len: usize, value: T)
    where
        T: Clone,
    {
        self.truncate(len);
        self.0.extend_back(repeat(value).take(len - self.0.len()));
    }
    #[inline]
    fn range_mut<'a>(&'a mut self, range: Range<usize>) -> impl Iterator<Item = &'a mut T>
    where
        T: 'a,
    {
        self.0.iter_mut().skip(range.start).take(range.len())
    }
    #[inline]
    fn linearize(&mut self) {
        self.0.linearize();
    }
    #[inline]
    fn rotate_left(&mut self, count: usize) {
        for _ in 0..count {
            if let Some(item) = self.0.pop_front() {
                let _ = self.0.push_back(item);
            }
        }
    }
    #[inline]
    fn binary_search_by(&self, mut order: impl FnMut(&T) -> Ordering) -> Result<usize, usize> {
        let (front, back) = self.0.as_slices();
        if back.first().is_some_and(|item| order(item).is_le()) {
            let shifted = |index| front.len() + index;
            back.binary_search_by(order).map(shifted).map_err(shifted)
        } else {
            front.binary_search_by(order)
        }
    }
    #[inline]
    fn pop_back_if(&mut self, is_wanted: impl FnOnce(&mut T) -> bool) -> Option<T> {
        if is_wanted(self.0.back_mut()?) { self.0.pop_back() } else { None }
    }
    #[inline]
    fn pop_front_if(&mut self, is_wanted: impl FnOnce(&mut T) -> bool) -> Option<T> {
        if is_wanted(self.0.front_mut()?) { self.0.pop_front() } else { None }
    }
}

impl<const CAP: usize> Stream for Crate<u8, CAP> {
    #[inline]
    fn write(&mut self, bytes: &[u8]) -> usize {
        let before = self.0.len();
        self.0.extend_back(bytes.iter().copied());
        self.0.len() - before
    }
    #[inline]
    fn read(&mut self, room: &mut [u8]) -> usize {
        let (front, back) = self.0.as_slices();
        let first = front.len().min(room.len());
        room[..first].copy_from_slice(&front[..first]);
        let second = back.len().min(room.len() - first);
        room[first..first + second].copy_from_slice(&back[..second]);
        self.0.drain(..first + second);
        first + second
    }
}

impl<T, const CAP: usize> History<T> for ArrayDeque<T, CAP, Wrapping> {
    fn new() -> Self {
        ArrayDeque::new()
    }
    #[inline]
    fn push_back(&mut self, item: T) -> Option<T> {
        ArrayDeque::<T, CAP, Wrapping>::push_back(self, item)
    }
}

/// std's `VecDeque`, bounded by hand.
#[derive(Clone, PartialEq, Hash)]
pub struct Bounded<T, const CAP: usize>(VecDeque<T>);

impl<T, const CAP: usize> Peer<T> for Bounded<T, CAP> {
    type History = Self;

    shared!();

    fn new() -> Self {
        // Else the compiler finds at some capacities that the deque never grows, and folds its capacity into the loop.
        Self(VecDeque::with_capacity(black_box(CAP)))
    }
    #[inline]
    fn push_back(&mut self, item: T) -> bool {
        let has_room = self.0.len() < CAP;
        if has_room {
            self.0.push_back(item);
        }
        has_room
    }
    #[inline]
    fn push_front(&mut self, item: T) -> bool {
        let has_room = self.0.len() < CAP;
        if has_room {
            self.0.push_front(item);
        }
        has_room
    }
    #[inline]
    fn insert(&mut self, index: usize, item: T) -> bool {
        let has_room = self.0.len() < CAP;
        if has_room {
            self.0.insert(index, item);
        }
        has_room
    }
    #[inline]
    fn extend_back(&mut self, items: impl IntoIterator<Item = T>) {
        let room = CAP - self.0.len();
        self.0.extend(items.into_iter().take(room));
    }
    #[inline]
    fn append(&mut self, mut other: Self) {
        other.0.truncate(CAP - self.0.len());
        self.0.append(&mut other.0);
    }
    #[inline]
    fn truncate(&mut self, len: usize) {
        self.0.truncate(len);
    }
    #[inline]
    fn resize(&mut self, len: usize, value: T)
    where
        T: Clone,
    {
        self.0.resize(len, value);
    }
    #[inline]
    fn range_mut<'a>(&'a mut self, range: Range<usize>) -> impl Iterator<Item = &'a mut T>
    where
        T: 'a,
    {
        self.0.range_mut(range)
    }
    #[inline]
    fn linearize(&mut self) {
        self.0.make_contiguous();
    }
    #[inline]
    fn rotate_left(&mut self, count: usize) {
        self.0.rotate_left(count);
    }
    #[inline]
    fn binary_search_by(&self, order: impl FnMut(&T) -> Ordering) -> Result<usize, usize> {
        self.0.binary_search_by(order)
    }
    #[inline]
    fn pop_back_if(&mut self, is_wanted: impl FnOnce(&mut T) -> bool) -> Option<T> {
        self.0.pop_back_if(is_wanted)
    }
    #[inline]
    fn pop_front_if(&mut self, is_wanted: impl FnOnce(&mut T) -> bool) -> Option<T> {
        self.0.pop_front_if(is_wanted)
    }
}

impl<const CAP: usize> Stream for Bounded<u8, CAP> {
    #[inline]
    fn write(&mut self, bytes: &[u8]) -> usize {
        let count = bytes.len().min(CAP - self.0.len());
        self.0.write(&bytes[..count]).unwrap_or(0)
    }
    #[inline]
    fn read(&mut self, room: &mut [u8]) -> usize {
        // Its `read` gives the bytes of the first slice alone.
        let first = self.0.read(room).unwrap_or(0);
        if first < room.len() { first + self.0.read(&mut room[first..]).unwrap_or(0) } else { first }
    }
}

impl<T, const CAP: usize> History<T> for Bounded<T, CAP> {
    fn new() -> Self {
        Peer::new()
    }
    #[inline]
    fn push_back(&mut self, item: T) -> Option<T> {
        let oldest = if self.0.len() < CAP { None } else { self.0.pop_front() };
        self.0.push_back(item);
        oldest
    }
}
