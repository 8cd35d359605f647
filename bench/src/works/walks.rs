//! All items of a list: read, written, compared or hashed. Each round the compiler is told that the deque may be
//! another one, or it would read a short list once for all rounds.
use super::peer_at;
use crate::items::Item;
use crate::peers::Peer;
use std::hash::{DefaultHasher, Hash, Hasher};
use std::hint::black_box;

pub fn iterate<T: Item, D: Peer<T>, const CAP: usize>(rounds: usize) -> u64 {
    let deque: D = peer_at(CAP / 2, CAP);
    let mut sum = 0u64;
    for round in 0..rounds as u64 {
        black_box(&deque);
        for item in deque.iter() {
            sum = sum.wrapping_add(item.number() ^ round);
        }
    }
    sum
}

pub fn rev<T: Item, D: Peer<T>, const CAP: usize>(rounds: usize) -> u64 {
    let deque: D = peer_at(CAP / 2, CAP);
    let mut sum = 0u64;
    for round in 0..rounds as u64 {
        black_box(&deque);
        for item in deque.iter().rev() {
            sum = sum.wrapping_add(item.number() ^ round);
        }
    }
    sum
}

pub fn contains<T: Item + PartialEq, D: Peer<T>, const CAP: usize>(rounds: usize) -> u64 {
    let mut deque: D = peer_at(CAP / 2, CAP);
    for item in deque.iter_mut() {
        *item = T::of(item.number() & 127);
    }
    let mut sum = 0u64;
    for round in 0..rounds as u64 {
        black_box(&deque);
        let sought = T::of(128 | (round & 63));
        sum = sum.wrapping_add(if deque.contains(&sought) { 1 } else { 2 });
    }
    sum
}

pub fn iterate_mut<T: Item, D: Peer<T>, const CAP: usize>(rounds: usize) -> u64 {
    let mut deque: D = peer_at(CAP / 2, CAP);
    let mut sum = 0u64;
    for round in 0..rounds as u64 {
        black_box(&mut deque);
        for item in deque.iter_mut() {
            *item = T::of(item.number() ^ round);
        }
        if let Some(item) = deque.back() {
            sum = sum.wrapping_add(item.number());
        }
    }
    sum
}

pub fn for_each_mut_in<T: Item, D: Peer<T>, const CAP: usize>(rounds: usize) -> u64 {
    let mut deque: D = peer_at(CAP / 2, CAP);
    let mut sum = 0u64;
    for _ in 0..rounds {
        black_box(&mut deque);
        let from = deque.len() / 4;
        let to = deque.len() - from;
        deque.range_mut(from..to).for_each(|item| *item = T::of(item.number().wrapping_add(1)));
        if let Some(item) = deque.get(CAP / 2) {
            sum = sum.wrapping_add(item.number());
        }
    }
    sum
}

pub fn equal<T: Item, D: Peer<T> + PartialEq, const CAP: usize>(rounds: usize) -> u64 {
    let mut deque: D = peer_at(0, CAP);
    let other: D = peer_at(CAP / 3, CAP);
    let mut sum = 0u64;
    for round in 0..rounds as u64 {
        black_box((&mut deque, &other));
        if let Some(item) = deque.back_mut() {
            *item = T::of(CAP as u64 - 1 - round % 2);
        }
        sum = sum.wrapping_add(u64::from(deque == other));
    }
    sum
}

/// The sums of the peers differ from the proved deque's, which feeds each item by itself.
pub fn hash<T: Item, D: Peer<T> + Hash, const CAP: usize>(rounds: usize) -> u64 {
    let deque: D = peer_at(CAP / 2, CAP);
    let mut sum = 0u64;
    for _ in 0..rounds {
        black_box(&deque);
        let mut hasher = DefaultHasher::new();
        deque.hash(&mut hasher);
        sum = sum.wrapping_add(hasher.finish());
    }
    sum
}
