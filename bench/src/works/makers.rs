//! Deques made of vectors and arrays, and turned into vectors or read by value.
use super::{last_number, peer_at};
use crate::items::{Item, first_items};
use crate::peers::Peer;
use std::hint::black_box;

pub fn vec_and_back<T: Item, D: Peer<T>, const CAP: usize>(rounds: usize) -> u64 {
    let mut deque: D = peer_at(CAP / 2, CAP);
    let mut sum = 0u64;
    for _ in 0..rounds {
        deque = D::from_vec(deque.into_vec());
        sum = sum.wrapping_add(last_number(&deque));
    }
    sum
}

pub fn from_array<T: Item, D: Peer<T>, const CAP: usize>(rounds: usize) -> u64 {
    let mut sum = 0u64;
    for round in 0..rounds as u64 {
        let deque = D::from_array([T::of(round); 16]);
        // Else the compiler leaves out the making of a `VecDeque`.
        black_box(&deque);
        sum = sum.wrapping_add(last_number(&deque));
    }
    sum
}

pub fn into_items<T: Item, D: Peer<T>, const CAP: usize>(rounds: usize) -> u64 {
    let items = first_items::<T>(CAP / 2);
    let mut sum = 0u64;
    for _ in 0..rounds {
        let mut deque = D::new();
        deque.extend_back(items.iter().copied());
        for item in deque.into_items() {
            sum = sum.wrapping_add(item.number());
        }
    }
    sum
}
