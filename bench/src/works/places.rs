//! One item at a place: read, put in and taken out, exchanged or searched for.
use super::{peer_at, place_of, sum_of};
use crate::items::{Item, next_random};
use crate::peers::Peer;

pub fn lent_get<T: Item, D: Peer<T>, const CAP: usize>(rounds: usize) -> u64 {
    #[inline(never)]
    fn number_at<T: Item, D: Peer<T>>(deque: &D, index: usize) -> u64 {
        deque.get(index).map_or(0, |item| item.number())
    }
    let deque: D = peer_at(CAP / 2, CAP);
    let mut sum = 0u64;
    let mut index = 0usize;
    for _ in 0..rounds {
        sum = sum.wrapping_add(number_at::<T, D>(&deque, index));
        index = if index < CAP / 2 { index + CAP / 3 } else { index - CAP / 2 };
    }
    sum
}

pub fn middle<T: Item, D: Peer<T>, const CAP: usize>(rounds: usize) -> u64 {
    let mut deque: D = peer_at(CAP / 2, CAP.saturating_sub(1));
    let mut sum = 0u64;
    for round in 0..rounds as u64 {
        let index = deque.len() / 2;
        deque.insert(index, T::of(round));
        if let Some(item) = deque.remove(index) {
            sum = sum.wrapping_add(item.number());
        }
    }
    sum
}

pub fn swap<T: Item, D: Peer<T>, const CAP: usize>(rounds: usize) -> u64 {
    let mut deque: D = peer_at(CAP / 2, CAP);
    let mut state = 1u64;
    for _ in 0..rounds {
        state = next_random(state);
        let (i, j) = (place_of::<CAP>(state), place_of::<CAP>(state << 20));
        if i < deque.len() && j < deque.len() {
            deque.swap(i, j);
        }
    }
    sum_of(&deque)
}

pub fn search<T: Item, D: Peer<T>, const CAP: usize>(rounds: usize) -> u64 {
    let deque: D = peer_at(CAP / 2, CAP);
    let mut sum = 0u64;
    let mut state = 1u64;
    for _ in 0..rounds {
        state = next_random(state);
        let sought = (state >> 32) % (2 * CAP as u64);
        match deque.binary_search_by(|item| item.number().wrapping_mul(2).cmp(&sought)) {
            Ok(index) => sum = sum.wrapping_add(index as u64),
            Err(index) => sum = sum.wrapping_sub(index as u64),
        }
    }
    sum
}
