//! Many items in and out.
use super::{last_number, peer_at};
use crate::items::{Item, first_items, next_random};
use crate::peers::Peer;

pub fn extend_slice<T: Item, D: Peer<T>, const CAP: usize>(rounds: usize) -> u64 {
    let items = first_items::<T>(CAP / 2);
    let mut deque: D = peer_at(0, CAP / 3);
    let mut sum = 0u64;
    for _ in 0..rounds {
        deque.extend_back(items.iter().copied());
        sum = sum.wrapping_add(last_number(&deque));
        deque.clear();
    }
    sum
}

pub fn drain_all<T: Item, D: Peer<T>, const CAP: usize>(rounds: usize) -> u64 {
    let items = first_items::<T>(CAP / 2);
    let mut deque: D = peer_at(CAP / 2, 0);
    let mut sum = 0u64;
    for _ in 0..rounds {
        deque.extend_back(items.iter().copied());
        let len = deque.len();
        for item in deque.drain(0..len) {
            sum = sum.wrapping_add(item.number());
        }
    }
    sum
}

pub fn drain_four<T: Item, D: Peer<T>, const CAP: usize>(rounds: usize) -> u64 {
    let items = first_items::<T>(4);
    let mut deque: D = peer_at(CAP / 2, CAP);
    let mut sum = 0u64;
    for _ in 0..rounds {
        let from = deque.len() / 4;
        if from + 4 <= deque.len() {
            for item in deque.drain(from..from + 4) {
                sum = sum.wrapping_add(item.number());
            }
        }
        deque.extend_back(items.iter().copied());
    }
    sum
}

pub fn remove_range<T: Item, D: Peer<T>, const CAP: usize>(rounds: usize) -> u64 {
    let items = first_items::<T>(4);
    let mut deque: D = peer_at(CAP / 2, CAP);
    let mut sum = 0u64;
    for _ in 0..rounds {
        let from = deque.len() / 4;
        if from + 4 <= deque.len() {
            drop(deque.drain(from..from + 4));
        }
        deque.extend_back(items.iter().copied());
        sum = sum.wrapping_add(deque.get(from).map_or(0, Item::number));
    }
    sum
}

pub fn split_append<T: Item, D: Peer<T>, const CAP: usize>(rounds: usize) -> u64 {
    let mut deque: D = peer_at(CAP / 2, CAP);
    let mut sum = 0u64;
    for _ in 0..rounds {
        let middle = deque.len() / 2;
        let tail = deque.split_off(middle);
        deque.extend_back(tail.into_items());
        sum = sum.wrapping_add(last_number(&deque));
    }
    sum
}

pub fn split_rejoin<T: Item, D: Peer<T>, const CAP: usize>(rounds: usize) -> u64 {
    let mut deque: D = peer_at(CAP / 2, CAP);
    let mut sum = 0u64;
    for _ in 0..rounds {
        let middle = deque.len() / 2;
        let tail = deque.split_off(middle);
        deque.append(tail);
        sum = sum.wrapping_add(last_number(&deque));
    }
    sum
}

pub fn truncate<T: Item, D: Peer<T>, const CAP: usize>(rounds: usize) -> u64 {
    let items = first_items::<T>(CAP / 2);
    let mut deque: D = peer_at(CAP / 4, CAP);
    let mut sum = 0u64;
    for _ in 0..rounds {
        deque.truncate(CAP / 2);
        sum = sum.wrapping_add(last_number(&deque));
        deque.extend_back(items.iter().copied());
    }
    sum
}

pub fn resize<T: Item, D: Peer<T>, const CAP: usize>(rounds: usize) -> u64 {
    let mut deque: D = peer_at(CAP / 4, CAP / 2);
    let mut sum = 0u64;
    for round in 0..rounds as u64 {
        deque.resize(CAP, T::of(round));
        sum = sum.wrapping_add(last_number(&deque));
        deque.resize(CAP / 2, T::of(0));
    }
    sum
}

pub fn retain<T: Item, D: Peer<T>, const CAP: usize>(rounds: usize) -> u64 {
    let mut deque: D = peer_at(CAP / 2, 0);
    let mut sum = 0u64;
    let mut state = 1u64;
    let mut bit = 1u64;
    for _ in 0..rounds {
        while deque.len() < CAP {
            state = next_random(state);
            deque.push_back(T::of(state));
        }
        deque.retain(|item| item.number() & bit != 0);
        bit = if bit == 128 { 1 } else { bit << 1 };
        sum = sum.wrapping_add(deque.len() as u64);
    }
    sum
}
