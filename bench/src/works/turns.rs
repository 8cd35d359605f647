//! A list turned, or laid in one piece.
use super::{last_number, peer_at};
use crate::items::Item;
use crate::peers::Peer;

pub fn rotate<T: Item, D: Peer<T>, const CAP: usize, const IS_FULL: bool, const BY_ONE: bool>(rounds: usize) -> u64 {
    let len = if IS_FULL { CAP } else { CAP / 2 };
    let count = if BY_ONE { 1 } else { len / 2 };
    let mut deque: D = peer_at(CAP / 3, len);
    let mut sum = 0u64;
    for _ in 0..rounds {
        deque.rotate_left(count);
        sum = sum.wrapping_mul(3).wrapping_add(last_number(&deque));
    }
    sum
}

pub fn linearize_full<T: Item, D: Peer<T>, const CAP: usize>(rounds: usize) -> u64 {
    let mut deque: D = peer_at(0, CAP - CAP / 64);
    let mut sum = 0u64;
    for _ in 0..rounds {
        for _ in 0..CAP / 32 {
            if let Some(item) = deque.pop_front() {
                deque.push_back(item);
            }
        }
        deque.linearize();
        sum = sum.wrapping_add(deque.first_slice().len() as u64);
    }
    sum
}
