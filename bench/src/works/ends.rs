//! Items in and out at the ends, also of a deque behind a `&mut`.
use super::peer_at;
use crate::items::Item;
use crate::peers::{History, Peer};

pub fn queue<T: Item, D: Peer<T>, const CAP: usize>(rounds: usize) -> u64 {
    let mut deque: D = peer_at(0, CAP / 2);
    let mut sum = 0u64;
    for round in 0..rounds as u64 {
        deque.push_back(T::of(round));
        if let Some(item) = deque.pop_front() {
            sum = sum.wrapping_add(item.number());
        }
    }
    sum
}

pub fn ends<T: Item, D: Peer<T>, const CAP: usize>(rounds: usize) -> u64 {
    let mut deque: D = peer_at(0, CAP / 2);
    let mut sum = 0u64;
    for round in 0..rounds as u64 {
        deque.push_back(T::of(round));
        deque.push_front(T::of(!round));
        if let Some(item) = deque.pop_back() {
            sum = sum.wrapping_add(item.number());
        }
        if let Some(item) = deque.pop_front() {
            sum = sum.wrapping_add(item.number());
        }
    }
    sum
}

pub fn history<T: Item, D: Peer<T>, const CAP: usize>(rounds: usize) -> u64 {
    let mut deque = D::History::new();
    for number in 0..CAP as u64 {
        deque.push_back(T::of(number));
    }
    let mut sum = 0u64;
    for round in 0..rounds as u64 {
        if let Some(item) = deque.push_back(T::of(round)) {
            sum = sum.wrapping_add(item.number());
        }
    }
    sum
}

pub fn lent_queue<T: Item, D: Peer<T>, const CAP: usize>(rounds: usize) -> u64 {
    #[inline(never)]
    fn turn<T: Item, D: Peer<T>>(deque: &mut D, number: u64) -> u64 {
        deque.push_back(T::of(number));
        deque.pop_front().map_or(0, |item| item.number())
    }
    let mut deque: D = peer_at(0, CAP / 2);
    let mut sum = 0u64;
    for round in 0..rounds as u64 {
        sum = sum.wrapping_add(turn(&mut deque, round));
    }
    sum
}

pub fn lent_history<T: Item, D: Peer<T>, const CAP: usize>(rounds: usize) -> u64 {
    #[inline(never)]
    fn push_to_full<T: Item, H: History<T>>(deque: &mut H, number: u64) -> u64 {
        deque.push_back(T::of(number)).map_or(0, |item| item.number())
    }
    let mut deque = D::History::new();
    for number in 0..CAP as u64 {
        deque.push_back(T::of(number));
    }
    let mut sum = 0u64;
    for round in 0..rounds as u64 {
        sum = sum.wrapping_add(push_to_full(&mut deque, round));
    }
    sum
}

pub fn lent_many<T: Item, D: Peer<T>, const CAP: usize>(rounds: usize) -> u64 {
    #[inline(never)]
    fn fill_and_empty<T: Item, D: Peer<T>, const CAP: usize>(deque: &mut D, number: u64) -> u64 {
        for place in 0..CAP as u64 / 2 {
            deque.push_back(T::of(number.wrapping_add(place)));
        }
        let mut sum = 0u64;
        for _ in 0..deque.len() {
            if let Some(item) = deque.pop_front() {
                sum = sum.wrapping_add(item.number());
            }
        }
        sum
    }
    let mut deque: D = peer_at(0, 0);
    let mut sum = 0u64;
    for round in 0..rounds as u64 {
        sum = sum.wrapping_add(fill_and_empty::<T, D, CAP>(&mut deque, round));
    }
    sum
}
