//! Items that own memory.
use crate::items::Owned;
use crate::peers::Peer;

fn deque_of<T: Owned, D: Peer<T>>(len: usize) -> D {
    let mut deque = D::new();
    for number in 0..len as u64 {
        deque.push_back(T::make(number));
    }
    deque
}

pub fn owned_clone<T: Owned, D: Peer<T> + Clone, const CAP: usize>(rounds: usize) -> u64 {
    let deque: D = deque_of(CAP / 2);
    let mut sum = 0u64;
    for _ in 0..rounds {
        let clone = deque.clone();
        sum = sum.wrapping_add(clone.back().map_or(0, Owned::number));
    }
    sum
}

pub fn owned_insert<T: Owned, D: Peer<T>, const CAP: usize>(rounds: usize) -> u64 {
    let mut deque: D = deque_of(CAP);
    let mut sum = 0u64;
    for _ in 0..rounds {
        if let Some(item) = deque.remove(CAP / 2) {
            sum = sum.wrapping_add(item.number());
            deque.insert(CAP / 4, item);
        }
    }
    sum
}
