//! The workloads, each as in the proved crate, over a peer: a file a subject.
mod bytes;
mod ends;
mod makers;
mod owned;
mod parts;
mod places;
mod programs;
mod turns;
mod walks;
mod yaml;

pub use self::bytes::*;
pub use self::ends::*;
pub use self::makers::*;
pub use self::owned::*;
pub use self::parts::*;
pub use self::places::*;
pub use self::programs::*;
pub use self::turns::*;
pub use self::walks::*;
pub use self::yaml::*;

use crate::items::Item;
use crate::peers::Peer;

/// A peer of so many items, the first of them at this place.
fn peer_at<T: Item, D: Peer<T>>(start: usize, len: usize) -> D {
    let mut deque = D::new();
    for _ in 0..start {
        deque.push_back(T::of(0));
        deque.pop_front();
    }
    for number in 0..len as u64 {
        deque.push_back(T::of(number));
    }
    deque
}

/// The number of the last item, or 0.
fn last_number<T: Item, D: Peer<T>>(deque: &D) -> u64 {
    deque.back().map_or(0, Item::number)
}

/// A place of a random number.
fn place_of<const CAP: usize>(state: u64) -> usize {
    (state >> 32) as usize % CAP
}

/// A sum in which the place of each item counts.
fn sum_of<T: Item, D: Peer<T>>(deque: &D) -> u64 {
    deque.iter().fold(0u64, |sum, item| sum.wrapping_mul(3).wrapping_add(item.number()))
}
