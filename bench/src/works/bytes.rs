//! Pieces of bytes in and out.
use super::peer_at;
use crate::items::{Piece, first_items, next_random};
use crate::peers::{Peer, Stream};

pub fn pipe<T: Piece, D: Peer<u8>, const CAP: usize>(rounds: usize) -> u64 {
    let piece = first_items::<u8>(T::LEN);
    let mut deque: D = peer_at(0, 100);
    let mut sum = 0u64;
    for _ in 0..rounds {
        deque.extend_back(piece.iter().copied());
        for byte in deque.first_slice() {
            sum = sum.wrapping_add(u64::from(*byte));
        }
        for byte in deque.second_slice() {
            sum = sum.wrapping_add(u64::from(*byte));
        }
        drop(deque.drain(0..T::LEN));
    }
    sum
}

pub fn stream<T: Piece, D: Stream, const CAP: usize>(rounds: usize) -> u64 {
    let piece = first_items::<u8>(T::LEN);
    let mut buffer = first_items::<u8>(T::LEN);
    let mut deque: D = peer_at(0, 100);
    let mut sum = 0u64;
    for _ in 0..rounds {
        let written = deque.write(&piece) as u64;
        let read = deque.read(&mut buffer) as u64;
        let last = buffer.last().map_or(0, |byte| u64::from(*byte));
        sum = sum.wrapping_mul(3).wrapping_add(written + read + last);
    }
    sum
}

pub fn pipe_varying<T: Piece, D: Stream, const CAP: usize>(rounds: usize) -> u64 {
    let source = first_items::<u8>(T::LEN);
    let mut buffer = first_items::<u8>(T::LEN);
    let mut deque: D = peer_at(0, CAP / 2);
    let (mut state, mut sum) = (1u64, 0u64);
    for _ in 0..rounds {
        state = next_random(state);
        let piece = length_of(state >> 40, T::LEN);
        let wanted = length_of(state >> 20, T::LEN);
        let written = deque.write(&source[..piece]);
        let (mut left, mut last) = (wanted, 0u64);
        if state % 2 == 0 {
            left -= deque.read(&mut buffer[..wanted]);
            last = u64::from(buffer[0]);
        } else {
            for _ in 0..2 {
                let bytes = deque.first_slice();
                let count = bytes.len().min(left);
                if let Some(byte) = bytes[..count].last() {
                    last = u64::from(*byte);
                }
                drop(deque.drain(0..count));
                left -= count;
            }
        }
        let told = (written as u64).wrapping_add(left as u64).wrapping_add(last);
        sum = sum.wrapping_mul(31).wrapping_add(told);
    }
    sum
}

/// A length from 1 to `longest`, of a state that looks random.
#[inline]
fn length_of(state: u64, longest: usize) -> usize {
    state as usize % longest + 1
}
