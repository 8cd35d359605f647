//! Small programs.
use super::peer_at;
use crate::items::{Item, next_random};
use crate::peers::Peer;

pub fn window_largest<T: Item, D: Peer<u64>, const CAP: usize>(rounds: usize) -> u64 {
    let mut falling = D::new();
    let (mut state, mut sum) = (1u64, 0u64);
    for _ in 0..rounds {
        falling.clear();
        for position in 0..100_000 {
            state = next_random(state);
            let entry = state << 32 | position;
            while falling.pop_back_if(|last| *last >> 32 <= entry >> 32).is_some() {}
            falling.pop_front_if(|first| position - (*first & 0xFFFF_FFFF) >= CAP as u64);
            falling.push_back(entry);
            if let Some(largest) = falling.get(0) {
                sum = sum.wrapping_add(*largest);
            }
        }
    }
    sum
}

/// Neither peer can look ahead: both columns are std's `Peekable`.
pub fn scan<T: Item, D: Peer<T>, const CAP: usize>(rounds: usize) -> u64 {
    let mut state = 1u64;
    let text: Vec<u8> = (0..1_000_000)
        .map(|_| {
            state = next_random(state);
            if (state >> 32) % 6 == 0 { b' ' } else { b'a' }
        })
        .collect();
    let mut sum = 0u64;
    for _ in 0..rounds {
        let mut scanner = text.iter().copied().peekable();
        let mut runs = 0u64;
        while let Some(byte) = scanner.next() {
            runs += u64::from(scanner.peek() != Some(&byte));
        }
        sum = sum.wrapping_add(runs);
    }
    sum
}

enum Call {
    PushBack(u64),
    PushFront(u64),
    PopBack,
    PopFront,
    Swap(usize, usize),
    Replace(usize, u64),
    Len,
}

enum Reply {
    Done,
    Item(Option<u64>),
    Number(usize),
    Full,
    OutOfRange,
}

fn mixed_calls(capacity: usize, seed: u64) -> Vec<Call> {
    let mut state = seed.wrapping_add(1);
    let call = |_| {
        state = next_random(state);
        let index = (state >> 40) as usize % capacity;
        match (state >> 32) % 8 {
            0 | 1 => Call::PushBack(state),
            2 => Call::PushFront(state),
            3 => Call::PopBack,
            4 => Call::PopFront,
            5 => Call::Swap(index, index / 2),
            6 => Call::Replace(index, state),
            _ => Call::Len,
        }
    };
    (0..100_000).map(call).collect()
}

fn reply_of<D: Peer<u64>>(deque: &mut D, call: Call) -> Reply {
    match call {
        Call::PushBack(item) => if deque.push_back(item) { Reply::Done } else { Reply::Full },
        Call::PushFront(item) => if deque.push_front(item) { Reply::Done } else { Reply::Full },
        Call::PopBack => Reply::Item(deque.pop_back()),
        Call::PopFront => Reply::Item(deque.pop_front()),
        Call::Swap(i, j) if i < deque.len() && j < deque.len() => {
            deque.swap(i, j);
            Reply::Done
        }
        Call::Swap(..) => Reply::OutOfRange,
        Call::Replace(index, item) => match deque.get_mut(index) {
            Some(old) => Reply::Item(Some(std::mem::replace(old, item))),
            None => Reply::OutOfRange,
        },
        Call::Len => Reply::Number(deque.len()),
    }
}

pub fn run<T: Item, D: Peer<u64>, const CAP: usize>(rounds: usize) -> u64 {
    let mut deque: D = peer_at(0, CAP / 2);
    let mut sum = 0u64;
    for round in 0..rounds as u64 {
        let mut replies = Vec::with_capacity(100_000);
        for call in mixed_calls(CAP, round) {
            replies.push(reply_of(&mut deque, call));
        }
        for reply in replies {
            sum = sum.wrapping_mul(3).wrapping_add(match reply {
                Reply::Item(Some(number)) => number,
                Reply::Number(number) => number as u64,
                Reply::Full => 1,
                Reply::OutOfRange => 2,
                Reply::Item(None) | Reply::Done => 3,
            });
        }
    }
    sum
}
