//! The Rust crate's side, call by call as in the proved players. Where the crate lacks a call, or means
//! another thing by it, this makes the call that means the same.
use crate::items::{Alive, Block, Item, Owned, items_from};
use crate::script::{Call, mix};
use arraydeque::behavior::Behavior;
use arraydeque::{ArrayDeque, CapacityError, Saturating, Wrapping};
use std::cell::Cell;
use std::cmp::Ordering;
use std::fmt::Debug;
use std::mem;
use std::rc::Rc;

/// A policy under which a deque of such items answers every call.
pub trait Answers<T, const CAP: usize>: Behavior + Sized {
    fn answer(alive: &Alive, deque: &mut ArrayDeque<T, CAP, Self>, call: Call) -> u64;
}

/// Plays a script and writes for each call the reply and what is told of the list behind it. What is
/// left of the sum of those alive is 0.
pub fn play<T: Item, const CAP: usize, B: Answers<T, CAP>>(
    script: &[u64],
    replies: &mut [u64],
    lists: &mut [u64],
) -> u64 {
    let alive = Rc::new(Cell::new(0));
    let mut deque = ArrayDeque::<T, CAP, B>::new();
    for ((word, reply), list) in script.iter().zip(replies).zip(lists) {
        *reply = B::answer(&alive, &mut deque, Call::of(*word));
        *list = mix(list_of(&deque), alive.get());
    }
    drop(deque);
    alive.get()
}

/// The numbers that the items tell behind a script.
pub fn list_behind<T: Item, const CAP: usize, B: Answers<T, CAP>>(script: &[u64]) -> Vec<u64> {
    let alive = Rc::new(Cell::new(0));
    let mut deque = ArrayDeque::<T, CAP, B>::new();
    for word in script {
        B::answer(&alive, &mut deque, Call::of(*word));
    }
    deque.iter().map(T::digest).collect()
}

fn digest_of<T: Item>(item: Option<T>) -> u64 {
    item.map_or(0, |item| mix(1, item.digest()))
}

fn digest_of_lent<T: Item>(item: Option<&T>) -> u64 {
    item.map_or(0, |item| mix(1, item.digest()))
}

fn write_item<T: Item>(item: Option<&mut T>, number: u64) -> u64 {
    item.map_or(0, |item| {
        let before = mix(1, item.digest());
        item.set(number);
        before
    })
}

fn list_of<T: Item, const CAP: usize, B: Behavior>(deque: &ArrayDeque<T, CAP, B>) -> u64 {
    deque.into_iter().fold(deque.len() as u64, |sum, item| mix(sum, item.digest()))
}

fn slice_of<T: Item>(sum: u64, items: &[T]) -> u64 {
    items.iter().fold(sum, |sum, item| mix(sum, item.digest()))
}

fn rest_of<T: Item>(sum: u64, items: impl Iterator<Item = T>) -> u64 {
    items.fold(sum, |sum, item| mix(sum, item.digest()))
}

fn reply_word<T: Item>(reply: Result<(), CapacityError<T>>) -> u64 {
    reply.map_or_else(|refusal| mix(2, refusal.element.digest()), |()| 1)
}

/// The calls that mean the same under both policies.
fn answer<T: Item, const CAP: usize, B: Behavior>(deque: &mut ArrayDeque<T, CAP, B>, call: Call) -> u64 {
    let len = deque.len();
    let (index, i, j) = (call.index(len), call.place(len), call.other_place(len));
    match call.kind {
        0 => digest_of(deque.pop_front()),
        1 => digest_of(deque.pop_back()),
        2 => mix(digest_of_lent(deque.front()), digest_of_lent(deque.back())),
        3 => write_item(deque.front_mut(), call.number),
        4 => write_item(deque.back_mut(), call.number),
        5 => digest_of_lent(deque.get(index)),
        6 => write_item(deque.get_mut(index), call.number),
        7 if index < len => digest_of_lent(Some(&deque[index])),
        8 if index < len => {
            deque[index].set(call.number);
            1
        }
        9 => digest_of(deque.remove(index)),
        10 => digest_of(deque.swap_remove_back(index)),
        11 => digest_of(deque.swap_remove_front(index)),
        12 if len > 0 => {
            deque.swap(i, j);
            1
        }
        13 => {
            let bits = call.first as u64;
            deque.retain(|item| (item.digest() ^ bits) % 3 != 0);
            deque.len() as u64
        }
        14 => {
            deque.clear();
            1
        }
        15 => {
            deque.linearize();
            u64::from(deque.as_slices().1.is_empty())
        }
        16..=19 => drain_range(deque, call),
        20 => {
            let mut rest = deque.split_off(i);
            if call.number.is_multiple_of(2) {
                mem::swap(deque, &mut rest);
            }
            list_of(&rest)
        }
        21 => {
            let items = Vec::from(mem::take(deque));
            slice_of(items.len() as u64, &items)
        }
        22 => {
            let mut items = mem::take(deque).into_iter();
            let mut sum = items.len() as u64;
            for _ in 0..call.number % 4 {
                sum = mix(sum, digest_of(items.next_back()));
                sum = mix(sum, digest_of(items.next()));
            }
            mix(sum, items.len() as u64)
        }
        29 => {
            drop(deque.drain(index.min(len)..));
            1
        }
        30 => {
            drop(deque.drain(..len - index.min(len)));
            1
        }
        70 => {
            drop(deque.drain(i.min(j)..i.max(j)));
            deque.len() as u64
        }
        46 => {
            deque.iter_mut().for_each(|item| item.set(item.digest() ^ call.second as u64));
            deque.retain(|item| item.digest() % 3 != 0);
            deque.len() as u64
        }
        47 => {
            let is_wanted = |item: &mut T| {
                item.set(item.digest() ^ call.second as u64);
                item.digest().is_multiple_of(2)
            };
            let first = if deque.front_mut().is_some_and(is_wanted) { deque.pop_front() } else { None };
            let last = if deque.back_mut().is_some_and(is_wanted) { deque.pop_back() } else { None };
            mix(digest_of(first), digest_of(last))
        }
        54..=60 => range_reply(deque, call),
        _ => list_reply(deque, call),
    }
}

/// Calls that lend a range, or hand its items to a closure.
fn range_reply<T: Item, const CAP: usize, B: Behavior>(deque: &mut ArrayDeque<T, CAP, B>, call: Call) -> u64 {
    let len = deque.len();
    let (one, other) = (call.index(len).min(len), call.other_place(len));
    let (from, to) = match call.kind {
        55 | 58 => (one.min(other), len),
        56 | 59 => (0, one.max(other)),
        _ => (one.min(other), one.max(other)),
    };
    let mut items = deque.iter_mut().skip(from).take(to - from);
    match call.kind {
        54..=56 => {
            let sum = mix(items.len() as u64, digest_of_lent(items.next_back().as_deref()));
            items.fold(sum, |sum, item| mix(sum, item.digest()))
        }
        57..=59 => {
            let sum = mix(items.len() as u64, write_item(items.next_back(), call.number));
            items.fold(sum, |sum, item| mix(sum, write_item(Some(item), call.number ^ 1)))
        }
        _ => write_sums(items, call.number),
    }
}

/// Items written, each by the sum of those up to it.
fn write_sums<'a, T: Item>(items: impl Iterator<Item = &'a mut T>, number: u64) -> u64 {
    items.fold(number, |sum, item| {
        let sum = mix(sum, item.digest());
        item.set(sum);
        sum
    })
}

fn drain_range<T: Item, const CAP: usize, B: Behavior>(deque: &mut ArrayDeque<T, CAP, B>, call: Call) -> u64 {
    let (one, other) = (call.place(deque.len()), call.other_place(deque.len()));
    let (from, to) = (one.min(other), one.max(other));
    let mut drain = match call.kind {
        16 => deque.drain(from..to),
        17 => deque.drain(from..),
        18 => deque.drain(..to),
        _ => deque.drain(..),
    };
    let mut sum = drain.len() as u64;
    for _ in 0..call.number % 4 {
        sum = mix(sum, digest_of(drain.next()));
        sum = mix(sum, digest_of(drain.next_back()));
    }
    mix(sum, drain.len() as u64)
}

/// Calls that read or write the whole list.
fn list_reply<T: Item, const CAP: usize, B: Behavior>(deque: &mut ArrayDeque<T, CAP, B>, call: Call) -> u64 {
    match call.kind {
        23 => {
            let sum = mix(deque.len() as u64, deque.capacity() as u64);
            mix(mix(sum, u64::from(deque.is_empty())), u64::from(deque.is_full()))
        }
        24 => {
            let mut items = deque.iter();
            let mut sum = 0u64;
            for _ in 0..call.number % 4 {
                sum = mix(sum, digest_of_lent(items.next()));
                sum = mix(sum, digest_of_lent(items.next_back()));
            }
            sum = mix(sum, items.len() as u64);
            sum = items.clone().fold(sum, |sum, item| mix(sum, item.digest()));
            items.rev().fold(sum, |sum, item| mix(sum, item.digest()))
        }
        25 => {
            let mut items = deque.iter_mut();
            let mut sum = 0u64;
            for _ in 0..call.first % 8 {
                sum = mix(sum, write_item(items.next_back(), call.number));
                sum = mix(sum, write_item(items.next(), call.number ^ 1));
            }
            mix(sum, items.len() as u64)
        }
        26 => {
            for item in deque {
                item.set(item.digest() ^ call.number);
            }
            1
        }
        27 => {
            let (front, back) = deque.as_slices();
            slice_of(slice_of(0, front), back)
        }
        // The crate's slices are cut at another item than ours, so both are written.
        28 | 64 => {
            let (front, back) = deque.as_mut_slices();
            let mut number = call.number;
            for item in front.iter_mut().chain(back) {
                item.set(number);
                number = number.wrapping_add(1);
            }
            number
        }
        31 => deque.iter().fold(1, |sum, item| mix(sum, item.digest())),
        61 => write_sums(deque.iter_mut(), call.number),
        62 => {
            deque.linearize();
            slice_of(deque.len() as u64, deque.as_slices().0)
        }
        63 => {
            deque.linearize();
            let items = deque.as_mut_slices().0;
            items.reverse();
            write_item(items.first_mut(), call.number)
        }
        _ => 0,
    }
}

/// The calls of `Saturating`.
fn saturating<T: Item, const CAP: usize>(
    alive: &Alive,
    deque: &mut ArrayDeque<T, CAP, Saturating>,
    call: Call,
) -> u64 {
    let (index, place) = (call.index(deque.len()), call.place(deque.len()));
    let source = || items_from(alive, call.number, call.first);
    match call.kind {
        32 => reply_word(deque.push_back(T::make(alive, call.number))),
        33 => reply_word(deque.push_front(T::make(alive, call.number))),
        34 if index <= deque.len() => reply_word(deque.insert(index, T::make(alive, call.number))),
        35 => {
            let mut items = source().into_iter();
            deque.extend_back(&mut items);
            rest_of(0, items)
        }
        36 => {
            let mut items = source().into_iter();
            deque.extend_front(&mut items);
            rest_of(0, items)
        }
        37 => {
            deque.extend(source());
            1
        }
        38 => {
            *deque = source().into_iter().collect();
            1
        }
        39 => {
            *deque = ArrayDeque::from(source());
            1
        }
        40 => {
            let mut other = ArrayDeque::<T, 7, Wrapping>::from(source()).into_iter();
            deque.extend_back(&mut other);
            rest_of(other.len() as u64, other)
        }
        41 => {
            let mut other = ArrayDeque::<T, CAP, Wrapping>::from(mem::take(deque));
            let reply = digest_of(other.push_back(T::make(alive, call.number)));
            *deque = other.into();
            reply
        }
        42 | 43 => {
            // The crate's drain lends the deque, so its items are taken first.
            let rest: Vec<T> =
                if call.kind == 42 { deque.split_off(place).into() } else { deque.drain(place..).collect() };
            deque.extend_front(rest);
            1
        }
        44 | 45 if index <= deque.len() => {
            for _ in 0..index {
                let _ = match call.kind {
                    44 => deque.pop_front().map(|item| deque.push_back(item)),
                    _ => deque.pop_back().map(|item| deque.push_front(item)),
                };
            }
            1
        }
        _ => answer(deque, call),
    }
}

/// The calls of `Wrapping`.
fn wrapping<T: Item, const CAP: usize>(alive: &Alive, deque: &mut ArrayDeque<T, CAP, Wrapping>, call: Call) -> u64 {
    let (index, place) = (call.index(deque.len()), call.place(deque.len()));
    let source = || items_from(alive, call.number, call.first);
    match call.kind {
        32 => digest_of(deque.push_back(T::make(alive, call.number))),
        33 => digest_of(deque.push_front(T::make(alive, call.number))),
        // The crate's own `extend` takes no more than there is room for.
        35 | 37 => {
            deque.extend_back(source());
            1
        }
        36 => {
            deque.extend_front(source());
            1
        }
        38 => {
            *deque = source().into_iter().collect();
            1
        }
        39 => {
            *deque = ArrayDeque::from(source());
            1
        }
        40 => {
            deque.extend_back(ArrayDeque::<T, 7, Wrapping>::from(source()));
            0
        }
        41 => {
            let mut other = ArrayDeque::<T, CAP, Saturating>::from(mem::take(deque));
            let reply = reply_word(other.push_back(T::make(alive, call.number)));
            *deque = other.into();
            reply
        }
        42 | 43 => {
            // The crate's drain lends the deque, so its items are taken first.
            let rest: Vec<T> =
                if call.kind == 42 { deque.split_off(place).into() } else { deque.drain(place..).collect() };
            deque.extend_front(rest);
            1
        }
        44 | 45 if index <= deque.len() => {
            for _ in 0..index {
                let _ = match call.kind {
                    44 => deque.pop_front().map(|item| deque.push_back(item)),
                    _ => deque.pop_back().map(|item| deque.push_front(item)),
                };
            }
            1
        }
        _ => answer(deque, call),
    }
}

/// The calls of `Saturating` on bytes.
fn saturating_bytes<const CAP: usize>(
    alive: &Alive,
    deque: &mut ArrayDeque<u8, CAP, Saturating>,
    call: Call,
) -> u64 {
    match call.kind {
        66 | 67 => {
            let bytes: Vec<u8> = items_from(alive, call.number, call.first);
            let count = bytes.len().min(CAP - deque.len());
            deque.extend_back(bytes[..count].iter().copied());
            if call.kind == 66 { count as u64 } else { u64::from(count == bytes.len()) }
        }
        68 | 69 => read_bytes(deque, call),
        _ => saturating(alive, deque, call),
    }
}

/// The calls of `Wrapping` on bytes.
fn wrapping_bytes<const CAP: usize>(alive: &Alive, deque: &mut ArrayDeque<u8, CAP, Wrapping>, call: Call) -> u64 {
    match call.kind {
        68 | 69 => read_bytes(deque, call),
        _ => wrapping(alive, deque, call),
    }
}

/// The first bytes, taken out as a vector: as many as a buffer has room for, or up to a wanted one.
fn read_bytes<const CAP: usize, B: Behavior>(deque: &mut ArrayDeque<u8, CAP, B>, call: Call) -> u64 {
    let room = call.index(deque.len());
    let count = match call.kind {
        68 => room.min(deque.len()),
        _ => deque.iter().position(|byte| *byte == call.number as u8).map_or(deque.len(), |index| index + 1),
    };
    let mut bytes: Vec<u8> = deque.drain(..count).collect();
    if call.kind == 68 {
        bytes.extend((count..room).map(|index| (call.number + index as u64) as u8));
    }
    slice_of(count as u64, &bytes)
}

fn order_of(order: Option<Ordering>) -> u64 {
    match order {
        Some(Ordering::Less) => 1,
        Some(Ordering::Equal) => 2,
        Some(Ordering::Greater) => 3,
        None => 4,
    }
}

/// The calls that ask more of the items.
fn answer_by_copies<T, const CAP: usize, B>(
    alive: &Alive,
    deque: &mut ArrayDeque<T, CAP, B>,
    call: Call,
    others: fn(&Alive, &mut ArrayDeque<T, CAP, B>, Call) -> u64,
    extend_back: fn(&mut ArrayDeque<T, CAP, B>, &[T]),
) -> u64
where
    T: Item + Ord + Debug + Copy,
    B: Behavior,
    ArrayDeque<T, CAP, B>: Clone + FromIterator<T>,
{
    match call.kind {
        48 => u64::from(deque.contains(&T::make(alive, call.number))),
        49 => {
            let copy = deque.clone();
            let reply = u64::from(copy == *deque);
            *deque = copy;
            reply
        }
        50 => {
            let mut copy = deque.clone();
            drop(copy.drain(call.index(deque.len()).min(deque.len())..));
            if let Some(item) = copy.get_mut(call.second) {
                item.set(call.number);
            }
            let orders = mix(u64::from(*deque == copy), order_of(Some((*deque).cmp(&copy))));
            mix(orders, order_of(copy.partial_cmp(deque)))
        }
        51 => {
            *deque = ArrayDeque::from([0, 1, 2, 3, 4].map(|bits| T::make(alive, call.number ^ bits)));
            1
        }
        52 => {
            let text = format!("{deque:?}");
            slice_of(text.len() as u64, text.as_bytes())
        }
        53 => {
            let items: Vec<T> = items_from(alive, call.number, call.first);
            extend_back(deque, &items);
            1
        }
        65 => {
            let mut items = Vec::from(mem::take(deque));
            items.resize(call.index(CAP).min(CAP), T::make(alive, call.number));
            *deque = items.into_iter().collect();
            1
        }
        _ => others(alive, deque, call),
    }
}

macro_rules! answers {
    ($($item:ty, $policy:ident, $others:ident;)+) => {
        $(impl<const CAP: usize> Answers<$item, CAP> for $policy {
            fn answer(alive: &Alive, deque: &mut ArrayDeque<$item, CAP, Self>, call: Call) -> u64 {
                answer_by_copies(alive, deque, call, $others, |deque, items| deque.extend_back(items.iter().copied()))
            }
        })+
    };
}

answers! {
    u8, Saturating, saturating_bytes;
    u8, Wrapping, wrapping_bytes;
    u64, Saturating, saturating;
    u64, Wrapping, wrapping;
    Block, Saturating, saturating;
    Block, Wrapping, wrapping;
}

impl<const CAP: usize> Answers<Owned, CAP> for Saturating {
    fn answer(alive: &Alive, deque: &mut ArrayDeque<Owned, CAP, Self>, call: Call) -> u64 {
        saturating(alive, deque, call)
    }
}

impl<const CAP: usize> Answers<Owned, CAP> for Wrapping {
    fn answer(alive: &Alive, deque: &mut ArrayDeque<Owned, CAP, Self>, call: Call) -> u64 {
        wrapping(alive, deque, call)
    }
}
