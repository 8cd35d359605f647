//! A deque of each side: the same items, policy and capacity.
use crate::items::{Block, Owned};
use crate::memory;
use crate::script::{self, BROKEN, REFUSED};
use crate::theirs;
use arraydeque::{Saturating, Wrapping};

unsafe extern "C" {
    fn arraydeque_replay(
        player: *const u8,
        player_len: usize,
        capacity: usize,
        script: *const u64,
        script_len: usize,
        replies: *mut u64,
        replies_len: usize,
        lists: *mut u64,
        lists_len: usize,
    ) -> u64;
}

/// What a side tells of a script: for each call the reply, and the list behind it.
#[derive(Default)]
pub struct Told {
    pub replies: Vec<u64>,
    pub lists: Vec<u64>,
    /// What is left of the sum of the items alive, or `REFUSED`.
    pub end: u64,
    /// How many blocks of memory were not given back.
    blocks: i64,
}

impl Told {
    /// Room for so many calls.
    fn clear(&mut self, calls: usize) {
        for words in [&mut self.replies, &mut self.lists] {
            words.clear();
            words.resize(calls, BROKEN);
        }
    }

    /// Whether each item that was made was dropped, and each block given back.
    pub fn is_even(&self) -> bool {
        [0, REFUSED].contains(&self.end) && self.blocks == 0
    }

    /// The first call of which two sides tell different things, or the last one, if drops are uneven.
    pub fn difference(&self, other: &Told) -> Option<usize> {
        let mut calls = 0..self.replies.len();
        let told = calls.find(|&i| (self.replies[i], self.lists[i]) != (other.replies[i], other.lists[i]));
        let is_even = self.is_even() && other.is_even();
        told.or_else(|| if is_even { None } else { self.replies.len().checked_sub(1) })
    }
}

/// The items, the policy, the capacity, and how each side plays.
pub struct Pair {
    pub items: &'static str,
    pub policy: &'static str,
    pub capacity: usize,
    /// How many of the calls its items have.
    pub calls: usize,
    player: &'static str,
    theirs: fn(&[u64], &mut [u64], &mut [u64]) -> u64,
    pub list_behind: fn(&[u64]) -> Vec<u64>,
}

impl Pair {
    /// Plays a script on our side, where that request for memory is refused. Returns how many were made.
    pub fn play_ours(&self, script: &[u64], refused: u64, told: &mut Told) -> u64 {
        told.clear(script.len());
        memory::begin(refused);
        // SAFETY: the export is handed four slices, and keeps none.
        told.end = unsafe {
            arraydeque_replay(
                self.player.as_ptr(),
                self.player.len(),
                self.capacity,
                script.as_ptr(),
                script.len(),
                told.replies.as_mut_ptr(),
                told.replies.len(),
                told.lists.as_mut_ptr(),
                told.lists.len(),
            )
        };
        let (requests, blocks) = memory::counts();
        told.blocks = blocks;
        requests
    }

    /// Plays a script on the Rust crate's side.
    pub fn play_theirs(&self, script: &[u64], told: &mut Told) {
        told.clear(script.len());
        told.end = (self.theirs)(script, &mut told.replies, &mut told.lists);
    }
}

macro_rules! pairs {
    ($list:ident, $items:literal, $calls:ident, $item:ty, $policy:ident, $($capacity:literal),+) => {
        $($list.push(Pair {
            items: $items,
            policy: stringify!($policy),
            capacity: $capacity,
            calls: script::$calls,
            player: concat!($items, " ", stringify!($policy)),
            theirs: theirs::play::<$item, $capacity, $policy>,
            list_behind: theirs::list_behind::<$item, $capacity, $policy>,
        });)+
    };
}

macro_rules! at_all_capacities {
    ($list:ident, $items:literal, $calls:ident, $item:ty, $policy:ident) => {
        pairs!($list, $items, $calls, $item, $policy, 1, 2, 3, 4, 5, 7, 8, 16, 31, 64, 100, 200)
    };
}

/// All pairs.
pub fn all() -> Vec<Pair> {
    let mut list = Vec::new();
    at_all_capacities!(list, "bytes", BYTES, u8, Saturating);
    at_all_capacities!(list, "bytes", BYTES, u8, Wrapping);
    at_all_capacities!(list, "words", COPIED, u64, Saturating);
    at_all_capacities!(list, "words", COPIED, u64, Wrapping);
    at_all_capacities!(list, "blocks", COPIED, Block, Saturating);
    at_all_capacities!(list, "blocks", COPIED, Block, Wrapping);
    at_all_capacities!(list, "owned", ANY, Owned, Saturating);
    at_all_capacities!(list, "owned", ANY, Owned, Wrapping);
    list
}
