//! Scripts, a word for each call, and what is told of a call.
use std::fmt;

/// What our side tells of a call for which memory was refused, and which left all as it was.
pub const REFUSED: u64 = u64::MAX;

/// What our side tells where its source came back as another, or where it has no such capacity.
pub const BROKEN: u64 = u64::MAX - 1;

/// How many of the calls are of any items.
pub const ANY: usize = 60;

/// How many are of items that can be copied.
pub const COPIED: usize = ANY + 7;

/// How many are of bytes, which is all.
pub const BYTES: usize = COPIED + 4;

/// Which calls there are, by kind, with how often one is chosen. The first `ANY` are of any items, the
/// first `COPIED` of items that can be copied.
const CALLS: [(u64, &str, u64); BYTES] = [
    (0, "pop_front", 40),
    (1, "pop_back", 40),
    (2, "front, back", 10),
    (3, "front_mut", 10),
    (4, "back_mut", 10),
    (5, "get", 10),
    (6, "get_mut", 10),
    (7, "[i]", 10),
    (8, "[i] =", 10),
    (9, "remove", 40),
    (10, "swap_remove_back", 20),
    (11, "swap_remove_front", 20),
    (12, "swap", 20),
    (13, "retain", 4),
    (14, "clear", 2),
    (15, "linearize", 20),
    (16, "drain(i..j)", 12),
    (17, "drain(i..)", 4),
    (18, "drain(..j)", 4),
    (19, "drain(..)", 2),
    (20, "split_off", 8),
    (21, "into Vec", 2),
    (22, "into_iter by value", 2),
    (23, "len, capacity, is_empty, is_full", 10),
    (24, "iter", 10),
    (25, "iter_mut", 10),
    (26, "for item in &mut deque", 5),
    (27, "as_slices", 10),
    (28, "as_mut_slices", 5),
    (29, "truncate", 4),
    (30, "truncate_front", 4),
    (31, "iter, fold", 5),
    (32, "push_back", 90),
    (33, "push_front", 90),
    (34, "insert", 60),
    (35, "extend_back", 40),
    (36, "extend_front", 40),
    (37, "Extend::extend", 20),
    (38, "from_iter", 2),
    (39, "from Vec", 2),
    (40, "append", 10),
    (41, "a push under the other policy", 10),
    (42, "split_off, extend_front", 5),
    (43, "drain, extend_front", 5),
    (44, "rotate_left", 10),
    (45, "rotate_right", 10),
    (46, "retain_mut", 4),
    (47, "pop_front_if, pop_back_if", 20),
    (54, "range(i..j)", 10),
    (55, "range(i..)", 4),
    (56, "range(..j)", 4),
    (57, "range_mut(i..j)", 10),
    (58, "range_mut(i..)", 4),
    (59, "range_mut(..j)", 4),
    (60, "for_each_mut_in", 5),
    (61, "for_each_mut", 5),
    (62, "linearize, as_slice", 5),
    (63, "linearize, as_mut_slice", 5),
    (64, "first_slice_mut, second_slice_mut", 10),
    (70, "remove_range", 8),
    (48, "contains", 10),
    (49, "clone", 5),
    (50, "==, partial_cmp, cmp", 5),
    (51, "from array", 2),
    (52, "debug text", 1),
    (53, "extend_back by a slice", 20),
    (65, "resize", 10),
    (66, "write", 30),
    (67, "write_all", 20),
    (68, "read", 10),
    (69, "read_until", 10),
];

/// A call: which one, two numbers below 4096, and the number of an item.
#[derive(Clone, Copy)]
pub struct Call {
    pub kind: u64,
    pub first: usize,
    pub second: usize,
    pub number: u64,
}

impl Call {
    pub fn of(word: u64) -> Call {
        Call {
            kind: word & 0xFF,
            first: (word >> 8 & 0xFFF) as usize,
            second: (word >> 20 & 0xFFF) as usize,
            number: word >> 32,
        }
    }

    /// An index into a list of that length, or at most one behind its end.
    pub fn index(self, len: usize) -> usize {
        self.first % (len + 2)
    }

    /// An index into a list of that length, or 0.
    pub fn place(self, len: usize) -> usize {
        self.first % len.max(1)
    }

    /// Another one.
    pub fn other_place(self, len: usize) -> usize {
        self.second % len.max(1)
    }
}

impl fmt::Display for Call {
    fn fmt(&self, text: &mut fmt::Formatter) -> fmt::Result {
        let name = CALLS.iter().find(|(kind, ..)| *kind == self.kind).map_or("unknown", |(_, name, _)| name);
        write!(text, "{name} with {}, {} and item {}", self.first, self.second, self.number)
    }
}

/// A sum, and a word that it is to tell too.
pub fn mix(sum: u64, word: u64) -> u64 {
    let product = (sum ^ word).wrapping_mul(0x9E37_79B9_7F4A_7C15);
    product ^ (product >> 32)
}

/// A row of numbers that look random: splitmix64.
pub struct Random(u64);

impl Random {
    pub fn of(seed: u64, row: u64) -> Random {
        let mut seeds = Random(seed);
        Random(seeds.next().wrapping_add(row.wrapping_mul(0xD134_2543_DE82_EF95)))
    }

    pub fn next(&mut self) -> u64 {
        self.0 = self.0.wrapping_add(0x9E37_79B9_7F4A_7C15);
        let word = (self.0 ^ (self.0 >> 30)).wrapping_mul(0xBF58_476D_1CE4_E5B9);
        let word = (word ^ (word >> 27)).wrapping_mul(0x94D0_49BB_1331_11EB);
        word ^ (word >> 31)
    }

    fn below(&mut self, bound: u64) -> u64 {
        self.next() % bound
    }
}

/// The kind of a call, where each takes as many of the numbers as it is chosen often.
fn kind_at(calls: &[(u64, &str, u64)], mut number: u64) -> u64 {
    for (kind, _, often) in calls {
        if number < *often {
            return *kind;
        }
        number -= often;
    }
    unreachable!("the number is below their sum")
}

/// A script of so many calls on a deque of that capacity, whose items have so many of the calls.
pub fn script(random: &mut Random, len: usize, capacity: usize, calls: usize, script: &mut Vec<u64>) {
    script.clear();
    let chosen = &CALLS[..calls];
    let all: u64 = chosen.iter().map(|(.., often)| often).sum();
    for _ in 0..len {
        let kind = kind_at(chosen, random.below(all));
        let word = random.next();
        // A source has a few items, or as many as fill the deque and three more.
        let first = match kind {
            35..=40 | 53 | 66 | 67 => (word >> 8 & 0xFFF) % if word & 7 == 0 { capacity as u64 + 4 } else { 4 },
            _ => word >> 8 & 0xFFF,
        };
        // A small number is often there already.
        let number = if word & 1 == 0 { word >> 61 } else { word >> 32 };
        script.push(kind | first << 8 | (word >> 20 & 0xFFF) << 20 | number << 32);
    }
}

/// The script that the tests of our players play. Every other call is a push, so that few lists are
/// empty. A call that the items lack does nothing.
pub fn tried() -> Vec<u64> {
    let kinds = CALLS.len() as u64;
    let call = |number: u64| {
        let random = mix(mix(number, 1), 2);
        let kind = if number.is_multiple_of(2) { 32 + random % 2 } else { (random >> 40) % kinds };
        kind | (random & 0x1F) << 8 | (random >> 5 & 0xFFF) << 20 | (random >> 17 & 0xFF) << 32
    };
    (0..1000).map(call).collect()
}
