//! Times the proved deque beside the Rust crate arraydeque and std's `VecDeque`, all in one process.
mod items;
mod peers;
mod times;
mod works;

use items::{Block, Bytes};
use peers::{Bounded, Crate};
use std::hint::black_box;
use std::io::IsTerminal;
use std::time::{Duration, Instant};
use times::Figures;

/// How long one timed run of a workload is to take, about.
const RUN: Duration = Duration::from_millis(3);

/// The last of the shifts that `bench/run` links at.
const LAST_SHIFT: &str = "48";

// All code lies so many bytes further on than without this.
std::arch::global_asm!(
    ".section .text.unlikely.shift, \"axR\", @progbits",
    concat!(".space ", env!("ARRAYDEQUE_BENCH_SHIFT")),
    ".text"
);

unsafe extern "C" {
    fn arraydeque_bench(name: *const u8, len: usize, bytes: usize, capacity: usize, rounds: usize) -> u64;
}

/// What so many rounds of a proved workload come to, or 0 if it has no such row.
fn ours(name: &str, bytes: usize, capacity: usize, rounds: usize) -> u64 {
    // SAFETY: the declaration fits the export, which asks for a slice and no more.
    unsafe { arraydeque_bench(name.as_ptr(), name.len(), bytes, capacity, rounds) }
}

/// One workload at one size of items and one capacity, as each of the three does it.
struct Workload {
    name: String,
    ours: Box<dyn Fn(usize) -> u64>,
    peers: [fn(usize) -> u64; 2],
    /// Whether all three come to the same sum.
    agrees: bool,
}

/// The work of a peer over items, unless the row names another kind to go by, with constants if it takes any.
macro_rules! work {
    ($work:ident, [$($constant:literal),*], $peer:ident, $item:ty, $capacity:literal) => {
        works::$work::<$item, $peer<$item, $capacity>, $capacity $(, $constant)*>
    };
    ($work:ident, [], $peer:ident, $item:ty, $capacity:literal, $kind:ty) => {
        works::$work::<$kind, $peer<$item, $capacity>, $capacity>
    };
}

/// Workloads at some rows: `rotate[true, true] as rotate_full_one` is one that takes constants, and its name.
macro_rules! workloads {
    ($list:ident, $rows:tt, $($work:ident $([$($constant:literal),+] as $name:ident)?),+) => {
        $(workloads!(@one $list, $rows, $work $([$($constant),+] $name)?);)+
    };
    (@one $list:ident, $rows:tt, $work:ident) => {
        workloads!(@one $list, $rows, $work [] $work)
    };
    (
        @one $list:ident, [$(($bytes:literal, $item:ty, $capacity:literal $(, $kind:ty)?)),+],
        $work:ident $constants:tt $name:ident
    ) => {
        $($list.push(Workload {
            name: format!("{}, {} bytes, capacity {}", stringify!($name), $bytes, $capacity),
            ours: Box::new(|rounds| ours(stringify!($name), $bytes, $capacity, rounds)),
            peers: [
                work!($work, $constants, Crate, $item, $capacity $(, $kind)?),
                work!($work, $constants, Bounded, $item, $capacity $(, $kind)?),
            ],
            // Equal deques of the peers can feed a hasher differently, and differently from ours.
            agrees: stringify!($name) != "hash",
        });)+
    };
}

/// At items of 1, 8 and 64 bytes, in many places.
macro_rules! of_all_items {
    ($list:ident, $($works:tt)+) => {
        workloads!($list, [(1, u8, 1024), (8, u64, 1024), (8, u64, 1000), (64, Block, 1024)], $($works)+)
    };
}

/// At a small and a very small capacity.
macro_rules! of_few_items {
    ($list:ident, $($works:tt)+) => {
        workloads!($list, [(8, u64, 64), (8, u64, 16)], $($works)+)
    };
}

/// At both, in many places and in few.
macro_rules! of_all_lists {
    ($list:ident, $($works:tt)+) => {
        of_all_items!($list, $($works)+);
        of_few_items!($list, $($works)+);
    };
}

/// At a million items.
macro_rules! of_a_million {
    ($list:ident, $($works:tt)+) => {
        workloads!($list, [(8, u64, 1000000)], $($works)+)
    };
}

/// Items in and out, and single items.
fn workloads_of_items() -> Vec<Workload> {
    let mut list = Vec::new();
    of_all_lists!(list, queue, history, lent_queue, lent_history, lent_many, lent_get, middle, swap);
    of_all_items!(list, ends);
    of_a_million!(list, queue, history, swap, search);
    workloads!(
        list,
        [(8, u64, 1024), (8, u64, 1000), (64, Block, 1024), (8, u64, 64), (8, u64, 16)],
        search
    );
    list
}

/// All items, read or written.
fn workloads_in_place() -> Vec<Workload> {
    let mut list = Vec::new();
    of_all_lists!(list, iterate, rev, contains, iterate_mut);
    of_a_million!(list, iterate, contains, iterate_mut, for_each_mut_in);
    // Not at capacity 16, where the compiler may sum our rounds of `for_each_mut_in` without making them.
    workloads!(list, [(1, u8, 1024), (8, u64, 1024), (8, u64, 1000), (8, u64, 64)], for_each_mut_in);
    workloads!(list, [(1, u8, 1024), (8, u64, 1024), (8, u64, 1000), (8, u64, 64), (8, u64, 16)], equal, hash);
    list
}

/// Many items in, out or moved, and deques made and taken apart.
fn workloads_of_many() -> Vec<Workload> {
    let mut list = Vec::new();
    of_all_lists!(list, extend_slice, truncate, retain, drain_four, remove_range, split_append, split_rejoin);
    of_all_items!(list, resize, linearize_full);
    // Not at capacity 16, whose rounds the compiler sums without making them.
    workloads!(list, [(8, u64, 64)], resize);
    workloads!(list, [(1, u8, 1024), (8, u64, 1024), (8, u64, 1000), (8, u64, 64), (8, u64, 16)], drain_all);
    of_all_lists!(
        list,
        rotate[true, true] as rotate_full_one,
        rotate[false, true] as rotate_half_one,
        rotate[false, false] as rotate_half_half
    );
    of_all_lists!(list, vec_and_back, into_items);
    workloads!(list, [(8, u64, 1024), (8, u64, 1000), (8, u64, 64), (8, u64, 16)], from_array);
    list
}

/// Items that own memory, bytes, and small programs.
fn further_workloads() -> Vec<Workload> {
    let mut list = Vec::new();
    workloads!(
        list, [(100, Box<u64>, 64), (100, Box<u64>, 1024), (101, String, 64), (101, String, 1024)],
        owned_insert
    );
    workloads!(list, [(100, Box<u64>, 1024), (101, String, 64), (101, String, 1024)], owned_clone);
    workloads!(
        list, [(16, u8, 8192, Bytes<16>), (256, u8, 8192, Bytes<256>), (4096, u8, 8192, Bytes<4096>)],
        pipe, stream
    );
    workloads!(list, [(64, u8, 4096, Bytes<64>), (1000, u8, 4096, Bytes<1000>)], pipe_varying);
    workloads!(list, [(8, u64, 64), (8, u64, 1000), (8, u64, 1024)], window_largest, run);
    workloads!(list, [(1, u8, 1)], scan);
    workloads!(list, [(4, char, 16)], yaml);
    list
}

fn time(work: &dyn Fn(usize) -> u64, rounds: usize) -> Duration {
    let start = Instant::now();
    black_box(work(black_box(rounds)));
    start.elapsed()
}

/// As many rounds as take about as long as a run is to take, and longer than what comes before the first.
fn rounds_of(work: &dyn Fn(usize) -> u64) -> usize {
    let setup = time(work, 0);
    let enough = RUN.max(2 * setup);
    let mut rounds = 16;
    loop {
        // The least of a few, lest another program's turn count as ours.
        let least = (0..3).map(|_| time(work, rounds)).min().unwrap_or_default();
        let time = least.saturating_sub(setup);
        if time >= enough / 2 {
            return (rounds as f64 * enough.as_secs_f64() / time.as_secs_f64()).max(1.0) as usize;
        }
        rounds *= 2;
    }
}

fn figures_of(workload: &Workload, repetitions: usize) -> Figures {
    let works: [&dyn Fn(usize) -> u64; 3] = [&workload.ours, &workload.peers[0], &workload.peers[1]];
    let long = time(works[0], 1) > RUN / 8;
    for &rounds in if long { &[0, 1, 2, 7][..] } else { &[0, 1, 2, 7, 1000] } {
        let sums = works.map(|work| work(rounds));
        assert!(
            !workload.agrees || sums == [sums[0]; 3],
            "{}: {rounds} rounds come to different sums: {sums:?}",
            workload.name
        );
    }
    let rounds = works.map(rounds_of);
    let mut setup = [Duration::MAX; 3];
    let mut least = [Duration::MAX; 3];
    for _ in 0..repetitions {
        for column in 0..3 {
            setup[column] = setup[column].min(time(works[column], 0));
            least[column] = least[column].min(time(works[column], rounds[column]));
        }
    }
    let nanoseconds = [0, 1, 2].map(|column| {
        (least[column].saturating_sub(setup[column])).as_secs_f64() * 1e9 / rounds[column] as f64
    });
    assert!(
        nanoseconds.iter().all(|&time| time > 0.0),
        "{}: a round takes no time: {nanoseconds:?}",
        workload.name
    );
    Figures { name: workload.name.clone(), columns: nanoseconds }
}

/// Measures, and keeps the least of what was measured at the shifts so far. The last prints and writes the times.
///
/// The shift is read when the program runs: the code is not to depend on it.
fn measure(wanted: &str, repetitions: usize, writes: bool) -> std::io::Result<()> {
    let mut workloads = all_workloads();
    workloads.retain(|workload| workload.name.contains(wanted));
    let is_watched = std::io::stderr().is_terminal();
    let shift = std::env::var("ARRAYDEQUE_BENCH_SHIFT").unwrap_or_default();
    let mut all = Vec::new();
    for (done, workload) in workloads.iter().enumerate() {
        if is_watched {
            eprint!("\r{shift}: {}/{} {:<60}", done + 1, workloads.len(), workload.name);
        }
        all.push(figures_of(workload, repetitions));
        if is_watched {
            eprint!("\r{:<70}\r", "");
        }
    }
    if shift != "0" {
        times::keep_least(&mut all)?;
    }
    if shift != LAST_SHIFT {
        return times::keep(&all);
    }
    println!("{}", times::HEAD);
    all.iter().for_each(|row| println!("{}", times::line(row)));
    if writes && wanted.is_empty() { times::write(&all) } else { Ok(()) }
}

/// Prints what so many rounds of `VecDeque` come to, in the workloads whose names hold the words.
fn print_sums(rounds: usize, wanted: &str) {
    for workload in all_workloads().iter().filter(|workload| workload.name.contains(wanted)) {
        println!("{}: {}", workload.name, workload.peers[1](rounds));
    }
}

/// Makes rounds of one workload by one of the three alone, for another program to watch.
fn once(name: &str, who: &str, rounds: usize) {
    let all = all_workloads();
    let workload = all.iter().find(|workload| workload.name == name).expect("a workload");
    black_box(match who {
        "ours" => (workload.ours)(rounds),
        "crate" => workload.peers[0](rounds),
        _ => workload.peers[1](rounds),
    });
}

fn all_workloads() -> Vec<Workload> {
    let parts = [workloads_of_items, workloads_in_place, workloads_of_many, further_workloads];
    parts.into_iter().flat_map(|part| part()).collect()
}

fn main() {
    let words: Vec<String> = std::env::args().skip(1).collect();
    // A peer lies on the stack whole, and the largest has a million items.
    let working = std::thread::Builder::new().stack_size(1 << 28).spawn(move || work(&words));
    working.expect("a thread").join().expect("all sums agree, and each round takes time");
}

fn work(words: &[String]) {
    let word = |place: usize| words.get(place).map_or("", String::as_str);
    match word(0) {
        "--sums" => print_sums(word(1).parse().expect("a number of rounds"), word(2)),
        "--once" => once(word(1), word(2), word(3).parse().expect("a number of rounds")),
        wanted => {
            let repetitions = word(1).parse().unwrap_or(13);
            let writes = std::env::var_os("ARRAYDEQUE_BENCH_CPU").is_none();
            measure(wanted, repetitions, writes).expect("the times can be written");
        }
    }
}
