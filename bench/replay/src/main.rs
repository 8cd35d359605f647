//! Plays scripts of calls on the Rust crate arraydeque and on the proved deque, in one process, and
//! compares what each call replies and the list behind it.
mod items;
mod memory;
mod pairs;
mod script;
mod theirs;

use pairs::{Pair, Told};
use script::{BROKEN, Call, REFUSED, Random, mix};
use std::process::ExitCode;
use std::sync::atomic::{AtomicU64, Ordering};

/// How many calls a script has.
const CALLS: usize = 200;

/// How many calls a script has where each of its requests for memory is refused in turn.
const REFUSED_CALLS: usize = 40;

/// What went alike, in all scripts of a thread.
#[derive(Clone, Copy, Default)]
struct Count {
    calls: u64,
    scripts: u64,
    refusals: u64,
}

impl Count {
    fn add(&mut self, other: Count) {
        self.calls += other.calls;
        self.scripts += other.scripts;
        self.refusals += other.refusals;
    }
}

/// A script on which the two sides differ, by its number, and what is to be said of it.
type Difference = (u64, String);

/// What a thread keeps for one script after another.
#[derive(Default)]
struct Room {
    script: Vec<u64>,
    ours: Told,
    theirs: Told,
}

/// Where the two sides differ on a script, whose request of that number is refused, if it isn't 0.
fn difference(pair: &Pair, script: &[u64], refused: u64, ours: &mut Told, theirs: &mut Told) -> Option<usize> {
    let requests = pair.play_ours(script, refused, ours);
    if refused == 0 || requests < refused {
        pair.play_theirs(script, theirs);
        return ours.difference(theirs);
    }
    if ours.end == REFUSED {
        return if ours.is_even() { None } else { Some(0) };
    }
    let mut refusals = (0..script.len()).filter(|&call| [REFUSED, BROKEN].contains(&ours.replies[call]));
    let Some(call) = refusals.next() else {
        return Some(script.len() - 1);
    };
    if let Some(other) = refusals.next() {
        return Some(other);
    }
    let before = if call == 0 { mix(0, 0) } else { ours.lists[call - 1] };
    if ours.replies[call] == BROKEN || ours.lists[call] != before {
        return Some(call);
    }
    // A refused call is as if it had not been made.
    let mut others = script.to_vec();
    others.remove(call);
    ours.replies.remove(call);
    ours.lists.remove(call);
    pair.play_theirs(&others, theirs);
    ours.difference(theirs).map(|other| other + usize::from(other >= call))
}

/// A script on which the sides still differ, cut behind the first call that differs, without the calls
/// that can go.
fn shorten(pair: &Pair, script: &[u64], refused: u64) -> Vec<u64> {
    let (mut ours, mut theirs) = (Told::default(), Told::default());
    let mut short = script.to_vec();
    loop {
        let before = short.len();
        if let Some(call) = difference(pair, &short, refused, &mut ours, &mut theirs) {
            short.truncate(call + 1);
        }
        for call in (0..short.len()).rev() {
            let mut fewer = short.clone();
            fewer.remove(call);
            if !fewer.is_empty() && difference(pair, &fewer, refused, &mut ours, &mut theirs).is_some() {
                short = fewer;
            }
        }
        if short.len() == before {
            return short;
        }
    }
}

/// What is said of a script on which the sides differ.
fn told_of(pair: &Pair, script: &[u64], refused: u64) -> String {
    let short = shorten(pair, script, refused);
    let (mut ours, mut theirs) = (Told::default(), Told::default());
    pair.play_ours(&short, refused, &mut ours);
    pair.play_theirs(&short, &mut theirs);
    let mut text = format!("{}, {}, capacity {}", pair.items, pair.policy, pair.capacity);
    if refused > 0 {
        text += &format!(", request {refused} refused");
    }
    text += ": they differ at the last call\n";
    for (i, word) in short.iter().enumerate() {
        text += &format!("  {}\n", Call::of(*word));
        text += &format!("    ours   {:016x}, list {:016x}\n", ours.replies[i], ours.lists[i]);
        text += &format!("    theirs {:016x}, list {:016x}\n", theirs.replies[i], theirs.lists[i]);
    }
    for (side, told) in [("ours", &ours), ("theirs", &theirs)] {
        if !told.is_even() {
            text += &format!("  {side}: not each item is dropped once, and its memory given back\n");
        }
    }
    text + &format!("  the crate's list before it {:?}\n", (pair.list_behind)(&short[..short.len() - 1]))
        + &format!("  and behind it              {:?}\n", (pair.list_behind)(&short))
}

/// Plays the script of that number, and where requests are refused, for each of them again.
fn play(pairs: &[Pair], number: u64, seed: u64, refuses: bool, room: &mut Room) -> Result<Count, Difference> {
    let pair = &pairs[(number % pairs.len() as u64) as usize];
    let calls = if refuses { REFUSED_CALLS } else { CALLS };
    let Room { script, ours, theirs } = room;
    script::script(&mut Random::of(seed, number), calls, pair.capacity, pair.calls, script);
    let requests = if refuses { pair.play_ours(script, 0, ours) } else { 0 };
    for refused in 0..=requests {
        if difference(pair, script, refused, ours, theirs).is_some() {
            return Err((number, told_of(pair, script, refused)));
        }
    }
    Ok(Count { calls: calls as u64 * (requests + 1), scripts: 1, refusals: requests })
}

/// Plays until so many calls were made, or until a script is found on which the sides differ.
fn play_all(pairs: &[Pair], wanted: u64, seed: u64, refuses: bool) -> (Count, Option<Difference>) {
    let (next, made) = (AtomicU64::new(0), AtomicU64::new(0));
    let threads = std::thread::available_parallelism().map_or(1, usize::from);
    let results: Vec<(Count, Option<Difference>)> = std::thread::scope(|scope| {
        let one = || {
            let (mut count, mut room) = (Count::default(), Room::default());
            while made.load(Ordering::Relaxed) < wanted {
                match play(pairs, next.fetch_add(1, Ordering::Relaxed), seed, refuses, &mut room) {
                    Ok(alike) => {
                        made.fetch_add(alike.calls, Ordering::Relaxed);
                        count.add(alike);
                    }
                    Err(difference) => {
                        made.store(wanted, Ordering::Relaxed);
                        return (count, Some(difference));
                    }
                }
            }
            (count, None)
        };
        let handles: Vec<_> =
            (0..threads).map(|_| std::thread::Builder::new().stack_size(1 << 24).spawn_scoped(scope, one)).collect();
        handles.into_iter().map(|handle| handle.expect("a thread").join().expect("the thread ends")).collect()
    });
    let mut count = Count::default();
    for (alike, _) in &results {
        count.add(*alike);
    }
    (count, results.into_iter().filter_map(|(_, difference)| difference).min())
}

/// Prints what the crate tells of the script that the tests of our players play: a sum for each of them.
fn print_sums(mut pairs: Vec<Pair>) {
    let mut told = Told::default();
    pairs.retain(|pair| [("Saturating", 5), ("Wrapping", 8)].contains(&(pair.policy, pair.capacity)));
    for pair in pairs {
        pair.play_theirs(&script::tried(), &mut told);
        let calls = told.replies.iter().zip(&told.lists);
        let sum = calls.fold(told.end, |sum, (reply, list)| mix(mix(sum, *reply), *list));
        println!("{}, {}, capacity {}: {sum}", pair.items, pair.policy, pair.capacity);
    }
}

fn main() -> ExitCode {
    let mut words: Vec<String> = std::env::args().skip(1).collect();
    if words.first().is_some_and(|word| word == "--sums") {
        print_sums(pairs::all());
        return ExitCode::SUCCESS;
    }
    let refuses = words.first().is_some_and(|word| word == "--refuse");
    if refuses {
        words.remove(0);
    }
    let number = |i: usize, unsaid: u64| {
        words.get(i).map_or(unsaid, |word| word.parse().unwrap_or_else(|_| panic!("{word} is no number")))
    };
    let (millions, seed) = (number(0, 100), number(1, 1));
    let pairs = pairs::all();
    let (count, difference) = play_all(&pairs, millions * 1_000_000, seed, refuses);
    print!("{} calls of {} scripts went alike", count.calls, count.scripts);
    if refuses {
        print!(", where each of {} requests was refused in turn", count.refusals);
    }
    println!();
    match difference {
        None => ExitCode::SUCCESS,
        Some((script, told)) => {
            print!("script {script} of seed {seed}: {told}");
            ExitCode::FAILURE
        }
    }
}
