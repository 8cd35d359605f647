//! The times as they are printed, written, and kept between the programs that are linked at different places.
use std::fmt::Write;
use std::io::{Error, Result};

/// Where the least times are written.
const TIMES: &str = "figures.csv";

/// The head of the table that is printed.
pub const HEAD: &str = "| Workload | ours, ns | crate, ns | `VecDeque`, ns | ours / crate | ours / `VecDeque` |
|---|---|---|---|---|---|";

/// Where the least times so far are kept between the programs.
const KEPT: &str = "target/least.csv";

/// What was measured of a workload: the least nanoseconds of a round, ours first.
pub struct Figures {
    pub name: String,
    pub columns: [f64; 3],
}

/// A row of the table that is printed.
pub fn line(row: &Figures) -> String {
    let [ours, rust, std] = row.columns;
    let (to_rust, to_std) = (ours / rust, ours / std);
    format!("| {} | {ours:.2} | {rust:.2} | {std:.2} | {to_rust:.2} | {to_std:.2} |", row.name)
}

/// The rows as they are written to a file.
fn csv(all: &[Figures]) -> String {
    let mut csv = String::from("workload;ours;crate;VecDeque\n");
    for Figures { name, columns: [ours, rust, std] } in all {
        let _ = writeln!(csv, "{name};{ours:.6};{rust:.6};{std:.6}");
    }
    csv
}

/// Writes the times, and when, at which commit and by what they were measured, as `bench/run` says it.
pub fn write(all: &[Figures]) -> Result<()> {
    let when = std::env::var("ARRAYDEQUE_BENCH_WHEN").unwrap_or_default();
    std::fs::write(TIMES, format!("# {when}\n{}", csv(all)))
}

/// Keeps the times for the next program.
pub fn keep(all: &[Figures]) -> Result<()> {
    std::fs::create_dir_all("target")?;
    std::fs::write(KEPT, csv(all))
}

/// Puts the least times so far in the place of greater ones.
pub fn keep_least(all: &mut [Figures]) -> Result<()> {
    for (row, kept) in all.iter_mut().zip(load(KEPT)?) {
        assert_eq!(row.name, kept.name, "the programs before measured other workloads");
        for (time, least) in row.columns.iter_mut().zip(kept.columns) {
            *time = time.min(least);
        }
    }
    Ok(())
}

/// The rows that the program before kept.
fn load(path: &str) -> Result<Vec<Figures>> {
    let all: Option<Vec<Figures>> = std::fs::read_to_string(path)?.lines().skip(1).map(read).collect();
    all.ok_or_else(|| Error::other(format!("a line of {path} isn't one")))
}

fn read(line: &str) -> Option<Figures> {
    let mut words = line.split(';');
    let name = words.next()?.to_string();
    let mut time = || words.next()?.parse().ok();
    Some(Figures { name, columns: [time()?, time()?, time()?] })
}
