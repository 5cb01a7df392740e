//! The search for slow inputs: `--climb`. Several climbers take turns, each
//! with about the same time.

use crate::climber::{Climber, Cost, Found};
use crate::input::{hex, Input};
use crate::interrupt;
use crate::stopwatch::{Entry, Stopwatch};
use reference::api::OWN_LINES;
use std::fs;
use std::io;
use std::path::{Path, PathBuf};
use std::time::{Duration, Instant};

/// What each climber asks.
const CLIMBERS: [Entry; 8] = {
    use Entry::*;
    [
        Whole, SomePart, Whole, SomePart, Whole, SomePart, Whole, Walk,
    ]
};

/// How many of the slowest are kept of each entry.
fn most(entry: Entry) -> usize {
    match entry {
        Entry::Whole => 5,
        Entry::SomePart => 3,
        Entry::Walk => 2,
    }
}

/// A call that needs longer is stopped.
const PATIENCE: Duration = Duration::from_secs(10);

/// No hill is climbed for more than this part of the time.
const HILLS: u32 = 20;

const PROGRESS: Duration = Duration::from_secs(5);

struct Options {
    time: Duration,
    seed: u64,
    lines: usize,
    /// What takes less is not written.
    above: Duration,
    out: Option<PathBuf>,
}

pub fn run(words: &[&str], seed: u64) -> Option<()> {
    let options = options(words, seed)?;
    interrupt::listen();
    println!("seed {}", options.seed);
    let mut stopwatch = Stopwatch::new(options.lines, PATIENCE);
    let cost = &mut |entry, input: &Input| stopwatch.time(entry, input);
    let ended = climb(&options, cost).and_then(|found| print(&options, &found));
    ended.map_err(|error| eprintln!("{error}")).ok()
}

fn options(words: &[&str], seed: u64) -> Option<Options> {
    let (seconds, words) = words.split_first()?;
    let mut options = Options {
        time: Duration::from_secs(seconds.parse().ok()?),
        seed,
        lines: OWN_LINES,
        above: Duration::from_millis(25),
        out: None,
    };
    let mut words = words.iter();
    while let Some(&word) = words.next() {
        let value = words.next()?;
        match word {
            "--seed" => options.seed = value.parse().ok()?,
            "--lines" => options.lines = value.parse().ok()?,
            "--above" => options.above = Duration::from_millis(value.parse().ok()?),
            "--out" => options.out = Some(PathBuf::from(value)),
            _ => return None,
        }
    }
    Some(options)
}

fn climb(options: &Options, cost: &mut Cost) -> io::Result<Vec<Found>> {
    let climber =
        |(number, &entry)| Climber::new(options.seed, number, entry, options.time / HILLS);
    let mut climbers: Vec<Climber> = CLIMBERS.iter().enumerate().map(climber).collect();
    let mut found: Vec<Found> = Vec::new();
    let mut tries = 0;
    let start = Instant::now();
    let mut shown = start;
    while start.elapsed() < options.time && !interrupt::came() {
        let next = climbers.iter_mut().min_by_key(|climber| climber.spent);
        let next = next.expect("there are some");
        if let Some(slower) = next.turn(cost, &found)? {
            keep(&mut found, slower);
        }
        tries += 1;
        if shown.elapsed() > PROGRESS {
            shown = Instant::now();
            let hills: usize = climbers.iter().map(|climber| climber.hills).sum();
            show(start.elapsed(), tries, hills, &found);
        }
    }
    Ok(found)
}

/// In its hill's place, or in its own; by entry, the slowest first.
pub fn keep(found: &mut Vec<Found>, slower: Found) {
    let Found {
        hill, entry, timed, ..
    } = slower;
    let same = |other: &Found| other.hill == hill && other.entry == entry;
    if found
        .iter()
        .any(|other| same(other) && other.timed.time >= timed.time)
    {
        return;
    }
    found.retain(|other| !same(other));
    found.push(slower);
    found.sort_by_key(|found| (found.entry as u8, std::cmp::Reverse(found.timed.time)));
    for entry in Entry::ALL {
        let mut own = 0;
        found.retain(|found| {
            own += (found.entry == entry) as usize;
            found.entry != entry || own <= most(entry)
        });
    }
}

fn milliseconds(found: &Found) -> String {
    let time = format!("{:.3}", found.timed.time.as_secs_f64() * 1e3);
    match found.timed.reply {
        Some(_) => time,
        None => format!("over {time}"),
    }
}

fn show(passed: Duration, tries: usize, hills: usize, found: &[Found]) {
    let slowest = |entry| {
        let mut all = found.iter().filter(|found| found.entry == entry);
        let slowest = all.next().map_or("-".into(), milliseconds);
        format!("{} {slowest} ms", entry.name())
    };
    let passed = passed.as_secs();
    let slowest = Entry::ALL.map(slowest).join(", ");
    eprintln!("{passed} s, {tries} tries, {hills} hills; slowest: {slowest}");
}

fn print(options: &Options, found: &[Found]) -> io::Result<()> {
    println!("| ms | entry | refusal | verdict | facts | rounds | began as | input |");
    println!("|-|-|-|-|-|-|-|-|");
    for (found, rank) in found.iter().zip(1..) {
        let reply = match found.timed.reply {
            Some(reply) => reply.map(|number| number.to_string()),
            None => [(); 4].map(|()| "-".into()),
        };
        println!(
            "| {} | {} | {} | {} | {} |",
            milliseconds(found),
            found.entry.name(),
            reply.join(" | "),
            found.kind,
            shown(options, found, rank)?,
        );
    }
    Ok(())
}

/// The file, or what `--input` takes; nothing if it is not slow.
fn shown(options: &Options, found: &Found, rank: usize) -> io::Result<String> {
    let input = found.input();
    match &options.out {
        _ if found.timed.time < options.above => Ok("-".into()),
        None => Ok(input.sections().map(|section| hex(section)).join(" ")),
        Some(folder) => {
            let name = format!("climb-{}-{rank}.bin", options.seed);
            let file = write(folder, &name, &input)?;
            Ok(file.display().to_string())
        }
    }
}

/// As the bench program reads it.
pub fn write(folder: &Path, name: &str, input: &Input) -> io::Result<PathBuf> {
    fs::create_dir_all(folder)?;
    let file = folder.join(name);
    fs::write(&file, input.bench_bytes())?;
    Ok(file)
}
