//! The benchmark: proved program beside the reference, as ratios.

use crate::books;
use crate::compare::{number, number_line};
use crate::costly;
use crate::desk;
use crate::hostile::{self, Hostile};
use crate::input::Input;
use crate::lent::{self, About, Sizes};
use crate::random::Dice;
use crate::shapes::{self, Shape};
use crate::walk_bench;
use reference::api::{self, Reply};
use std::io;
use std::path::Path;
use std::time::{Duration, Instant};

/// A pool is run again and again for about this long, but at least once.
pub const TIME_EACH: Duration = Duration::from_millis(400);

/// Hostile inputs are to be answered within this.
const HOSTILE_LIMIT: Duration = Duration::from_secs(1);

/// The pools with names, for ratios and for instruction counts.
pub fn pools() -> Vec<(String, Input)> {
    let dice = &mut Dice::new(1, 0);
    let mut pools = Vec::new();
    let mut add = |name: String, shape: Shape| {
        pools.push((name, Input::new(&shape.book, &shape.heap, &shape.query)));
    };
    for size in [2, 4, 8, 16] {
        add(format!("chain-L-{size}"), shapes::chain(dice, size));
    }
    for size in [2, 4, 8, 16] {
        let mut shape = shapes::chain(dice, size);
        shape.book = books::house();
        add(format!("chain-H-{size}"), shape);
    }
    for size in [2, 4, 8, 16] {
        add(format!("ring-H-{size}"), shapes::ring(dice, size));
    }
    add("queue-H-8-8".into(), shapes::queue(dice, 8, 8));
    add("tree-15".into(), shapes::tree(dice, 15));
    add("doubly-linked-16".into(), shapes::doubly_linked(dice, 16));
    // 8 and 10 records give 256 and 1,024 facts; from 11 on the table of 1,024
    // lines is full, and the time is that until it is.
    for size in [4, 6, 8, 10, 12, 15] {
        add(format!("always-true-{size}"), shapes::anything(dice, size));
    }
    for size in [4, 8, 16] {
        add(format!("typed-{size}"), shapes::typed(dice, size));
    }
    for (name, input) in costly::made() {
        if ["unequal-only", "unmet-at-the-end", "three-calls"].contains(&name) {
            pools.push((name.into(), input));
        }
    }
    pools
}

/// The longest table that may be lent, and always-true pools for it.
const MOST_LINES: usize = 65_535;
const LONG_SIZES: [usize; 3] = [8, 12, 15];

fn always_true(size: usize) -> Input {
    let shape = shapes::anything(&mut Dice::new(1, 0), size);
    Input::new(&shape.book, &shape.heap, &shape.query)
}

/// Kept apart from their callers, so that instructions can be counted in them.
#[inline(never)]
pub fn measured_proved(input: &Input) -> u64 {
    desk::decide(&input.book, &input.snapshot, &input.question)
}

/// The library `shapes`, on memory that its caller makes: to make it is not
/// counted.
#[inline(never)]
pub fn measured_lent(input: &Input, table: &mut [u64], space: &mut [u64]) -> u64 {
    lent_once(About::Whole, input, table, space)
}

#[inline(never)]
fn measured_part(input: &Input, table: &mut [u64], space: &mut [u64]) -> u64 {
    lent_once(About::SomePart, input, table, space)
}

fn lent_once(about: About, input: &Input, table: &mut [u64], space: &mut [u64]) -> u64 {
    let mut numbers = [0; 4];
    lent::decide_on(about, input, table, space, numbers.each_mut(), &mut 0)
}

#[inline(never)]
pub fn measured_reference(input: &Input) -> u64 {
    api::desk_engine(&input.book, &input.snapshot, &input.question) as u64
}

/// All pools, or those whose names begin with one of these words.
pub fn run(names: &[&str]) -> io::Result<()> {
    let asked = |pool: &str| names.is_empty() || names.iter().any(|name| pool.starts_with(name));
    println!("Both programs have a table of 1,024 lines here, as the desk's entry does.");
    println!();
    println!("| pool | reply | facts | rounds | reference / proved | proved µs | reference µs |");
    println!("|-|-|-|-|-|-|-|");
    for (name, input) in pools().iter().filter(|(name, _)| asked(name)) {
        row(name, input);
    }
    println!();
    println!(
        "In a table of 65,535 lines, the program `longest` beside the reference on lent memory:"
    );
    println!();
    println!("| pool | reply | facts | rounds | reference / proved | proved ms | reference ms |");
    println!("|-|-|-|-|-|-|-|");
    for size in LONG_SIZES {
        let name = format!("always-true-{size}");
        if asked(&name) {
            long_row(&name, &always_true(size))?;
        }
    }
    println!();
    let (written, looked) = clearing();
    println!(
        "To write zeros over so much memory once takes {:.3} ms here, to find only zeros in it {:.3} ms.",
        written.as_secs_f64() * 1e3,
        looked.as_secs_f64() * 1e3
    );
    println!();
    walk_bench::run(asked);
    println!();
    println!("| hostile input | reply | facts | rounds | proved ms | walk ms | |");
    println!("|-|-|-|-|-|-|-|");
    for hostile in hostile::kept()?
        .iter()
        .filter(|hostile| asked(&hostile.name))
    {
        hostile_row(hostile);
    }
    Ok(())
}

fn row(name: &str, input: &Input) {
    let reply = api::bench_reply(&input.bench_bytes());
    let (proved, reference) = fastest(input);
    println!(
        "| {name} | {} {} | {} | {} | {:.1} | {:.1} | {:.1} |",
        reply.refusal,
        reply.verdict,
        reply.facts,
        reply.rounds,
        reference.as_secs_f64() / proved.as_secs_f64(),
        proved.as_secs_f64() * 1e6,
        reference.as_secs_f64() * 1e6,
    );
}

/// The fastest run of each in the longest table. `longest` runs as a process,
/// and what it takes to refuse an empty input is taken off.
fn long_row(name: &str, input: &Input) -> io::Result<()> {
    let program = Path::new(env!("CARGO_MANIFEST_DIR")).join("../crates/longest/out/longest");
    let bytes = input.bench_bytes();
    let mut table = vec![0; MOST_LINES];
    let mut space = vec![0; 3 * MOST_LINES];
    let mut reply = Reply::default();
    let (mut start, mut proved, mut reference) = (Duration::MAX, Duration::MAX, Duration::MAX);
    let begun = Instant::now();
    while begun.elapsed() < LONG_TIME {
        let (taken, _) = process(&program, &[])?;
        start = start.min(taken);
        let (taken, text) = process(&program, &bytes)?;
        proved = proved.min(taken);
        let Input {
            book,
            snapshot,
            question,
        } = input;
        reference = reference.min(time(|| {
            reply = api::decide_lent(book, snapshot, question, &mut table, &mut space);
            reply.facts as u64
        }));
        if text != api::bench_line(reply).into_bytes() {
            return Err(io::Error::other(format!("{name}: another reply")));
        }
    }
    let proved = proved.saturating_sub(start);
    println!(
        "| {name} | {} {} | {} | {} | {:.1} | {:.2} | {:.2} |",
        reply.refusal,
        reply.verdict,
        reply.facts,
        reply.rounds,
        reference.as_secs_f64() / proved.as_secs_f64(),
        proved.as_secs_f64() * 1e3,
        reference.as_secs_f64() * 1e3,
    );
    Ok(())
}

/// Long enough for hundreds of processes even of the slowest pool: to start one
/// takes longer than the smallest pool, so only the fastest can be compared.
const LONG_TIME: Duration = Duration::from_secs(10);

/// How often all that is lent with the longest table is written, and looked at.
const PASSES: usize = 1_000;

/// The fastest writing of zeros over all that is lent with the longest table,
/// and the fastest look that finds nothing but zeros there.
fn clearing() -> (Duration, Duration) {
    let mut lent = vec![1u64; 4 * MOST_LINES];
    let (mut written, mut looked) = (Duration::MAX, Duration::MAX);
    for _ in 0..PASSES {
        written = written.min(time(|| {
            std::hint::black_box(&mut lent).fill(0);
            lent[0]
        }));
        looked = looked.min(time(|| {
            let lent = std::hint::black_box(&lent);
            let blank = |block: &[u64]| block.iter().fold(0, |any, word| any | word) == 0;
            let mut blocks = lent.rchunks_exact(128);
            (blocks.all(blank) && blank(blocks.remainder())) as u64
        }));
    }
    (written, looked)
}

fn process(program: &Path, input: &[u8]) -> io::Result<(Duration, Vec<u8>)> {
    let start = Instant::now();
    let printed = desk::bench_program(program, &[input])?;
    Ok((start.elapsed(), printed.text))
}

/// The fastest run of each. They take turns, so that what else the machine
/// does meets both.
fn fastest(input: &Input) -> (Duration, Duration) {
    let start = Instant::now();
    let (mut proved, mut reference) = (Duration::MAX, Duration::MAX);
    loop {
        proved = proved.min(time(|| measured_proved(input)));
        reference = reference.min(time(|| measured_reference(input)));
        if start.elapsed() > TIME_EACH {
            return (proved, reference);
        }
    }
}

pub fn time(call: impl FnOnce() -> u64) -> Duration {
    let start = Instant::now();
    std::hint::black_box(call());
    start.elapsed()
}

fn hostile_row(hostile: &Hostile) {
    let reply = hostile.reply;
    let start = Instant::now();
    let answer = measured_proved(&hostile.input);
    let taken = start.elapsed();
    let walked = time(|| walk_bench::measured_walk(&hostile.input));
    let mut notes = Vec::new();
    if answer != number(reply) {
        notes.push(format!("WRONG: {}", number_line(answer)));
    }
    if taken.max(walked) > HOSTILE_LIMIT {
        notes.push("over a second".into());
    }
    println!(
        "| {} | {} {} | {} | {} | {:.1} | {:.2} | {} |",
        hostile.name,
        reply.refusal,
        reply.verdict,
        reply.facts,
        reply.rounds,
        taken.as_secs_f64() * 1e3,
        walked.as_secs_f64() * 1e3,
        notes.join(", ")
    );
}

/// One call on a named pool, for instruction counts.
pub fn once(name: &str, which: &str) -> Option<u64> {
    let mut pools = pools().into_iter().chain(walk_bench::pools());
    let (_, input) = pools.find(|(pool, _)| pool == name)?;
    let Sizes { lines, words } = Sizes::OWN;
    let (mut table, mut space) = (vec![0; lines], vec![0; words]);
    match which {
        "proved" => Some(measured_proved(&input)),
        "lent" => Some(measured_lent(&input, &mut table, &mut space)),
        "part" => Some(measured_part(&input, &mut table, &mut space)),
        "reference" => Some(measured_reference(&input)),
        "walk" => Some(walk_bench::measured_walk(&input)),
        "reference_walk" => Some(walk_bench::measured_reference_walk(&input)),
        _ => None,
    }
}
