//! The walk beside the engine and beside the reference's walk.

use crate::bench::{measured_lent, time, TIME_EACH};
use crate::input::Input;
use crate::lent::{self, Sizes};
use crate::plain;
use crate::random::Dice;
use crate::shapes::{self, Shape};
use reference::api;
use std::time::{Duration, Instant};

/// Pools of plain books, all of which fit.
pub fn pools() -> Vec<(String, Input)> {
    let dice = &mut Dice::new(1, 0);
    let mut pools = Vec::new();
    let mut add = |name: &str, size: usize, shape: Shape| {
        let input = Input::new(&shape.book, &shape.heap, &shape.query);
        pools.push((format!("plain-{name}-{size}"), input));
    };
    for size in [2, 4, 8, 12, 16] {
        add("chain", size, plain::segment(dice, size));
    }
    for size in [3, 7, 15] {
        add("tree", size, plain::tree(dice, size));
    }
    for size in [2, 4, 8, 16] {
        add("doubly-linked", size, shapes::doubly_linked(dice, size));
    }
    for size in [4, 8, 16] {
        add("typed", size, plain::typed(dice, size));
    }
    pools
}

/// Kept apart, as the engine's calls are. The walk refuses none of the pools.
#[inline(never)]
pub fn measured_walk(input: &Input) -> u64 {
    let mut verdict = 0;
    lent::walk_on(input, &mut verdict);
    verdict
}

#[inline(never)]
pub fn measured_reference_walk(input: &Input) -> u64 {
    api::walk(&input.book, &input.snapshot, &input.question).verdict as u64
}

/// The pools whose names are asked for.
pub fn run(asked: impl Fn(&str) -> bool) {
    println!(
        "The walk beside `shapes_decide` with a table of 1,024 lines, and the reference's walk:"
    );
    println!();
    println!("| pool | verdict | engine / walk | reference / walk | walk µs | engine µs | reference µs |");
    println!("|-|-|-|-|-|-|-|");
    for (name, input) in pools().iter().filter(|(name, _)| asked(name)) {
        let [walk, engine, reference] = fastest(input).map(|time| time.as_secs_f64() * 1e6);
        println!(
            "| {name} | {} | {:.1} | {:.1} | {walk:.2} | {engine:.2} | {reference:.2} |",
            measured_walk(input),
            engine / walk,
            reference / walk,
        );
    }
}

/// The fastest run of walk, engine and the reference's walk, which take turns.
fn fastest(input: &Input) -> [Duration; 3] {
    let Sizes { lines, words } = Sizes::OWN;
    let (mut table, mut space) = (vec![0; lines], vec![0; words]);
    let start = Instant::now();
    let mut fastest = [Duration::MAX; 3];
    while start.elapsed() < TIME_EACH {
        let times = [
            time(|| measured_walk(input)),
            time(|| measured_lent(input, &mut table, &mut space)),
            time(|| measured_reference_walk(input)),
        ];
        for (least, time) in fastest.iter_mut().zip(times) {
            *least = time.min(*least);
        }
    }
    fastest
}
