//! The self-test of the climb: it climbs where there is a hill, what it writes
//! is read back, and calls are timed and stopped.

use crate::climb;
use crate::climber::{Climber, Found};
use crate::costly;
use crate::hostile;
use crate::input::Input;
use crate::lent::{self, About, Sizes};
use crate::random::Dice;
use crate::readback;
use crate::selftest::MANNER;
use crate::shapes::{self, Shape};
use crate::starts::{Kind, KINDS, WALKED};
use crate::steps;
use crate::stopwatch::{Entry, Stopwatch, Timed};
use std::fs;
use std::io;
use std::time::Duration;

pub fn missed() -> Vec<&'static str> {
    let tests = [
        ("a climb that does not climb", climbs()),
        ("an input that is not read back", reads_back()),
        ("a file that is not read back", writes().unwrap_or(false)),
        ("a call that is not timed", times().unwrap_or(false)),
        ("a call that is not stopped", stops().unwrap_or(false)),
        ("one hill twice", counts_once()),
    ];
    let wrong = tests.iter().filter(|(_, right)| !right);
    wrong.map(|(name, _)| *name).collect()
}

fn input(Shape { book, heap, query }: &Shape) -> Input {
    Input::new(book, heap, query)
}

/// For a cost: the calls of the book, times the records.
fn toy(input: &Input) -> Timed {
    let shape = readback::shape(input);
    let cost = shape.map_or(0, |Shape { book, heap, .. }| {
        let calls: usize = book.rules.iter().map(|rule| rule.calls.len()).sum();
        calls * heap.records.len()
    });
    Timed {
        time: Duration::from_nanos(cost as u64),
        reply: Some([0; 4]),
    }
}

/// As far as 16 rules of three calls with 16 records, or nearly so.
fn climbs() -> bool {
    let mut climber = Climber::new(1, 0, Entry::Whole, Duration::MAX);
    let mut found = Vec::new();
    for _ in 0..3_000 {
        let cost = &mut |_, input: &Input| Ok(toy(input));
        match climber.turn(cost, &found) {
            Ok(Some(slower)) => climb::keep(&mut found, slower),
            Ok(None) => {}
            Err(_) => return false,
        }
    }
    let slowest = found.first().map_or(0, |found| found.timed.time.as_nanos());
    slowest >= 15 * 3 * 16
}

/// Kept inputs, and any that a climb may begin or go on with.
fn reads_back() -> bool {
    let same = |one: &Input| readback::shape(one).is_some_and(|shape| input(&shape) == *one);
    let mut kept = costly::made().into_iter();
    let dice = &mut Dice::new(1, 0);
    let mut drawn = |kind: &Kind| {
        let shape = (kind.draw)(dice);
        let far = steps::far(dice, &shape, 5);
        same(&input(&shape)) && same(&input(&far))
    };
    kept.all(|(_, input)| same(&input)) && KINDS.iter().chain(&WALKED).all(&mut drawn)
}

fn writes() -> io::Result<bool> {
    let folder = std::env::temp_dir().join(format!("climb-test-{}", std::process::id()));
    let mut same = true;
    for kept in hostile::kept()? {
        let file = climb::write(&folder, "one.bin", &kept.input)?;
        same &= Input::from_bench(&fs::read(file)?) == kept.input;
    }
    fs::remove_dir_all(folder)?;
    Ok(same)
}

fn ring() -> Input {
    input(&shapes::ring(&mut Dice::new(1, 0), 8))
}

/// What is said is what the entries say.
fn times() -> io::Result<bool> {
    let (input, sizes) = (ring(), Sizes::OWN);
    let mut stopwatch = Stopwatch::new(sizes.lines, Duration::from_secs(60));
    let mut same = true;
    for (entry, about) in [
        (Entry::Whole, About::Whole),
        (Entry::SomePart, About::SomePart),
    ] {
        let answer = lent::decide(about, &input, sizes, MANNER);
        let [verdict, facts, rounds, _] = answer.numbers.map(|number| number.lent()[0]);
        let timed = stopwatch.time(entry, &input)?;
        same &= timed.reply == Some([answer.refusal, verdict, facts, rounds]);
        same &= timed.time > Duration::ZERO;
    }
    let walked = stopwatch.time(Entry::Walk, &input)?;
    let refusal = lent::walk_on(&input, &mut 0);
    Ok(same && walked.reply.is_some_and(|reply| reply[0] == refusal))
}

/// And afterwards it goes on.
fn stops() -> io::Result<bool> {
    let mut stopwatch = Stopwatch::new(Sizes::OWN.lines, Duration::ZERO);
    let first = stopwatch.time(Entry::Whole, &ring())?;
    let second = stopwatch.time(Entry::Whole, &ring())?;
    Ok(first.reply.is_none() && second.reply.is_none())
}

/// The slower one of a hill stays; others stay beside it.
fn counts_once() -> bool {
    let shape = shapes::ring(&mut Dice::new(1, 0), 2);
    let one = |hill, nanos| Found {
        hill: (0, hill),
        kind: "",
        entry: Entry::Whole,
        shape: shape.clone(),
        timed: Timed {
            time: Duration::from_nanos(nanos),
            reply: Some([0; 4]),
        },
    };
    let mut found = Vec::new();
    for (hill, nanos) in [(1, 10), (2, 30), (1, 20), (2, 5)] {
        climb::keep(&mut found, one(hill, nanos));
    }
    let kept: Vec<u128> = found
        .iter()
        .map(|found| found.timed.time.as_nanos())
        .collect();
    kept == [30, 20]
}
