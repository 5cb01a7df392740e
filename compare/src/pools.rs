//! What is compared, in which order, and how much of it.

use crate::books;
use crate::compare::{Comparer, Limit};
use crate::constant_books;
use crate::constants;
use crate::damage;
use crate::generate::{self, Size};
use crate::grow;
use crate::hostile;
use crate::input::{Book, Heap, Input, Query, MOST_RECORDS};
use crate::mutate;
use crate::nil;
use crate::plain;
use crate::plainness;
use crate::random::Dice;
use crate::shapes::{self, Shape};
use crate::sizes;
use crate::small;
use crate::spellings;
use crate::split;
use crate::strangers;
use crate::unfoldings::{self, Line};
use reference::domain::Domain;
use reference::{fact, fixpoint, formats};

/// One part of a run.
struct Pool {
    name: &'static str,
    /// One of so many of its pools is shown to the bench program as well.
    program_share: u64,
    run: fn(&mut Comparer, &mut Dice),
}

const FIXED: [Pool; 6] = [
    Pool {
        name: "every small pool",
        program_share: 2_000,
        run: small::run,
    },
    Pool {
        name: "damaged bytes",
        program_share: 1_000,
        run: damaged_bytes,
    },
    Pool {
        name: "odd and extreme lengths",
        program_share: 1_000,
        run: odd_lengths,
    },
    Pool {
        name: "bench program inputs",
        program_share: 1,
        run: bench_inputs,
    },
    Pool {
        name: "hostile inputs",
        program_share: 1,
        run: hostile_inputs,
    },
    Pool {
        name: "lent memory",
        program_share: 10,
        run: lent_memory,
    },
];

/// Those that may be repeated with other numbers.
const RANDOM: [Pool; 11] = [
    Pool {
        name: "usual shapes",
        program_share: 20,
        run: usual_shapes,
    },
    Pool {
        name: "random books and pools",
        program_share: 150,
        run: random_pools,
    },
    Pool {
        name: "grown pools",
        program_share: 150,
        run: grown_pools,
    },
    Pool {
        name: "near misses",
        program_share: 150,
        run: near_misses,
    },
    Pool {
        name: "damaged unfoldings",
        program_share: 100,
        run: damaged_unfoldings,
    },
    Pool {
        name: "parts of pools",
        program_share: 150,
        run: parts_of_pools,
    },
    Pool {
        name: "plain shapes",
        program_share: 150,
        run: plain::run,
    },
    Pool {
        name: "small plain books",
        program_share: 150,
        run: split::run,
    },
    Pool {
        name: "plain or not",
        program_share: 500,
        run: plainness::run,
    },
    Pool {
        name: "constants",
        program_share: 150,
        run: constants::run,
    },
    Pool {
        name: "both spellings of nil",
        program_share: 500,
        run: spellings::run,
    },
];

impl Pool {
    fn compare(&self, comparer: &mut Comparer, seed: u64, stream: u64) {
        comparer.program_share = self.program_share;
        comparer.dice = Dice::new(!seed, stream);
        (self.run)(comparer, &mut Dice::new(seed, stream));
    }
}

/// Everything once: the run of the gate. With a name, the pools that start so.
pub fn once(comparer: &mut Comparer, seed: u64, name: &str) {
    for (pool, stream) in FIXED.iter().chain(&RANDOM).zip(0..) {
        if pool.name.starts_with(name) {
            let (inputs, fits) = (comparer.inputs, comparer.tally.fits());
            pool.compare(comparer, seed, stream);
            let (inputs, fits) = (comparer.inputs - inputs, comparer.tally.fits() - fits);
            println!("{}: {inputs} inputs, {fits} pools that fit", pool.name);
        }
    }
}

/// Everything once, and then the random ones again and again.
pub fn long(comparer: &mut Comparer, seed: u64, limit: Limit) {
    comparer.show_progress();
    once(comparer, seed, "");
    let first = (FIXED.len() + RANDOM.len()) as u64;
    for stream in first.. {
        if comparer.reached(limit) {
            return;
        }
        RANDOM[stream as usize % RANDOM.len()].compare(comparer, seed, stream);
    }
}

/// One fitting input for each hand-written book and shape of a few records.
pub fn small_inputs(dice: &mut Dice) -> Vec<Input> {
    let mut inputs = Vec::new();
    for shape in shapes::all(dice, 3) {
        inputs.push(nil::input(dice, &shape.book, &shape.heap, &shape.query));
    }
    for book in books::small() {
        let (heap, query) = grow::grow(dice, &book, 2);
        inputs.push(nil::input(dice, &book, &heap, &query));
    }
    inputs
}

fn damaged_bytes(comparer: &mut Comparer, dice: &mut Dice) {
    for input in small_inputs(dice) {
        damage::every_byte(comparer, dice, &input);
    }
    for book in constant_books::plain() {
        let (heap, query) = grow::grow(dice, &book, 2);
        let input = nil::input(dice, &book, &heap, &query);
        damage::every_byte(comparer, dice, &input);
    }
    for book in [constant_books::small(), constant_books::plain()].concat() {
        let (heap, query) = grow::grow(dice, &book, 2);
        let input = Input::new(&book, &heap, &query);
        damage::constants(comparer, dice, &book, &input);
    }
}

fn odd_lengths(comparer: &mut Comparer, dice: &mut Dice) {
    let shape = shapes::ring(dice, 2);
    let input = nil::input(dice, &shape.book, &shape.heap, &shape.query);
    damage::every_length(comparer, dice, &input);
}

fn bench_inputs(comparer: &mut Comparer, dice: &mut Dice) {
    let inputs = small_inputs(dice);
    damage::bench_inputs(comparer, dice, &inputs, 60);
}

fn hostile_inputs(comparer: &mut Comparer, _: &mut Dice) {
    for kept in hostile::kept().expect("the kept inputs are read") {
        if comparer.takes_turn() {
            comparer.kept(&kept.input, kept.reply, kept.print);
        }
    }
    for kept in hostile::kept_long().expect("the kept inputs are read") {
        if comparer.takes_turn() {
            comparer.kept_long(&kept.input, kept.reply, kept.print);
        }
    }
}

/// Every size of lent memory for a few pools, with faults too.
fn lent_memory(comparer: &mut Comparer, dice: &mut Dice) {
    let mut inputs = small_inputs(dice);
    for size in [0, 1, 5, 8] {
        for shape in shapes::all(dice, size) {
            let broken = shapes::broken(dice, &shape.heap);
            let heaps = broken.into_iter().chain([shape.heap]);
            inputs.extend(heaps.map(|heap| nil::input(dice, &shape.book, &heap, &shape.query)));
        }
    }
    for input in inputs {
        sizes::every(comparer, &input);
    }
    let shape = shapes::tree(dice, 7);
    let input = nil::input(dice, &shape.book, &shape.heap, &shape.query);
    for faulty in damage::one_of_each_fault(&input) {
        sizes::every_refused(comparer, &faulty, 0);
    }
    sizes::longest_unfolding(comparer, &input);
    sizes::full_to_the_end(comparer);
}

/// Each shape in each size, whole and broken by one pointer.
fn usual_shapes(comparer: &mut Comparer, dice: &mut Dice) {
    for size in (0..=MOST_RECORDS).chain(0..=MOST_RECORDS) {
        for shape in shapes::all(dice, size) {
            if !comparer.takes_turn() {
                continue;
            }
            let input = nil::input(dice, &shape.book, &shape.heap, &shape.query);
            for lines in comparer.decide_known(&input, true).unfoldings {
                unfoldings::check_lines(comparer, dice, &input, &lines, 6);
                forged(comparer, dice, &shape.book, &input, &lines, 10);
            }
            for _ in 0..3 {
                if let Some(heap) = shapes::broken(dice, &shape.heap) {
                    let input = nil::input(dice, &shape.book, &heap, &shape.query);
                    unfoldings::decide_and_check(comparer, dice, &input, 2);
                }
            }
        }
    }
}

pub fn sizes(dice: &mut Dice) -> (Size, usize) {
    match dice.weighted(&[60, 30, 10]) {
        0 => (Size::Small, dice.below(5)),
        1 => (Size::Middle, dice.below(9)),
        _ => (Size::Largest, dice.below(MOST_RECORDS + 1)),
    }
}

fn random_pools(comparer: &mut Comparer, dice: &mut Dice) {
    for _ in 0..10_000 {
        if !comparer.takes_turn() {
            continue;
        }
        let (size, records) = sizes(dice);
        let mut book = any_book(dice, size);
        let heap = generate::heap(dice, &book, records);
        if dice.chance(50) {
            generate::meet(dice, &mut book, &heap);
        }
        let query = generate::query(dice, &book, &heap);
        let input = nil::any_input(dice, &book, &heap, &query);
        unfoldings::decide_and_check(comparer, dice, &input, 3);
        if let Some((part, query)) = fitting_part(dice, &book, &heap, &query) {
            let input = nil::input(dice, &book, &part, &query);
            for lines in comparer.decide_known(&input, true).unfoldings {
                unfoldings::check_lines(comparer, dice, &input, &lines, 4);
                forged(comparer, dice, &book, &input, &lines, 2);
            }
        }
        damage::some_bytes(comparer, dice, &input, 2);
    }
}

/// A book: mostly a random one.
pub fn any_book(dice: &mut Dice, size: Size) -> Book {
    if dice.chance(85) {
        return generate::book(dice, size);
    }
    let mut books = books::small();
    books.swap_remove(dice.below(books.len()))
}

/// An unfolding for books that differ from its own in one thing.
fn forged(
    comparer: &mut Comparer,
    dice: &mut Dice,
    book: &Book,
    input: &Input,
    lines: &[Line],
    count: usize,
) {
    for _ in 0..count {
        if let Some((book, lines)) = mutate::forge(dice, book, lines) {
            let mut input = input.clone();
            input.book = book.bytes();
            comparer.check(&input, &unfoldings::bytes(&lines));
            comparer.decide(&input);
        }
    }
}

/// Questions that would fit if the book said one thing less.
fn near_misses(comparer: &mut Comparer, dice: &mut Dice) {
    for _ in 0..10_000 {
        if !comparer.takes_turn() {
            continue;
        }
        let (size, records) = sizes(dice);
        let book = any_book(dice, size);
        let Some(weaker) = mutate::weaker(dice, &book) else {
            continue;
        };
        let (heap, query) = grow::grow(dice, &weaker, records);
        for _ in 0..3 {
            if let Some((part, query)) = fitting_part(dice, &weaker, &heap, &query) {
                let input = nil::input(dice, &book, &part, &query);
                unfoldings::decide_and_check(comparer, dice, &input, 1);
            }
        }
    }
}

/// More facts are not gone through for the choice of one.
const PART_FACTS: usize = 150;

/// A fact of the table, as a question to the pool of its records alone.
pub fn fitting_part(
    dice: &mut Dice,
    book: &Book,
    heap: &Heap,
    query: &Query,
) -> Option<(Heap, Query)> {
    let input = Input::new(book, heap, query);
    let problem = formats::read(&input.book, &input.snapshot, &input.question).ok()?;
    let domain = Domain::of(&problem);
    let facts = fixpoint::facts(&problem, &domain, PART_FACTS)?;
    // Facts of later rounds are the more interesting ones.
    let from = if dice.chance(60) {
        facts.table.len() / 2
    } else {
        0
    };
    let choice = &facts.table[from..];
    if choice.is_empty() {
        return None;
    }
    let chosen = dice.pick(choice);
    let mut records = heap.records.clone();
    records.sort();
    let mut number = 0;
    records.retain(|_| {
        number += 1;
        fact::records(chosen) >> (number - 1) & 1 == 1
    });
    let predicate = fact::predicate(chosen);
    let arguments = 0..problem.rules.arities[predicate];
    let values: Vec<u32> = arguments
        .map(|index| domain.values()[fact::argument(chosen, index)] as u32)
        .collect();
    Some((Heap { records }, Query::new(predicate as u8, &values)))
}

/// Pools grown by random books, and the same with one pointer changed.
fn grown_pools(comparer: &mut Comparer, dice: &mut Dice) {
    for _ in 0..10_000 {
        if !comparer.takes_turn() {
            continue;
        }
        let (size, records) = sizes(dice);
        let book = any_book(dice, size);
        let (heap, query) = grow::grow(dice, &book, records);
        let input = nil::input(dice, &book, &heap, &query);
        for lines in unfoldings::decide_and_check(comparer, dice, &input, 6) {
            forged(comparer, dice, &book, &input, &lines, 4);
        }
        if let Some(heap) = shapes::broken(dice, &heap) {
            let input = nil::any_input(dice, &book, &heap, &query);
            unfoldings::decide_and_check(comparer, dice, &input, 3);
        }
    }
}

/// Every damage to the unfoldings of some pools that fit.
fn damaged_unfoldings(comparer: &mut Comparer, dice: &mut Dice) {
    for size in [0, 1, 2, 3, 16] {
        for shape in shapes::all(dice, size) {
            let input = nil::input(dice, &shape.book, &shape.heap, &shape.query);
            every_damage(comparer, dice, &input);
        }
    }
    for size in [1, 3] {
        for shape in shapes::all(dice, size) {
            let (input, _) = among_strangers(dice, &shape, 2);
            every_damage(comparer, dice, &input);
        }
    }
    for _ in 0..40 {
        let (size, records) = sizes(dice);
        let book = any_book(dice, size);
        let (heap, query) = grow::grow(dice, &book, records);
        let input = nil::input(dice, &book, &heap, &query);
        every_damage(comparer, dice, &input);
    }
}

fn every_damage(comparer: &mut Comparer, dice: &mut Dice, input: &Input) {
    if !comparer.takes_turn() {
        return;
    }
    for lines in comparer.decide(input).all_unfoldings() {
        unfoldings::every_damage(comparer, dice, input, &lines);
    }
}

/// Pools that fit, among further records: few, or as many as there may be.
fn parts_of_pools(comparer: &mut Comparer, dice: &mut Dice) {
    for size in 0..=MOST_RECORDS {
        for shape in shapes::all(dice, size) {
            if comparer.takes_turn() {
                part_of_pool(comparer, dice, &shape);
            }
        }
    }
    for _ in 0..2_000 {
        if !comparer.takes_turn() {
            continue;
        }
        let (size, records) = sizes(dice);
        let book = any_book(dice, size);
        let (heap, query) = grow::grow(dice, &book, records);
        if let Some((heap, query)) = fitting_part(dice, &book, &heap, &query) {
            part_of_pool(comparer, dice, &Shape { book, heap, query });
        }
    }
}

fn part_of_pool(comparer: &mut Comparer, dice: &mut Dice, shape: &Shape) {
    let room = MOST_RECORDS - shape.heap.records.len();
    let more = match dice.below(3) {
        0 => room,
        1 => dice.below(room + 1),
        _ => room.min(2),
    };
    let (input, part) = among_strangers(dice, shape, more);
    for lines in comparer.decide_with(&input, part).all_unfoldings() {
        unfoldings::check_lines(comparer, dice, &input, &lines, 3);
        forged(comparer, dice, &shape.book, &input, &lines, 1);
    }
}

/// The shape among so many further records, and which part it is.
fn among_strangers(dice: &mut Dice, shape: &Shape, more: usize) -> (Input, u16) {
    let weights = generate::field_weights(&shape.book);
    let (heap, part) = strangers::add(dice, &shape.heap, more, &weights);
    (nil::input(dice, &shape.book, &heap, &shape.query), part)
}
