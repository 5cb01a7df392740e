//! Constants that are other numbers in the same book, and as many kept values
//! as there may be.

use crate::compare::Comparer;
use crate::constant_books;
use crate::generate::{self, Size};
use crate::grow;
use crate::input::{Book, Heap, Input, Query, MOST_FIELDS, MOST_RECORDS};
use crate::lent::Sizes;
use crate::nil::{self, END_MARK, LARGEST};
use crate::pools;
use crate::random::Dice;
use crate::unfoldings::{self, Line};
use reference::domain::Domain;
use reference::formats;

pub fn run(comparer: &mut Comparer, dice: &mut Dice) {
    for book in [constant_books::small(), constant_books::plain()].concat() {
        every_number(comparer, dice, &book);
    }
    for _ in 0..100 {
        let book = generate::book(dice, Size::Middle);
        every_number(comparer, dice, &book);
    }
    // The first in every run, so that even a thin one has the most values.
    for turn in 0..100 {
        if comparer.takes_turn() || turn == 0 {
            most_kept(comparer, dice);
        }
    }
    for turn in 0..6 {
        if comparer.takes_turn() || turn == 0 {
            most_kept_unfolded(comparer, dice);
        }
    }
}

/// A pool that the book was grown from, and each constant in turn replaced by
/// each number that there is a reason for.
fn every_number(comparer: &mut Comparer, dice: &mut Dice, book: &Book) {
    let records = dice.below(4);
    let (heap, query) = grow::grow(dice, book, records);
    let fitting = pools::fitting_part(dice, book, &heap, &query);
    for (heap, query) in fitting.into_iter().chain([(heap, query)]) {
        for at in 0..book.constants.len() {
            for number in numbers(book, &heap, &query) {
                if comparer.takes_turn() {
                    let mut book = book.clone();
                    book.constants[at] = number;
                    let input = nil::input(dice, &book, &heap, &query);
                    unfoldings::decide_and_check(comparer, dice, &input, 1);
                }
            }
        }
    }
}

/// Nil, the constants, the values of pool and question, the first numbers that
/// are none of these, the mark and the largest.
fn numbers(book: &Book, heap: &Heap, query: &Query) -> Vec<u32> {
    let mut numbers = heap.values();
    numbers.extend(book.constants.iter().chain(&query.values));
    let spares = (1..).filter(|number| !numbers.contains(number));
    let spares: Vec<u32> = spares.take(3).collect();
    numbers.extend(spares);
    numbers.extend([END_MARK, LARGEST]);
    numbers.sort();
    numbers.dedup();
    numbers
}

/// So many values of constants, question and pool, all different.
struct Apart {
    constants: Vec<u32>,
    heap: Heap,
    /// For the question.
    rest: Vec<u32>,
}

const MOST_QUESTION: usize = 4;
const MOST_APART: usize = 8 + MOST_RECORDS * (1 + MOST_FIELDS) + MOST_QUESTION;

fn apart(dice: &mut Dice) -> Apart {
    let step = dice.pick(&[1, 2, 1_000, 30_000_000]);
    let start = match dice.below(3) {
        0 => 1,
        1 => LARGEST - step * (MOST_APART as u32 - 1),
        _ => dice.between(2, 100) as u32,
    };
    let mut values: Vec<u32> = (0..MOST_APART as u32)
        .map(|index| start + index * step)
        .collect();
    // Constants below all others, above, or anywhere.
    match dice.below(4) {
        0 => {}
        1 => values.reverse(),
        _ => dice.shuffle(&mut values),
    }
    let (constants, others) = values.split_at(8);
    let (rest, pool) = others.split_at(MOST_QUESTION);
    let mut heap = Heap::default();
    for record in pool.chunks(1 + MOST_FIELDS) {
        heap = heap.with(record[0], &record[1..]);
    }
    Apart {
        constants: constants.to_vec(),
        heap,
        rest: rest.to_vec(),
    }
}

/// Each of the questions, with values that are in the pool or not: some part
/// fits for some of them. Where two values are the same number, there are fewer.
fn most_kept(comparer: &mut Comparer, dice: &mut Dice) {
    let Apart {
        mut constants,
        heap,
        rest,
    } = apart(dice);
    if dice.chance(20) {
        let at = dice.below(8);
        constants[at] = dice.pick(&[0, rest[0], heap.records[3].address, constants[7 - at]]);
    }
    let book = constant_books::most_kept().with_constants(&constants);
    let known = [constants[0], constants[3], constants[0], constants[7]];
    let record = &heap.records[dice.below(MOST_RECORDS)];
    let any = dice.pick(&record.fields);
    let questions = [
        Query::new(0, &rest),
        Query::new(0, &[rest[2], rest[3], rest[0], rest[1]]),
        Query::new(0, &known),
        Query::new(1, &[rest[0], rest[0]]),
        Query::new(1, &[any, rest[1]]),
        Query::new(1, &[any, any]),
        Query::new(2, &[record.address]),
        Query::new(2, &[any]),
        Query::new(3, &[rest[2]]),
        Query::new(3, &[constants[5]]),
        Query::new(4, &[record.address]),
        Query::new(4, &[constants[2]]),
    ];
    for query in questions {
        let input = Input::new(&book, &heap, &query);
        unfoldings::decide_and_check(comparer, dice, &input, 6);
    }
}

/// An unfolding of all records that no engine finds, since no table has room.
fn most_kept_unfolded(comparer: &mut Comparer, dice: &mut Dice) {
    let Apart {
        constants,
        heap,
        rest,
    } = apart(dice);
    let book = constant_books::most_kept_unfolded().with_constants(&constants);
    let input = Input::new(&book, &heap, &Query::new(0, &rest));
    comparer.decide_lent(&input, Sizes::of(1 + dice.below(300)));
    let lines = by_hand(&input);
    comparer.check_taken(&input, &unfoldings::bytes(&lines));
    unfoldings::every_damage(comparer, dice, &input, &lines);
}

/// A line without a record, one for each record, and the question's.
fn by_hand(input: &Input) -> Vec<Line> {
    let problem = formats::read(&input.book, &input.snapshot, &input.question);
    let problem = problem.expect("the input has no fault");
    let domain = Domain::of(&problem);
    let place = |value: u32| domain.place(value as u64) as u64;
    let known = |at: usize| place(problem.rules.constants[at]);
    let mut part = 0;
    let mut lines = vec![[1 << 44, 0, 1]];
    for (number, record) in problem.heap.records.iter().enumerate() {
        part |= 1 << number;
        let mut places = vec![place(record.address)];
        places.extend(record.fields.iter().map(|&field| place(field)));
        places.extend([known(0), known(3), known(7)]);
        let called = lines.len() as u64;
        lines.push([1 << 44 | part, positions(&places), 2 | called << 8]);
    }
    let arguments: Vec<u64> = problem
        .query
        .values
        .iter()
        .map(|&value| place(value))
        .collect();
    let mut fact = part;
    for (&argument, index) in arguments.iter().zip(0..) {
        fact |= argument << (16 + 7 * index);
    }
    lines.push([fact, positions(&arguments), (lines.len() as u64) << 8]);
    lines
}

fn positions(places: &[u64]) -> u64 {
    let bytes = places.iter().rev();
    bytes.fold(0, |word, place| word << 8 | place)
}
