//! Every small pool: up to three records with one field, and up to two with
//! two fields for books that have such, each with every question about its
//! values, or some of them where a predicate has more than two arguments.

use crate::books;
use crate::compare::Comparer;
use crate::input::{Book, Heap, Query};
use crate::nil::{self, LARGEST};
use crate::random::Dice;
use crate::unfoldings;

/// Addresses, and last a value that is none. The spare numbers lie differently
/// among them, and the last row is at the ends of 32 bits.
const PLACES: [[u32; 4]; 3] = [
    [1, 2, 3, 4],
    [10, 20, 30, 15],
    [0x7FFF_FFFF, 0x8000_0000, LARGEST, LARGEST - 1],
];

/// With more arguments than this, a few questions stand for all.
const ALL_QUESTIONS: usize = 2;
const SOME_QUESTIONS: usize = 25;

pub fn run(comparer: &mut Comparer, dice: &mut Dice) {
    for book in [books::small(), books::plain()].concat() {
        for records in 0..=3 {
            every_heap(comparer, dice, &book, records, 1);
        }
        let mut cells = book.rules.iter().flat_map(|rule| &rule.cells);
        if cells.any(|(_, fields)| fields.len() == 2) {
            every_heap(comparer, dice, &book, 1, 2);
            every_heap(comparer, dice, &book, 2, 2);
        }
    }
}

/// All ways to fill the fields with nil, an address or a value that is none.
/// About half of the constants are among these too.
fn every_heap(comparer: &mut Comparer, dice: &mut Dice, book: &Book, count: usize, fields: usize) {
    for choice in tuples(count + 2, count * fields) {
        let places = dice.pick(&PLACES);
        let values = values(&places, count);
        let mut heap = Heap::default();
        let mut book = book.clone();
        for constant in &mut book.constants {
            match dice.below(8) {
                0..=3 => *constant = dice.pick(&values),
                4 => *constant = 5,
                _ => {}
            }
        }
        for record in 0..count {
            let own = &choice[record * fields..(record + 1) * fields];
            let own: Vec<u32> = own.iter().map(|&index| values[index]).collect();
            heap = heap.with(places[record], &own);
        }
        every_question(comparer, dice, &book, &heap, &values);
    }
}

/// Nil, the addresses in use, and a value that is none.
fn values(places: &[u32; 4], count: usize) -> Vec<u32> {
    let mut values = vec![0, places[3]];
    values.extend(&places[..count]);
    values
}

fn every_question(
    comparer: &mut Comparer,
    dice: &mut Dice,
    book: &Book,
    heap: &Heap,
    values: &[u32],
) {
    for (predicate, &arity) in book.arities.iter().enumerate() {
        let arity = arity as usize;
        let choices = if arity <= ALL_QUESTIONS {
            tuples(values.len(), arity)
        } else {
            let mut draw = || (0..arity).map(|_| dice.below(values.len())).collect();
            (0..SOME_QUESTIONS).map(|_| draw()).collect()
        };
        for choice in choices {
            if !comparer.takes_turn() {
                continue;
            }
            let chosen: Vec<u32> = choice.iter().map(|&index| values[index]).collect();
            let query = Query::new(predicate as u8, &chosen);
            let input = nil::input(dice, book, heap, &query);
            unfoldings::decide_and_check(comparer, dice, &input, 1);
        }
    }
}

/// All lists of this length with entries below `size`.
fn tuples(size: usize, length: usize) -> Vec<Vec<usize>> {
    let mut tuples = vec![Vec::new()];
    for _ in 0..length {
        tuples = tuples
            .into_iter()
            .flat_map(|tuple| {
                (0..size).map(move |entry| {
                    let mut longer = tuple.clone();
                    longer.push(entry);
                    longer
                })
            })
            .collect();
    }
    tuples
}
