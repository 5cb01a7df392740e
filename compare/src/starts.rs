//! Where climbs begin: inputs of several kinds.

use crate::changes;
use crate::costly;
use crate::generate::{self, Size};
use crate::grow;
use crate::input::*;
use crate::plain;
use crate::random::Dice;
use crate::readback;
use crate::shapes::{self, Shape};
use crate::steps;

pub struct Kind {
    pub name: &'static str,
    pub draw: fn(&mut Dice) -> Shape,
}

/// For the engine.
pub const KINDS: [Kind; 7] = [
    Kind {
        name: "many calls",
        draw: many_calls,
    },
    Kind {
        name: "kept",
        draw: kept,
    },
    Kind {
        name: "random book",
        draw: random,
    },
    Kind {
        name: "grown pool",
        draw: grown,
    },
    Kind {
        name: "usual shape",
        draw: usual,
    },
    Kind {
        name: "every part",
        draw: every_part,
    },
    Kind {
        name: "ground in vain",
        draw: in_vain,
    },
];

/// For the walk.
pub const WALKED: [Kind; 2] = [
    Kind {
        name: "plain shape",
        draw: |dice| plain::shape(dice, MOST_RECORDS),
    },
    Kind {
        name: "kept",
        draw: kept,
    },
];

fn records(dice: &mut Dice) -> usize {
    dice.between(10, MOST_RECORDS)
}

fn with_pool(dice: &mut Dice, book: Book) -> Shape {
    let records = records(dice);
    let heap = generate::heap(dice, &book, records);
    let query = generate::query(dice, &book, &heap);
    Shape { book, heap, query }
}

fn random(dice: &mut Dice) -> Shape {
    let size = dice.pick(&[Size::Middle, Size::Largest]);
    let book = generate::book(dice, size);
    with_pool(dice, book)
}

/// Most rules of a random book get up to three calls.
fn many_calls(dice: &mut Dice) -> Shape {
    let mut book = generate::book(dice, Size::Largest);
    for _ in 0..2 * book.rules.len() {
        changes::call_more(dice, &mut book);
    }
    with_pool(dice, book)
}

/// An input made to cost time, and now and then some steps from it.
fn kept(dice: &mut Dice) -> Shape {
    let mut inputs = costly::made();
    let (_, input) = inputs.swap_remove(dice.below(inputs.len()));
    let shape = readback::shape(&input).expect("it has no fault");
    let steps = dice.pick(&[0, 1, 3, 6]);
    steps::far(dice, &shape, steps)
}

fn grown(dice: &mut Dice) -> Shape {
    let size = dice.pick(&[Size::Middle, Size::Largest]);
    let book = generate::book(dice, size);
    let records = records(dice);
    let (heap, query) = grow::grow(dice, &book, records);
    let mut shape = Shape { book, heap, query };
    while shape.heap.records.len() < records {
        steps::record_more(dice, &mut shape);
    }
    shape
}

fn usual(dice: &mut Dice) -> Shape {
    let records = records(dice);
    let mut shapes = shapes::all(dice, records);
    let mut shape = shapes.swap_remove(dice.below(shapes.len()));
    for _ in 0..dice.below(4) {
        steps::rule_more(dice, &mut shape);
    }
    shape
}

/// A predicate for each set of records of some size, and rules that put these
/// together.
fn every_part(dice: &mut Dice) -> Shape {
    let cells = dice.between(1, MOST_CELLS);
    let start = (0..cells as u8).fold(Rule::new(0, cells as u8), |rule, cell| rule.cell(cell, &[]));
    let mut rules = vec![start];
    for _ in 0..dice.between(1, 4) {
        let head = dice.below(2) as u8;
        let calls = dice.between(2, MOST_CALLS);
        rules.push((0..calls).fold(Rule::new(head, 0), |rule, _| {
            rule.call(dice.below(2) as u8, &[])
        }));
    }
    let mut heap = Heap::default();
    for address in 1..=records(dice) as u32 {
        heap = heap.with(address, &[]);
    }
    Shape {
        book: Book::new(&[0, 0], rules),
        heap,
        query: Query::new(dice.below(2) as u8, &[]),
    }
}

/// A usual shape, which fits. For each line of its unfolding another rule is
/// tried first, with three calls of a predicate that holds for any two values.
fn in_vain(dice: &mut Dice) -> Shape {
    let mut shape = usual(dice);
    let Shape { book, query, .. } = &mut shape;
    let pairs = book.arities.len();
    if pairs == MOST_PREDICATES || book.rules.len() > MOST_RULES - 2 {
        return shape;
    }
    book.arities.push(2);
    book.rules.push(Rule::new(pairs as u8, 0).unequal(0, 1));
    let arity = book.arities[query.predicate as usize];
    let bound = dice.between(1, MOST_VARIABLES - arity as usize) as u8;
    let mut rule = Rule::new(query.predicate, bound);
    for _ in 0..MOST_CALLS {
        let terms = [(); 2].map(|()| dice.below((arity + bound) as usize) as u8);
        rule = rule.call(pairs as u8, &terms);
    }
    book.rules.insert(0, rule);
    shape
}
