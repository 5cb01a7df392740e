//! Inputs that cost time in a long table: with 1,024 lines it would be full.

use crate::input::*;

/// Those with a reply of the reference for 65,535 lines.
pub fn made() -> Vec<(&'static str, Input)> {
    vec![("triangle-of-pairs", triangle())]
}

/// Those that are kept without one, since the reference takes too long.
pub fn without_reply() -> Vec<(&'static str, Input)> {
    vec![
        ("three-true-14", three_true()),
        ("differ-in-one-place", differ_in_one_place()),
    ]
}

/// So many records with the addresses from 10 on, each with four fields that
/// are nowhere else.
fn apart(records: u32) -> Heap {
    let mut heap = Heap::default();
    for record in 0..records {
        let first = 100 + 4 * record;
        heap = heap.with(10 + record, &[first, first + 1, first + 2, first + 3]);
    }
    heap
}

/// Every pair of values is a fact, and three of these must close a triangle.
fn triangle() -> Input {
    let rules = vec![
        Rule::new(0, 0),
        Rule::new(1, 2)
            .call(0, &[0, 1])
            .call(0, &[1, 2])
            .call(0, &[2, 0]),
    ];
    let book = Book::new(&[2, 1], rules);
    Input::new(&book, &apart(16), &Query::new(1, &[0]))
}

/// Every subset of fourteen records, put together from three in every way.
fn three_true() -> Input {
    let rules = vec![
        Rule::new(0, 0),
        Rule::new(0, 1).cell(0, &[]),
        Rule::new(0, 0).call(0, &[]).call(0, &[]).call(0, &[]),
    ];
    let mut heap = Heap::default();
    for address in 1..=14 {
        heap = heap.with(address, &[]);
    }
    let book = Book::new(&[0], rules);
    Input::new(&book, &heap, &Query::new(0, &[]))
}

/// Every three values are a fact. Those called differ in one place from others
/// that would do as well.
fn differ_in_one_place() -> Input {
    let rules = vec![
        Rule::new(0, 0),
        Rule::new(1, 7)
            .unequal(0, 6)
            .unequal(3, 5)
            .call(0, &[0, 1, 2])
            .call(0, &[3, 1, 4])
            .call(0, &[5, 4, 6]),
    ];
    let book = Book::new(&[3, 0], rules);
    Input::new(&book, &apart(6), &Query::new(1, &[]))
}
