//! Pools of plain books: the usual shapes by rules of which only one can hold,
//! whole, damaged, and with books that are not quite plain.

use crate::books;
use crate::compare::Comparer;
use crate::constant_books;
use crate::generate;
use crate::input::{Book, Heap, Input, Query, Record, MOST_RECORDS};
use crate::nearly;
use crate::nil::{self, LARGEST};
use crate::random::Dice;
use crate::shapes::{self, branched, chained, first, places, record, Shape};
use crate::strangers;

pub fn run(comparer: &mut Comparer, dice: &mut Dice) {
    for _ in 0..3_000 {
        if !comparer.takes_turn() {
            continue;
        }
        let size = match dice.chance(40) {
            true => MOST_RECORDS,
            false => dice.below(MOST_RECORDS + 1),
        };
        let shape = shape(dice, size);
        let input = input(dice, &shape);
        comparer.decide_known(&input, true);
        around(comparer, dice, &shape);
    }
}

fn input(dice: &mut Dice, shape: &Shape) -> Input {
    nil::input(dice, &shape.book, &shape.heap, &shape.query)
}

pub fn shape(dice: &mut Dice, size: usize) -> Shape {
    match dice.below(13) {
        0 => segment(dice, size),
        1 => of_list(dice, size, books::plain_list()),
        // No record is left without its second.
        2 => of_list(dice, size & !1, books::pairs()),
        3 => tree(dice, size),
        4 => tree_with_parents(dice, size),
        5 => lists_of_lists(dice, size),
        6 => shapes::doubly_linked(dice, size),
        7 => typed(dice, size),
        8 => shapes::in_turn(dice, size),
        9 => end_mark(dice, size),
        10 => counted(dice, size.min(3)),
        11 => fixed_by_constants(dice),
        _ => valued(dice, size),
    }
}

/// What lies around a shape: its pool damaged, another question, and books that
/// miss one of the three conditions of plain ones.
pub fn around(comparer: &mut Comparer, dice: &mut Dice, shape: &Shape) {
    let Shape { book, heap, query } = shape;
    for heap in damaged(dice, shape) {
        comparer.decide(&nil::input(dice, book, &heap, query));
    }
    let other = generate::query(dice, book, heap);
    comparer.decide(&nil::any_input(dice, book, heap, &other));
    for shape in nearly::misses(dice, shape) {
        comparer.decide(&input(dice, &shape));
    }
}

/// The pool with another pointer, a record less, a record more, and a cycle.
fn damaged(dice: &mut Dice, shape: &Shape) -> Vec<Heap> {
    let Shape { book, heap, query } = shape;
    let mut heaps = Vec::new();
    heaps.extend(shapes::broken(dice, heap));
    if !heap.records.is_empty() {
        let mut less = heap.clone();
        less.records.remove(dice.below(heap.records.len()));
        heaps.push(less);
    }
    if heap.records.len() < MOST_RECORDS {
        heaps.push(strangers::add(dice, heap, 1, &generate::field_weights(book)).0);
    }
    heaps.extend(cycle(dice, heap, query));
    heaps
}

/// The pool with one of its ends tied to the record itself or to where the
/// question starts.
fn cycle(dice: &mut Dice, heap: &Heap, query: &Query) -> Option<Heap> {
    let mut heap = heap.clone();
    let places: Vec<u32> = heap.records.iter().map(|record| record.address).collect();
    let start = query.values.iter().find(|&value| places.contains(value));
    let with_end = |record: &&mut Record| !record.fields.iter().all(|field| places.contains(field));
    let mut records: Vec<&mut Record> = heap.records.iter_mut().filter(with_end).collect();
    if records.is_empty() {
        return None;
    }
    let chosen = dice.below(records.len());
    let record = &mut records[chosen];
    let to = dice.pick(&[record.address, *start.unwrap_or(&record.address)]);
    let mut ends = record.fields.iter_mut().filter(|end| !places.contains(end));
    *ends.next()? = to;
    Some(heap)
}

/// The question is about the first place.
fn of(book: Book, places: &[u32], records: Vec<Record>) -> Shape {
    Shape {
        book,
        query: Query::new(0, &[first(places, 0)]),
        heap: Heap { records },
    }
}

/// Its ends differ, unless it is empty.
pub fn segment(dice: &mut Dice, size: usize) -> Shape {
    let mut shape = shapes::chain(dice, size);
    shape.book = books::plain_segment();
    shape
}

fn of_list(dice: &mut Dice, size: usize, book: Book) -> Shape {
    let places = places(dice, size);
    of(book, &places, chained(&places, 0))
}

pub fn tree(dice: &mut Dice, size: usize) -> Shape {
    let mut shape = shapes::tree(dice, size);
    shape.book = books::plain_tree();
    shape
}

fn tree_with_parents(dice: &mut Dice, size: usize) -> Shape {
    let places = places(dice, size);
    let above = dice.pick(&[0, 0, 777_777]);
    let mut records = branched(dice, &places);
    for at in 0..records.len() {
        let address = records[at].address;
        let parent = records
            .iter()
            .find(|one| one.fields[..2].contains(&address));
        let parent = parent.map_or(above, |one| one.address);
        records[at].fields.push(parent);
    }
    let mut shape = of(books::tree_with_parents(), &places, records);
    shape.query.values.push(above);
    shape
}

fn lists_of_lists(dice: &mut Dice, size: usize) -> Shape {
    let places = places(dice, size);
    let mut rest = &places[..];
    let mut records: Vec<Record> = Vec::new();
    while let Some((&head, after)) = rest.split_first() {
        let (below, next) = after.split_at(dice.below(after.len().min(4) + 1));
        records.push(record(head, &[first(next, 0), first(below, 0)]));
        records.extend(chained(below, 0));
        rest = next;
    }
    of(books::lists_of_lists(), &places, records)
}

pub fn typed(dice: &mut Dice, size: usize) -> Shape {
    let mut shape = shapes::typed(dice, size);
    shape.book = constant_books::plain_typed().with_constants(&shape.book.constants);
    shape
}

/// The end is no address.
fn end_mark(dice: &mut Dice, size: usize) -> Shape {
    let places = places(dice, size);
    let mark = [LARGEST, 0, 777_777].into_iter();
    let mark = mark
        .filter(|mark| !places.contains(mark))
        .collect::<Vec<u32>>();
    let mark = dice.pick(&mark);
    Shape {
        book: constant_books::end_mark().with_constants(&[mark]),
        query: Query::new(0, &[first(&places, mark)]),
        heap: Heap {
            records: chained(&places, mark),
        },
    }
}

/// Up to three records, counted by constants; for three the first code is none
/// of them.
fn counted(dice: &mut Dice, size: usize) -> Shape {
    let places = places(dice, size);
    let mut constants: Vec<u32> = Vec::new();
    while constants.len() < 3 {
        let code = shapes::code(dice, &places);
        if !constants.contains(&code) {
            constants.push(code);
        }
    }
    let other = (0..).find(|code| !constants.contains(code));
    let other = other.expect("three are not all");
    let code = constants.get(size).copied().unwrap_or(other);
    let mut records = chained(&places, 0);
    if size == 3 {
        records[0].fields.insert(0, code);
    }
    Shape {
        book: constant_books::counted().with_constants(&constants),
        query: Query::new(0, &[code, first(&places, 0)]),
        heap: Heap { records },
    }
}

/// Two records, one of them at a place that the book knows.
fn fixed_by_constants(dice: &mut Dice) -> Shape {
    let places = places(dice, 2);
    let code = shapes::code(dice, &places);
    let records = places.iter().map(|&place| record(place, &[code]));
    Shape {
        book: constant_books::fixed_by_constants().with_constants(&[code, places[1]]),
        query: Query::new(0, &[places[0]]),
        heap: Heap {
            records: records.collect(),
        },
    }
}

fn valued(dice: &mut Dice, size: usize) -> Shape {
    let mut shape = shapes::doubly_linked(dice, size);
    shape.book = books::valued();
    for record in &mut shape.heap.records {
        record.fields.push(dice.value());
    }
    shape
}
