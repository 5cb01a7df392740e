//! Pools of the usual shapes, each with the book and the question it fits.

use crate::books;
use crate::constant_books;
use crate::input::{Book, Heap, Query, Record, MOST_FIELDS};
use crate::nil::{as_read, END_MARK, LARGEST};
use crate::random::Dice;

#[derive(Clone)]
pub struct Shape {
    pub book: Book,
    pub heap: Heap,
    pub query: Query,
}

/// Every shape with this many records, where there is one.
pub fn all(dice: &mut Dice, size: usize) -> Vec<Shape> {
    let mut shapes = vec![
        chain(dice, size),
        queue(dice, size / 2, size - size / 2),
        tree(dice, size),
        doubly_linked(dice, size),
        doubly_linked_to_nil(dice, size),
        lists_in_list(dice, size),
        wide(dice, size),
        anything(dice, size),
        typed(dice, size),
        in_turn(dice, size),
        anchored(dice, size),
    ];
    if size >= 1 {
        shapes.push(ring(dice, size));
        shapes.push(lasso(dice, size));
        shapes.push(mixed(dice, size));
    }
    shapes
}

/// Different addresses, in no order: a chain shall not run from left to right.
pub fn places(dice: &mut Dice, count: usize) -> Vec<u32> {
    let start = dice.between(1, 40) as u32;
    let step = dice.between(1, 12) as u32;
    let ascending = |start: u32| (0..count as u32).map(move |index| start + index * step);
    let mut places: Vec<u32> = match dice.below(4) {
        0 => (1..=count as u32).collect(),
        1 => ascending(start).collect(),
        // Up to the largest there may be.
        2 => ascending(LARGEST - (count as u32).saturating_sub(1) * step).collect(),
        // The low eight bits keep them apart.
        _ => (0..count as u32)
            .map(|index| (dice.value() << 8) + index + 1)
            .collect(),
    };
    dice.shuffle(&mut places);
    places
}

pub fn record(address: u32, fields: &[u32]) -> Record {
    Record {
        address,
        fields: fields.to_vec(),
    }
}

/// Records of one field at these places, the last one pointing to `end`.
pub fn chained(places: &[u32], end: u32) -> Vec<Record> {
    let next = places.iter().skip(1).chain([&end]);
    let records = places.iter().zip(next);
    records.map(|(&at, &next)| record(at, &[next])).collect()
}

pub fn first(places: &[u32], end: u32) -> u32 {
    places.first().copied().unwrap_or(end)
}

pub fn chain(dice: &mut Dice, size: usize) -> Shape {
    let places = places(dice, size);
    let end = if dice.chance(50) { 0 } else { 777_777 };
    Shape {
        book: books::segment(),
        query: Query::new(0, &[first(&places, end), end]),
        heap: Heap {
            records: chained(&places, end),
        },
    }
}

pub fn ring(dice: &mut Dice, size: usize) -> Shape {
    let places = places(dice, size);
    Shape {
        book: books::house(),
        query: Query::new(1, &[places[0]]),
        heap: Heap {
            records: chained(&places, places[0]),
        },
    }
}

pub fn queue(dice: &mut Dice, used: usize, free: usize) -> Shape {
    let places = places(dice, used + free);
    let (used, free) = places.split_at(used);
    let mut records = chained(used, 0);
    records.extend(chained(free, 0));
    Shape {
        book: books::house(),
        query: Query::new(2, &[first(used, 0), first(free, 0)]),
        heap: Heap { records },
    }
}

/// A chain that ends in a ring.
fn lasso(dice: &mut Dice, size: usize) -> Shape {
    let places = places(dice, size);
    let into = places[dice.below(size)];
    Shape {
        book: books::mixed(),
        query: Query::new(2, &[places[0]]),
        heap: Heap {
            records: chained(&places, into),
        },
    }
}

/// A binary tree at these places; the first is the root.
pub fn branched(dice: &mut Dice, places: &[u32]) -> Vec<Record> {
    let mut records: Vec<Record> = Vec::new();
    for &place in places {
        if !records.is_empty() {
            // Hangs it where there is room.
            loop {
                let above = dice.below(records.len());
                let side = dice.below(2);
                if records[above].fields[side] == 0 {
                    records[above].fields[side] = place;
                    break;
                }
            }
        }
        records.push(record(place, &[0, 0]));
    }
    records
}

pub fn tree(dice: &mut Dice, size: usize) -> Shape {
    let places = places(dice, size);
    Shape {
        book: books::tree(),
        query: Query::new(0, &[first(&places, 0)]),
        heap: Heap {
            records: branched(dice, &places),
        },
    }
}

/// Each record has the next and the one before.
pub fn linked_both_ways(places: &[u32], before: u32, after: u32) -> Vec<Record> {
    let next = places.iter().skip(1).chain([&after]);
    let back = [&before].into_iter().chain(places);
    let records = places.iter().zip(next).zip(back);
    records
        .map(|((&at, &next), &back)| record(at, &[next, back]))
        .collect()
}

pub fn doubly_linked(dice: &mut Dice, size: usize) -> Shape {
    let places = places(dice, size);
    let (before, after) = dice.pick(&[(0, 0), (0, 777_777), (888_888, 777_777)]);
    let last = places.last().copied().unwrap_or(before);
    Shape {
        book: books::doubly_linked(),
        query: Query::new(0, &[first(&places, after), before, last, after]),
        heap: Heap {
            records: linked_both_ways(&places, before, after),
        },
    }
}

fn doubly_linked_to_nil(dice: &mut Dice, size: usize) -> Shape {
    let places = places(dice, size);
    Shape {
        book: books::doubly_linked_to_nil(),
        query: Query::new(0, &[first(&places, 0), 5]),
        heap: Heap {
            records: linked_both_ways(&places, 5, 0),
        },
    }
}

/// A chain of records that each have a chain of their own.
fn lists_in_list(dice: &mut Dice, size: usize) -> Shape {
    let places = places(dice, size);
    let mut rest = &places[..];
    let mut rows: Vec<(u32, &[u32])> = Vec::new();
    while let Some((&head, after)) = rest.split_first() {
        let (below, next) = after.split_at(dice.below(after.len() + 1));
        rows.push((head, below));
        rest = next;
    }
    let mut records = Vec::new();
    for (index, (head, below)) in rows.iter().enumerate() {
        let next = rows.get(index + 1).map_or(0, |row| row.0);
        records.push(record(*head, &[next, first(below, 0), 0]));
        records.extend(chained(below, 0));
    }
    Shape {
        book: books::mixed(),
        query: Query::new(4, &[first(&places, 0)]),
        heap: Heap { records },
    }
}

/// A chain whose records have values of their own: most of the kept values.
fn wide(dice: &mut Dice, size: usize) -> Shape {
    let places = places(dice, size);
    let apart = dice.between(2, 9) as u32;
    let mut records = chained(&places, 0);
    for (record, number) in records.iter_mut().zip(0..) {
        let own = [0, 1, 2].map(|index| 1_000_000 + apart * (3 * number + index));
        record.fields.extend(own);
    }
    let last = records.last().map_or(0, |record| record.fields[3]);
    Shape {
        book: books::wide(),
        query: Query::new(0, &[first(&places, 0), last]),
        heap: Heap { records },
    }
}

/// Tree, chain and ring in one pool.
fn mixed(dice: &mut Dice, size: usize) -> Shape {
    let places = places(dice, size);
    let (ring, rest) = places.split_at(dice.between(1, size));
    let (tree, chain) = rest.split_at(dice.below(rest.len() + 1));
    let mut records = chained(ring, ring[0]);
    records.extend(branched(dice, tree));
    records.extend(chained(chain, 0));
    Shape {
        book: books::mixed(),
        query: Query::new(5, &[first(tree, 0), first(chain, 0), ring[0]]),
        heap: Heap { records },
    }
}

/// Any records at all, for the book that is true of them.
pub fn anything(dice: &mut Dice, size: usize) -> Shape {
    let places = places(dice, size);
    let mut records = Vec::new();
    for &place in &places {
        let fields = dice.below(MOST_FIELDS + 1);
        let fields: Vec<u32> = (0..fields).map(|_| dice.pick(&places)).collect();
        records.push(record(place, &fields));
    }
    Shape {
        book: books::always_true(),
        query: Query::new(0, &[]),
        heap: Heap { records },
    }
}

/// A type code: any number, a small one, an address, or even nil.
pub fn code(dice: &mut Dice, places: &[u32]) -> u32 {
    match dice.below(6) {
        0 => 0,
        1 => LARGEST,
        2 => dice.value(),
        3 if !places.is_empty() => dice.pick(places),
        _ => dice.between(1, 5) as u32,
    }
}

/// Each record of a list has these codes in turn, and then the next record.
fn with_codes(places: &[u32], codes: &[u32]) -> Vec<Record> {
    let mut records = chained(places, 0);
    for (record, &code) in records.iter_mut().zip(codes.iter().cycle()) {
        record.fields.insert(0, code);
    }
    records
}

/// A list of records with a type code.
pub fn typed(dice: &mut Dice, size: usize) -> Shape {
    let places = places(dice, size);
    let code = code(dice, &places);
    Shape {
        book: constant_books::typed().with_constants(&[code]),
        query: Query::new(0, &[first(&places, 0)]),
        heap: Heap {
            records: with_codes(&places, &[code]),
        },
    }
}

/// A list of records with two type codes in turn.
pub fn in_turn(dice: &mut Dice, size: usize) -> Shape {
    let places = places(dice, size);
    let codes = [code(dice, &places), code(dice, &places)];
    Shape {
        book: constant_books::in_turn().with_constants(&codes),
        query: Query::new(0, &[first(&places, 0), codes[0]]),
        heap: Heap {
            records: with_codes(&places, &codes),
        },
    }
}

/// A segment between two addresses that the book knows.
fn anchored(dice: &mut Dice, size: usize) -> Shape {
    let places = places(dice, size);
    let end = dice.pick(&[0, 777_777]);
    Shape {
        book: constant_books::anchored().with_constants(&[first(&places, end), end]),
        query: Query::new(1, &[]),
        heap: Heap {
            records: chained(&places, end),
        },
    }
}

/// The same pool with one pointer changed; nothing if it has none.
pub fn broken(dice: &mut Dice, heap: &Heap) -> Option<Heap> {
    let mut heap = heap.clone();
    let addresses: Vec<u32> = heap.records.iter().map(|record| record.address).collect();
    let mut pointers: Vec<&mut u32> = heap
        .records
        .iter_mut()
        .flat_map(|record| record.fields.iter_mut())
        .collect();
    if pointers.is_empty() {
        return None;
    }
    let chosen = dice.below(pointers.len());
    let before = *pointers[chosen];
    let after = match dice.below(7) {
        0 => 0,
        1 => END_MARK,
        2 => dice.value(),
        3 => before.wrapping_add(1),
        _ => dice.pick(&addresses),
    };
    *pointers[chosen] = after;
    (as_read(after) != as_read(before)).then_some(heap)
}
