//! Inputs in both spellings of nil: each nil written as the mark and back. And
//! the mark as an address, which is refused where it is met.

use crate::compare::Comparer;
use crate::damage;
use crate::generate;
use crate::grow;
use crate::input::{Input, MOST_RECORDS};
use crate::lent::Sizes;
use crate::nil::{self, Kind, Place, END_MARK, LARGEST};
use crate::plain;
use crate::pools;
use crate::random::Dice;
use crate::shapes;
use crate::sizes;
use crate::twins::{Asked, Replies};
use crate::unfoldings;

pub fn run(comparer: &mut Comparer, dice: &mut Dice) {
    for input in pools::small_inputs(dice) {
        every_kind(comparer, dice, &input);
        for faulty in damage::one_of_each_fault(&input) {
            if comparer.takes_turn() {
                every_spelling(comparer, dice, &faulty);
            }
        }
    }
    for size in 0..=MOST_RECORDS {
        for shape in shapes::all(dice, size) {
            let input = Input::new(&shape.book, &shape.heap, &shape.query);
            every_kind(comparer, dice, &input);
        }
    }
    for _ in 0..1_000 {
        let input = any(dice);
        every_kind(comparer, dice, &input);
    }
}

/// A plain shape, a grown pool, or a random one.
fn any(dice: &mut Dice) -> Input {
    let (size, records) = pools::sizes(dice);
    if dice.chance(30) {
        let shape = plain::shape(dice, records);
        return Input::new(&shape.book, &shape.heap, &shape.query);
    }
    let book = pools::any_book(dice, size);
    let (heap, query) = match dice.chance(70) {
        true => grow::grow(dice, &book, records),
        false => {
            let heap = generate::heap(dice, &book, records);
            let query = generate::query(dice, &book, &heap);
            (heap, query)
        }
    };
    Input::new(&book, &heap, &query)
}

fn every_kind(comparer: &mut Comparer, dice: &mut Dice, input: &Input) {
    if comparer.takes_turn() {
        every_spelling(comparer, dice, input);
        every_address(comparer, dice, input);
    }
}

/// With 0, with the mark, with one of the one among the other, and drawn.
fn every_spelling(comparer: &mut Comparer, dice: &mut Dice, input: &Input) {
    let nils = nil::nils(input);
    if nils.is_empty() {
        return;
    }
    let (zeros, marks) = (nil::spelt(input, 0), nil::spelt(input, END_MARK));
    let asked = asked(comparer, dice, &zeros);
    let asked = asked.map(|asked| (Replies::of(&zeros, &asked), asked));
    let one = |input: &Input, place: &Place, number| {
        let mut other = input.clone();
        place.write(&mut other, number);
        other
    };
    let mut spellings = vec![nil::drawn(dice, &zeros, 50), nil::drawn(dice, &zeros, 20)];
    spellings.extend(nils.iter().map(|nil| one(&zeros, nil, END_MARK)));
    spellings.extend(nils.iter().map(|nil| one(&marks, nil, 0)));
    spellings.push(marks);
    for spelt in &spellings {
        for (of_zeros, asked) in &asked {
            comparer.spelt(spelt, asked, of_zeros);
        }
        unfoldings::decide_and_check(comparer, dice, spelt, 1);
    }
}

/// What all spellings are asked with, by what comes of this one: an unfolding if
/// there is any, memory of the desk's size and of another.
fn asked(comparer: &mut Comparer, dice: &mut Dice, zeros: &Input) -> [Asked; 2] {
    let decided = comparer.decide(zeros);
    let other = sizes::drawn(dice, decided.reply.unwrap_or_default());
    let part = decided.parts.first().copied().unwrap_or(0);
    let unfolding = decided.all_unfoldings().into_iter().next();
    let words = unfolding.unwrap_or_default().concat();
    [Sizes::OWN, other].map(|sizes| Asked {
        sizes,
        manner: comparer.manner(),
        words: words.clone(),
        part,
    })
}

/// Each address as the mark: alone if it is the last, else before one that is
/// lower; and with a fault more, before it or after.
fn every_address(comparer: &mut Comparer, dice: &mut Dice, input: &Input) {
    let mut places = nil::places(input);
    places.retain(|place| place.kind == Kind::Address);
    let Some(last) = places.last() else {
        return;
    };
    for place in &places {
        let mut marked = input.clone();
        place.write(&mut marked, END_MARK);
        ask(comparer, &marked);
    }
    for number in [LARGEST, END_MARK] {
        let renamed = renamed(input, last.number(input), number);
        unfoldings::decide_and_check(comparer, dice, &renamed, 1);
        for faulty in damage::one_of_each_fault(&renamed) {
            ask(comparer, &faulty);
        }
        for faulty in about(&renamed, *last) {
            ask(comparer, &faulty);
        }
    }
}

fn ask(comparer: &mut Comparer, input: &Input) {
    comparer.decide(input);
    comparer.check(input, &[]);
}

/// The input with another number in place of this one, wherever it stands.
fn renamed(input: &Input, from: u32, to: u32) -> Input {
    let mut other = input.clone();
    for place in nil::places(input) {
        if place.number(input) == from {
            place.write(&mut other, to);
        }
    }
    other
}

/// The snapshot cut in the address, cut behind it, and with too many fields.
fn about(input: &Input, address: Place) -> Vec<Input> {
    let mut faulty = Vec::new();
    for end in address.end() - 4..=address.end() + 1 {
        let mut cut = input.clone();
        cut.snapshot.truncate(end);
        faulty.push(cut);
    }
    let mut fields = input.clone();
    fields.snapshot.truncate(address.end());
    fields.snapshot.push(5);
    faulty.push(fields);
    faulty
}
