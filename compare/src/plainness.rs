//! Plain or not: random books, plain ones, those changed in a place or two, and
//! others, with a pool and a question for each.

use crate::books;
use crate::chains;
use crate::changes;
use crate::compare::Comparer;
use crate::damage;
use crate::generate::{self, Size};
use crate::grow;
use crate::input::{Book, Input};
use crate::nil;
use crate::random::Dice;
use crate::split;
use reference::api;

/// Two books for each, if the change finds its place.
const TURNS: usize = 60_000;

/// One input of so many goes to the engine too, which takes far longer.
const ENGINE_SHARE: usize = 12;

pub fn run(comparer: &mut Comparer, dice: &mut Dice) {
    for _ in 0..TURNS {
        if !comparer.takes_turn() {
            continue;
        }
        let before = book(dice);
        walk(comparer, dice, &before, &before);
        let after = match dice.chance(80) {
            true => changes::one(dice, &before),
            false => Some(changes::several(dice, &before, 4)),
        };
        if let Some(after) = after {
            walk(comparer, dice, &after, &before);
            changed(comparer, &before, &after);
        }
    }
}

fn book(dice: &mut Dice) -> Book {
    let mut book = match dice.weighted(&[45, 20, 10, 10, 10, 5]) {
        0 => split::book(dice),
        1 => chains::linked(dice),
        2 => chains::by_a_field(dice),
        3 => by_hand(dice),
        4 => generate::book(dice, Size::Small),
        _ => generate::book(dice, Size::Largest),
    };
    if dice.chance(50) {
        chains::stretch(dice, &mut book);
    }
    book
}

fn by_hand(dice: &mut Dice) -> Book {
    let mut books = books::plain();
    books.swap_remove(dice.below(books.len()))
}

/// A pool and a question that fit one of the two books, mostly, and now and
/// then a fault in them.
fn walk(comparer: &mut Comparer, dice: &mut Dice, book: &Book, other: &Book) {
    let of = match dice.chance(70) {
        true => book,
        false => other,
    };
    let records = dice.below(6);
    let (heap, query) = grow::grow(dice, of, records);
    let mut input = nil::input(dice, book, &heap, &query);
    if dice.chance(6) {
        input = faulty(dice, &input);
    }
    if dice.below(ENGINE_SHARE) == 0 {
        comparer.decide(&input);
    } else {
        comparer.walk_alone(&input);
    }
}

/// A fault of the snapshot, or of the question.
fn faulty(dice: &mut Dice, input: &Input) -> Input {
    let mut other = input.clone();
    match dice.below(6) {
        0 => other.question.push(0),
        1 => other.question[0] = 200,
        2 => other.question[1] += 1,
        3 => other.question.clear(),
        _ => {
            let mut faulty = damage::one_of_each_fault(input);
            other = faulty.swap_remove(dice.between(4, 7));
        }
    }
    other
}

/// A chain that kept two rules apart may be cut.
fn changed(comparer: &mut Comparer, before: &Book, after: &Book) {
    let (before, after) = (before.bytes(), after.bytes());
    if let (Ok(true), Ok(faults)) = (api::plain_book(&before), api::plain_faults(&after)) {
        comparer.tally.books.changed(&before, &faults);
    }
}
