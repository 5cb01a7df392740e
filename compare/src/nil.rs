//! Nil as it is written: four bytes 0, or the end mark. Books, pools and
//! questions have 0 while they are made; the mark comes in with their bytes.

use crate::input::*;
use crate::random::Dice;

/// Read as 0, and no address.
pub const END_MARK: u32 = u32::MAX;

/// The largest number that is read as itself, and the largest address.
pub const LARGEST: u32 = END_MARK - 1;

pub fn as_read(number: u32) -> u32 {
    match number {
        END_MARK => 0,
        number => number,
    }
}

/// What a number of four bytes is for.
#[derive(Clone, Copy, PartialEq, Eq)]
pub enum Kind {
    Constant,
    Address,
    Field,
    Value,
}

/// Where it stands in its section.
#[derive(Clone, Copy)]
pub struct Place {
    pub kind: Kind,
    at: usize,
}

impl Place {
    fn section(self) -> usize {
        match self.kind {
            Kind::Constant => 0,
            Kind::Address | Kind::Field => 1,
            Kind::Value => 2,
        }
    }

    pub fn is_nil(self, input: &Input) -> bool {
        self.kind != Kind::Address && as_read(self.number(input)) == 0
    }

    pub fn is_mark(self, input: &Input) -> bool {
        self.number(input) == END_MARK
    }

    pub fn number(self, input: &Input) -> u32 {
        let bytes = &input.sections()[self.section()][self.at..self.at + 4];
        u32::from_le_bytes(bytes.try_into().expect("they are four"))
    }

    pub fn write(self, input: &mut Input, number: u32) {
        let section = &mut input.sections_mut()[self.section()];
        section[self.at..self.at + 4].copy_from_slice(&number.to_le_bytes());
    }

    /// Where the bytes after it begin.
    pub fn end(self) -> usize {
        self.at + 4
    }
}

/// All numbers of four bytes, in the order of the bytes. Each section up to
/// where it cannot be read on.
pub fn places(input: &Input) -> Vec<Place> {
    let whole = |place: &Place| place.end() <= input.sections()[place.section()].len();
    let all = [constants(input), of_pool(input), of_question(input)];
    all.concat().into_iter().filter(whole).collect()
}

/// Places of this kind one after the other.
fn row(kind: Kind, first: usize, count: usize) -> Vec<Place> {
    let places = (first..).step_by(4).take(count);
    places.map(|at| Place { kind, at }).collect()
}

/// A byte, unless it is missing or too large.
fn count(section: &[u8], at: usize, most: usize) -> Option<usize> {
    let count = *section.get(at)? as usize;
    (count <= most).then_some(count)
}

fn constants(input: &Input) -> Vec<Place> {
    let book = &input.book;
    let listed = |predicates| count(book, 1 + predicates, MOST_CONSTANTS);
    let Some(predicates) = count(book, 0, MOST_PREDICATES) else {
        return Vec::new();
    };
    row(
        Kind::Constant,
        2 + predicates,
        listed(predicates).unwrap_or(0),
    )
}

fn of_pool(input: &Input) -> Vec<Place> {
    let snapshot = &input.snapshot;
    let mut places = Vec::new();
    let mut at = 1;
    for _ in 0..count(snapshot, 0, MOST_RECORDS).unwrap_or(0) {
        places.extend(row(Kind::Address, at, 1));
        let Some(fields) = count(snapshot, at + 4, MOST_FIELDS) else {
            break;
        };
        places.extend(row(Kind::Field, at + 5, fields));
        at += 5 + 4 * fields;
    }
    places
}

fn of_question(input: &Input) -> Vec<Place> {
    let values = count(&input.question, 1, MOST_ARGUMENTS);
    row(Kind::Value, 2, values.unwrap_or(0))
}

pub fn nils(input: &Input) -> Vec<Place> {
    let mut places = places(input);
    places.retain(|place| place.is_nil(input));
    places
}

/// The input with every nil written so.
pub fn spelt(input: &Input, number: u32) -> Input {
    let mut other = input.clone();
    for place in nils(input) {
        place.write(&mut other, number);
    }
    other
}

/// The same input with each nil written as the mark, so often, or as 0.
pub fn drawn(dice: &mut Dice, input: &Input, percent: usize) -> Input {
    let mut other = input.clone();
    for place in nils(input) {
        let marked = dice.chance(percent);
        place.write(&mut other, if marked { END_MARK } else { 0 });
    }
    other
}

/// An input with nil as it was made, or in which few nils, half or all are the
/// mark.
pub fn input(dice: &mut Dice, book: &Book, heap: &Heap, query: &Query) -> Input {
    let input = Input::new(book, heap, query);
    match dice.below(5) {
        0 => drawn(dice, &input, 10),
        1 => drawn(dice, &input, 50),
        2 => drawn(dice, &input, 100),
        _ => input,
    }
}

/// The same where nothing hangs on what the input means: now and then some
/// other numbers are the mark as well.
pub fn any_input(dice: &mut Dice, book: &Book, heap: &Heap, query: &Query) -> Input {
    let mut input = input(dice, book, heap, query);
    if dice.chance(10) {
        for place in places(&input) {
            let percent = match place.kind {
                Kind::Address => 2,
                _ => 15,
            };
            if dice.chance(percent) {
                place.write(&mut input, END_MARK);
            }
        }
    }
    input
}
