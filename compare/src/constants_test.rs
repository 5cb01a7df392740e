//! The self-test of constants: answers that would be right if constants were
//! read another way, each by an input for which they are.

use crate::books;
use crate::constant_books;
use crate::input::{Book, Heap, Input, Query, Rule, FIRST_CONSTANT, MOST_CONSTANTS};
use crate::judge::{self, Expected, Table};
use crate::lent::{self, About, Answer, Checked, Sizes, Walked};
use crate::parts;
use crate::selftest::MANNER;
use crate::walk;
use reference::api;

#[derive(Clone, Copy)]
pub enum Asked {
    Whole,
    SomePart,
    Walk,
    /// With the unfolding of the other input, which fits.
    Check,
}

pub const ALL: &[Asked] = &[Asked::Whole, Asked::SomePart, Asked::Walk, Asked::Check];

/// Where the other input does not fit.
pub const NO_CHECK: &[Asked] = &[Asked::Whole, Asked::SomePart, Asked::Walk];

/// Where the walk says the same of both.
const NO_WALK: &[Asked] = &[Asked::Whole, Asked::SomePart, Asked::Check];
pub const ENGINE: &[Asked] = &[Asked::Whole, Asked::SomePart];

pub struct Misread {
    pub name: &'static str,
    pub input: Input,
    /// To which the altered answer is right.
    pub other: Input,
    pub asked: &'static [Asked],
}

pub const SIZES: Sizes = Sizes::of(300);

/// Records 10 and 20, with these codes, and a list of both.
fn of_codes(book: Book, codes: [u32; 2], question: &[u32]) -> Input {
    let heap = Heap::default().with(10, &[codes[0], 20]);
    let heap = heap.with(20, &[codes[1], 0]);
    Input::new(&book, &heap, &Query::new(0, question))
}

/// The list of records with one code: that of the book, and that of the pool.
pub fn typed(constants: &[u32], code: u32) -> Input {
    let book = constant_books::plain_typed().with_constants(constants);
    of_codes(book, [code; 2], &[10])
}

/// Two codes in turn, where the first one is 4.
fn in_turn(constants: [u32; 2], codes: [u32; 2]) -> Input {
    let book = constant_books::in_turn().with_constants(&constants);
    of_codes(book, codes, &[10, 4])
}

/// Both records of a ring, with constants that no rule names.
pub fn circle(constants: &[u32]) -> Input {
    let heap = Heap::default().with(10, &[20]).with(20, &[10]);
    let book = books::segment().with_constants(constants);
    Input::new(&book, &heap, &Query::new(0, &[10, 10]))
}

/// One record that points to itself.
fn at_address(address: u8) -> Input {
    let rule = Rule::new(0, 0).equal(0, FIRST_CONSTANT).cell(address, &[0]);
    let book = Book::new(&[1], vec![rule]).with_constants(&[10]);
    let heap = Heap::default().with(10, &[10]);
    Input::new(&book, &heap, &Query::new(0, &[10]))
}

fn cases() -> Vec<Misread> {
    let case = |name, asked, input, other| Misread {
        name,
        input,
        other,
        asked,
    };
    let mut eight = vec![4; MOST_CONSTANTS];
    let read = typed(&eight, 4);
    eight.push(4);
    vec![
        case("another code", ALL, typed(&[5], 4), typed(&[4], 4)),
        case(
            "the highest byte left out",
            ALL,
            typed(&[0x0100_0004], 4),
            typed(&[4], 4),
        ),
        case(
            "the bytes the other way round",
            ALL,
            typed(&[0x0400_0000], 4),
            typed(&[4], 4),
        ),
        case("nil for a constant", ALL, typed(&[4], 0), typed(&[0], 0)),
        case(
            "a constant 0 apart from nil",
            NO_CHECK,
            typed(&[0], 0),
            typed(&[5], 0),
        ),
        case(
            "the constant after it",
            NO_CHECK,
            typed(&[4, 5], 4),
            typed(&[5, 4], 4),
        ),
        case(
            "equal constants apart",
            NO_CHECK,
            in_turn([4, 4], [4, 4]),
            in_turn([4, 5], [4, 4]),
        ),
        case(
            "constants that are not kept",
            NO_WALK,
            circle(&[5, 6]),
            circle(&[]),
        ),
        case(
            "the last one not kept",
            NO_WALK,
            circle(&[5, 6]),
            circle(&[5]),
        ),
        case("nil kept twice", ENGINE, circle(&[0]), circle(&[15])),
        case(
            "equal ones kept twice",
            ENGINE,
            circle(&[15, 15]),
            circle(&[15, 16]),
        ),
        case("a ninth constant read", ALL, typed(&eight, 4), read),
        case("a term beyond the list", ALL, typed(&[], 4), typed(&[4], 4)),
        case(
            "a constant as an address",
            ALL,
            at_address(FIRST_CONSTANT),
            at_address(0),
        ),
    ]
}

/// What was missed, and how many answers were altered.
pub fn missed() -> (Vec<&'static str>, usize) {
    missed_of(&cases())
}

/// The same of any cases.
pub fn missed_of(cases: &[Misread]) -> (Vec<&'static str>, usize) {
    let mut missed = Vec::new();
    for case in cases {
        for &asked in case.asked {
            if !right(asked, case, &case.input) {
                missed.push("an answer to a case as it is");
            }
            if right(asked, case, &case.other) {
                missed.push(case.name);
            }
        }
    }
    let altered = cases.iter().map(|case| case.asked.len());
    (missed, altered.sum())
}

/// Whether the answer to `answered` is called right for the case's input.
fn right(asked: Asked, case: &Misread, answered: &Input) -> bool {
    match asked {
        Asked::Whole => decided(About::Whole, &case.input, answered),
        Asked::SomePart => decided(About::SomePart, &case.input, answered),
        Asked::Walk => walked(&case.input, answered),
        Asked::Check => checked(case, answered),
    }
}

fn decided(about: About, input: &Input, answered: &Input) -> bool {
    let answer: Answer = lent::decide(about, answered, SIZES, MANNER);
    let [book, snapshot, question] = input.sections();
    let outcome = api::decide(book, snapshot, question, SIZES.lines, SIZES.words);
    let (reply, table) = (outcome.reply, Table::of(&outcome));
    let parts = parts::fitting(input, table.facts(reply));
    let expected = match about {
        About::Whole => Expected::whole(reply, table),
        About::SomePart => Expected::some_part(reply, table, &parts),
    };
    judge::decided(input, &expected, &answer).is_ok()
}

fn walked(input: &Input, answered: &Input) -> bool {
    let mut walked: Walked = lent::walk(answered, MANNER);
    walked.input = input.clone();
    let [book, snapshot, question] = input.sections();
    let outcome = api::decide(book, snapshot, question, SIZES.lines, SIZES.words);
    let expected = walk::Expected::of(input, outcome.reply);
    walk::judged(input, &expected, &walked).is_ok()
}

fn checked(case: &Misread, answered: &Input) -> bool {
    let [book, snapshot, question] = case.other.sections();
    let outcome = api::decide(book, snapshot, question, SIZES.lines, SIZES.words);
    let memory = outcome.memory.expect("the other input has no fault");
    let words = &memory.space[..3 * outcome.reply.lines];
    let expected = judge::reference_check(None, &case.input, words);
    let checked: Checked = lent::check(None, answered, words, MANNER);
    judge::checked(expected, words, &checked).is_ok()
}
