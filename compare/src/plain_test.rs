//! The self-test of plain books: answers of the walk that would be right if the
//! three conditions were read another way.

use crate::books;
use crate::constants_test::{self, Asked, Misread};
use crate::input::{Book, Heap, Input, Query, Rule, FIRST_CONSTANT, NIL};
use crate::nil::{END_MARK, LARGEST};

const WALK: &[Asked] = &[Asked::Walk];

const A: u8 = FIRST_CONSTANT;
const B: u8 = FIRST_CONSTANT + 1;

/// A list of records 10 and 20, which fits.
fn asked(book: Book) -> Input {
    let heap = Heap::default().with(10, &[20]).with(20, &[0]);
    Input::new(&book, &heap, &Query::new(0, &[10]))
}

/// The plain list with other rules for its end and its records.
fn list(end: Rule, step: Rule) -> Book {
    Book::new(&[1], vec![end, step.cell(0, &[1]).call(0, &[1])])
}

fn end() -> Rule {
    Rule::new(0, 0).equal(0, NIL)
}

fn step() -> Rule {
    Rule::new(0, 1).unequal(0, NIL)
}

/// The plain list and these rules.
fn with(rules: &[Rule]) -> Book {
    let mut book = list(end(), step());
    book.rules.extend_from_slice(rules);
    book
}

fn never() -> Rule {
    Rule::new(0, 0).unequal(NIL, NIL)
}

/// The end of the list as a chain of four equalities.
fn chain(middle: u8) -> Book {
    let end = Rule::new(0, 3).equal(3, NIL).equal(middle, 3);
    list(end.equal(1, 0).equal(2, 1), step())
}

/// Two more rules that end, by constants.
fn two_more(constants: [u32; 2]) -> Book {
    let step = step().unequal(0, A).unequal(0, B);
    let mut book = list(end(), step).with_constants(&constants);
    book.rules.push(Rule::new(0, 0).equal(0, A));
    book.rules.push(Rule::new(0, 0).equal(B, 0));
    book
}

/// The last record has a rule of its own, by its field.
fn by_a_field() -> Book {
    let last = Rule::new(0, 1).equal(1, NIL).cell(0, &[1]);
    let other = Rule::new(0, 1).unequal(1, NIL).cell(0, &[1]);
    Book::new(&[1], vec![last, other.call(0, &[1])])
}

/// A rule without a cell for another predicate.
fn out_of_reach() -> Book {
    let mut book = with(&[Rule::new(1, 0).call(0, &[0])]);
    book.arities.push(1);
    book
}

fn end_with(bound: Rule) -> Book {
    list(bound.equal(0, NIL), step())
}

fn without_question(book: Book) -> Input {
    let mut input = asked(book);
    input.question.clear();
    input
}

fn cases() -> Vec<Misread> {
    let plain = || asked(books::plain_list());
    let twice = || asked(with(&[end()]));
    let case = |name, input, other| Misread {
        name,
        input,
        other,
        asked: WALK,
    };
    let taken_for_plain = |name, book| case(name, asked(book), plain());
    vec![
        taken_for_plain("bound variables of one number are one", by_a_field()),
        taken_for_plain("the same rule twice is one", with(&[end()])),
        taken_for_plain("nil as a constant is another rule's", two_more([0, 7])),
        taken_for_plain("the mark is not nil", two_more([LARGEST, END_MARK])),
        taken_for_plain("constants of one number differ", two_more([7, 7])),
        taken_for_plain("a chain that is cut", chain(3)),
        taken_for_plain("unequal fixes", end_with(Rule::new(0, 1).unequal(1, NIL))),
        taken_for_plain("a variable that stands nowhere", end_with(Rule::new(0, 1))),
        taken_for_plain(
            "a field fixes its address",
            with(&[Rule::new(0, 1).unequal(0, 0).cell(1, &[0])]),
        ),
        taken_for_plain("rules out of reach do not count", out_of_reach()),
        taken_for_plain(
            "rules that are never met do not count",
            with(&[Rule::new(0, 1).unequal(NIL, NIL)]),
        ),
        case("a chain that is not followed", asked(chain(2)), twice()),
        case(
            "constants that differ are one",
            asked(two_more([7, LARGEST])),
            twice(),
        ),
        case(
            "a constant fixes nothing",
            asked(end_with(Rule::new(0, 1).equal(A, 1)).with_constants(&[7])),
            twice(),
        ),
        case(
            "rules that are never met count as met",
            asked(with(&[never(), never()])),
            twice(),
        ),
        case(
            "12 before the question is read",
            without_question(with(&[end()])),
            twice(),
        ),
    ]
}

/// What was missed, and how many answers were altered.
pub fn missed() -> (Vec<&'static str>, usize) {
    constants_test::missed_of(&cases())
}
