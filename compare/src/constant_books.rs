//! Books with constants, written by hand.

use crate::books;
use crate::input::{Book, Rule, FIRST_CONSTANT, NIL};
use crate::nil::{END_MARK, LARGEST};

/// Constants by their places in the list.
const A: u8 = FIRST_CONSTANT;
const B: u8 = A + 1;
const C: u8 = A + 2;
const D: u8 = A + 3;

/// A list to nil of records that have a type code and the next one.
pub fn typed() -> Book {
    let rules = vec![
        Rule::new(0, 0).equal(0, NIL),
        Rule::new(0, 1).cell(0, &[A, 1]).call(0, &[1]),
    ];
    Book::new(&[1], rules).with_constants(&[4])
}

/// The same with a value behind the second kind of record, which is no code.
fn two_kinds() -> Book {
    let mut book = typed().with_constants(&[4, 15]);
    let second = Rule::new(0, 2).unequal(2, A).unequal(B, 2);
    book.rules.push(second.cell(0, &[B, 1, 2]).call(0, &[1]));
    book
}

/// What follows a record is told by its code, which is handed on.
fn handed_on() -> Book {
    let rules = vec![
        Rule::new(0, 2).cell(0, &[1, 2]).call(1, &[1, 2]),
        Rule::new(1, 0).equal(0, A).call(0, &[1]),
        Rule::new(1, 0).equal(B, 0).equal(1, NIL),
        Rule::new(1, 0).unequal(0, A).unequal(0, B).equal(1, C),
    ];
    Book::new(&[1, 2], rules).with_constants(&[4, 0, 1])
}

/// Left and right of either condition, as fields, and called with.
fn every_place() -> Book {
    let rules = vec![
        Rule::new(0, 1).equal(A, 0).unequal(2, B).cell(0, &[2]),
        Rule::new(0, 1)
            .unequal(A, 0)
            .equal(2, C)
            .cell(0, &[2, 1])
            .call(1, &[B]),
        Rule::new(0, 0).call(0, &[A, B]).call(1, &[C]),
        Rule::new(0, 0).cell(1, &[A]).cell(0, &[B, C]),
        Rule::new(0, 1).equal(2, B).cell(2, &[A]).call(1, &[1]),
        Rule::new(1, 0).equal(0, B),
        Rule::new(1, 0).unequal(0, B).cell(0, &[C]),
        Rule::new(1, 0).unequal(C, A).equal(A, A).equal(C, 0),
    ];
    Book::new(&[2, 1], rules).with_constants(&[10, 20, 15])
}

/// Two of them are the same number.
fn equal_ones() -> Book {
    let rules = vec![
        Rule::new(0, 0).equal(A, B).equal(0, A),
        Rule::new(0, 0).unequal(A, B).cell(0, &[A]),
        Rule::new(0, 0).unequal(A, C).cell(0, &[B]),
        Rule::new(0, 0).equal(C, B).cell(0, &[C]),
        Rule::new(0, 0).cell(0, &[C]).call(1, &[A, B]),
        Rule::new(1, 0).equal(0, B).equal(1, A),
        Rule::new(1, 0).equal(0, 1).cell(0, &[1]),
    ];
    Book::new(&[1, 2], rules).with_constants(&[4, 4, 15])
}

/// A tree to nil, which goes by two names; the other conditions are never met.
fn zero() -> Book {
    let rules = vec![
        Rule::new(0, 0).equal(0, A),
        Rule::new(0, 0).unequal(A, NIL).cell(0, &[B]),
        Rule::new(0, 0).equal(B, NIL).cell(0, &[A]),
        Rule::new(0, 1).cell(0, &[1]).call(0, &[1]),
        Rule::new(0, 2)
            .unequal(1, NIL)
            .unequal(2, A)
            .cell(0, &[1, 2])
            .call(0, &[1])
            .call(0, &[2]),
        Rule::new(1, 0).equal(NIL, A).call(0, &[A]).call(0, &[NIL]),
    ];
    Book::new(&[1, 0], rules).with_constants(&[0, 4])
}

/// Nil by both of its spellings, which are never told apart.
fn both_spellings() -> Book {
    let rules = vec![
        Rule::new(0, 0).equal(0, A).equal(B, A),
        Rule::new(0, 0).unequal(A, B).cell(0, &[B]),
        Rule::new(0, 0).unequal(NIL, B).equal(0, B),
        Rule::new(0, 1).cell(0, &[1]).call(1, &[1, A]),
        Rule::new(1, 0).equal(0, B).equal(1, B),
        Rule::new(1, 0).cell(0, &[B]).call(0, &[1]),
    ];
    Book::new(&[1, 2], rules).with_constants(&[0, END_MARK])
}

/// Records at known addresses: one, a segment between two, a ring.
pub fn anchored() -> Book {
    let mut rules = vec![
        Rule::new(0, 0).equal(0, 1),
        Rule::new(0, 1).cell(0, &[2]).call(0, &[2, 1]),
    ];
    rules.push(Rule::new(1, 0).call(0, &[A, B]));
    rules.push(Rule::new(2, 2).equal(0, A).cell(0, &[1]));
    rules.push(Rule::new(2, 1).equal(B, 0).cell(0, &[A]));
    rules.push(Rule::new(2, 2).equal(0, A).cell(0, &[1]).call(0, &[1, A]));
    Book::new(&[2, 0, 0], rules).with_constants(&[10, 20])
}

/// The segment, with constants that no rule names.
fn unnamed() -> Book {
    books::segment().with_constants(&[1, 2, LARGEST, 0, 3, 3])
}

/// A bound variable that only a spare number can meet, and the first spare ones
/// are constants.
fn no_spares_of_these() -> Book {
    let rules = vec![
        Rule::new(0, 1)
            .unequal(1, 0)
            .unequal(1, A)
            .unequal(B, 1)
            .unequal(1, C)
            .unequal(1, NIL)
            .call(1, &[0, 1]),
        Rule::new(1, 0).equal(0, D),
        Rule::new(1, 0).cell(0, &[1]),
    ];
    Book::new(&[1, 2], rules).with_constants(&[1, 2, 5, 1])
}

/// A field that is none of as many constants as there may be.
fn none_of_eight() -> Book {
    let mut none = Rule::new(0, 1);
    for constant in A..A + 8 {
        none = none.unequal(1, constant);
    }
    let rules = vec![
        none.cell(0, &[1]).call(1, &[]),
        Rule::new(1, 0),
        Rule::new(1, 1).cell(0, &[A + 7]).call(1, &[]),
    ];
    let constants = [1, 10, 4, 15, 2, LARGEST, 20, 0];
    Book::new(&[1, 0], rules).with_constants(&constants)
}

/// A constant without a rule.
fn no_rule() -> Book {
    Book::new(&[1], Vec::new()).with_constants(&[4, 0])
}

/// All that are small enough for every small pool.
pub fn small() -> Vec<Book> {
    vec![
        typed(),
        two_kinds(),
        handed_on(),
        every_place(),
        equal_ones(),
        zero(),
        both_spellings(),
        anchored(),
        unnamed(),
        no_spares_of_these(),
        none_of_eight(),
        no_rule(),
    ]
}

/// From here on the rules share out an argument. Nil or not.
pub fn plain_typed() -> Book {
    let mut book = typed();
    book.rules[1] = book.rules[1].clone().unequal(0, NIL);
    book
}

/// Two codes in turn; the one that is due is handed on.
pub fn in_turn() -> Book {
    let next = |code: u8, other: u8| {
        let rule = Rule::new(0, 1).unequal(0, NIL).equal(1, code);
        rule.cell(0, &[code, 2]).call(0, &[2, other])
    };
    let rules = vec![Rule::new(0, 0).equal(0, NIL), next(A, B), next(B, A)];
    Book::new(&[2], rules).with_constants(&[4, 15])
}

/// A list to an end of its own, which is not nil.
pub fn end_mark() -> Book {
    let rules = vec![
        Rule::new(0, 0).equal(A, 0),
        Rule::new(0, 1).unequal(A, 0).cell(0, &[1]).call(0, &[1]),
    ];
    Book::new(&[1], rules).with_constants(&[LARGEST])
}

/// So many records: the codes count down. The last rule is for every other code.
pub fn counted() -> Book {
    let rules = vec![
        Rule::new(0, 0).equal(0, A).equal(1, NIL),
        Rule::new(0, 1).equal(B, 0).cell(1, &[2]).call(0, &[A, 2]),
        Rule::new(0, 1).equal(0, C).cell(1, &[2]).call(0, &[B, 2]),
        Rule::new(0, 2)
            .unequal(0, A)
            .unequal(B, 0)
            .unequal(0, C)
            .cell(1, &[0, 2])
            .call(0, &[C, 2]),
    ];
    Book::new(&[2], rules).with_constants(&[0, 1, 2])
}

/// Variables that only a constant fixes: a field, and the address of a record
/// that the lists share.
pub fn fixed_by_constants() -> Book {
    let rules = vec![
        Rule::new(0, 0).equal(0, NIL),
        Rule::new(0, 3)
            .equal(B, 2)
            .unequal(0, NIL)
            .equal(1, 3)
            .equal(3, A)
            .cell(2, &[3])
            .cell(0, &[1]),
    ];
    Book::new(&[1], rules).with_constants(&[4, 2])
}

/// Nil by its other name for one rule, and by its own for the next.
fn nil_by_two_names() -> Book {
    let rules = vec![
        Rule::new(0, 0).equal(0, A),
        Rule::new(0, 2)
            .unequal(0, NIL)
            .cell(0, &[1, 2])
            .call(0, &[2]),
    ];
    Book::new(&[1], rules).with_constants(&[0])
}

/// Plain as long as the constants are different.
pub fn plain() -> Vec<Book> {
    vec![
        plain_typed(),
        in_turn(),
        end_mark(),
        counted(),
        fixed_by_constants(),
        nil_by_two_names(),
    ]
}

/// For a pool with as many kept values as there may be: a rule with eight
/// variables, facts of every value, and a question with four arguments. What
/// all records are has more facts than any table has lines.
pub fn most_kept() -> Book {
    let mut none = Rule::new(3, 0);
    for constant in A..A + 8 {
        none = none.unequal(0, constant);
    }
    let rules = vec![
        Rule::new(0, 4)
            .equal(0, A)
            .equal(1, D)
            .equal(2, 0)
            .equal(3, A + 7)
            .cell(4, &[5, 6, 7, B]),
        Rule::new(1, 0).equal(0, 1),
        Rule::new(2, 4).cell(0, &[1, 2, 3, 4]),
        none,
        Rule::new(4, 0).equal(0, C),
        Rule::new(4, 1).equal(1, D).unequal(0, 1).call(2, &[0]),
    ];
    let constants = [1, 2, 3, 4, 5, 6, 7, 8];
    Book::new(&[4, 2, 1, 1, 1], rules).with_constants(&constants)
}

/// The same for an unfolding of all records: every value will do for the four
/// arguments, so no engine's table has room.
pub fn most_kept_unfolded() -> Book {
    let rules = vec![
        Rule::new(0, 0).unequal(0, A).unequal(A + 7, 3).call(1, &[]),
        Rule::new(1, 0),
        Rule::new(1, 8)
            .equal(5, A)
            .equal(6, D)
            .equal(A + 7, 7)
            .unequal(0, B)
            .cell(0, &[1, 2, 3, 4])
            .call(1, &[]),
    ];
    let constants = [1, 2, 3, 4, 5, 6, 7, 8];
    Book::new(&[4, 0], rules).with_constants(&constants)
}
