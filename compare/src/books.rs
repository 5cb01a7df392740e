//! Books written by hand.

use crate::constant_books;
use crate::input::{Book, Rule, NIL};

/// The list segment (L of the paper).
pub fn segment() -> Book {
    Book::new(&[2], segment_rules(0))
}

/// The segment's two rules, for a book in which it is this predicate.
fn segment_rules(segment: u8) -> Vec<Rule> {
    vec![
        Rule::new(segment, 0).equal(0, 1),
        Rule::new(segment, 1).cell(0, &[2]).call(segment, &[2, 1]),
    ]
}

/// Segment, ring, and queue with free chain (H of the paper).
pub fn house() -> Book {
    let mut rules = segment_rules(0);
    rules.push(Rule::new(1, 1).cell(0, &[1]).call(0, &[1, 0]));
    rules.push(Rule::new(2, 0).call(0, &[0, NIL]).call(0, &[1, NIL]));
    Book::new(&[2, 1, 2], rules)
}

/// A bound variable that only a spare value can meet (S of the paper).
pub fn spare() -> Book {
    let rules = vec![
        Rule::new(0, 1).unequal(1, 0).call(1, &[0, 1]),
        Rule::new(1, 0),
    ];
    Book::new(&[1, 2], rules)
}

/// First record, what points to it from behind, last record, what follows it.
pub fn doubly_linked() -> Book {
    let rules = vec![
        Rule::new(0, 0).equal(0, 3).equal(1, 2),
        Rule::new(0, 1)
            .unequal(0, 3)
            .cell(0, &[4, 1])
            .call(0, &[4, 0, 2, 3]),
    ];
    Book::new(&[4], rules)
}

/// Doubly linked to nil, with two arguments: record and the one before it.
pub fn doubly_linked_to_nil() -> Book {
    let rules = vec![
        Rule::new(0, 0).equal(0, NIL),
        Rule::new(0, 1).cell(0, &[2, 1]).call(0, &[2, 0]),
    ];
    Book::new(&[2], rules)
}

/// Binary tree.
pub fn tree() -> Book {
    let rules = vec![
        Rule::new(0, 0).equal(0, NIL),
        Rule::new(0, 2).cell(0, &[1, 2]).call(0, &[1]).call(0, &[2]),
    ];
    Book::new(&[1], rules)
}

/// True of every pool: the empty part, or one record and again true.
pub fn always_true() -> Book {
    let mut rules = vec![Rule::new(0, 0)];
    for fields in 0..=4u8 {
        let terms: Vec<u8> = (1..=fields).collect();
        rules.push(Rule::new(0, fields + 1).cell(0, &terms).call(0, &[]));
    }
    Book::new(&[0], rules)
}

/// Bound variables that occur only in unequal conditions.
fn unequal_only() -> Book {
    let rules = vec![
        Rule::new(0, 3)
            .unequal(1, 0)
            .unequal(2, 1)
            .unequal(3, 2)
            .unequal(3, 0)
            .unequal(2, NIL),
        Rule::new(0, 2).unequal(1, 2).unequal(1, 0).cell(0, &[0]),
        Rule::new(0, 2)
            .unequal(1, 2)
            .unequal(2, 0)
            .cell(0, &[1])
            .call(0, &[1]),
        Rule::new(1, 2)
            .unequal(0, 1)
            .unequal(2, 3)
            .unequal(0, 2)
            .unequal(1, 3)
            .cell(0, &[1]),
    ];
    Book::new(&[1, 2], rules)
}

/// Nothing but calls above two starts.
fn calls_only() -> Book {
    let rules = vec![
        Rule::new(0, 1).call(1, &[0]).call(2, &[0, 1]),
        Rule::new(0, 2).call(0, &[1]).call(0, &[2]).call(1, &[0]),
        Rule::new(1, 0).unequal(0, NIL),
        Rule::new(2, 0).cell(0, &[1]),
        Rule::new(2, 1).call(2, &[0, 2]).call(2, &[2, 1]),
    ];
    Book::new(&[1, 1, 2], rules)
}

/// Nothing but empty parts.
fn empty_only() -> Book {
    let rules = vec![
        Rule::new(0, 0),
        Rule::new(1, 0).unequal(0, 1),
        Rule::new(2, 2)
            .equal(0, 1)
            .unequal(1, 2)
            .call(1, &[0, 2])
            .call(0, &[]),
    ];
    Book::new(&[0, 2, 1], rules)
}

/// A call chain without end is no ground.
fn self_call_only() -> Book {
    let rules = vec![
        Rule::new(0, 0).call(0, &[0]),
        Rule::new(1, 1).cell(0, &[1]).call(1, &[1]),
        Rule::new(2, 0).call(0, &[0]).call(1, &[0]),
        Rule::new(2, 1).call(2, &[1]).call(2, &[0]),
    ];
    Book::new(&[1, 1, 1], rules)
}

/// Chains to nil of even and of odd length.
fn mutual() -> Book {
    let rules = vec![
        Rule::new(0, 0).equal(0, NIL),
        Rule::new(0, 1).cell(0, &[1]).call(1, &[1]),
        Rule::new(1, 1).cell(0, &[1]).call(0, &[1]),
        Rule::new(2, 0).call(0, &[0]),
        Rule::new(2, 0).call(1, &[0]),
    ];
    Book::new(&[1, 1, 1], rules)
}

/// No rule, so nothing holds and nothing is spare.
fn no_rule() -> Book {
    Book::new(&[0, 2], Vec::new())
}

/// Several cells in a rule, among them two that want the same record.
fn many_cells() -> Book {
    let rules = vec![
        Rule::new(0, 1).cell(0, &[1]).cell(1, &[0]),
        Rule::new(0, 1).cell(0, &[1]).cell(0, &[1]),
        Rule::new(0, 2).cell(0, &[1]).cell(1, &[2]).cell(2, &[0]),
        Rule::new(0, 2).cell(1, &[0]).cell(2, &[0]).unequal(1, 2),
        Rule::new(1, 1).equal(0, NIL).cell(0, &[1]),
        Rule::new(1, 1).equal(1, NIL).cell(0, &[1]).cell(0, &[]),
        Rule::new(1, 0).cell(0, &[NIL]),
    ];
    Book::new(&[1, 1], rules)
}

/// A rule may call one empty part twice, but no record twice.
fn shared_calls() -> Book {
    let rules = vec![
        Rule::new(0, 0).call(1, &[0]).call(1, &[0]),
        Rule::new(0, 0).call(2, &[0]).call(2, &[0]).call(1, &[0]),
        Rule::new(0, 1).call(2, &[0]).call(2, &[1]).unequal(0, 1),
        Rule::new(1, 0).equal(0, 0),
        Rule::new(2, 1).cell(0, &[1]),
    ];
    Book::new(&[1, 1, 1], rules)
}

/// Equalities in chains, through nil, twice over, and against each other.
fn equalities() -> Book {
    let rules = vec![
        Rule::new(0, 2)
            .equal(0, 2)
            .equal(2, 3)
            .equal(3, 1)
            .cell(2, &[3]),
        Rule::new(0, 1)
            .equal(0, 2)
            .equal(2, 1)
            .unequal(0, 1)
            .cell(0, &[1]),
        Rule::new(0, 1)
            .equal(1, NIL)
            .equal(2, 1)
            .unequal(0, 2)
            .cell(0, &[2]),
        Rule::new(0, 1)
            .equal(NIL, NIL)
            .equal(2, 2)
            .equal(0, 2)
            .unequal(0, 1),
        Rule::new(1, 0).unequal(NIL, NIL),
        Rule::new(1, 1).equal(1, 0).call(0, &[1, 0]),
    ];
    Book::new(&[2, 1], rules)
}

/// Segments from the right, and in halves.
fn other_segments() -> Book {
    let rules = vec![
        Rule::new(0, 0).equal(0, 1),
        Rule::new(0, 1).unequal(0, 1).cell(2, &[1]).call(0, &[0, 2]),
        Rule::new(1, 0).cell(0, &[1]),
        Rule::new(1, 1).call(1, &[0, 2]).call(1, &[2, 1]),
    ];
    Book::new(&[2, 2], rules)
}

/// A chain to a ring, a list of lists, and a pool of several shapes.
pub fn mixed() -> Book {
    let mut rules = segment_rules(0);
    // 1: ring; 2: chain into a ring.
    rules.push(Rule::new(1, 1).cell(0, &[1]).call(0, &[1, 0]));
    rules.push(Rule::new(2, 1).call(0, &[0, 1]).call(1, &[1]));
    // 3: tree with records of two fields.
    rules.push(Rule::new(3, 0).equal(0, NIL));
    rules.push(Rule::new(3, 2).cell(0, &[1, 2]).call(3, &[1]).call(3, &[2]));
    // 4: chain of records with three fields, each with a chain to nil below.
    rules.push(Rule::new(4, 0).equal(0, NIL));
    rules.push(
        Rule::new(4, 2)
            .cell(0, &[1, 2, NIL])
            .call(0, &[2, NIL])
            .call(4, &[1]),
    );
    // 5: tree, chain to nil and ring together.
    rules.push(
        Rule::new(5, 0)
            .call(3, &[0])
            .call(0, &[1, NIL])
            .call(1, &[2]),
    );
    Book::new(&[2, 1, 1, 1, 1, 3], rules)
}

/// A chain of wide records to nil, told by its first record and by the last
/// value in it; each record's values differ from each other.
pub fn wide() -> Book {
    let rules = vec![
        Rule::new(0, 0).equal(0, NIL).equal(1, NIL),
        Rule::new(0, 2)
            .unequal(2, 3)
            .unequal(3, 1)
            .cell(0, &[NIL, 2, 3, 1])
            .call(0, &[NIL, NIL]),
        Rule::new(0, 4)
            .unequal(3, 4)
            .unequal(4, 5)
            .unequal(2, NIL)
            .cell(0, &[2, 3, 4, 5])
            .call(0, &[2, 1]),
    ];
    Book::new(&[2], rules)
}

/// The segment whose second rule asks for ends that differ.
pub fn plain_segment() -> Book {
    let mut book = segment();
    book.rules[1] = book.rules[1].clone().unequal(0, 1);
    book
}

/// A list to nil. Here and below, a rule for nil and one for the rest.
pub fn plain_list() -> Book {
    let rules = vec![
        Rule::new(0, 0).equal(0, NIL),
        Rule::new(0, 1).unequal(0, NIL).cell(0, &[1]).call(0, &[1]),
    ];
    Book::new(&[1], rules)
}

pub fn plain_tree() -> Book {
    let mut book = tree();
    book.rules[1] = book.rules[1].clone().unequal(NIL, 0);
    book
}

/// A binary tree whose records also have the one above.
pub fn tree_with_parents() -> Book {
    let rules = vec![
        Rule::new(0, 0).equal(NIL, 0),
        Rule::new(0, 2)
            .unequal(0, NIL)
            .cell(0, &[2, 3, 1])
            .call(0, &[2, 0])
            .call(0, &[3, 0]),
    ];
    Book::new(&[2], rules)
}

/// A list of records that have the next one and a list of their own.
pub fn lists_of_lists() -> Book {
    let rules = vec![
        Rule::new(0, 0).equal(0, NIL),
        Rule::new(0, 2)
            .unequal(0, NIL)
            .cell(0, &[1, 2])
            .call(1, &[2])
            .call(0, &[1]),
        Rule::new(1, 0).equal(0, NIL),
        Rule::new(1, 1).unequal(0, NIL).cell(0, &[1]).call(1, &[1]),
    ];
    Book::new(&[1, 1], rules)
}

/// Doubly linked, with a value in each record: more facts than the desk has
/// lines for.
pub fn valued() -> Book {
    let mut book = doubly_linked();
    let rule = Rule::new(0, 2).unequal(3, 0).cell(0, &[4, 1, 5]);
    book.rules[1] = rule.call(0, &[4, 0, 2, 3]);
    book
}

/// Two records for each rule, the second one first; a further name for the
/// second.
pub fn pairs() -> Book {
    let rules = vec![
        Rule::new(0, 0).equal(0, NIL),
        Rule::new(0, 3)
            .equal(3, 1)
            .unequal(0, NIL)
            .cell(3, &[2])
            .cell(0, &[1])
            .call(0, &[2]),
    ];
    Book::new(&[1], rules)
}

/// Plain books, beside the doubly linked list.
pub fn plain() -> Vec<Book> {
    let mut books = vec![
        plain_segment(),
        plain_list(),
        plain_tree(),
        tree_with_parents(),
        lists_of_lists(),
        valued(),
        pairs(),
    ];
    books.extend(constant_books::plain());
    books
}

/// All books that are small enough for every small pool.
pub fn small() -> Vec<Book> {
    let mut books = vec![
        segment(),
        house(),
        spare(),
        doubly_linked(),
        doubly_linked_to_nil(),
        tree(),
        always_true(),
        unequal_only(),
        calls_only(),
        empty_only(),
        self_call_only(),
        mutual(),
        no_rule(),
        many_cells(),
        shared_calls(),
        equalities(),
        other_segments(),
        mixed(),
    ];
    books.extend(constant_books::small());
    books
}
