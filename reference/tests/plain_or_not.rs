//! Refusal 12 by hand: each condition missed alone, where 12 stands in the
//! ladder, and books at the edge of being plain.

mod common;

use common::*;
use reference::api::{self, PartReply, Reply, WalkReply};
use reference::formats;
use reference::plain::{self, Fault};
use reference::trial;

const fn alone(rule: usize) -> Fault {
    Fault::CallsAlone { rule }
}

const fn open(rule: usize, variable: usize) -> Fault {
    Fault::NotFixed { rule, variable }
}

const fn both(first: usize, second: usize) -> Fault {
    Fault::MetTogether { first, second }
}

/// The walk's reply to a book that is not plain, and nothing else.
const NOT_PLAIN: WalkReply = WalkReply {
    refusal: 12,
    verdict: 0,
};

/// What is against a book, the same by both ways. The walk must refuse it for
/// that and for nothing else, whatever it is asked.
#[track_caller]
fn against(book: &[u8]) -> Vec<Fault> {
    let rules = formats::read_rule_set(book).expect("no fault");
    let faults = plain::faults(&rules);
    assert_eq!(faults, trial::faults(&rules));
    assert_eq!(api::plain_faults(book), Ok(faults.clone()));
    assert_eq!(api::plain_book(book), Ok(faults.is_empty()));
    let pools = [snapshot(&[]), snapshot(&[(10, &[20]), (20, &[MARK])])];
    for (predicate, &arity) in rules.arities.iter().enumerate() {
        for pool in &pools {
            for value in [0, 10, MARK] {
                let question = question(predicate as u8, &vec![value; arity]);
                let walked = api::walk(book, pool, &question);
                let engine = api::decide(book, pool, &question, 65_535, 196_605).reply;
                assert_eq!(engine.refusal, 0);
                let verdict = WalkReply {
                    refusal: 0,
                    verdict: engine.verdict,
                };
                let expected = if faults.is_empty() {
                    verdict
                } else {
                    NOT_PLAIN
                };
                assert_eq!(walked, expected);
            }
        }
    }
    faults
}

/// The same of rules for one predicate.
#[track_caller]
fn of_rules(arity: u8, constants: &[u32], rules: &[Vec<u8>]) -> Vec<Fault> {
    against(&book_with(&[arity], constants, rules))
}

/// A list to nil, and its two rules.
fn end() -> Vec<u8> {
    rule(0, 0, &[[EQUAL, 0, NIL]], &[], &[])
}

fn step() -> Vec<u8> {
    rule(0, 1, &[[UNEQUAL, 0, NIL]], &[(0, &[1])], &[(0, &[1])])
}

// The three conditions.

#[test]
fn each_condition_missed_alone() {
    assert_eq!(of_rules(1, &[], &[end(), step()]), []);
    // The second rule without its cell, and nothing bound.
    let calls = rule(0, 0, &[[UNEQUAL, 0, NIL]], &[], &[(0, &[0])]);
    assert_eq!(of_rules(1, &[], &[end(), calls]), [alone(1)]);
    // With a variable more, and with a field that is another variable.
    let more = rule(0, 2, &[[UNEQUAL, 0, NIL]], &[(0, &[1])], &[(0, &[1])]);
    assert_eq!(of_rules(1, &[], &[end(), more]), [open(1, 2)]);
    let other = rule(0, 1, &[[UNEQUAL, 0, NIL]], &[(0, &[0])], &[(0, &[1])]);
    assert_eq!(of_rules(1, &[], &[end(), other]), [open(1, 1)]);
    // Without its condition.
    let free = rule(0, 1, &[], &[(0, &[1])], &[(0, &[1])]);
    assert_eq!(of_rules(1, &[], &[end(), free]), [both(0, 1)]);
}

#[test]
fn several_at_once_and_all_of_them_listed() {
    // Without cell and condition: the variable is open as well.
    let bare = rule(0, 1, &[], &[], &[(0, &[1])]);
    let faults = of_rules(1, &[], &[end(), bare.clone()]);
    assert_eq!(faults, [alone(1), open(1, 1), both(0, 1)]);
    let faults = of_rules(1, &[], &[bare.clone(), step(), bare, end()]);
    let expected = [
        alone(0),
        alone(2),
        open(0, 1),
        open(2, 1),
        both(0, 1),
        both(0, 2),
        both(0, 3),
        both(1, 2),
        both(2, 3),
    ];
    assert_eq!(faults, expected);
    let conditions: Vec<usize> = faults.iter().map(|fault| fault.condition()).collect();
    assert_eq!(conditions, [1, 1, 2, 2, 3, 3, 3, 3, 3]);
}

#[test]
fn the_papers_books() {
    // Empty and step of the segment, ring, queue and free.
    assert_eq!(against(&book_h()), [alone(3), both(0, 1)]);
    assert_eq!(against(&book_l()), [both(0, 1)]);
    assert_eq!(against(&book_s()), [alone(0), open(0, 1)]);
    // L with the condition that its first rule does not have.
    assert_eq!(against(&plain_segment()), []);
    // The paper's segment from the right has that, but an open address.
    assert_eq!(against(&known_books()[3]), [open(1, 2)]);
    // H's segment and ring are plain with one condition more.
    let segment_and_ring = book(
        &[2, 1],
        &[
            rule(0, 0, &[[EQUAL, 0, 1]], &[], &[]),
            rule(0, 1, &[[UNEQUAL, 0, 1]], &[(0, &[2])], &[(0, &[2, 1])]),
            rule(1, 1, &[], &[(0, &[1])], &[(0, &[1, 0])]),
        ],
    );
    assert_eq!(against(&segment_and_ring), []);
    let pool = snapshot(&[(10, &[20]), (20, &[10])]);
    let fits = api::walk(&segment_and_ring, &pool, &question(1, &[10]));
    assert_eq!((fits.refusal, fits.verdict), (0, 1));
}

// The ladder.

#[test]
fn twelve_comes_after_all_others() {
    let good_pool = snapshot(&[(10, &[0])]);
    let good_question = question(0, &[10, 0]);
    let snapshots = [
        (vec![], 5),
        (vec![17], 6),
        (snapshot(&[(MARK, &[])]), 7),
        ([&good_pool[..], &[0]].concat(), 8),
        (good_pool, 0),
    ];
    let questions = [
        (vec![], 9),
        (question(0, &[10]), 9),
        (question(7, &[]), 9),
        ([&good_question[..], &[0]].concat(), 9),
        (good_question, 0),
    ];
    // Each is not plain, for the first, second and third condition in turn.
    let also = |wrong: Vec<u8>| book(&[2, 1], &[rule(0, 0, &[], &[], &[]), wrong]);
    let books = [
        also(rule(1, 0, &[], &[], &[(0, &[0, 0])])),
        also(rule(1, 1, &[], &[], &[])),
        also(rule(0, 0, &[], &[], &[])),
        book_h(),
        book_l(),
    ];
    for book in &books {
        assert_eq!(api::plain_book(book), Ok(false));
        // Faults in the book itself: nothing is said of its rules before.
        let cut = &book[..book.len() - 1];
        let longer = [&book[..], &[0]].concat();
        let mut many = book.clone();
        many[0] = 9;
        for (faulty, refusal) in [(cut, 1), (&many, 2), (&longer, 4)] {
            assert_eq!(api::plain_book(faulty), Err(refusal));
            assert_eq!(api::plain_faults(faulty), Err(refusal));
            for (snapshot, _) in &snapshots {
                for (question, _) in &questions {
                    let reply = api::walk(faulty, snapshot, question);
                    assert_eq!((reply.refusal, reply.verdict), (refusal, 0));
                }
            }
        }
        for (snapshot, first) in &snapshots {
            for (question, second) in &questions {
                let faults = [*first, *second, 12];
                let refusal = faults.into_iter().find(|&fault| fault != 0).unwrap();
                let expected = WalkReply {
                    refusal,
                    verdict: 0,
                };
                assert_eq!(api::walk(book, snapshot, question), expected);
            }
        }
    }
    // A rule that names nothing after one that is not plain.
    let mut third = book(&[1], &[rule(0, 1, &[], &[], &[]), end()]);
    let term = third.len() - 4;
    third[term] = 1;
    assert_eq!(api::plain_book(&third), Err(3));
    assert_eq!(api::walk(&third, &[0], &question(0, &[0])).refusal, 3);
}

/// Engine, check, desk and bench know nothing of 12.
#[test]
fn twelve_is_the_walks_alone() {
    let pool = snapshot(&[(10, &[0])]);
    let none = snapshot(&[]);
    type Row<'a> = (Vec<u8>, &'a [u8], Vec<u8>, [usize; 4]);
    let rows: [Row; 3] = [
        (book_h(), &pool, question(2, &[10, 0]), [1, 9, 3, 3]),
        (book_l(), &none, question(0, &[5, 5]), [1, 5, 1, 1]),
        (book_s(), &none, question(0, &[0]), [1, 12, 2, 2]),
    ];
    for (book, pool, ask, [verdict, facts, rounds, lines]) in rows {
        assert_eq!(api::walk(&book, pool, &ask), NOT_PLAIN);
        let expected = Reply {
            refusal: 0,
            verdict: verdict as u32,
            facts,
            rounds,
            lines,
        };
        let (mut table, mut space) = (vec![7; 12], vec![7; 36]);
        let reply = api::decide_lent(&book, pool, &ask, &mut table, &mut space);
        assert_eq!(reply, expected);
        let words = &space[..3 * lines];
        assert_eq!(api::check(&book, pool, &ask, words), (0, 1));
        let reply = api::decide_part_lent(&book, pool, &ask, &mut table, &mut space);
        assert_eq!((reply.refusal, reply.verdict), (0, 1));
        let words = &space[..3 * reply.lines];
        let checked = api::check_part(&book, pool, &ask, reply.part, words);
        assert_eq!(checked, (0, 1));
        assert_eq!(api::desk_engine(&book, pool, &ask), 1);
        assert_eq!(api::desk_check(&book, pool, &ask, &[]), 0);
        // 10 and 11 are the engine's, and stay so for books that are not plain.
        let (mut table, mut space) = (vec![7; 2], vec![7; 5]);
        let reply = api::decide_lent(&book, pool, &ask, &mut table, &mut space);
        let refused = Reply {
            refusal: 10,
            ..Reply::default()
        };
        assert_eq!(reply, refused);
        assert!(table.iter().chain(&space).all(|&word| word == 7));
        let (mut table, mut space) = (vec![7; 2], vec![7; 6]);
        let reply = api::decide_part_lent(&book, pool, &ask, &mut table, &mut space);
        let refused = PartReply {
            refusal: 11,
            ..PartReply::default()
        };
        assert_eq!(reply, refused);
        assert!(table.iter().chain(&space).all(|&word| word == 0));
        let mut input = Vec::new();
        for part in [&book, pool, &ask[..]] {
            input.extend((part.len() as u16).to_le_bytes());
            input.extend(part);
        }
        assert_eq!(api::bench(&input), api::bench_line(expected));
    }
}

// What is fixed.

#[test]
fn a_chain_of_eight_equalities() {
    // P(a) if a = b = c = ... = nil, by eight conditions; and if the other end
    // of such a chain is not nil.
    let up_to_nil = |at: u8| [EQUAL, at, if at == 7 { NIL } else { at + 1 }];
    let chain: Vec<[u8; 3]> = (0..8).map(up_to_nil).collect();
    let mut apart = chain.clone();
    apart[7][0] = UNEQUAL;
    let two = |first: &[[u8; 3]], second: &[[u8; 3]]| {
        of_rules(
            1,
            &[],
            &[first, second].map(|pure| rule(0, 7, pure, &[], &[])),
        )
    };
    assert_eq!(two(&chain, &apart), []);
    let turned: Vec<[u8; 3]> = chain.iter().rev().map(|[k, a, b]| [*k, *b, *a]).collect();
    assert_eq!(two(&apart, &turned), []);
    assert_eq!(two(&chain, &turned), [both(0, 1)]);
    for at in 0..8 {
        // Both ends of the first chain fix what is left of it.
        let mut cut = chain.clone();
        cut.remove(at);
        assert_eq!(two(&cut, &apart), [both(0, 1)], "{at}");
        let mut unequal = chain.clone();
        unequal[at][0] = UNEQUAL;
        assert_eq!(two(&unequal, &apart), [both(0, 1)], "{at}");
        // Only the argument fixes the second one.
        let mut cut = apart.clone();
        cut.remove(at);
        let mut expected: Vec<Fault> = (at + 1..8).map(|variable| open(1, variable)).collect();
        expected.push(both(0, 1));
        assert_eq!(two(&chain, &cut), expected, "{at}");
        if at < 7 {
            let mut unequal = apart.clone();
            unequal[at][0] = UNEQUAL;
            assert_eq!(two(&chain, &unequal), expected, "{at}");
        }
    }
}

#[test]
fn a_chain_between_two_arguments() {
    // a = c = d = ... = b against a unequal b.
    let order = [0, 5, 3, 7, 2, 6, 4, 1];
    let chain: Vec<[u8; 3]> = order.windows(2).map(|w| [EQUAL, w[1], w[0]]).collect();
    let apart = rule(0, 0, &[[UNEQUAL, 1, 0]], &[], &[]);
    let with = |pure: &[[u8; 3]]| of_rules(2, &[], &[rule(0, 6, pure, &[], &[]), apart.clone()]);
    assert_eq!(with(&chain), []);
    for at in 0..7 {
        let mut cut = chain.clone();
        cut.remove(at);
        assert_eq!(with(&cut), [both(0, 1)]);
    }
    // Cut in two places, the middle hangs in the air.
    let mut cut = chain.clone();
    cut.remove(4);
    cut.remove(2);
    assert_eq!(with(&cut), [open(0, 2), open(0, 7), both(0, 1)]);
}

#[test]
fn a_chain_of_fields_and_equalities() {
    // From record to record, each address a copy of a field.
    let cells: [(u8, &[u8]); 4] = [(6, &[7]), (4, &[5]), (2, &[3]), (0, &[1])];
    let copies = [[EQUAL, 6, 5], [EQUAL, 3, 4], [EQUAL, 2, 1]];
    assert_eq!(of_rules(1, &[], &[rule(0, 7, &copies, &cells, &[])]), []);
    for (at, first_open) in [(0, 6), (1, 4), (2, 2)] {
        let mut cut = copies.to_vec();
        cut.remove(at);
        let expected: Vec<Fault> = (first_open..8).map(|variable| open(0, variable)).collect();
        assert_eq!(of_rules(1, &[], &[rule(0, 7, &cut, &cells, &[])]), expected);
    }
    for at in 0..4 {
        let mut fewer = cells.to_vec();
        fewer.remove(3 - at);
        let expected: Vec<Fault> = (2 * at + 1..8).map(|variable| open(0, variable)).collect();
        assert_eq!(
            of_rules(1, &[], &[rule(0, 7, &copies, &fewer, &[])]),
            expected
        );
    }
}

// Arguments in common.

/// Two rules without arguments and with eight variables each, so sixteen.
#[test]
fn sixteen_variables() {
    let cells: [(u8, &[u8]); 2] = [(0, &[1, 2, 3, 4]), (4, &[5, 6, 7])];
    let with = |pure: &[[u8; 3]]| rule(0, 8, pure, &cells, &[]);
    let fixing = [EQUAL, 0, C];
    let two =
        |first: &[[u8; 3]], second: &[[u8; 3]]| of_rules(0, &[7, 8], &[with(first), with(second)]);
    // Their variables have nothing to do with each other.
    assert_eq!(two(&[fixing], &[fixing]), [both(0, 1)]);
    assert_eq!(two(&[fixing], &[[EQUAL, 0, D]]), [both(0, 1)]);
    // Around in a ring, all unequal: a few more numbers are needed.
    let ring: Vec<[u8; 3]> = (0..7).map(|at| [UNEQUAL, at, (at + 1) % 7]).collect();
    let ring = [&[fixing][..], &ring].concat();
    assert_eq!(two(&ring, &ring), [both(0, 1)]);
    // One of them is never met: by itself, at its very end, by two numbers.
    for never in [[UNEQUAL, 7, 7], [EQUAL, 0, D], [EQUAL, C, NIL]] {
        assert_eq!(two(&[fixing], &[fixing, never]), []);
        assert_eq!(two(&[never, fixing], &[fixing]), []);
        assert_eq!(two(&[fixing, never], &[fixing, never]), []);
    }
    let around = [[EQUAL, 1, 2], [EQUAL, 2, 3], [EQUAL, 3, 4], [UNEQUAL, 4, 1]];
    let around = [&[fixing][..], &around].concat();
    assert_eq!(two(&[fixing], &around), []);
    assert_eq!(two(&[fixing], &around[..4]), [both(0, 1)]);
    // Two chains of eight equalities each, held by a constant.
    let chain: Vec<[u8; 3]> = (0..8)
        .map(|at| [EQUAL, at, if at == 7 { C } else { at + 1 }])
        .collect();
    let chained = rule(0, 8, &chain, &[], &[]);
    let faults = of_rules(0, &[7], &[chained.clone(), chained]);
    assert_eq!(faults, [both(0, 1)]);
    // Nothing but variables, and nothing fixes them.
    let bare = rule(0, 8, &[], &[], &[]);
    let mut expected: Vec<Fault> = (0..16).map(|at| open(at / 8, at % 8)).collect();
    expected.push(both(0, 1));
    assert_eq!(of_rules(0, &[], &[bare.clone(), bare]), expected);
}

#[test]
fn constants_that_split() {
    let (is_c, is_d) = ([EQUAL, 0, C], [EQUAL, D, 0]);
    let (not_c, not_d) = ([UNEQUAL, C, 0], [UNEQUAL, 0, D]);
    let is_nil = [EQUAL, 0, NIL];
    let pair = |constants: &[u32], first: [u8; 3], second: [u8; 3]| {
        let rules = [first, second].map(|pure| rule(0, 0, &[pure], &[], &[]));
        let faults = of_rules(1, constants, &rules);
        assert!(faults.is_empty() || faults == [both(0, 1)]);
        faults.is_empty()
    };
    let same = [
        [7, 7],
        [0, 0],
        [MARK, MARK],
        [0, MARK],
        [MARK, 0],
        [MOST, MOST],
    ];
    let different = [
        [7, 8],
        [0, 7],
        [7, MARK],
        [MARK, MOST],
        [MOST, 0],
        [MOST, 7],
    ];
    for constants in same {
        assert!(!pair(&constants, is_c, is_d), "{constants:?}");
        assert!(pair(&constants, is_c, not_d), "{constants:?}");
        assert!(pair(&constants, not_c, is_d), "{constants:?}");
        assert!(!pair(&constants, not_c, not_d), "{constants:?}");
    }
    for constants in different {
        assert!(pair(&constants, is_c, is_d), "{constants:?}");
        assert!(!pair(&constants, is_c, not_d), "{constants:?}");
        assert!(!pair(&constants, not_c, is_d), "{constants:?}");
        assert!(!pair(&constants, not_c, not_d), "{constants:?}");
    }
    for (constant, nil) in [(0, true), (MARK, true), (MOST, false), (1, false)] {
        assert_eq!(pair(&[constant], is_c, is_nil), !nil);
        assert_eq!(pair(&[constant], not_c, is_nil), nil);
        assert_eq!(pair(&[constant], is_c, [UNEQUAL, 0, NIL]), nil);
        // Constants by themselves: a rule that is met always, or never.
        let (met, not) = ([EQUAL, C, NIL], [UNEQUAL, NIL, C]);
        assert!(pair(&[constant], met, not));
        assert_eq!(pair(&[constant], met, met), !nil);
        assert_eq!(pair(&[constant], not, not), nil);
    }
}

#[test]
fn constants_that_fix() {
    for constant in [0, 7, MOST, MARK] {
        let one = |pure: &[[u8; 3]], cells: &[(u8, &[u8])]| {
            of_rules(0, &[constant], &[rule(0, 2, pure, cells, &[])])
        };
        assert_eq!(one(&[[EQUAL, 0, C], [EQUAL, NIL, 1]], &[]), []);
        assert_eq!(one(&[[EQUAL, C, 1], [EQUAL, 0, 1]], &[]), []);
        assert_eq!(one(&[[EQUAL, 0, C]], &[(0, &[C, 1])]), []);
        let second = [open(0, 1)];
        let first_and_second = [open(0, 0), open(0, 1)];
        assert_eq!(one(&[[EQUAL, 0, C], [UNEQUAL, 1, C]], &[]), second);
        assert_eq!(one(&[[EQUAL, C, C], [EQUAL, 0, 1]], &[]), first_and_second);
        // A field that is a constant does not fix the cell's address.
        assert_eq!(one(&[], &[(0, &[C, 1])]), first_and_second);
    }
}

#[test]
fn copies_of_one_rule() {
    assert_eq!(of_rules(1, &[], &[end(), end()]), [both(0, 1)]);
    assert_eq!(of_rules(1, &[], &[end(), step(), end()]), [both(0, 2)]);
    assert_eq!(of_rules(1, &[], &[step(), end(), step()]), [both(0, 2)]);
    let three = of_rules(1, &[], &[end(), end(), end()]);
    assert_eq!(three, [both(0, 1), both(0, 2), both(1, 2)]);
    // Of different predicates they are no two rules of one.
    let of = |head| rule(head, 0, &[[EQUAL, 0, NIL]], &[], &[]);
    assert_eq!(against(&book(&[1, 1], &[of(0), of(1)])), []);
    let four = [of(0), of(1), of(1), of(0)];
    let faults = against(&book(&[1, 1], &four));
    assert_eq!(faults, [both(0, 3), both(1, 2)]);
    // Only pure conditions count: other cells, fields or calls help nothing.
    let other = rule(0, 1, &[[EQUAL, 0, NIL]], &[(0, &[1])], &[]);
    assert_eq!(of_rules(1, &[], &[end(), other]), [both(0, 1)]);
    let cells: [&[(u8, &[u8])]; 3] = [&[], &[(0, &[])], &[(0, &[0, 0])]];
    let rules = cells.map(|cells| rule(0, 0, &[], cells, &[]));
    assert_eq!(of_rules(1, &[], &rules), three);
}

/// A rule nothing meets is apart from all others. But its calls and variables
/// count as if it could be met.
#[test]
fn a_rule_that_nothing_meets() {
    let impossible: [&[[u8; 3]]; 4] = [
        &[[UNEQUAL, 0, 0]],
        &[[UNEQUAL, NIL, NIL]],
        &[[EQUAL, 0, C], [EQUAL, D, 0]],
        &[[EQUAL, 0, NIL], [UNEQUAL, NIL, 0]],
    ];
    for never in impossible {
        let with = |bound, cells: &[(u8, &[u8])], calls: &[(u8, &[u8])]| {
            let rules = [
                rule(0, 0, &[], &[], &[]),
                rule(0, bound, never, cells, calls),
                rule(0, bound, never, cells, calls),
            ];
            of_rules(1, &[7, 8], &rules)
        };
        assert_eq!(with(0, &[], &[]), []);
        assert_eq!(with(1, &[(0, &[1])], &[(0, &[1])]), []);
        assert_eq!(with(0, &[], &[(0, &[0])]), [alone(1), alone(2)]);
        assert_eq!(with(1, &[], &[]), [open(1, 1), open(2, 1)]);
        let astray = with(2, &[(1, &[2])], &[]);
        assert_eq!(astray, [open(1, 1), open(1, 2), open(2, 1), open(2, 2)]);
    }
}

// Rules and questions.

#[test]
fn rules_that_the_question_never_reaches() {
    // The list is predicate 0 and calls itself only.
    let also = |wrong: &[Vec<u8>]| book(&[1, 0], &[&[end(), step()], wrong].concat());
    assert_eq!(against(&also(&[])), []);
    let fact = rule(1, 0, &[], &[], &[]);
    assert_eq!(against(&also(&[fact.clone()])), []);
    let wrong: [(&[Vec<u8>], Fault); 3] = [
        (&[rule(1, 0, &[], &[], &[(1, &[])])], alone(2)),
        (&[rule(1, 1, &[], &[], &[])], open(2, 0)),
        (&[fact.clone(), fact], both(2, 3)),
    ];
    let pool = snapshot(&[(10, &[20]), (20, &[0])]);
    for (rules, fault) in wrong {
        let book = also(rules);
        assert_eq!(against(&book), [fault]);
        let ask = question(0, &[10]);
        assert_eq!(api::walk(&book, &pool, &ask), NOT_PLAIN);
        let engine = api::decide(&book, &pool, &ask, 100, 300).reply;
        assert_eq!((engine.refusal, engine.verdict), (0, 1));
    }
}

#[test]
fn a_predicate_without_rules() {
    let no = WalkReply::default();
    let (none, one) = (snapshot(&[]), snapshot(&[(10, &[])]));
    let empty = book(&[2, 0], &[]);
    assert_eq!(against(&empty), []);
    for pool in [&none, &one] {
        assert_eq!(api::walk(&empty, pool, &question(0, &[1, 1])), no);
        assert_eq!(api::walk(&empty, pool, &question(1, &[])), no);
    }
    // Called by another one, which then never holds.
    let caller = rule(0, 0, &[], &[(0, &[])], &[(1, &[])]);
    let book = book(&[1, 0], &[caller]);
    assert_eq!(against(&book), []);
    assert_eq!(api::walk(&book, &one, &question(0, &[10])), no);
    // All eight predicates, with four arguments each.
    let mut wide = vec![8];
    wide.extend([4; 8]);
    wide.extend([0, 0]);
    assert_eq!(against(&wide), []);
}

/// Sixteen rules for all the ways in which four arguments are nil or not.
#[test]
fn sixteen_rules() {
    let ways = |at: u8| -> Vec<[u8; 3]> {
        let kind = |bit: u8| if at >> bit & 1 == 1 { UNEQUAL } else { EQUAL };
        (0..4).map(|bit| [kind(bit), bit, NIL]).collect()
    };
    let all: Vec<Vec<u8>> = (0..16).map(|at| rule(0, 0, &ways(at), &[], &[])).collect();
    assert_eq!(of_rules(4, &[], &all), []);
    // One condition less makes one pair meet.
    for at in 0..16usize {
        for bit in 0..4 {
            let mut pure = ways(at as u8);
            pure.remove(bit);
            let mut rules = all.clone();
            rules[at] = rule(0, 0, &pure, &[], &[]);
            let other = at ^ 1 << bit;
            let expected = both(at.min(other), at.max(other));
            let set = formats::read_rule_set(&book(&[4], &rules)).unwrap();
            assert_eq!(plain::faults(&set), [expected]);
            assert_eq!(trial::faults(&set), [expected]);
        }
    }
}
