//! The walk: its refusals, pools by hand, and many small pools against the
//! engine and against unfolding by hand.

mod common;

use common::*;
use reference::api::{self, WalkReply};
use reference::domain::Domain;
use reference::formats::Refusal;
use reference::{tree, verdict, walk};
use std::time::{Duration, Instant};

fn walked(book: &[u8], snapshot: &[u8], question: &[u8]) -> u32 {
    let reply = api::walk(book, snapshot, question);
    assert_eq!(reply.refusal, 0);
    reply.verdict
}

/// Asserts that the walk refuses the book, and that the engine does not.
#[track_caller]
fn not_plain(book: &[u8], snapshot: &[u8], question: &[u8]) {
    let refused = WalkReply {
        refusal: 12,
        verdict: 0,
    };
    assert_eq!(api::walk(book, snapshot, question), refused);
    assert_eq!(api::plain_book(book), Ok(false));
    let problem = problem(book, snapshot, question);
    assert_eq!(walk::fits(&problem), Err(Refusal::NotPlain));
    assert_eq!(walk::fitting_parts(&problem), Err(Refusal::NotPlain));
    let engine = api::decide(book, snapshot, question, 1024, 3072).reply;
    assert!(engine.refusal == 0 || engine.refusal == 11);
}

/// The same by the engine with all the lines there are.
fn decided(book: &[u8], snapshot: &[u8], question: &[u8]) -> u32 {
    let reply = api::decide(book, snapshot, question, 65_535, 196_605).reply;
    assert_eq!(reply.refusal, 0);
    reply.verdict
}

#[test]
fn the_engines_refusals() {
    let good = [
        plain_segment(),
        snapshot(&[(10, &[20])]),
        question(0, &[10, 20]),
    ];
    let ask = |parts: &[Vec<u8>; 3]| {
        let [book, snapshot, question] = parts;
        let reply = api::walk(book, snapshot, question);
        let engine = api::decide(book, snapshot, question, 1024, 3072).reply;
        let refused = engine.refusal == 0 && api::plain_book(book) == Ok(false);
        let expected = match refused {
            true => (12, 0),
            false => (engine.refusal, engine.verdict),
        };
        assert_eq!((reply.refusal, reply.verdict), expected);
        reply
    };
    let fits = WalkReply {
        refusal: 0,
        verdict: 1,
    };
    assert_eq!(ask(&good), fits);
    let mut met = [0; 13];
    for part in 0..3 {
        for at in 0..=good[part].len() {
            // Cut there, one byte more, and another byte instead.
            let mut cut = good.clone();
            cut[part].truncate(at);
            let mut more = good.clone();
            more[part].insert(at, 0);
            let mut tried = vec![cut, more];
            if at < good[part].len() {
                for byte in [0, 1, 2, 9, 17, 255] {
                    let mut other = good.clone();
                    other[part][at] = byte;
                    tried.push(other);
                }
            }
            for parts in tried {
                let reply = ask(&parts);
                assert!(reply.refusal == 0 || reply.verdict == 0);
                met[reply.refusal as usize] += 1;
            }
        }
    }
    // What is refused for lack of memory is not the walk's.
    assert_eq!(met[10..12], [0, 0]);
    met[10..12].fill(1);
    assert!(met.iter().all(|&times| times > 0), "{met:?}");
}

/// Book, snapshot, question's predicate and values, and what is expected.
type Row<'a, T> = (Vec<u8>, &'a [u8], u8, &'a [u32], T);

#[test]
fn plain_shapes() {
    let twice = snapshot(&[(10, &[20, 20]), (20, &[0, 0])]);
    let tree = snapshot(&[(10, &[20, 30]), (20, &[0, 0]), (30, &[0, 0])]);
    let double = snapshot(&[(10, &[20, 0]), (20, &[30, 10]), (30, &[0, 20])]);
    let parents = snapshot(&[(10, &[20, 30, 0]), (20, &[0, 0, 10]), (30, &[0, 0, 10])]);
    let outer = snapshot(&[(10, &[20, 5]), (20, &[0, 0])]);
    let nested = snapshot(&[(5, &[6]), (6, &[0]), (10, &[20, 5]), (20, &[0, 0])]);
    let ring = snapshot(&[(10, &[20]), (20, &[10])]);
    let chain = snapshot(&[(10, &[20]), (20, &[0])]);
    let none = snapshot(&[]);
    let rows: [Row<u32>; 27] = [
        (plain_segment(), &none, 0, &[5, 5], 1),
        (plain_segment(), &none, 0, &[5, 6], 0),
        (plain_segment(), &chain, 0, &[10, 0], 1),
        (plain_segment(), &chain, 0, &[10, 20], 0),
        (plain_segment(), &chain, 0, &[20, 0], 0),
        // Ends that are the same leave no room for records.
        (plain_segment(), &ring, 0, &[10, 10], 0),
        (plain_segment(), &ring, 0, &[10, 20], 0),
        (plain_segment(), &ring, 0, &[10, 30], 0),
        (plain_list(), &none, 0, &[0], 1),
        (plain_list(), &none, 0, &[7], 0),
        (plain_list(), &chain, 0, &[10], 1),
        (plain_list(), &chain, 0, &[20], 0),
        (plain_list(), &ring, 0, &[10], 0),
        (plain_tree(), &tree, 0, &[10], 1),
        (plain_tree(), &tree, 0, &[20], 0),
        (plain_tree(), &tree, 0, &[0], 0),
        // Both calls would take the same record.
        (plain_tree(), &twice, 0, &[10], 0),
        (plain_double(), &double, 0, &[10, 0, 30, 0], 1),
        (plain_double(), &double, 0, &[10, 0, 20, 0], 0),
        (plain_double(), &double, 0, &[10, 0, 20, 30], 0),
        (plain_double(), &none, 0, &[5, 6, 6, 5], 1),
        (plain_double(), &none, 0, &[5, 6, 7, 5], 0),
        (plain_parents(), &parents, 0, &[10, 0], 1),
        (plain_parents(), &parents, 0, &[10, 10], 0),
        (plain_lists(), &nested, 0, &[10], 1),
        (plain_lists(), &nested, 1, &[5], 0),
        (plain_lists(), &outer, 0, &[10], 0),
    ];
    for (row, (book, pool, predicate, values, expected)) in rows.into_iter().enumerate() {
        let question = question(predicate, values);
        assert_eq!(walked(&book, pool, &question), expected, "row {row}");
        assert_eq!(decided(&book, pool, &question), expected, "row {row}");
    }
}

/// None of the papers' books is plain, so the walk refuses their rows. With one
/// condition more L is plain; then a ring is no segment any more.
#[test]
fn the_papers_pools() {
    let none = snapshot(&[]);
    let one = snapshot(&[(10, &[20])]);
    let itself = snapshot(&[(10, &[10])]);
    let two = snapshot(&[(10, &[20]), (20, &[10])]);
    let last = snapshot(&[(10, &[0])]);
    type Both<'a> = (&'a [u8], &'a [u32], [u32; 2]);
    let rows: [Both; 6] = [
        (&none, &[5, 5], [1, 1]),
        (&none, &[5, 6], [0, 0]),
        (&one, &[10, 20], [1, 1]),
        (&one, &[10, 10], [0, 0]),
        (&itself, &[10, 10], [1, 0]),
        (&two, &[10, 10], [1, 0]),
    ];
    for (row, (pool, values, expected)) in rows.into_iter().enumerate() {
        let question = question(0, values);
        not_plain(&book_l(), pool, &question);
        let verdicts = [book_l(), plain_segment()].map(|book| decided(&book, pool, &question));
        assert_eq!(verdicts, expected, "row {row}");
        let verdict = walked(&plain_segment(), pool, &question);
        assert_eq!(verdict, expected[1], "row {row}");
    }
    not_plain(&book_s(), &none, &question(0, &[0]));
    not_plain(&book_s(), &none, &question(1, &[0, 0]));
    for (predicate, values) in [(0, &[10, 0][..]), (1, &[10]), (2, &[10, 0]), (2, &[10, 10])] {
        not_plain(&book_h(), &last, &question(predicate, values));
    }
}

#[test]
fn cells_in_any_order_and_values_along_equalities() {
    // P(a): four records in a row, last cell first; c is a copy of b. Any of
    // the records would do for the last cell by its fields.
    let cells: [(u8, &[u8]); 4] = [(4, &[5]), (3, &[4]), (2, &[3]), (0, &[1])];
    let row = rule(0, 5, &[[EQUAL, 2, 1]], &cells, &[]);
    let book = book(&[1], &[row]);
    assert_eq!(api::plain_book(&book), Ok(true));
    let pool = snapshot(&[(3, &[9]), (5, &[8]), (8, &[3]), (9, &[0])]);
    for address in [3, 5, 8, 9] {
        let question = question(0, &[address]);
        assert_eq!(walked(&book, &pool, &question), (address == 5) as u32);
    }
}

#[test]
fn one_cell_cannot_stand_for_two() {
    let both = rule(0, 0, &[], &[(0, &[]), (1, &[])], &[]);
    let book = book(&[2], &[both]);
    assert_eq!(api::plain_book(&book), Ok(true));
    let (one, two) = (snapshot(&[(1, &[])]), snapshot(&[(1, &[]), (2, &[])]));
    assert_eq!(walked(&book, &one, &question(0, &[1, 1])), 0);
    assert_eq!(walked(&book, &two, &question(0, &[1, 2])), 1);
    assert_eq!(walked(&book, &two, &question(0, &[1, 1])), 0);
}

/// Trees with three below each record: 16 records as a tree, as a ladder whose
/// rungs are reached three times, and as a line with the long call last.
#[test]
fn sixteen_records_are_walked_quickly() {
    let end = rule(0, 0, &[[EQUAL, 0, NIL]], &[], &[]);
    let step = rule(
        0,
        3,
        &[[UNEQUAL, 0, NIL]],
        &[(0, &[1, 2, 3])],
        &[(0, &[1]), (0, &[2]), (0, &[3])],
    );
    let never = rule(0, 0, &[[UNEQUAL, 0, 0]], &[], &[]);
    let mut rules = vec![never; 14];
    rules.extend([end, step]);
    let book = book(&[1], &rules);
    assert_eq!(api::plain_book(&book), Ok(true));
    let pool = |fields: &dyn Fn(u32) -> [u32; 3]| {
        let fields: Vec<[u32; 3]> = (1..17).map(fields).collect();
        let records: Vec<(u32, &[u32])> =
            (1..).zip(fields.iter().map(|three| &three[..])).collect();
        snapshot(&records)
    };
    let up_to_16 = |address: u32| if address > 16 { 0 } else { address };
    let heap_order = pool(&|at| [3 * at - 1, 3 * at, 3 * at + 1].map(up_to_16));
    let ladder = pool(&|at| [up_to_16(at + 1); 3]);
    let line = pool(&|at| [0, 0, up_to_16(at + 1)]);
    let around = pool(&|at| [0, 0, at % 16 + 1]);
    for (pool, expected) in [(heap_order, 1), (ladder, 0), (line, 1), (around, 0)] {
        let question = question(0, &[1]);
        let once = || {
            let start = Instant::now();
            assert_eq!(walked(&book, &pool, &question), expected);
            start.elapsed()
        };
        // The best of three, since others use the machine as well.
        let best = (0..3).map(|_| once()).min().unwrap();
        assert!(best < Duration::from_millis(100), "{best:?}");
    }
}

/// Any pool in any order, with two further calls for each record: walked
/// through, it would take for ever.
#[test]
fn a_book_that_would_take_too_long() {
    let book = book(
        &[0],
        &[
            rule(0, 0, &[], &[], &[]),
            rule(0, 2, &[], &[(0, &[1])], &[(0, &[]), (0, &[]), (0, &[])]),
        ],
    );
    let records: Vec<(u32, &[u32])> = (1..17).map(|address| (address, &[0][..])).collect();
    not_plain(&book, &snapshot(&records), &question(0, &[]));
}

/// A book that is plain has its verdict from the engine and by hand, and every
/// other one is refused.
#[test]
fn against_the_engine_and_by_hand() {
    let (mut kinds, mut by_hand, mut long, mut smaller) = ([0; 4], [0; 2], 0, 0);
    for seed in 0..24_000 {
        let mut dice = Dice::new(30_000_000 + seed);
        let book = match seed % 4 {
            0 => dice.book(4),
            _ => dice.split_book(),
        };
        let (pool, question) = if seed % 3 == 0 {
            (dice.snapshot(4), dice.question(&book))
        } else {
            dice.grown(&book, 6)
        };
        let problem = problem(&book, &pool, &question);
        let outcome = api::decide(&book, &pool, &question, 600, 1800);
        if outcome.reply.refusal == 11 {
            continue;
        }
        let engine = outcome.reply.verdict == 1;
        let plain = api::plain_book(&book) == Ok(true);
        kinds[plain as usize + 2 * engine as usize] += 1;
        if !plain {
            not_plain(&book, &pool, &question);
            continue;
        }
        let verdict = walked(&book, &pool, &question);
        assert_eq!(verdict, engine as u32, "seed {seed}");
        // What fits in a plain book, fits one part only.
        let parts = walk::fitting_parts(&problem).expect("the book is plain");
        assert!(parts.len() <= 1, "seed {seed}");
        let table = &outcome.memory.unwrap().table[..outcome.reply.facts];
        let from_table = verdict::fitting_parts(&problem, &Domain::of(&problem), table);
        assert_eq!(parts, from_table, "seed {seed}");
        long += (engine && problem.heap.records.len() > 3) as usize;
        smaller += (!engine && parts.len() == 1) as usize;
        // Each level takes a record, so none is deeper than this.
        let depth = problem.heap.records.len() + 1;
        match tree::search(&problem, 2, depth, 20_000) {
            tree::Answer::Yes(tree) => {
                assert!(engine && tree::answers(&problem, &tree), "seed {seed}");
                by_hand[1] += 1;
            }
            tree::Answer::NoneFound => {
                assert!(!engine, "seed {seed}");
                by_hand[0] += 1;
            }
            tree::Answer::OutOfBudget => {}
        }
        if let Some(by_trees) = tree::fitting_parts(&problem, 2, depth, 20_000) {
            assert_eq!(parts, by_trees, "seed {seed}");
        }
    }
    assert!(kinds.iter().all(|&kind| kind > 500), "{kinds:?}");
    assert!(by_hand.iter().all(|&kind| kind > 500), "{by_hand:?}");
    assert!(long > 100 && smaller > 300, "{long} {smaller}");
}

/// The known shapes with many records.
#[test]
fn larger_pools_of_known_shapes() {
    let (mut yes, mut no) = (0, 0);
    for seed in 0..3000 {
        let mut dice = Dice::new(40_000_000 + seed);
        let books = plain_books();
        let book = &books[seed as usize % books.len()];
        let (pool, question) = dice.grown(book, 11);
        let verdict = walked(book, &pool, &question);
        let reply = api::decide(book, &pool, &question, 2000, 6000).reply;
        assert_eq!(reply.refusal, 0, "seed {seed}");
        assert_eq!(reply.verdict, verdict, "seed {seed}");
        if pool[0] > 5 {
            yes += verdict;
            no += 1 - verdict;
        }
    }
    assert!(yes > 100 && no > 100, "{yes} {no}");
}
