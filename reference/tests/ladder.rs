//! Each refusal, and which of several comes first.

mod common;

use common::*;
use reference::api;
use reference::formats;

fn book_refusal(book: &[u8]) -> u32 {
    formats::read_rule_set(book).map_or_else(|refusal| refusal.number(), |_| 0)
}

fn heap_refusal(snapshot: &[u8]) -> u32 {
    formats::read_heap(snapshot).map_or_else(|refusal| refusal.number(), |_| 0)
}

#[test]
fn faults_in_the_book() {
    let rows: &[(&[u8], u32)] = &[
        // Predicates.
        (&[], 1),
        (&[0], 2),
        (&[9], 2),
        (&[255, 9, 9], 2),
        (&[1], 1),
        (&[1, 5], 2),
        (&[8, 4, 4, 4, 4, 4, 4, 4], 1),
        (&[8, 4, 4, 4, 4, 4, 4, 4, 4], 1),
        (&[8, 4, 4, 4, 4, 4, 4, 4, 4, 0, 0], 0),
        // Count of constants; what else there is about them is in constants.rs.
        (&[1, 0], 1),
        (&[1, 0, 9], 2),
        // Rule count.
        (&[1, 0, 0], 1),
        (&[1, 0, 0, 0], 0),
        (&[1, 0, 0, 0, 0], 4),
        (&[1, 0, 0, 17], 2),
        (&[1, 0, 0, 16], 1),
        // Head and bound variables.
        (&[1, 0, 0, 1], 1),
        (&[1, 0, 0, 1, 1], 3),
        (&[1, 0, 0, 1, 255], 3),
        (&[1, 0, 0, 1, 0], 1),
        (&[1, 0, 0, 1, 0, 9], 2),
        (&[1, 0, 0, 1, 0, 255], 2),
        (&[1, 0, 0, 1, 0, 8], 1),
        (&[1, 4, 0, 1, 0, 5], 2),
        (&[1, 4, 0, 1, 0, 4], 1),
        // Pure conditions.
        (&[1, 1, 0, 1, 0, 0, 9], 2),
        (&[1, 1, 0, 1, 0, 0, 8], 1),
        (&[1, 1, 0, 1, 0, 0, 1, 2], 3),
        (&[1, 1, 0, 1, 0, 0, 1, 0], 1),
        (&[1, 1, 0, 1, 0, 0, 1, 1, 1], 3),
        (&[1, 1, 0, 1, 0, 0, 1, 1, 254], 3),
        (&[1, 1, 0, 1, 0, 0, 1, 1, 255], 1),
        (&[1, 1, 0, 1, 0, 0, 1, 1, 255, 1], 3),
        (&[1, 1, 0, 1, 0, 0, 1, 1, 255, 0], 1),
        // Cells.
        (&[1, 1, 0, 1, 0, 0, 0, 5], 2),
        (&[1, 1, 0, 1, 0, 0, 0, 4], 1),
        (&[1, 1, 0, 1, 0, 0, 0, 1, 255], 3),
        (&[1, 1, 0, 1, 0, 0, 0, 1, 1], 3),
        (&[1, 1, 0, 1, 0, 0, 0, 1, 0], 1),
        (&[1, 1, 0, 1, 0, 0, 0, 1, 0, 5], 2),
        (&[1, 1, 0, 1, 0, 0, 0, 1, 0, 4], 1),
        (&[1, 1, 0, 1, 0, 0, 0, 1, 0, 1, 1], 3),
        (&[1, 1, 0, 1, 0, 0, 0, 1, 0, 1, 255], 1),
        // Calls.
        (&[1, 1, 0, 1, 0, 0, 0, 0], 1),
        (&[1, 1, 0, 1, 0, 0, 0, 0, 4], 2),
        (&[1, 1, 0, 1, 0, 0, 0, 0, 3], 1),
        (&[1, 1, 0, 1, 0, 0, 0, 0, 1, 1], 3),
        (&[1, 1, 0, 1, 0, 0, 0, 0, 1, 0], 1),
        (&[1, 1, 0, 1, 0, 0, 0, 0, 1, 0, 1], 3),
        (&[1, 1, 0, 1, 0, 0, 0, 0, 1, 0, 255], 0),
        (&[1, 1, 0, 1, 0, 0, 0, 0, 1, 0, 0, 0], 4),
        // No variable at all: only nil is a term.
        (&[1, 0, 0, 1, 0, 0, 1, 0, 255, 255, 0, 0], 0),
        (&[1, 0, 0, 1, 0, 0, 1, 0, 0, 0, 0, 0], 3),
        (&[1, 0, 0, 1, 0, 0, 0, 1, 0, 0, 0], 3),
        // The earlier of two faults.
        (&[1, 0, 0, 1, 1, 9], 3),
        (&[1, 0, 0, 1, 0, 9, 9], 2),
        (&[1, 1, 0, 1, 0, 0, 1, 2, 9, 9, 9], 3),
        (&[1, 1, 0, 1, 0, 0, 1, 0, 0, 0, 9, 9], 2),
        (&[1, 1, 0, 1, 0, 0, 0, 1, 255, 9], 3),
        (&[2, 5, 9, 99], 2),
    ];
    for (book, refusal) in rows {
        assert_eq!(book_refusal(book), *refusal, "{book:?}");
    }
}

#[test]
fn every_start_of_a_book_or_snapshot_is_too_short() {
    for book in [book_l(), book_s(), book_h()] {
        assert_eq!(book_refusal(&book), 0);
        for end in 0..book.len() {
            assert_eq!(book_refusal(&book[..end]), 1);
        }
    }
    let pool = snapshot(&[(10, &[20, 0]), (20, &[]), (MOST, &[1, 2, 3, MARK])]);
    assert_eq!(heap_refusal(&pool), 0);
    for end in 0..pool.len() {
        assert_eq!(heap_refusal(&pool[..end]), 5);
    }
}

#[test]
fn faults_in_the_snapshot() {
    let rows: &[(&[u8], u32)] = &[
        (&[], 5),
        (&[0], 0),
        (&[0, 0], 8),
        (&[17], 6),
        (&[255, 1], 6),
        (&[16], 5),
        (&[1], 5),
        (&[1, 0, 0, 0], 5),
        (&[1, 0, 0, 0, 0], 7),
        (&[1, 0, 0, 0, 0, 9], 7),
        (&[1, 5, 0, 0, 0], 5),
        (&[1, 0, 0, 0, 1], 5),
        (&[1, 5, 0, 0, 0, 5], 6),
        (&[1, 5, 0, 0, 0, 0], 0),
        (&[1, 5, 0, 0, 0, 0, 0], 8),
        (&[1, 5, 0, 0, 0, 1, 0, 0, 0], 5),
        (&[1, 5, 0, 0, 0, 1, 0, 0, 0, 0], 0),
        (&[2, 5, 0, 0, 0, 0, 5, 0, 0, 0], 7),
        (&[2, 5, 0, 0, 0, 0, 4, 0, 0, 0, 9], 7),
        (&[2, 5, 0, 0, 0, 0, 0, 1, 0, 0, 0], 0),
        (&[2, 5, 0, 0, 0, 9, 5, 0, 0, 0], 6),
        (&[2, 0, 1, 0, 0, 0, 255, 0, 0, 0, 0], 7),
    ];
    for (snapshot, refusal) in rows {
        assert_eq!(heap_refusal(snapshot), *refusal, "{snapshot:?}");
    }
}

#[test]
fn faults_in_the_question() {
    let rules = formats::read_rule_set(&book_h()).unwrap();
    let fault = |question: &[u8]| {
        formats::read_query(question, &rules).map_or_else(|refusal| refusal.number(), |_| 0)
    };
    assert_eq!(fault(&question(0, &[1, 2])), 0);
    assert_eq!(fault(&question(1, &[1])), 0);
    assert_eq!(fault(&[]), 9);
    assert_eq!(fault(&[0]), 9);
    assert_eq!(fault(&question(3, &[1, 2])), 9);
    assert_eq!(fault(&question(1, &[1, 2])), 9);
    assert_eq!(fault(&question(0, &[1])), 9);
    assert_eq!(fault(&question(0, &[1, 2])[..9]), 9);
    assert_eq!(fault(&[question(0, &[1, 2]), vec![0]].concat()), 9);
    // A count that does not fit the length, and then one not the predicate's.
    assert_eq!(fault(&[0, 2, 0, 0, 0, 0]), 9);
    assert_eq!(fault(&[0, 0]), 9);
}

#[test]
fn the_first_of_all_faults_counts() {
    let good_pool = snapshot(&[(10, &[20]), (20, &[10])]);
    let good_question = question(0, &[10, 10]);
    let mut long = book_l();
    long.push(0);
    let books: Vec<(Vec<u8>, u32)> = vec![
        (vec![], 1),
        (vec![0], 2),
        (vec![1, 0, 0, 1, 1], 3),
        (long, 4),
        (book_l(), 0),
    ];
    let snapshots: Vec<(Vec<u8>, u32)> = vec![
        (vec![], 5),
        (vec![17], 6),
        (vec![1, 0, 0, 0, 0], 7),
        (vec![0, 0], 8),
        (good_pool, 0),
    ];
    let questions: Vec<(Vec<u8>, u32)> = vec![(vec![], 9), (good_question, 0)];
    let sizes = [
        (0, 0, 10),
        (0, 3, 10),
        (65_536, 196_608, 10),
        (usize::MAX, usize::MAX, 10),
        (9, 26, 10),
        (9, 28, 10),
        (10, 0, 10),
        (9, 27, 11),
        (10, 30, 0),
    ];
    for (book, first) in &books {
        for (snapshot, second) in &snapshots {
            for (question, third) in &questions {
                for (lines, words, fourth) in sizes {
                    let faults = [*first, *second, *third, fourth];
                    let expected = faults.into_iter().find(|&fault| fault != 0).unwrap_or(0);
                    let outcome = api::decide(book, snapshot, question, lines, words);
                    assert_eq!(outcome.reply.refusal, expected);
                    assert_eq!(outcome.memory.is_none(), (1..=10).contains(&expected));
                    if expected != 0 {
                        let reply = api::Reply {
                            refusal: expected,
                            ..api::Reply::default()
                        };
                        assert_eq!(outcome.reply, reply);
                    }
                    let some = api::decide_part(book, snapshot, question, lines, words);
                    assert_eq!(some.reply.refusal, expected);
                    assert_eq!(some.memory.is_none(), (1..=10).contains(&expected));
                    if expected != 0 {
                        let reply = api::PartReply {
                            refusal: expected,
                            ..api::PartReply::default()
                        };
                        assert_eq!(some.reply, reply);
                    }
                }
                // The check and both desk entries meet the same faults.
                let faults = [*first, *second, *third];
                let expected = faults.into_iter().find(|&fault| fault != 0).unwrap_or(0);
                assert_eq!(api::check(book, snapshot, question, &[]), (expected, 0));
                // A part beyond the records is none.
                for part in [0, 3, 0xffff] {
                    let checked = api::check_part(book, snapshot, question, part, &[]);
                    assert_eq!(checked, (expected, 0));
                }
                for length in [0, 7, 24, 24_576, 24_577, 24_600] {
                    let bytes = vec![0; length];
                    let desk = api::desk_check(book, snapshot, question, &bytes);
                    assert_eq!(desk, 2 * expected);
                }
                let desk = api::desk_engine(book, snapshot, question);
                let fits = (expected == 0) as u32;
                assert_eq!(desk, 2 * expected + fits);
                // L is not plain, which the walk says after all these.
                let walked = api::walk(book, snapshot, question);
                let last = if expected == 0 { 12 } else { expected };
                assert_eq!((walked.refusal, walked.verdict), (last, 0));
            }
        }
    }
}
