//! Certificates taken, and certificates damaged in each way there is.

mod common;

use common::*;
use reference::api;
use reference::check::{first_broken, Broken};
use reference::fact;
use reference::formats::Problem;
use reference::tree;

/// Row 6 by hand: kept values 0 1 2 3 10 20, so 10 is 4 and 20 is 5.
fn ring_of_two() -> (Problem, Vec<u64>) {
    let problem = problem(
        &book_l(),
        &snapshot(&[(10, &[20]), (20, &[10])]),
        &question(0, &[10, 10]),
    );
    let words = vec![
        fact::pack(0, &[4, 4], 0),
        4 | 4 << 8,
        0,
        fact::pack(0, &[5, 4], 2),
        5 | 4 << 8 | 4 << 16,
        1 | 1 << 8,
        fact::pack(0, &[4, 4], 3),
        4 | 4 << 8 | 5 << 16,
        1 | 2 << 8,
    ];
    (problem, words)
}

#[test]
fn the_builder_writes_row_6_as_by_hand() {
    let (_, words) = ring_of_two();
    let outcome = api::decide(
        &book_l(),
        &snapshot(&[(10, &[20]), (20, &[10])]),
        &question(0, &[10, 10]),
        10,
        30,
    );
    let space = outcome.memory.unwrap().space;
    assert_eq!(space[..9], words);
    assert!(space[9..].iter().all(|&word| word == 0));
}

#[track_caller]
fn broken(expected: Broken, damage: impl Fn(&mut Vec<u64>)) {
    let (problem, mut words) = ring_of_two();
    assert_eq!(first_broken(&problem, &words), Ok(()));
    damage(&mut words);
    assert_eq!(first_broken(&problem, &words), Err(expected));
}

#[test]
fn number_of_lines() {
    broken(Broken::Lines, |words| words.clear());
    broken(Broken::Lines, |words| words.truncate(8));
    broken(Broken::Lines, |words| words.truncate(7));
    broken(Broken::Lines, |words| words.push(0));
    let problem = problem(&book_l(), &snapshot(&[]), &question(0, &[5, 5]));
    let position = 4;
    let line = [
        fact::pack(0, &[position, position], 0),
        (position | position << 8) as u64,
        0,
    ];
    // The same line again and again is no fault for the check.
    assert_eq!(first_broken(&problem, &line.repeat(65_535)), Ok(()));
    assert_eq!(
        first_broken(&problem, &line.repeat(65_536)),
        Err(Broken::Lines)
    );
}

#[test]
fn rule_and_positions() {
    broken(Broken::Rule, |words| words[2] = 2);
    broken(Broken::Rule, |words| words[5] = 255 | 1 << 8);
    broken(Broken::Position, |words| words[4] = 5 | 4 << 8 | 6 << 16);
    broken(Broken::Position, |words| words[4] = 5 | 4 << 8 | 255 << 16);
    // A head position beyond the kept values, equal in fact and variables.
    broken(Broken::Position, |words| {
        words[0] = fact::pack(0, &[6, 6], 0);
        words[1] = 6 | 6 << 8;
    });
}

#[test]
fn bits_that_must_be_0() {
    for bit in 48..64 {
        broken(Broken::StrayBits, |words| words[3] |= 1 << bit);
    }
    for bit in 30..44 {
        broken(Broken::StrayBits, |words| words[3] |= 1 << bit);
    }
    // The empty rule has two variables, the other one three.
    for bit in 16..64 {
        broken(Broken::StrayBits, |words| words[1] |= 1 << bit);
    }
    for bit in 24..64 {
        broken(Broken::StrayBits, |words| words[4] |= 1 << bit);
    }
    // No call and one call.
    for bit in 8..64 {
        broken(Broken::StrayBits, |words| words[2] |= 1 << bit);
    }
    for bit in 24..64 {
        broken(Broken::StrayBits, |words| words[5] |= 1 << bit);
    }
}

#[test]
fn head() {
    for bit in 44..48 {
        broken(Broken::Head, |words| words[3] |= 1 << bit);
    }
    broken(Broken::HeadArguments, |words| words[3] += 1 << 16);
    broken(Broken::HeadArguments, |words| words[3] -= 1 << 23);
    broken(Broken::HeadArguments, |words| words[4] += 1 << 8);
}

#[test]
fn pure_conditions() {
    broken(Broken::Pure, |words| {
        words[0] = fact::pack(0, &[4, 5], 0);
        words[1] = 4 | 5 << 8;
    });
    // The unequal condition of book S, met with position 1 and not with 0.
    let problem = problem(&book_s(), &snapshot(&[]), &question(0, &[0]));
    let with = |b: usize| {
        vec![
            fact::pack(1, &[0, b], 0),
            (b << 8) as u64,
            1,
            0,
            (b << 8) as u64,
            1 << 8,
        ]
    };
    assert_eq!(first_broken(&problem, &with(0)), Err(Broken::Pure));
    assert_eq!(first_broken(&problem, &with(1)), Ok(()));
    assert_eq!(first_broken(&problem, &with(2)), Ok(()));
    assert_eq!(first_broken(&problem, &with(3)), Err(Broken::Position));
}

#[test]
fn nil_in_a_pure_condition_is_0() {
    // P(a) if a = nil.
    let book = [1, 1, 0, 1, 0, 0, 1, 0, 0, 255, 0, 0];
    let problem = problem(&book, &snapshot(&[]), &question(0, &[0]));
    assert_eq!(first_broken(&problem, &[0, 0, 0]), Ok(()));
    let one = [1 << 16, 1, 0];
    assert_eq!(first_broken(&problem, &one), Err(Broken::Pure));
}

#[test]
fn cells() {
    // No record at that address.
    broken(Broken::Cell, |words| {
        words[3] = fact::pack(0, &[1, 4], 2);
        words[4] = 1 | 4 << 8 | 4 << 16;
    });
    // Nil is no address.
    broken(Broken::Cell, |words| {
        words[3] = fact::pack(0, &[0, 4], 2);
        words[4] = 4 << 8 | 4 << 16;
    });
    // Another field than the record's.
    broken(Broken::Cell, |words| words[4] = 5 | 4 << 8 | 5 << 16);
    // More fields in the record than in the cell, and fewer.
    for fields in [&[20, 20][..], &[]] {
        let problem = problem(
            &book_l(),
            &snapshot(&[(10, fields)]),
            &question(0, &[10, 20]),
        );
        let words = [
            fact::pack(0, &[5, 5], 0),
            5 | 5 << 8,
            0,
            fact::pack(0, &[4, 5], 1),
            4 | 5 << 8 | 5 << 16,
            1 | 1 << 8,
        ];
        assert_eq!(first_broken(&problem, &words), Err(Broken::Cell));
    }
    // Fields in another order: P(a) if a:(nil, a).
    let book = [1, 1, 0, 1, 0, 0, 0, 1, 0, 2, 255, 0, 0];
    let line = [2 << 16 | 1, 2, 0];
    for (fields, expected) in [([0, 9], Ok(())), ([9, 0], Err(Broken::Cell))] {
        let problem = problem(&book, &snapshot(&[(9, &fields)]), &question(0, &[9]));
        assert_eq!(first_broken(&problem, &line), expected);
    }
}

#[test]
fn called_lines() {
    broken(Broken::CalledLine, |words| words[5] = 1);
    broken(Broken::CalledLine, |words| words[5] = 1 | 2 << 8);
    broken(Broken::CalledLine, |words| words[5] = 1 | 3 << 8);
    broken(Broken::CalledLine, |words| words[5] = 1 | 4 << 8);
    broken(Broken::CalledLine, |words| words[5] = 1 | 65_535 << 8);
    broken(Broken::CalledArguments, |words| words[8] = 1 | 1 << 8);
    // Row 8 with the queue's first call turned to another predicate's line.
    let problem = problem(&book_h(), &snapshot(&[(10, &[10])]), &question(2, &[10, 0]));
    let ten = 4;
    let words = [
        fact::pack(0, &[ten, ten], 0),
        (ten | ten << 8) as u64,
        0,
        fact::pack(1, &[ten], 1),
        (ten | ten << 8) as u64,
        2 | 1 << 8,
        fact::pack(2, &[ten, 0], 1),
        ten as u64,
        3 | 2 << 8 | 1 << 24,
    ];
    assert_eq!(first_broken(&problem, &words), Err(Broken::CalledPredicate));
}

#[test]
fn disjoint_join() {
    // Records missing, too many, and one that is not in the pool.
    broken(Broken::RecordSet, |words| words[3] &= !2);
    broken(Broken::RecordSet, |words| words[3] |= 1);
    broken(Broken::RecordSet, |words| words[3] |= 1 << 15);
    broken(Broken::RecordSet, |words| words[6] &= !1);
    broken(Broken::RecordSet, |words| words[0] |= 1);

    // Cell and call share a record: three times round a ring of one.
    let ring = problem(
        &book_l(),
        &snapshot(&[(10, &[10])]),
        &question(0, &[10, 10]),
    );
    let ten = 4u64;
    let step = [fact::pack(0, &[4, 4], 1), ten | ten << 8 | ten << 16];
    let words = [
        [fact::pack(0, &[4, 4], 0), ten | ten << 8, 0],
        [step[0], step[1], 1 | 1 << 8],
        [step[0], step[1], 1 | 2 << 8],
    ];
    assert_eq!(first_broken(&ring, &words[..2].concat()), Ok(()));
    assert_eq!(first_broken(&ring, &words.concat()), Err(Broken::Disjoint));

    // Two cells share a record: P(a) if a:() and a:().
    let book = [1, 1, 0, 1, 0, 0, 0, 2, 0, 0, 0, 0, 0];
    let twice = problem(&book, &snapshot(&[(9, &[])]), &question(0, &[9]));
    assert_eq!(
        first_broken(&twice, &[2 << 16 | 1, 2, 0]),
        Err(Broken::Disjoint)
    );
    // Two calls that share one are among the wrong turns in pools.rs.
}

#[test]
fn last_line() {
    // Line 2 alone on top: another argument, and not every record.
    broken(Broken::LastLine, |words| words.truncate(6));
    // The right predicate and arguments, but no record.
    broken(Broken::LastLine, |words| words.truncate(3));
    // A good line after the query.
    broken(Broken::LastLine, |words| words.extend([0, 0, 0]));
    // Another predicate with the same arguments and records.
    let (book, pool) = (book_h(), snapshot(&[]));
    let queue = problem(&book, &pool, &question(2, &[0, 0]));
    assert_eq!(first_broken(&queue, &[0, 0, 0]), Err(Broken::LastLine));
    let segment = problem(&book, &pool, &question(0, &[0, 0]));
    assert_eq!(first_broken(&segment, &[0, 0, 0]), Ok(()));
}

#[test]
fn what_the_check_leaves_free() {
    // A fact twice and a line that none calls are for the engine to avoid.
    let (problem, words) = ring_of_two();
    let mut more = vec![0, 0, 0];
    more.extend(&words[..3]);
    more.extend(&words[..3]);
    more.extend([words[3], words[4], 1 | 3 << 8]);
    more.extend([words[6], words[7], 1 | 4 << 8]);
    assert_eq!(first_broken(&problem, &more), Ok(()));
    assert!(tree::answers(
        &problem,
        &tree::open(&problem, &more, 100).unwrap()
    ));
}

#[test]
fn no_flipped_bit_gets_a_false_unfolding_taken() {
    let pools: [(Vec<u8>, Vec<u8>, Vec<u8>); 4] = [
        (
            book_l(),
            snapshot(&[(10, &[20]), (20, &[10])]),
            question(0, &[10, 10]),
        ),
        (book_s(), snapshot(&[]), question(0, &[0])),
        (book_h(), snapshot(&[(10, &[0])]), question(2, &[10, 0])),
        (
            book_h(),
            snapshot(&[(3, &[5]), (5, &[3])]),
            question(1, &[3]),
        ),
    ];
    for (book, snapshot, question) in pools {
        let outcome = api::decide(&book, &snapshot, &question, 1024, 3072);
        assert_eq!(outcome.reply.verdict, 1);
        let words = &outcome.memory.unwrap().space[..3 * outcome.reply.lines];
        let problem = problem(&book, &snapshot, &question);
        let tree = tree::open(&problem, words, 1000).unwrap();
        assert!(tree::answers(&problem, &tree));
        for index in 0..words.len() {
            for bit in 0..64 {
                let mut flipped = words.to_vec();
                flipped[index] ^= 1 << bit;
                let (refusal, taken) = api::check(&book, &snapshot, &question, &flipped);
                assert_eq!(refusal, 0);
                if taken == 1 {
                    let tree = tree::open(&problem, &flipped, 1000).unwrap();
                    assert!(tree::answers(&problem, &tree));
                }
                // These unfoldings have no line that any one bit could change.
                assert_eq!(taken, 0, "word {index} bit {bit}");
            }
        }
    }
}

#[test]
fn desk_check_over_bytes() {
    let (book, snapshot, question) = (book_l(), snapshot(&[]), question(0, &[5, 5]));
    let line = [fact::pack(0, &[4, 4], 0), 4 | 4 << 8, 0];
    let bytes = |lines: usize| -> Vec<u8> {
        let words = line.repeat(lines);
        words.iter().flat_map(|word| word.to_le_bytes()).collect()
    };
    let desk = |bytes: &[u8]| api::desk_check(&book, &snapshot, &question, bytes);
    assert_eq!(desk(&bytes(1)), 1);
    assert_eq!(desk(&bytes(1024)), 1);
    // One line more is beyond the entry, though not beyond the check.
    assert_eq!(desk(&bytes(1025)), 0);
    assert_eq!(
        api::check(&book, &snapshot, &question, &line.repeat(1025)),
        (0, 1)
    );
    assert_eq!(desk(&[]), 0);
    for cut in 1..24 {
        assert_eq!(desk(&bytes(1)[..cut]), 0);
        assert_eq!(desk(&bytes(2)[..24 + cut]), 0);
    }
    // A fault in the question comes before the limit.
    let faulty = api::desk_check(&book, &snapshot, &[], &bytes(1025));
    assert_eq!(faulty, 18);
}
