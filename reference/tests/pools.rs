//! The pools tried, the lent memory on every way out, and the wrong turns.

mod common;

use common::*;
use reference::api::{self, Reply};
use reference::domain::Domain;
use reference::{check, fact, fixpoint, formats, naive, tree, verdict};

fn fits(facts: usize, rounds: usize, lines: usize) -> Reply {
    Reply {
        refusal: 0,
        verdict: 1,
        facts,
        rounds,
        lines,
    }
}

fn no(facts: usize, rounds: usize) -> Reply {
    Reply {
        refusal: 0,
        verdict: 0,
        facts,
        rounds,
        lines: 0,
    }
}

fn refused(refusal: u32) -> Reply {
    Reply {
        refusal,
        ..Reply::default()
    }
}

fn reply(book: &[u8], snapshot: &[u8], question: &[u8]) -> Reply {
    api::decide(book, snapshot, question, 1024, 3072).reply
}

#[test]
fn starred_rows() {
    let (l, s, h) = (book_l(), book_s(), book_h());
    let none = snapshot(&[]);
    let one = snapshot(&[(10, &[20])]);
    let own = snapshot(&[(10, &[10])]);
    let two = snapshot(&[(10, &[20]), (20, &[10])]);
    let last = snapshot(&[(10, &[0])]);
    let rows = [
        (1, &l, &none, question(0, &[5, 5]), fits(5, 1, 1)),
        (2, &l, &none, question(0, &[5, 6]), no(6, 1)),
        (3, &l, &one, question(0, &[10, 20]), fits(7, 2, 2)),
        (4, &l, &one, question(0, &[10, 10]), no(7, 2)),
        (5, &l, &own, question(0, &[10, 10]), fits(6, 2, 2)),
        (6, &l, &two, question(0, &[10, 10]), fits(10, 3, 3)),
        (7, &s, &none, question(0, &[0]), fits(12, 2, 2)),
        (8, &h, &last, question(2, &[10, 0]), fits(9, 3, 3)),
        (9, &h, &last, question(2, &[10, 10]), no(9, 3)),
    ];
    for (row, book, snapshot, question, expected) in rows {
        assert_eq!(reply(book, snapshot, &question), expected, "row {row}");
        let outcome = api::decide(book, snapshot, &question, 1024, 3072);
        let words = &outcome.memory.unwrap().space[..3 * expected.lines];
        let taken = api::check(book, snapshot, &question, words);
        assert_eq!(taken, (0, expected.verdict), "row {row}");
        let problem = problem(book, snapshot, &question);
        match tree::search(&problem, 2, expected.rounds, 200_000) {
            tree::Answer::Yes(found) => {
                assert_eq!(expected.verdict, 1, "row {row}");
                assert!(tree::answers(&problem, &found), "row {row}");
            }
            other => {
                assert_eq!(expected.verdict, 0, "row {row}");
                assert_eq!(other, tree::Answer::NoneFound, "row {row}");
            }
        }
    }
}

#[test]
fn row_3_table_in_full() {
    let (book, snapshot, question) = (book_l(), snapshot(&[(10, &[20])]), question(0, &[10, 20]));
    let problem = problem(&book, &snapshot, &question);
    assert_eq!(Domain::of(&problem).values(), [0, 1, 2, 3, 10, 20]);
    let memory = api::decide(&book, &snapshot, &question, 9, 27)
        .memory
        .unwrap();
    let empty = |position| fact::pack(0, &[position, position], 0);
    let expected = [
        empty(0),
        empty(1),
        empty(2),
        empty(3),
        empty(4),
        empty(5),
        42_205_185,
        0,
        0,
    ];
    assert_eq!(memory.table, expected);
}

#[test]
fn row_10_the_table_is_exact() {
    let (book, snapshot, question) = (
        book_l(),
        snapshot(&[(10, &[20]), (20, &[10])]),
        question(0, &[10, 10]),
    );
    let nine = api::decide(&book, &snapshot, &question, 9, 27).reply;
    let ten = api::decide(&book, &snapshot, &question, 10, 30).reply;
    assert_eq!(nine, refused(11));
    assert_eq!(ten, fits(10, 3, 3));
}

#[test]
fn row_11_one_byte_less_or_more() {
    let (snapshot, question) = (snapshot(&[]), question(0, &[5, 5]));
    let mut book = book_l();
    book.push(0);
    assert_eq!(reply(&book, &snapshot, &question), refused(4));
    book.truncate(book.len() - 2);
    assert_eq!(reply(&book, &snapshot, &question), refused(1));
}

#[test]
fn row_12_eight_variables() {
    let (snapshot, question) = (snapshot(&[]), question(0, &[5, 5]));
    let six = [1, 2, 0, 1, 0, 6, 0, 0, 0];
    let seven = [1, 2, 0, 1, 0, 7, 0, 0, 0];
    assert_eq!(reply(&six, &snapshot, &question).refusal, 0);
    assert_eq!(reply(&seven, &snapshot, &question), refused(2));
}

#[test]
fn row_13_sixteen_records() {
    let (book, question) = (book_l(), question(0, &[1, 17]));
    let links: Vec<[u32; 1]> = (2..19).map(|next| [next]).collect();
    let records: Vec<(u32, &[u32])> = (1..).zip(links.iter().map(|link| &link[..])).collect();
    // A chain: 20 kept values empty, and every stretch of 1 to 16 records.
    let sixteen = reply(&book, &snapshot(&records[..16]), &question);
    assert_eq!(sixteen, fits(18 + 3 + 136, 17, 17));
    assert_eq!(
        reply(&book, &snapshot(&records[..17]), &question),
        refused(6)
    );
}

#[test]
fn most_kept_values() {
    let mut records = Vec::new();
    let fields: Vec<[u32; 4]> = (0..16)
        .map(|i| [1000 + i, 2000 + i, 3000 + i, MOST - i])
        .collect();
    for (index, four) in fields.iter().enumerate() {
        records.push((100 + index as u32, &four[..]));
    }
    let book = [1, 4, 0, 1, 0, 4, 0, 0, 0];
    let problem = problem(&book, &snapshot(&records), &question(0, &[1, 3, 5, 7]));
    let domain = Domain::of(&problem);
    assert_eq!(domain.len(), 93);
    // The spares fill up what is free from below: 2 4 6 8 9 10 11 12.
    assert_eq!(domain.values()[..13], (0..13).collect::<Vec<u64>>());
    assert_eq!(domain.values()[13], 100);
    assert_eq!(domain.values()[92], MOST as u64);
}

#[test]
fn no_rule_means_no_spare_and_no_fact() {
    let book = [1, 1, 0, 0];
    let (snapshot, question) = (snapshot(&[]), question(0, &[4]));
    let problem = problem(&book, &snapshot, &question);
    assert_eq!(Domain::of(&problem).values(), [0, 4]);
    assert_eq!(reply(&book, &snapshot, &question), no(0, 0));
}

#[test]
fn four_arguments_and_the_last_predicate() {
    // Eight predicates of four arguments; the last holds for any values.
    let book = [8, 4, 4, 4, 4, 4, 4, 4, 4, 0, 1, 7, 0, 0, 0, 0];
    let question = question(7, &[0, 0, 0, 0]);
    let outcome = api::decide(&book, &snapshot(&[]), &question, 625, 1875);
    assert_eq!(outcome.reply, fits(625, 1, 1));
    let table = outcome.memory.unwrap().table;
    assert_eq!(table[0], 7 << 44);
    let top = 7 << 44 | 4 << 37 | 4 << 30 | 4 << 23 | 4 << 16;
    assert_eq!(table[624], top);
    let short = api::decide(&book, &snapshot(&[]), &question, 624, 1872);
    assert_eq!(short.reply, refused(11));
}

#[test]
fn lent_memory_on_every_way_out() {
    let (book, pool) = (book_l(), snapshot(&[(10, &[20])]));
    let (yes, not) = (question(0, &[10, 20]), question(0, &[10, 10]));
    let found = 0xAAAA_AAAA_AAAA_AAAA;
    let run = |book: &[u8], pool: &[u8], question: &[u8], lines: usize, words: usize| {
        let mut table = vec![found; lines];
        let mut space = vec![found; words];
        let reply = api::decide_lent(book, pool, question, &mut table, &mut space);
        (reply, table, space)
    };
    let mut longer = pool.clone();
    longer.push(0);
    type Case<'a> = (&'a [u8], &'a [u8], &'a [u8], usize, usize, u32);
    let untouched: [Case; 12] = [
        (&[], &pool, &yes, 8, 24, 1),
        (&[0], &pool, &yes, 8, 24, 2),
        (&[1, 0, 0, 1, 1], &pool, &yes, 8, 24, 3),
        (&[1, 0, 0, 0, 0], &pool, &yes, 8, 24, 4),
        (&book, &[], &yes, 8, 24, 5),
        (&book, &[17], &yes, 8, 24, 6),
        (&book, &[1, 0, 0, 0, 0], &yes, 8, 24, 7),
        (&book, &longer, &yes, 8, 24, 8),
        (&book, &pool, &[], 8, 24, 9),
        (&book, &pool, &yes, 0, 0, 10),
        (&book, &pool, &yes, 8, 23, 10),
        (&book, &pool, &yes, 65_536, 196_608, 10),
    ];
    for (book, pool, question, lines, words, refusal) in untouched {
        let (reply, table, space) = run(book, pool, question, lines, words);
        assert_eq!(reply, refused(refusal));
        assert!(table.iter().chain(&space).all(|&word| word == found));
    }
    let (reply, table, space) = run(&book, &pool, &yes, 6, 18);
    assert_eq!(reply, refused(11));
    assert!(table.iter().chain(&space).all(|&word| word == 0));

    let (reply, table, space) = run(&book, &pool, &not, 8, 24);
    // The query's values are all in the pool, so the domain is as in row 3.
    assert_eq!(reply, no(7, 2));
    assert_eq!((table[6], table[7]), (42_205_185, 0));
    assert!(space.iter().all(|&word| word == 0));

    let (reply, table, space) = run(&book, &pool, &yes, 8, 24);
    assert_eq!(reply, fits(7, 2, 2));
    assert_eq!((table[6], table[7]), (42_205_185, 0));
    assert_eq!(space[3], 42_205_185);
    assert!(space[6..].iter().all(|&word| word == 0));

    let (reply, _, _) = run(&book, &pool, &yes, 65_535, 196_605);
    assert_eq!(reply, fits(7, 2, 2));
}

#[test]
fn wrong_turn_no_spares() {
    let problem = problem(&book_s(), &snapshot(&[]), &question(0, &[0]));
    let bare = Domain::with_spares(&problem, 0);
    assert_eq!(bare.values(), [0]);
    let facts = fixpoint::facts(&problem, &bare, 100).unwrap();
    assert!(!verdict::fits(&problem, &bare, &facts));
    assert_eq!(
        naive::table(&problem, &bare, 100).unwrap(),
        (facts.table, facts.rounds)
    );
    let kept = Domain::of(&problem);
    let facts = fixpoint::facts(&problem, &kept, 100).unwrap();
    assert!(verdict::fits(&problem, &kept, &facts));
}

#[test]
fn wrong_turn_shared_record() {
    // As row 9: both calls would need record 10.
    let (book, snapshot, question) = (book_h(), snapshot(&[(10, &[0])]), question(2, &[10, 10]));
    assert_eq!(reply(&book, &snapshot, &question), no(9, 3));
    let problem = problem(&book, &snapshot, &question);
    assert_eq!(Domain::of(&problem).values(), [0, 1, 2, 3, 10]);
    let empty = [fact::pack(0, &[0, 0], 0), 0, 0];
    let segment = [fact::pack(0, &[4, 0], 1), 4, 1 | 1 << 8];
    let queue = [fact::pack(2, &[4, 4], 1), 4 | 4 << 8, 3 | 2 << 8 | 2 << 24];
    let words = [empty, segment, queue].concat();
    assert_eq!(
        check::first_broken(&problem, &words),
        Err(check::Broken::Disjoint)
    );
}

#[test]
fn wrong_turn_call_without_end() {
    let book = [1, 0, 0, 1, 0, 0, 0, 0, 1, 0];
    let (snapshot, question) = (snapshot(&[]), question(0, &[]));
    assert_eq!(reply(&book, &snapshot, &question), no(0, 0));
    let problem = problem(&book, &snapshot, &question);
    // A line that calls itself is no ground either.
    assert_eq!(
        check::first_broken(&problem, &[0, 0, 1 << 8]),
        Err(check::Broken::CalledLine)
    );
    assert_eq!(
        tree::search(&problem, 2, 50, 100_000),
        tree::Answer::NoneFound
    );
}

#[test]
fn wrong_turn_empty_line_called_twice() {
    let (book, snapshot, question) = (book_h(), snapshot(&[]), question(2, &[0, 0]));
    let outcome = api::decide(&book, &snapshot, &question, 1024, 3072);
    assert_eq!(outcome.reply.verdict, 1);
    assert_eq!(outcome.reply.lines, 2);
    let words = &outcome.memory.unwrap().space[..6];
    assert_eq!(words[5], 3 | 1 << 8 | 1 << 24);
    assert_eq!(api::check(&book, &snapshot, &question, words), (0, 1));
}

#[test]
fn a_late_contradiction_is_quick() {
    // Eight variables, the first of them unbounded, and 7 unequal 7.
    let book = [1, 0, 0, 1, 0, 8, 1, 1, 7, 7, 0, 0];
    assert_eq!(reply(&book, &snapshot(&[]), &question(0, &[])), no(0, 0));
    // 0 = 6, 1 = 6, 0 unequal 1.
    let book = [1, 0, 0, 1, 0, 8, 3, 0, 0, 6, 0, 1, 6, 1, 0, 1, 0, 0];
    assert_eq!(reply(&book, &snapshot(&[]), &question(0, &[])), no(0, 0));
    // Eight pairwise-linked unequal variables are met with the spares.
    let book = [
        1, 0, 0, 1, 0, 8, 8, 1, 0, 1, 1, 1, 2, 1, 2, 3, 1, 3, 4, 1, 4, 5, 1, 5, 6, 1, 6, 7, 1, 7,
        0, 0, 0,
    ];
    assert_eq!(
        reply(&book, &snapshot(&[]), &question(0, &[])),
        fits(1, 1, 1)
    );
    assert!(formats::read_rule_set(&book).is_ok());
}
