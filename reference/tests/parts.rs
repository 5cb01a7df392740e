//! The question about some part of the pool: small pools worked out by hand,
//! the lent memory, the check with a part, and the ways to the parts that fit
//! against one another.

mod common;

use common::*;
use reference::api::{self, PartReply};
use reference::check::{self, Broken};
use reference::domain::Domain;
use reference::tree::{self, Answer};
use reference::{certificate, fact, fixpoint, naive, verdict};

fn fits(part: u16, facts: usize, rounds: usize, lines: usize) -> PartReply {
    PartReply {
        refusal: 0,
        verdict: 1,
        part,
        facts,
        rounds,
        lines,
    }
}

fn no(facts: usize, rounds: usize) -> PartReply {
    PartReply {
        refusal: 0,
        verdict: 0,
        part: 0,
        facts,
        rounds,
        lines: 0,
    }
}

fn refused(refusal: u32) -> PartReply {
    PartReply {
        refusal,
        ..PartReply::default()
    }
}

/// Reply and unfolding, with the parts from the table that came with them.
fn ask(book: &[u8], snapshot: &[u8], question: &[u8]) -> (PartReply, Vec<u64>, Vec<u16>) {
    let outcome = api::decide_part(book, snapshot, question, 1024, 3072);
    let (reply, memory) = (outcome.reply, outcome.memory.unwrap());
    let problem = problem(book, snapshot, question);
    let domain = Domain::of(&problem);
    let parts = verdict::fitting_parts(&problem, &domain, &memory.table[..reply.facts]);
    (reply, memory.space[..3 * reply.lines].to_vec(), parts)
}

#[test]
fn a_segment_with_one_record_at_hand() {
    let (book, pool) = (book_l(), snapshot(&[(10, &[20])]));
    let rows = [
        // The empty part fits, though the record does not.
        ([10, 10], fits(0, 7, 2, 1), vec![0]),
        ([10, 20], fits(1, 7, 2, 2), vec![1]),
        // One more kept value, so one more empty segment.
        ([10, 30], no(8, 2), vec![]),
        ([20, 10], no(7, 2), vec![]),
    ];
    for (values, expected, parts) in rows {
        let question = question(0, &values);
        let (reply, words, found) = ask(&book, &pool, &question);
        assert_eq!(reply, expected, "{values:?}");
        assert_eq!(found, parts, "{values:?}");
        let checked = api::check_part(&book, &pool, &question, reply.part, &words);
        assert_eq!(checked, (0, expected.verdict), "{values:?}");
        let whole = api::decide(&book, &pool, &question, 1024, 3072).reply;
        assert_eq!(whole.verdict, parts.contains(&1) as u32, "{values:?}");

        let problem = problem(&book, &pool, &question);
        assert_eq!(naive::fitting_parts(&problem, 1024), Some(parts.clone()));
        let by_hand = tree::fitting_parts(&problem, 2, 2, 10_000);
        assert_eq!(by_hand, Some(parts), "{values:?}");
        match tree::search_part(&problem, 2, 2, 10_000) {
            Answer::Yes(tree) => assert!(tree::answers_part(&problem, reply.part, &tree)),
            other => assert_eq!((other, reply.verdict), (Answer::NoneFound, 0)),
        }
    }
}

/// Two rings of two records each.
fn two_rings() -> (Vec<u8>, Vec<u8>) {
    let pool = snapshot(&[(10, &[20]), (20, &[10]), (30, &[40]), (40, &[30])]);
    (book_h(), pool)
}

#[test]
fn one_of_two_rings() {
    let (book, pool) = two_rings();
    // For each of 8 kept values an empty segment, for each ring four segments
    // that are not empty and a ring from both ends, and the empty queue.
    let rows = [
        (10, fits(0b0011, 21, 3, 3)),
        (20, fits(0b0011, 21, 3, 3)),
        (30, fits(0b1100, 21, 3, 3)),
        (40, fits(0b1100, 21, 3, 3)),
        (50, no(22, 3)),
    ];
    for (address, expected) in rows {
        let question = question(1, &[address]);
        let (reply, words, found) = ask(&book, &pool, &question);
        assert_eq!(reply, expected, "{address}");
        let parts = [reply.part][..reply.verdict as usize].to_vec();
        assert_eq!(found, parts, "{address}");
        let problem = problem(&book, &pool, &question);
        assert_eq!(naive::fitting_parts(&problem, 1024), Some(parts.clone()));
        let by_hand = tree::fitting_parts(&problem, 1, 3, 100_000);
        assert_eq!(by_hand, Some(parts), "{address}");
        // Neither ring is the whole pool.
        let whole = api::decide(&book, &pool, &question, 1024, 3072).reply;
        assert_eq!(whole.verdict, 0);
        assert_eq!(api::check(&book, &pool, &question, &words), (0, 0));
    }
}

#[test]
fn fifteen_of_sixteen() {
    let book = book_l();
    for left_out in 0..16 {
        // A chain through all records but one, which leads nowhere.
        let chain: Vec<u32> = (1..17).filter(|&address| address != 1 + left_out).collect();
        let mut links = [[200u32]; 16];
        for (index, &address) in chain.iter().enumerate() {
            links[address as usize - 1] = [*chain.get(index + 1).unwrap_or(&100)];
        }
        let records: Vec<(u32, &[u32])> = (1..).zip(links.iter().map(|link| &link[..])).collect();
        let (pool, question) = (snapshot(&records), question(0, &[chain[0], 100]));
        let (reply, words, found) = ask(&book, &pool, &question);
        let part = !(1u16 << left_out);
        // Empty segments for 16 addresses, 0, 100, 200 and three spares; the
        // stretches of the chain; and the stray record's own.
        assert_eq!(reply, fits(part, 22 + 120 + 1, 16, 16));
        assert_eq!(found, [part]);
        assert_eq!(
            api::check_part(&book, &pool, &question, part, &words),
            (0, 1)
        );
        assert_eq!(
            api::check_part(&book, &pool, &question, 0xffff, &words),
            (0, 0)
        );
        let whole = api::decide(&book, &pool, &question, 1024, 3072).reply;
        assert_eq!(whole.verdict, 0);
    }
}

#[test]
fn parts_are_ascending_though_found_by_rounds() {
    // Any pool at all: records one by one, so 4 comes in an earlier round
    // than 3.
    let any = known_books()[5].clone();
    let pool = snapshot(&[(1, &[]), (2, &[1]), (3, &[1, 2])]);
    let (reply, _, found) = ask(&any, &pool, &question(0, &[]));
    assert_eq!(found, [0, 1, 2, 3, 4, 5, 6, 7]);
    // The smallest of them is the empty one.
    assert_eq!((reply.part, reply.lines), (0, 1));
    // Predicate 1 is a single record.
    let (reply, _, found) = ask(&any, &pool, &question(1, &[2]));
    assert_eq!((reply.part, reply.lines, found), (2, 1, vec![2]));
}

#[test]
fn spares_count_for_parts_too() {
    // Book S has b unequal a; without a spare there is no such b.
    let (book, pool) = (book_s(), snapshot(&[]));
    let (reply, words, found) = ask(&book, &pool, &question(0, &[0]));
    assert_eq!((reply, found), (fits(0, 12, 2, 2), vec![0]));
    // The empty pool has one part, so both calls write the same.
    let whole = api::decide(&book, &pool, &question(0, &[0]), 1024, 3072);
    assert_eq!(whole.memory.unwrap().space[..6], words);
}

#[test]
fn lent_memory_on_every_way_out() {
    let (book, pool) = (book_l(), snapshot(&[(10, &[20]), (20, &[10])]));
    let (empty, one, not) = (
        question(0, &[10, 10]),
        question(0, &[20, 10]),
        question(0, &[10, 0]),
    );
    let found = 0xAAAA_AAAA_AAAA_AAAA;
    let run = |book: &[u8], pool: &[u8], question: &[u8], lines: usize, words: usize| {
        let mut table = vec![found; lines];
        let mut space = vec![found; words];
        let reply = api::decide_part_lent(book, pool, question, &mut table, &mut space);
        (reply, table, space)
    };
    let mut longer = pool.clone();
    longer.push(0);
    type Case<'a> = (&'a [u8], &'a [u8], &'a [u8], usize, usize, u32);
    let untouched: [Case; 13] = [
        (&[], &pool, &one, 12, 36, 1),
        (&[0], &pool, &one, 12, 36, 2),
        (&[1, 0, 0, 1, 1], &pool, &one, 12, 36, 3),
        (&[1, 0, 0, 0, 0], &pool, &one, 12, 36, 4),
        (&book, &[], &one, 12, 36, 5),
        (&book, &[17], &one, 12, 36, 6),
        (&book, &[1, 0, 0, 0, 0], &one, 12, 36, 7),
        (&book, &longer, &one, 12, 36, 8),
        (&book, &pool, &[], 12, 36, 9),
        (&book, &pool, &one, 0, 0, 10),
        (&book, &pool, &one, 12, 35, 10),
        (&book, &pool, &empty, 12, 37, 10),
        (&book, &pool, &one, 65_536, 196_608, 10),
    ];
    for (book, pool, question, lines, words, refusal) in untouched {
        let (reply, table, space) = run(book, pool, question, lines, words);
        assert_eq!(reply, refused(refusal));
        assert!(table.iter().chain(&space).all(|&word| word == found));
    }
    // Ten facts are one too many for nine lines, also where a fact of the
    // first round would do for an answer.
    for question in [&empty, &one, &not] {
        let (reply, table, space) = run(&book, &pool, question, 9, 27);
        assert_eq!(reply, refused(11));
        assert!(table.iter().chain(&space).all(|&word| word == 0));
    }
    // The table is that of the whole pool, whatever part is chosen.
    let rows = [
        (&empty, fits(0, 10, 3, 1)),
        (&one, fits(2, 10, 3, 2)),
        (&not, no(10, 3)),
    ];
    for (question, expected) in rows {
        for lines in [10, 12] {
            let (reply, table, space) = run(&book, &pool, question, lines, 3 * lines);
            assert_eq!(reply, expected);
            let whole = api::decide(&book, &pool, question, lines, 3 * lines);
            assert_eq!(table, whole.memory.unwrap().table);
            assert!(table[9] != 0 && table[10..].iter().all(|&word| word == 0));
            let (words, rest) = space.split_at(3 * reply.lines);
            assert!(rest.iter().all(|&word| word == 0));
            let checked = api::check_part(&book, &pool, question, reply.part, words);
            assert_eq!(checked, (0, reply.verdict));
        }
    }
}

#[test]
fn an_unfolding_is_for_one_part_only() {
    let (book, pool) = two_rings();
    for address in [10, 30] {
        let question = question(1, &[address]);
        let (reply, words, _) = ask(&book, &pool, &question);
        // All parts there can be, those with bits beyond the records too.
        for part in 0..=0xffff {
            let checked = api::check_part(&book, &pool, &question, part, &words);
            assert_eq!(checked, (0, (part == reply.part) as u32), "{part}");
        }
    }
}

#[test]
fn a_bit_beyond_the_records() {
    let (book, pool) = two_rings();
    let question = question(1, &[10]);
    let (reply, words, _) = ask(&book, &pool, &question);
    let problem = problem(&book, &pool, &question);
    for bit in 4..16 {
        let part = reply.part | 1 << bit;
        assert_eq!(
            check::first_broken_part(&problem, part, &words),
            Err(Broken::LastLine)
        );
        // The last line may name the part, or every line: it is still not the
        // join of what it calls.
        let mut last = words.clone();
        last[6] |= 1 << bit;
        assert_eq!(
            check::first_broken_part(&problem, part, &last),
            Err(Broken::RecordSet)
        );
        let mut every = last;
        every[0] |= 1 << bit;
        every[3] |= 1 << bit;
        assert_eq!(
            check::first_broken_part(&problem, part, &every),
            Err(Broken::RecordSet)
        );
    }
}

#[test]
fn the_last_line_decides_the_part() {
    // Row 6 line by line: no record, record 1 with other arguments, both.
    let (book, pool) = (book_l(), snapshot(&[(10, &[20]), (20, &[10])]));
    let question = question(0, &[10, 10]);
    let words = api::decide(&book, &pool, &question, 10, 30)
        .memory
        .unwrap()
        .space;
    let taken = |lines: usize| -> Vec<u16> {
        let words = &words[..3 * lines];
        let part = |&part: &u16| api::check_part(&book, &pool, &question, part, words) == (0, 1);
        (0..8).filter(part).collect()
    };
    assert_eq!(taken(1), [0]);
    assert_eq!(taken(2), []);
    assert_eq!(taken(3), [3]);
}

#[test]
fn what_part_a_tree_takes() {
    let problem = problem(
        &book_l(),
        &snapshot(&[(10, &[20]), (20, &[10])]),
        &question(0, &[10, 10]),
    );
    let round = node(10, 10, 20, node(20, 10, 10, leaf(10, 10)));
    let rows = [
        (leaf(10, 10), Some(0)),
        (round.clone(), Some(3)),
        // Finished, but the query has other arguments.
        (node(20, 10, 10, leaf(10, 10)), None),
        // Round twice.
        (node(10, 10, 20, node(20, 10, 10, round)), None),
    ];
    for (tree, expected) in rows {
        for part in 0..8 {
            let answers = tree::answers_part(&problem, part, &tree);
            assert_eq!(answers, expected == Some(part), "{part} {tree:?}");
        }
    }
}

/// A question, and every other time one for which some records fit, since these
/// are few.
fn likely_question(dice: &mut Dice, book: &[u8], snapshot: &[u8]) -> Vec<u8> {
    let first = dice.question(book);
    if dice.below(2) == 0 {
        return first;
    }
    let problem = problem(book, snapshot, &first);
    let domain = Domain::of(&problem);
    let mut facts = fixpoint::facts(&problem, &domain, 300).map_or(vec![], |facts| facts.table);
    facts.retain(|&fact| fact::records(fact) != 0);
    if facts.is_empty() {
        return first;
    }
    let fact = dice.pick(&facts);
    let predicate = fact::predicate(fact);
    let values: Vec<u32> = (0..problem.rules.arities[predicate])
        .map(|index| domain.values()[fact::argument(fact, index)] as u32)
        .collect();
    question(predicate as u8, &values)
}

/// The parts from the table against those that fit as pools of their own, and
/// an unfolding for every one of them.
#[test]
fn parts_against_pools_of_their_own() {
    let (mut none, mut several, mut proper) = (0, 0, 0);
    for seed in 0..5000 {
        let mut dice = Dice::new(2_000_000 + seed);
        let book = dice.book(3);
        let snapshot = dice.snapshot(3);
        let question = likely_question(&mut dice, &book, &snapshot);
        let problem = problem(&book, &snapshot, &question);
        let domain = Domain::of(&problem);
        let Some(facts) = fixpoint::facts(&problem, &domain, 300) else {
            continue;
        };
        let parts = verdict::fitting_parts(&problem, &domain, &facts.table);
        // A smaller pool has no more facts.
        let alone = naive::fitting_parts(&problem, 300).expect("the tables hold them all");
        assert_eq!(parts, alone, "seed {seed}");
        let all = fact::all_records(&problem);
        for part in 0..=all {
            let words = certificate::build_part(&problem, &domain, &facts, part);
            assert_eq!(words.is_some(), parts.contains(&part), "seed {seed}");
            if let Some(words) = words {
                assert!(check::takes_part(&problem, part, &words), "seed {seed}");
                engine_promises(&words);
            }
        }
        none += parts.is_empty() as usize;
        several += (parts.len() > 1) as usize;
        proper += parts.iter().any(|&part| part != 0 && part != all) as usize;
    }
    assert!(
        none > 1000 && several > 100 && proper > 250,
        "{none} {several} {proper}"
    );
}

/// The call about some part against that about the whole pool, the check, and
/// unfolding by hand.
#[test]
fn some_part_against_trees() {
    let (mut proper, mut full, mut found, mut all_found, mut out) = (0, 0, 0, 0, 0);
    for seed in 0..8000 {
        let mut dice = Dice::new(3_000_000 + seed);
        let book = dice.book(4);
        let snapshot = dice.snapshot(4);
        let question = likely_question(&mut dice, &book, &snapshot);
        let whole = api::decide(&book, &snapshot, &question, 500, 1500);
        let some = api::decide_part(&book, &snapshot, &question, 500, 1500);
        let (whole, whole_memory) = (whole.reply, whole.memory.unwrap());
        let (some, memory) = (some.reply, some.memory.unwrap());
        assert_eq!(memory.table, whole_memory.table, "seed {seed}");
        assert_eq!(some.refusal, whole.refusal, "seed {seed}");
        if some.refusal == 11 {
            assert_eq!(some, refused(11), "seed {seed}");
            assert_eq!(memory, whole_memory, "seed {seed}");
            full += 1;
            continue;
        }
        assert_eq!(some.facts, whole.facts, "seed {seed}");
        assert_eq!(some.rounds, whole.rounds, "seed {seed}");
        let problem = problem(&book, &snapshot, &question);
        let all = fact::all_records(&problem);
        let domain = Domain::of(&problem);
        let table = &memory.table[..some.facts];
        let parts = verdict::fitting_parts(&problem, &domain, table);
        assert_eq!(whole.verdict, parts.contains(&all) as u32, "seed {seed}");
        let (words, rest) = memory.space.split_at(3 * some.lines);
        assert!(rest.iter().all(|&word| word == 0), "seed {seed}");
        if some.verdict == 1 {
            assert!(parts.contains(&some.part), "seed {seed}");
            engine_promises(words);
            proper += (some.part != 0 && some.part != all) as usize;
        } else {
            assert_eq!((some.part, some.lines), (0, 0), "seed {seed}");
            assert!(parts.is_empty(), "seed {seed}");
        }
        // One bit beyond the records is among these parts.
        let opened = tree::open(&problem, words, 10_000);
        for part in 0..=2 * all + 1 {
            let right = some.verdict == 1 && part == some.part;
            let checked = api::check_part(&book, &snapshot, &question, part, words);
            assert_eq!(checked, (0, right as u32), "seed {seed}");
            if let Some(tree) = &opened {
                let answers = tree::answers_part(&problem, part, tree);
                assert_eq!(answers, right, "seed {seed}");
            }
        }
        // One level more than rounds, or a round left out would not show.
        let depth = (some.rounds + 1).min(6);
        match tree::search_part(&problem, 2, depth, 5_000) {
            Answer::Yes(tree) => {
                let answers = |&part: &u16| tree::answers_part(&problem, part, &tree);
                assert!(parts.iter().any(answers), "seed {seed}");
                found += 1;
            }
            Answer::NoneFound => {
                assert!(some.verdict == 0 || some.rounds > 6, "seed {seed}");
            }
            Answer::OutOfBudget => out += 1,
        }
        match tree::fitting_parts(&problem, 2, depth, 5_000) {
            Some(by_hand) if some.rounds <= 6 => {
                assert_eq!(by_hand, parts, "seed {seed}");
                all_found += (parts.len() > 1) as usize;
            }
            Some(by_hand) => {
                assert!(by_hand.iter().all(|part| parts.contains(part)));
            }
            None => out += 1,
        }
    }
    assert!(
        proper > 400 && full > 200 && found > 3000 && all_found > 150,
        "{proper} {full} {found} {all_found} {out}"
    );
}
