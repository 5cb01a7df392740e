//! Many small pools: the table against the one by all assignments, the
//! certificate against the check and the tree, the verdict against the search.

mod common;

use common::*;
use reference::api;
use reference::check;
use reference::domain::Domain;
use reference::fact;
use reference::fixpoint;
use reference::naive;
use reference::tree::{self, Answer};

#[test]
fn table_against_all_assignments() {
    let (mut full, mut fits, mut late) = (0, 0, 0);
    for seed in 0..6000 {
        let mut dice = Dice::new(seed);
        let book = dice.book(3);
        let snapshot = dice.snapshot(3);
        let question = dice.question(&book);
        let problem = problem(&book, &snapshot, &question);
        let domain = Domain::of(&problem);
        let by_rounds = fixpoint::facts(&problem, &domain, 300);
        let by_all = naive::table(&problem, &domain, 300);
        let Some((table, rounds)) = by_all else {
            assert!(by_rounds.is_none(), "seed {seed}");
            full += 1;
            continue;
        };
        let by_rounds = by_rounds.expect("the table holds them all");
        assert_eq!(by_rounds.table, table, "seed {seed}");
        assert_eq!(by_rounds.rounds, rounds, "seed {seed}");
        fits += table.contains(&fact::of_query(&problem, &domain)) as usize;
        late += (rounds > 2) as usize;
        // Exactly as many lines are enough, and one less is not.
        let lines = table.len();
        assert!(fixpoint::facts(&problem, &domain, lines).is_some());
        if lines > 0 {
            assert!(fixpoint::facts(&problem, &domain, lines - 1).is_none());
        }
    }
    assert!(
        full > 100 && fits > 100 && late > 150,
        "{full} {fits} {late}"
    );
}

#[test]
fn certificates_and_verdicts() {
    let (mut yes, mut none, mut out, mut long) = (0, 0, 0, 0);
    for seed in 0..20_000 {
        let mut dice = Dice::new(1_000_000 + seed);
        let book = dice.book(4);
        let snapshot = dice.snapshot(4);
        let question = dice.question(&book);
        let outcome = api::decide(&book, &snapshot, &question, 500, 1500);
        let reply = outcome.reply;
        let memory = outcome.memory.expect("no fault before the table");
        if reply.refusal == 11 {
            continue;
        }
        let desk = api::desk_engine(&book, &snapshot, &question);
        assert_eq!(desk, reply.verdict);
        let problem = problem(&book, &snapshot, &question);
        let (words, rest) = memory.space.split_at(3 * reply.lines);
        assert!(rest.iter().all(|&word| word == 0));
        assert!(memory.table[reply.facts..].iter().all(|&word| word == 0));
        if reply.verdict == 1 {
            assert!(check::takes(&problem, words), "seed {seed}");
            engine_promises(words);
            long += (reply.lines > 3) as usize;
            if let Some(tree) = tree::open(&problem, words, 10_000) {
                assert!(tree::answers(&problem, &tree), "seed {seed}");
            }
        } else {
            assert_eq!(reply.lines, 0);
        }
        match tree::search(&problem, 2, reply.rounds.min(6), 20_000) {
            Answer::Yes(tree) => {
                assert_eq!(reply.verdict, 1, "seed {seed}");
                assert!(tree::answers(&problem, &tree), "seed {seed}");
                yes += 1;
            }
            Answer::NoneFound => {
                assert!(reply.verdict == 0 || reply.rounds > 6, "seed {seed}");
                none += 1;
            }
            Answer::OutOfBudget => out += 1,
        }
    }
    assert!(
        yes > 200 && none > 500 && long > 20,
        "{yes} {none} {out} {long}"
    );
}

/// A fact about the whole pool must fit when it is asked for, though the kept
/// values are others then: its spares become the query's values.
#[test]
fn facts_for_the_whole_pool_fit_when_asked() {
    let (mut asked, mut found, mut spare) = (0, 0, 0);
    for seed in 0..8000 {
        let mut dice = Dice::new(5_000_000 + seed);
        let book = dice.book(4);
        let snapshot = dice.snapshot(4);
        let first = dice.question(&book);
        let before = problem(&book, &snapshot, &first);
        let domain = Domain::of(&before);
        let good = Domain::with_spares(&before, 0);
        let Some(facts) = fixpoint::facts(&before, &domain, 1000) else {
            continue;
        };
        let whole: Vec<u64> = facts
            .table
            .into_iter()
            .filter(|&fact| fact::records(fact) == fact::all_records(&before))
            .collect();
        if whole.is_empty() {
            continue;
        }
        let fact = dice.pick(&whole);
        let predicate = fact::predicate(fact);
        let values: Vec<u32> = (0..before.rules.arities[predicate])
            .map(|index| domain.values()[fact::argument(fact, index)] as u32)
            .collect();
        let again = question(predicate as u8, &values);
        let outcome = api::decide(&book, &snapshot, &again, 65_535, 196_605);
        let reply = outcome.reply;
        if reply.refusal == 11 {
            continue;
        }
        assert_eq!(reply.verdict, 1, "seed {seed}");
        asked += 1;
        spare += values
            .iter()
            .any(|&value| good.position(value as u64).is_none()) as usize;
        let words = &outcome.memory.unwrap().space[..3 * reply.lines];
        let after = problem(&book, &snapshot, &again);
        assert!(check::takes(&after, words), "seed {seed}");
        engine_promises(words);
        match tree::search(&after, 2, reply.rounds, 20_000) {
            Answer::Yes(tree) => {
                assert!(tree::answers(&after, &tree), "seed {seed}");
                found += 1;
            }
            other => assert_eq!(other, Answer::OutOfBudget, "seed {seed}"),
        }
    }
    assert!(
        asked > 1000 && found > 900 && spare > 300,
        "{asked} {found} {spare}"
    );
}

#[test]
fn what_makes_a_tree_finished() {
    let problem = problem(
        &book_l(),
        &snapshot(&[(10, &[20]), (20, &[10])]),
        &question(0, &[10, 10]),
    );
    let good = node(10, 10, 20, node(20, 10, 10, leaf(10, 10)));
    assert!(tree::answers(&problem, &good));
    let wrong = [
        // Not every record.
        leaf(10, 10),
        // Round twice: every record taken again.
        node(
            10,
            10,
            20,
            node(20, 10, 10, node(10, 10, 20, node(20, 10, 10, leaf(10, 10)))),
        ),
        // Other arguments than the call's or the query's.
        node(10, 10, 20, node(20, 10, 10, leaf(20, 20))),
        node(20, 20, 10, node(10, 20, 20, leaf(20, 20))),
        // A false condition, a wrong field, a missing value, a missing node.
        node(10, 10, 20, leaf(20, 10)),
        node(10, 10, 10, node(10, 10, 20, leaf(20, 20))),
        tree::Tree {
            rule: 0,
            values: vec![10],
            under: vec![],
        },
        tree::Tree {
            rule: 1,
            values: vec![10, 10, 20],
            under: vec![],
        },
        tree::Tree {
            rule: 2,
            values: vec![],
            under: vec![],
        },
    ];
    for tree in wrong {
        assert!(!tree::answers(&problem, &tree), "{tree:?}");
    }
}

#[test]
fn a_tree_may_use_any_number() {
    // Book S: b may be any number but a, also one far beyond 32 bits.
    let problem = problem(&book_s(), &snapshot(&[]), &question(0, &[0]));
    let with = |b| tree::Tree {
        rule: 0,
        values: vec![0, b],
        under: vec![tree::Tree {
            rule: 1,
            values: vec![0, b],
            under: vec![],
        }],
    };
    assert!(tree::answers(&problem, &with(u64::MAX)));
    assert!(!tree::answers(&problem, &with(0)));
}
