//! Books at random, most of them plain but for one change: what is against them
//! by classes of terms and by trying, and what the walk says of them.

mod common;

use common::near::{Change, Draft, CHANGES};
use common::*;
use reference::api::{self, WalkReply};
use reference::domain::Domain;
use reference::formats::{self, RuleSet};
use reference::plain::{self, Fault};
use reference::{naive, trial, verdict, walk};
use std::collections::BTreeSet;

fn read(book: &[u8]) -> RuleSet {
    formats::read_rule_set(book).expect("no fault")
}

/// What is against the book, the same by both ways.
#[track_caller]
fn faults(book: &[u8]) -> Vec<Fault> {
    let rules = read(book);
    let faults = plain::faults(&rules);
    assert_eq!(faults, trial::faults(&rules), "{book:?}");
    assert_eq!(api::plain_faults(book), Ok(faults.clone()));
    assert_eq!(api::plain_book(book), Ok(faults.is_empty()));
    faults
}

/// The conditions that fail, as bits: 1 for the first, 2 for the second, 4 for
/// the third.
fn conditions(faults: &[Fault]) -> usize {
    let bit = |fault: &Fault| 1 << (fault.condition() - 1);
    faults.iter().map(bit).fold(0, |bits, bit| bits | bit)
}

/// How many ways the slowest way would have to try.
fn ways(rules: &RuleSet) -> usize {
    let widest = rules.rules.iter().map(|rule| rule.variables).max();
    let size = 2 * widest.unwrap_or(0);
    (1 + rules.constants.len() + size).saturating_pow(size as u32)
}

/// 70,000 plain books, and each with one change.
#[test]
fn plain_but_for_one_change() {
    // By the change, then by the conditions that fail.
    let mut met = [[0; 8]; CHANGES.len()];
    let (mut wide, mut tried) = (0, 0);
    for seed in 0..70_000 {
        let mut dice = Dice::new(200_000_000 + seed);
        let mut draft = dice.plain_draft();
        let before = draft.clone();
        assert_eq!(faults(&before.bytes()), [], "seed {seed}");
        let kind = seed as usize % CHANGES.len();
        let Some(number) = dice.change(&mut draft, CHANGES[kind]) else {
            continue;
        };
        let book = draft.bytes();
        let faults = faults(&book);
        met[kind][conditions(&faults)] += 1;
        let rules = read(&book);
        let most = rules.rules.iter().map(|rule| rule.variables).max();
        wide += (most == Some(8)) as usize;
        if ways(&rules) < 10_000 {
            let exclusive = conditions(&faults) & 4 == 0;
            assert_eq!(exclusive, naive::exclusive(&rules), "seed {seed}");
            tried += 1;
        }
        // Some changes can only do one thing.
        match CHANGES[kind] {
            Change::AddVariable | Change::AddVariableInUse => {
                let variable = before.rules[number].variables as usize;
                let rule = number;
                assert!(faults.contains(&Fault::NotFixed { rule, variable }));
            }
            Change::RemoveCells => {
                let alone = Fault::CallsAlone { rule: number };
                let calls = !before.rules[number].calls.is_empty();
                assert_eq!(faults.contains(&alone), calls);
            }
            Change::DoubleRule => {
                let (first, second) = (number, before.rules.len());
                let both = Fault::MetTogether { first, second };
                assert!(faults.iter().all(|&fault| fault == both));
            }
            _ => {}
        }
    }
    println!("{wide} wide, {tried} by all numbers");
    assert!(wide > 20_000 && tried > 1000, "{wide} {tried}");
    for (change, met) in CHANGES.iter().zip(&met) {
        println!("{change:?}: {met:?}");
        for (conditions, &times) in met.iter().enumerate() {
            let expected = can_fail(*change).contains(&conditions);
            let good = if expected { times > 100 } else { times == 0 };
            assert!(good, "{change:?} {conditions} {times}");
        }
    }
}

/// What one change can do to a plain book: the conditions that fail then.
fn can_fail(change: Change) -> &'static [usize] {
    match change {
        Change::DropCondition
        | Change::DropConditions
        | Change::EqualToUnequal
        | Change::CutChain
        | Change::OtherTerm => &[0, 2, 4, 6],
        // An equality more fixes no less.
        Change::UnequalToEqual => &[0, 4],
        Change::AddVariable | Change::AddVariableInUse => &[2],
        Change::RemoveCell | Change::RemoveCells => &[0, 1, 2, 3],
        Change::OtherAddress | Change::OtherField => &[0, 2],
        Change::AddCall => &[0, 1],
        // All constants fix alike.
        Change::ConstantLikeAnother
        | Change::ConstantUnlikeOthers
        | Change::ConstantZero
        | Change::ConstantMark
        | Change::DoubleRule => &[0, 4],
    }
}

/// Several changes, and books that were never plain, some with little but pure
/// conditions.
#[test]
fn other_books() {
    let mut met = [[0; 8]; 4];
    for seed in 0..40_000 {
        let mut dice = match seed % 3 {
            0 => Dice::new(210_000_000 + seed),
            _ => Dice::with_constants(210_000_000 + seed, 4),
        };
        let kind = seed as usize % 4;
        let book = match kind {
            0 | 1 => several_changes(&mut dice),
            2 => dice.book(5),
            _ => dice.conditions(4, 8),
        };
        met[kind][conditions(&faults(&book))] += 1;
    }
    println!("{met:?}");
    let all = |conditions: usize| met.iter().map(|met| met[conditions]).sum::<usize>();
    for conditions in 0..8 {
        assert!(all(conditions) > 200, "{conditions}: {}", all(conditions));
    }
    // Of these the second condition fails in most, so the third is what counts.
    let [plain, _, second, _, third, _, both, _] = met[3];
    assert!(plain > 300 && plain + second > 2000 && third + both > 2000);
}

/// Rules with eight variables each that contradict themselves late, or not.
#[test]
fn wide_rules() {
    let books = hostile_books(3);
    let exclusive = |book: &&Vec<u8>| conditions(&faults(book)) & 4 == 0;
    let apart = books.iter().filter(exclusive).count();
    println!("{apart} of {}", books.len());
    assert!(apart > 300 && books.len() - apart > 300);
}

fn several_changes(dice: &mut Dice) -> Vec<u8> {
    let mut draft = dice.plain_draft();
    for _ in 0..dice.between(2, 5) {
        let before = draft.clone();
        let change = dice.pick(&CHANGES);
        if dice.change(&mut draft, change).is_none() {
            draft = before;
        }
    }
    // Rules may have been doubled.
    draft.rules.truncate(16);
    draft.bytes()
}

/// Whether no two facts of a table differ in their records alone.
fn one_part_each(table: &[u64]) -> bool {
    let without_records: BTreeSet<u64> = table.iter().map(|fact| fact >> 16).collect();
    without_records.len() == table.len()
}

/// The walk refuses just the books that are not plain. Of the others it says
/// what the engine says. There at most one part fits any predicate with any
/// values; in books that are not plain there may be more.
#[test]
fn the_walk() {
    let (mut refused, mut verdicts, mut smaller, mut long) = (0, [0; 2], 0, 0);
    let mut more_parts = 0;
    let known = [plain_books(), plain_typed_books()].concat();
    for seed in 0..40_000 {
        let mut dice = Dice::new(220_000_000 + seed);
        let mut draft = match seed % 2 {
            0 => dice.plain_draft(),
            _ => Draft::of(&read(&known[dice.below(known.len())])),
        };
        let before = draft.bytes();
        if dice.below(2) == 0 {
            let change = dice.pick(&CHANGES);
            dice.change(&mut draft, change);
        }
        let book = draft.bytes();
        // A pool for the book as it is, or as it was.
        let grown_from = if dice.below(2) == 0 { &book } else { &before };
        let (pool, question) = dice.grown(grown_from, 7);
        let reply = api::walk(&book, &pool, &question);
        let outcome = api::decide(&book, &pool, &question, 400, 1200);
        assert_ne!(outcome.reply.refusal, 12);
        let problem = problem(&book, &pool, &question);
        let memory = outcome.memory.expect("no fault");
        let table = &memory.table[..outcome.reply.facts];
        if !plain::plain(&problem.rules) {
            let expected = WalkReply {
                refusal: 12,
                verdict: 0,
            };
            assert_eq!(reply, expected, "seed {seed}");
            refused += 1;
            more_parts += !one_part_each(table) as usize;
            continue;
        }
        assert_eq!(reply.refusal, 0, "seed {seed}");
        let parts = walk::fitting_parts(&problem).expect("the book is plain");
        assert!(parts.len() <= 1, "seed {seed}");
        if outcome.reply.refusal == 11 {
            continue;
        }
        assert_eq!(reply.verdict, outcome.reply.verdict, "seed {seed}");
        assert!(one_part_each(table), "seed {seed}");
        let from_table = verdict::fitting_parts(&problem, &Domain::of(&problem), table);
        assert_eq!(parts, from_table, "seed {seed}");
        verdicts[reply.verdict as usize] += 1;
        smaller += (reply.verdict == 0 && parts.len() == 1) as usize;
        long += (reply.verdict == 1 && problem.heap.records.len() > 2) as usize;
    }
    println!("{refused} {more_parts} {verdicts:?} {smaller} {long}");
    assert!(refused > 3000 && more_parts > 300, "{refused} {more_parts}");
    assert!(verdicts.iter().all(|&times| times > 2000), "{verdicts:?}");
    assert!(smaller > 200 && long > 200, "{smaller} {long}");
}
