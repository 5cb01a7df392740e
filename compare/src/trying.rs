//! Plain or not by the reference's trying, where that is quick.

use reference::formats::{self, Rule, RuleSet, Term};
use reference::plain::Fault;
use reference::trial;
use std::collections::BTreeSet;

/// So many ways to give numbers to variables are quick: nearly all of them are
/// cut off early.
const QUICK: u64 = 10_000_000;

/// What keeps the book from being plain. Nothing if it cannot be read, or if to
/// try might take long.
pub fn faults(book: &[u8]) -> Option<Vec<Fault>> {
    let rules = formats::read_rule_set(book).ok()?;
    (ways(&rules) <= QUICK).then(|| trial::faults(&rules))
}

/// No fewer than are gone through, for all pairs of rules together.
fn ways(rules: &RuleSet) -> u64 {
    let mut all: u64 = 0;
    for (number, rule) in rules.rules.iter().enumerate() {
        let arity = rules.arities[rule.head];
        let earlier = rules.rules[..number].iter();
        for other in earlier.filter(|other| other.head == rule.head) {
            all = all.saturating_add(ways_of_two(rule, other, arity));
        }
    }
    all
}

/// A variable takes a number that is named, one in use before it, or another.
fn ways_of_two(one: &Rule, other: &Rule, arity: usize) -> u64 {
    let all: BTreeSet<u64> = terms(one)
        .chain(terms(other))
        .filter_map(Term::number)
        .collect();
    let ways = |before: usize, count: usize| -> u64 {
        let each = (before..before + count).map(|before| (all.len() + before + 2) as u64);
        each.product()
    };
    let [one, other] = [one, other].map(variables);
    let arguments = one.union(&other).filter(|&&at| at < arity).count();
    let bound = |of: &BTreeSet<usize>| of.iter().filter(|&&at| at >= arity).count();
    let below = [&one, &other].map(|of| ways(arguments, bound(of)));
    ways(0, arguments).saturating_mul(below[0] + below[1])
}

fn terms(rule: &Rule) -> impl Iterator<Item = Term> + '_ {
    rule.pure.iter().flat_map(|pure| [pure.left, pure.right])
}

/// Those that the pure conditions are about.
fn variables(rule: &Rule) -> BTreeSet<usize> {
    let variables = terms(rule).filter_map(|term| match term {
        Term::Variable(variable) => Some(variable),
        _ => None,
    });
    variables.collect()
}
