//! A certificate for a fit: the facts the query rests on, as lines.

use crate::domain::Domain;
use crate::fact;
use crate::fixpoint::Facts;
use crate::formats::Problem;
use std::collections::{BTreeSet, HashMap};

/// Three words a line, or nothing if the query does not fit.
pub fn build(problem: &Problem, domain: &Domain, facts: &Facts) -> Option<Vec<u64>> {
    build_part(problem, domain, facts, fact::all_records(problem))
}

/// The same for the query with this part of the records.
pub fn build_part(
    problem: &Problem,
    domain: &Domain,
    facts: &Facts,
    part: u16,
) -> Option<Vec<u64>> {
    let query = fact::of_query_with(problem, domain, part);
    if !facts.grounds.contains_key(&query) {
        return None;
    }
    // Only what is reached by calls from the query: so every other line is
    // called, and by a line that is written as well.
    let mut needed = BTreeSet::from([query]);
    let mut open = vec![query];
    while let Some(fact) = open.pop() {
        for &called in &facts.grounds[&fact].called {
            if needed.insert(called) {
                open.push(called);
            }
        }
    }
    // Table order puts each fact after those it calls, for they are of
    // earlier rounds; so the query comes last.
    let order: Vec<u64> = facts
        .table
        .iter()
        .copied()
        .filter(|fact| needed.contains(fact))
        .collect();
    let line: HashMap<u64, u64> = order.iter().copied().zip(1..).collect();
    let mut words = Vec::new();
    for fact in order {
        let ground = &facts.grounds[&fact];
        let mut positions = 0u64;
        for (variable, &position) in ground.positions.iter().enumerate() {
            positions |= (position as u64) << (8 * variable);
        }
        let mut step = ground.rule as u64;
        for (index, called) in ground.called.iter().enumerate() {
            step |= line[called] << (8 + 16 * index);
        }
        words.extend([fact, positions, step]);
    }
    Some(words)
}
