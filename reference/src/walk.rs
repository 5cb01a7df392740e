//! The walk: the verdict from the query downwards, without a table. It is for
//! plain rule sets and refuses all others.
//!
//! Below each node it gathers the parts of the heap that fit, one call at a
//! time and without regard to the calls beside it; that no record is used twice
//! is seen only where these parts are joined. A rule with calls has a cell, so
//! each level takes a record and the walk comes to its end.
//!
//! In a plain rule set at most one part fits. Nothing here relies on that but
//! the time it takes, so it can be tested. A node has one rule to go on with. A
//! finished tree has at most 16 nodes with calls, so 49 nodes. A node for which
//! nothing fits has at most one such call, and down that line there are 17
//! nodes, each with at most three calls that fit: 17 * (1 + 3 * 49) nodes in all.

use crate::fact;
use crate::formats::{Call, Cell, Heap, Kind, Problem, Refusal, Rule, Term};
use crate::plain;
use std::collections::BTreeSet;

/// The walk's verdict, or the refusal of a rule set that is not plain.
pub fn fits(problem: &Problem) -> Result<bool, Refusal> {
    let parts = fitting_parts(problem)?;
    Ok(parts.contains(&fact::all_records(problem)))
}

/// Every part for which the query holds, ascending, or the same refusal.
pub fn fitting_parts(problem: &Problem) -> Result<Vec<u16>, Refusal> {
    if !plain::plain(&problem.rules) {
        return Err(Refusal::NotPlain);
    }
    let query = &problem.query;
    let arguments: Vec<u64> = query.values.iter().map(|&value| value as u64).collect();
    let all = fact::all_records(problem);
    let found = parts(problem, query.predicate, &arguments, all);
    Ok(found.into_iter().collect())
}

/// The parts of the records left that fit the predicate with these arguments.
fn parts(problem: &Problem, predicate: usize, arguments: &[u64], left: u16) -> BTreeSet<u16> {
    let mut found = BTreeSet::new();
    for rule in &problem.rules.rules {
        if rule.head == predicate {
            found.extend(parts_by(problem, rule, arguments, left));
        }
    }
    found
}

/// The same by one rule.
fn parts_by(problem: &Problem, rule: &Rule, arguments: &[u64], left: u16) -> BTreeSet<u16> {
    let Some(node) = Node::unfold(&problem.heap, rule, arguments, left) else {
        return BTreeSet::new();
    };
    let left = left & !node.taken;
    let mut found = BTreeSet::from([node.taken]);
    for call in &rule.calls {
        // Without this, calls behind one that fails would be walked in vain.
        if !found.is_empty() {
            let below = parts(problem, call.predicate, &node.arguments(call), left);
            found = joins(&found, &below);
        }
    }
    found
}

/// Unions of one part from each side that share no record.
fn joins(left: &BTreeSet<u16>, right: &BTreeSet<u16>) -> BTreeSet<u16> {
    let pairs = left.iter().flat_map(|a| right.iter().map(move |b| (a, b)));
    let apart = pairs.filter(|(a, b)| *a & *b == 0);
    apart.map(|(a, b)| a | b).collect()
}

/// A node being unfolded by a rule.
struct Node<'a> {
    rule: &'a Rule,
    values: Vec<Option<u64>>,
    /// Records the cells have taken.
    taken: u16,
}

impl Node<'_> {
    /// The node with a value for every variable and a record for every cell,
    /// if the records left and the pure conditions allow it.
    fn unfold<'a>(heap: &Heap, rule: &'a Rule, arguments: &[u64], left: u16) -> Option<Node<'a>> {
        let mut values = vec![None; rule.variables];
        for (value, &argument) in values.iter_mut().zip(arguments) {
            *value = Some(argument);
        }
        let mut node = Node {
            rule,
            values,
            taken: 0,
        };
        let mut cells: Vec<&Cell> = rule.cells.iter().collect();
        while node.carry() {
            if cells.is_empty() {
                return Some(node);
            }
            // If no address were known, then what is known would not grow any
            // more, and that address would not be fixed.
            let known = |cell: &&Cell| node.values[cell.address].is_some();
            let next = cells.iter().position(known).expect("an address is known");
            if !node.take(heap, cells.remove(next), left) {
                return None;
            }
        }
        None
    }

    /// Takes the record for a cell with a known address; false if there is none.
    fn take(&mut self, heap: &Heap, cell: &Cell, left: u16) -> bool {
        let address = self.values[cell.address];
        let mut each = heap.records.iter();
        let Some(index) = each.position(|record| Some(record.address as u64) == address) else {
            return false;
        };
        let (bit, fields) = (1u16 << index, &heap.records[index].fields);
        if left & !self.taken & bit == 0 || fields.len() != cell.fields.len() {
            return false;
        }
        self.taken |= bit;
        let mut pairs = cell.fields.iter().zip(fields);
        pairs.all(|(&term, &field)| self.settle(term, field as u64))
    }

    fn value(&self, term: Term) -> Option<u64> {
        match term {
            Term::Variable(variable) => self.values[variable],
            _ => term.number(),
        }
    }

    /// Gives the term this value; false if it has another.
    fn settle(&mut self, term: Term, value: u64) -> bool {
        match term {
            Term::Variable(variable) => *self.values[variable].get_or_insert(value) == value,
            _ => term.number() == Some(value),
        }
    }

    /// Carries known values along the equalities; false if a condition is
    /// false.
    fn carry(&mut self) -> bool {
        loop {
            let before = self.values.clone();
            for pure in &self.rule.pure {
                let holds = match (pure.kind, self.value(pure.left), self.value(pure.right)) {
                    (Kind::Equal, Some(value), _) => self.settle(pure.right, value),
                    (Kind::Equal, _, Some(value)) => self.settle(pure.left, value),
                    (Kind::Unequal, Some(a), Some(b)) => a != b,
                    _ => true,
                };
                if !holds {
                    return false;
                }
            }
            if self.values == before {
                return true;
            }
        }
    }

    fn arguments(&self, call: &Call) -> Vec<u64> {
        let values = call.arguments.iter().map(|&term| self.value(term));
        values.map(|value| value.expect("it is fixed")).collect()
    }
}
