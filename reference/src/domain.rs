//! The domain: the values variables may take, in ascending order.

use crate::formats::Problem;
use std::collections::BTreeSet;

#[derive(Clone, Debug, PartialEq, Eq)]
pub struct Domain {
    values: Vec<u64>,
}

impl Domain {
    pub fn of(problem: &Problem) -> Domain {
        let spares = problem
            .rules
            .rules
            .iter()
            .map(|rule| rule.variables)
            .max()
            .unwrap_or(0);
        Domain::with_spares(problem, spares)
    }

    /// The values that occur, and that many unused ones from the bottom up.
    pub fn with_spares(problem: &Problem, spares: usize) -> Domain {
        let mut kept = BTreeSet::from([0]);
        kept.extend(problem.query.values.iter().map(|&value| value as u64));
        // All that are listed, whether a rule names them or not.
        kept.extend(problem.rules.constants.iter().map(|&value| value as u64));
        for record in &problem.heap.records {
            kept.insert(record.address as u64);
            kept.extend(record.fields.iter().map(|&field| field as u64));
        }
        let goal = kept.len() + spares;
        let mut candidate = 0;
        while kept.len() < goal {
            kept.insert(candidate);
            candidate += 1;
        }
        Domain {
            values: kept.into_iter().collect(),
        }
    }

    pub fn values(&self) -> &[u64] {
        &self.values
    }

    pub fn len(&self) -> usize {
        self.values.len()
    }

    /// Never true, since nil is always in.
    pub fn is_empty(&self) -> bool {
        self.values.is_empty()
    }

    pub fn position(&self, value: u64) -> Option<usize> {
        self.values.iter().position(|&kept| kept == value)
    }

    /// For values that are in by construction.
    pub fn place(&self, value: u64) -> usize {
        self.position(value).expect("value was kept")
    }
}
