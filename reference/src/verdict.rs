//! The verdict: is the query, for the whole heap or for some part of it, among
//! the facts?

use crate::domain::Domain;
use crate::fact;
use crate::fixpoint::Facts;
use crate::formats::Problem;

pub fn fits(problem: &Problem, domain: &Domain, facts: &Facts) -> bool {
    facts.table.contains(&fact::of_query(problem, domain))
}

/// Every part for which the query holds, ascending. The table must be complete
/// and come without the zeros after it, since 0 is a fact like others.
pub fn fitting_parts(problem: &Problem, domain: &Domain, table: &[u64]) -> Vec<u16> {
    let query = fact::of_query_with(problem, domain, 0);
    let mut parts = Vec::new();
    for &fact in table {
        let part = fact::records(fact);
        if fact == query | part as u64 {
            parts.push(part);
        }
    }
    // The table has earlier rounds first, whatever their records.
    parts.sort();
    parts
}
