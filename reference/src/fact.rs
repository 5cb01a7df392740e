//! Facts as 64-bit numbers.

use crate::domain::Domain;
use crate::formats::Problem;

/// Positions are in the domain; the record set has bit i for record i.
pub fn pack(predicate: usize, arguments: &[usize], records: u16) -> u64 {
    let mut fact = records as u64;
    for (index, &argument) in arguments.iter().enumerate() {
        fact |= (argument as u64) << (16 + 7 * index);
    }
    fact | (predicate as u64) << 44
}

pub fn records(fact: u64) -> u16 {
    fact as u16
}

pub fn argument(fact: u64, index: usize) -> usize {
    (fact >> (16 + 7 * index)) as usize & 0x7f
}

pub fn predicate(fact: u64) -> usize {
    (fact >> 44) as usize & 0xf
}

/// Every record of the heap.
pub fn all_records(problem: &Problem) -> u16 {
    ((1u32 << problem.heap.records.len()) - 1) as u16
}

/// The query for the whole heap, as a fact.
pub fn of_query(problem: &Problem, domain: &Domain) -> u64 {
    of_query_with(problem, domain, all_records(problem))
}

/// The query for these records, as a fact.
pub fn of_query_with(problem: &Problem, domain: &Domain, records: u16) -> u64 {
    let arguments: Vec<usize> = problem
        .query
        .values
        .iter()
        .map(|&value| domain.place(value as u64))
        .collect();
    pack(problem.query.predicate, &arguments, records)
}
