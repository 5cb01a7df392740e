//! The check of a certificate, condition by condition. It looks at no table.

use crate::domain::Domain;
use crate::fact;
use crate::formats::{Kind, Problem, Term};

/// The condition a certificate breaks first.
#[derive(Clone, Copy, Debug, PartialEq, Eq)]
pub enum Broken {
    /// Not a whole number of lines, or none, or too many.
    Lines,
    /// The line names no rule.
    Rule,
    /// A bit that must be 0 is not.
    StrayBits,
    /// A position names no kept value.
    Position,
    /// The rule is for another predicate than the fact.
    Head,
    /// Head variables and fact arguments differ.
    HeadArguments,
    Pure,
    /// No record is as the cell says.
    Cell,
    /// A called line does not stand before this one.
    CalledLine,
    CalledPredicate,
    CalledArguments,
    /// Cells and calls share a record.
    Disjoint,
    /// The fact's records are not those of cells and calls.
    RecordSet,
    /// The last line is not the query with exactly the part asked about.
    LastLine,
}

const MAX_LINES: usize = 65_535;

pub fn takes(problem: &Problem, words: &[u64]) -> bool {
    first_broken(problem, words).is_ok()
}

pub fn takes_part(problem: &Problem, part: u16, words: &[u64]) -> bool {
    first_broken_part(problem, part, words).is_ok()
}

/// For the whole heap: the part with every record.
pub fn first_broken(problem: &Problem, words: &[u64]) -> Result<(), Broken> {
    first_broken_part(problem, fact::all_records(problem), words)
}

/// A part with a bit beyond the records needs no condition of its own: a line
/// has only records of cells and calls, so no line has such a bit.
pub fn first_broken_part(problem: &Problem, part: u16, words: &[u64]) -> Result<(), Broken> {
    let lines = words.len() / 3;
    if !words.len().is_multiple_of(3) || !(1..=MAX_LINES).contains(&lines) {
        return Err(Broken::Lines);
    }
    let domain = Domain::of(problem);
    for number in 1..=lines {
        line(problem, &domain, words, number)?;
    }
    if words[3 * (lines - 1)] != fact::of_query_with(problem, &domain, part) {
        return Err(Broken::LastLine);
    }
    Ok(())
}

/// The conditions on one line; lines are numbered from 1.
fn line(problem: &Problem, domain: &Domain, words: &[u64], number: usize) -> Result<(), Broken> {
    let fact = words[3 * (number - 1)];
    let positions = words[3 * (number - 1) + 1];
    let step = words[3 * (number - 1) + 2];

    let rule = problem
        .rules
        .rules
        .get((step & 0xff) as usize)
        .ok_or(Broken::Rule)?;

    // Bits with no meaning: above the predicate, behind the arguments, behind
    // the variables, behind the calls.
    if fact >> 48 != 0 {
        return Err(Broken::StrayBits);
    }
    if fact::predicate(fact) != rule.head {
        return Err(Broken::Head);
    }
    let arity = problem.rules.arities[rule.head];
    for unused in arity..4 {
        if fact::argument(fact, unused) != 0 {
            return Err(Broken::StrayBits);
        }
    }
    let mut variables = Vec::new();
    for variable in 0..8 {
        let position = (positions >> (8 * variable)) as usize & 0xff;
        if variable < rule.variables {
            variables.push(position);
        } else if position != 0 {
            return Err(Broken::StrayBits);
        }
    }
    let mut called = Vec::new();
    for call in 0..3 {
        let line = (step >> (8 + 16 * call)) as usize & 0xffff;
        if call < rule.calls.len() {
            called.push(line);
        } else if line != 0 {
            return Err(Broken::StrayBits);
        }
    }
    if step >> 56 != 0 {
        return Err(Broken::StrayBits);
    }

    if variables.iter().any(|&position| position >= domain.len()) {
        return Err(Broken::Position);
    }
    for (index, &position) in variables[..arity].iter().enumerate() {
        if fact::argument(fact, index) != position {
            return Err(Broken::HeadArguments);
        }
    }

    let values: Vec<u64> = variables
        .iter()
        .map(|&position| domain.values()[position])
        .collect();
    let value = |term: Term| term.value(&values);
    for pure in &rule.pure {
        let holds = match pure.kind {
            Kind::Equal => value(pure.left) == value(pure.right),
            Kind::Unequal => value(pure.left) != value(pure.right),
        };
        if !holds {
            return Err(Broken::Pure);
        }
    }

    let mut used = 0u16;
    for cell in &rule.cells {
        let address = values[cell.address];
        let record = problem
            .heap
            .records
            .iter()
            .position(|record| record.address as u64 == address)
            .ok_or(Broken::Cell)?;
        let fields = &problem.heap.records[record].fields;
        if fields.len() != cell.fields.len() {
            return Err(Broken::Cell);
        }
        for (&field, &term) in fields.iter().zip(&cell.fields) {
            if field as u64 != value(term) {
                return Err(Broken::Cell);
            }
        }
        if used & (1 << record) != 0 {
            return Err(Broken::Disjoint);
        }
        used |= 1 << record;
    }

    for (call, &line) in rule.calls.iter().zip(&called) {
        if line < 1 || line >= number {
            return Err(Broken::CalledLine);
        }
        let below = words[3 * (line - 1)];
        if fact::predicate(below) != call.predicate {
            return Err(Broken::CalledPredicate);
        }
        for (index, &term) in call.arguments.iter().enumerate() {
            // An earlier line's positions were found to be kept values.
            if domain.values()[fact::argument(below, index)] != value(term) {
                return Err(Broken::CalledArguments);
            }
        }
        if used & fact::records(below) != 0 {
            return Err(Broken::Disjoint);
        }
        used |= fact::records(below);
    }
    if used != fact::records(fact) {
        return Err(Broken::RecordSet);
    }
    Ok(())
}
