//! Parts of a pool: those that fit, and those that the check is asked about.

use crate::input::{Input, MOST_RECORDS};
use crate::random::Dice;
use reference::domain::Domain;
use reference::{fact, formats, verdict};

/// The parts that fit as the reference finds them, where these are all facts.
pub fn fitting(input: &Input, facts: &[u64]) -> Vec<u16> {
    match formats::read(&input.book, &input.snapshot, &input.question) {
        Ok(problem) => verdict::fitting_parts(&problem, &Domain::of(&problem), facts),
        Err(_) => Vec::new(),
    }
}

/// As many records as the snapshot says it has; more than 16 are refused.
pub fn every_record(input: &Input) -> u16 {
    let count = input.snapshot.first().map_or(0, |&count| count as usize);
    ((1u32 << count.min(MOST_RECORDS)) - 1) as u16
}

/// The records of the last line, none without a line.
pub fn of_last_line(words: &[u64]) -> u16 {
    let last = words.chunks_exact(3).last();
    last.map_or(0, |line| fact::records(line[0]))
}

/// A part to ask about where the last line has this one, out of every record:
/// near to it, none, all, with bits beyond the records, or any.
pub fn other(dice: &mut Dice, last: u16, every: u16) -> u16 {
    match dice.below(7) {
        0 => 0,
        1 => every,
        2 => last | !every,
        3 => last ^ 1 << dice.below(MOST_RECORDS),
        4 => last & !(1 << dice.below(MOST_RECORDS)),
        5 => dice.value() as u16 & every,
        _ => dice.value() as u16,
    }
}
