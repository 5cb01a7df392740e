//! Sizes of lent memory: right ones about the number of facts, and wrong ones.

use crate::compare::Comparer;
use crate::input::{Book, Heap, Input, Query, Rule};
use crate::lent::{Sizes, MOST_LINES};
use crate::random::Dice;
use crate::unfoldings::{bytes, with_copies};
use reference::api::{Reply, OWN_LINES};

/// Up to this many facts, every length of the table about that is tried.
const FEW_FACTS: usize = 40;

/// Some sizes for an input with this reply in a table such as the desk's. The
/// longest table is drawn seldom, since it takes long to look through.
pub fn drawn(dice: &mut Dice, reply: Reply) -> Sizes {
    let facts = match reply.refusal {
        11 => OWN_LINES,
        _ => reply.facts,
    };
    let lines = match dice.weighted(&[40, 40, 20, 20, 40, 10, 1, 1, 5]) {
        0 => facts,
        1 => facts.saturating_sub(1),
        2 => 2 * facts,
        3 => 1,
        4 => dice.between(1, facts + 2),
        5 => dice.between(OWN_LINES - 1, 2 * OWN_LINES + 1),
        6 => MOST_LINES,
        7 => MOST_LINES + 1 + dice.below(facts + 2),
        _ => 0,
    };
    if dice.chance(80) {
        return Sizes::of(lines);
    }
    let words = dice.pick(&other_words(lines));
    Sizes { lines, words }
}

/// Words of a space that is too short or too long for so many lines, or right
/// for a number of lines that has lost its higher bits.
fn other_words(lines: usize) -> [usize; 10] {
    let right = 3 * lines;
    [
        0,
        1,
        3,
        lines,
        2 * lines,
        right.saturating_sub(3),
        right.saturating_sub(1),
        right + 1,
        right + 3,
        3 * (lines & 0xFFFF),
    ]
}

/// Every right length of the table that may matter with so many facts.
fn right(facts: usize) -> Vec<Sizes> {
    let mut lines: Vec<usize> = (1..=(facts + 2).min(FEW_FACTS)).collect();
    let about = [facts.saturating_sub(1), facts, facts + 1, 2 * facts];
    lines.extend(about.into_iter().chain([OWN_LINES - 1, OWN_LINES + 1]));
    lines.retain(|&lines| lines > 0);
    lines.sort();
    lines.dedup();
    lines.into_iter().map(Sizes::of).collect()
}

/// Sizes that are refused, whatever the facts.
fn refused(facts: usize) -> Vec<Sizes> {
    let mut sizes = vec![Sizes::of(0)];
    for lines in [0, 1, 2, facts, OWN_LINES] {
        sizes.extend(other_words(lines).map(|words| Sizes { lines, words }));
    }
    sizes.retain(|sizes| *sizes != Sizes::of(sizes.lines) || sizes.lines == 0);
    sizes
}

/// Sizes about the longest table and beyond it.
fn longest(facts: usize) -> Vec<Sizes> {
    let mut sizes = vec![Sizes::of(MOST_LINES), Sizes::of(MOST_LINES - 1)];
    for lines in [
        MOST_LINES,
        MOST_LINES + 1,
        MOST_LINES + 2,
        MOST_LINES + 1 + facts,
        2 * MOST_LINES + 2,
    ] {
        sizes.extend([3 * lines, 3 * lines - 1, 3 * lines + 1].map(|words| Sizes { lines, words }));
        sizes.push(Sizes {
            lines,
            words: 3 * (lines & 0xFFFF),
        });
    }
    sizes
}

/// An input with memory of every size there is a reason for.
pub fn every(comparer: &mut Comparer, input: &Input) {
    let Some(reply) = comparer.decide(input).reply else {
        return;
    };
    for sizes in right(reply.facts) {
        comparer.decide_lent(input, sizes);
    }
    every_refused(comparer, input, reply.facts);
}

/// An input with memory of sizes that are refused, unless it has a fault, which
/// counts first.
pub fn every_refused(comparer: &mut Comparer, input: &Input, facts: usize) {
    for sizes in refused(facts).into_iter().chain(longest(facts)) {
        if comparer.takes_turn() {
            comparer.decide_lent(input, sizes);
        }
    }
}

/// Every part of so many records but the empty one, which with 16 is as many
/// facts as there may be.
fn every_part(records: usize) -> Input {
    let rules = vec![
        Rule::new(0, 1).cell(0, &[]),
        Rule::new(0, 1).cell(0, &[]).call(0, &[]),
    ];
    let mut heap = Heap::default();
    for address in 1..=records as u32 {
        heap = heap.with(address, &[]);
    }
    Input::new(&Book::new(&[0], rules), &heap, &Query::new(0, &[]))
}

/// Tables that are full, or one line too short, or one too long: small, long,
/// and the longest.
pub fn full_to_the_end(comparer: &mut Comparer) {
    for records in [0, 1, 2, 5, 10, 11, 15, 16] {
        let input = every_part(records);
        let facts = (1usize << records) - 1;
        for lines in [facts, facts.saturating_sub(1), facts + 1] {
            comparer.decide_lent(&input, Sizes::of(lines));
        }
    }
}

/// An unfolding as long as the desk takes one, as long as the check does, and
/// longer.
pub fn longest_unfolding(comparer: &mut Comparer, input: &Input) {
    for lines in comparer.decide(input).unfoldings {
        for most in [OWN_LINES, MOST_LINES] {
            for longer in [most - 1, most, most + 1, 2 * most] {
                let longer = with_copies(&lines, longer - lines.len());
                comparer.check(input, &bytes(&longer));
            }
        }
    }
}
