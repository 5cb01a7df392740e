//! Unfoldings for the check: those of the reference and of the engine, whole
//! and damaged.

use crate::compare::Comparer;
use crate::input::Input;
use crate::random::Dice;
use reference::api::{Memory, DESK_BYTES};

/// Bytes of a line.
const LINE: usize = 24;

/// Up to this many lines, every bit is flipped once.
const ALL_BITS: usize = 4;

/// Engine and, where the pool or a part of it fits, check with the unfoldings:
/// whole, and as many times damaged at random. Gives these unfoldings.
pub fn decide_and_check(
    comparer: &mut Comparer,
    dice: &mut Dice,
    input: &Input,
    damaged: usize,
) -> Vec<Vec<Line>> {
    let unfoldings = comparer.decide(input).all_unfoldings();
    for lines in &unfoldings {
        check_lines(comparer, dice, input, lines, damaged);
    }
    unfoldings
}

/// The unfolding whole, and as many times damaged at random.
pub fn check_lines(
    comparer: &mut Comparer,
    dice: &mut Dice,
    input: &Input,
    lines: &[Line],
    damaged: usize,
) {
    comparer.check(input, &bytes(lines));
    for _ in 0..damaged {
        comparer.check(input, &damaged_once(dice, lines));
    }
}

/// Fact, positions, and rule with called lines.
pub type Line = [u64; 3];

pub fn lines_of_words(words: &[u64]) -> Vec<Line> {
    let lines = words.chunks_exact(3);
    lines.map(|line| [line[0], line[1], line[2]]).collect()
}

/// The reference's unfolding of so many lines.
pub fn lines_of(memory: &Option<Memory>, lines: usize) -> Vec<Line> {
    let space = memory.as_ref().map_or(&[][..], |memory| &memory.space);
    lines_of_words(&space[..3 * lines])
}

/// The words in these bytes, lowest byte first; a rest is left out.
pub fn words_of(bytes: &[u8]) -> Vec<u64> {
    let eights = bytes.chunks_exact(8);
    eights
        .map(|eight| u64::from_le_bytes(eight.try_into().expect("they are eight")))
        .collect()
}

pub fn bytes_of(words: &[u64]) -> Vec<u8> {
    words.iter().flat_map(|word| word.to_le_bytes()).collect()
}

pub fn bytes(lines: &[Line]) -> Vec<u8> {
    bytes_of(&lines.concat())
}

/// The unfolding with one thing wrong, or at least different.
fn damaged_once(dice: &mut Dice, whole: &[Line]) -> Vec<u8> {
    let mut lines = whole.to_vec();
    let at = dice.below(lines.len());
    match dice.below(12) {
        0 => lines[at][dice.below(3)] = dice.word(),
        1 => lines[at][dice.below(3)] ^= 1 << dice.below(64),
        2 => replace_field(&mut lines[at][0], argument(dice.below(4)), dice.word()),
        3 => replace_field(
            &mut lines[at][1],
            position(dice.below(8)),
            dice.below(24) as u64,
        ),
        4 => replace_field(
            &mut lines[at][2],
            called(dice.below(3)),
            dice.below(whole.len() + 2) as u64,
        ),
        5 => replace_field(&mut lines[at][2], RULE, dice.below(17) as u64),
        6 => move_argument(dice, &mut lines[at]),
        7 => lines.swap(at, dice.below(whole.len())),
        8 => exchange(&mut lines, at, dice.below(whole.len())),
        9 => lines = with_copies(&lines, dice.between(1, 3)),
        10 => {
            let mut bytes = bytes(&lines);
            bytes.truncate(dice.below(bytes.len()));
            return bytes;
        }
        _ => {
            let mut bytes = bytes(&lines);
            let more = dice.between(1, 2 * LINE);
            let zeros = dice.chance(50);
            bytes.extend((0..more).map(|_| if zeros { 0 } else { dice.byte() }));
            return bytes;
        }
    }
    bytes(&lines)
}

/// Where a number stands in a word, and how many bits it has.
pub type Field = (u32, u32);

const RULE: Field = (0, 8);

fn argument(index: usize) -> Field {
    (16 + 7 * index as u32, 7)
}

fn position(index: usize) -> Field {
    (8 * index as u32, 8)
}

pub fn called(index: usize) -> Field {
    (8 + 16 * index as u32, 16)
}

pub fn replace_field(word: &mut u64, (low, width): Field, value: u64) {
    let mask = ((1 << width) - 1) << low;
    *word = *word & !mask | value << low & mask;
}

pub fn rule_of(line: &Line) -> usize {
    (line[2] & 0xFF) as usize
}

pub fn called_line(line: &Line, index: usize) -> u64 {
    line[2] >> called(index).0 & 0xFFFF
}

/// Another argument in the fact and in the positions alike: a line that may
/// well be right, of another fact.
fn move_argument(dice: &mut Dice, line: &mut Line) {
    let index = dice.below(4);
    let value = dice.below(12) as u64;
    replace_field(&mut line[0], argument(index), value);
    replace_field(&mut line[1], position(index), value);
}

/// Exchanges two lines, and with them all calls of them.
fn exchange(lines: &mut [Line], one: usize, other: usize) {
    lines.swap(one, other);
    for line in lines {
        for index in 0..3 {
            let now = called_line(line, index) as usize;
            if now == one + 1 {
                replace_field(&mut line[2], called(index), other as u64 + 1);
            } else if now == other + 1 {
                replace_field(&mut line[2], called(index), one as u64 + 1);
            }
        }
    }
}

/// The first line so many more times in front, and all calls moved on. It is
/// an unfolding still: the first line calls none.
pub fn with_copies(lines: &[Line], copies: usize) -> Vec<Line> {
    let mut longer = vec![lines[0]; copies];
    for line in lines {
        let mut line = *line;
        for index in 0..3 {
            let now = called_line(&line, index);
            if now != 0 {
                replace_field(&mut line[2], called(index), now + copies as u64);
            }
        }
        longer.push(line);
    }
    longer
}

/// One unfolding, damaged in every way there is a name for.
pub fn every_damage(comparer: &mut Comparer, dice: &mut Dice, input: &Input, whole: &[Line]) {
    comparer.check(input, &bytes(whole));
    every_word(comparer, dice, input, whole);
    every_field(comparer, input, whole);
    every_order(comparer, input, whole);
    every_length(comparer, dice, input, whole);
}

fn every_word(comparer: &mut Comparer, dice: &mut Dice, input: &Input, whole: &[Line]) {
    for at in 0..whole.len() {
        for word in 0..3 {
            let old = whole[at][word];
            let mut try_word = |new: u64| {
                let mut lines = whole.to_vec();
                lines[at][word] = new;
                comparer.check(input, &bytes(&lines));
            };
            for new in [
                0,
                u64::MAX,
                old.wrapping_add(1),
                old.wrapping_sub(1),
                !old,
                dice.word(),
            ] {
                try_word(new);
            }
            try_word(whole[dice.below(whole.len())][word]);
            if whole.len() <= ALL_BITS {
                (0..64).for_each(|bit| try_word(old ^ 1 << bit));
            } else {
                (0..4).for_each(|_| try_word(old ^ 1 << dice.below(64)));
            }
        }
    }
}

/// Every number in the last two lines by others. The lines before them are
/// alike.
fn every_field(comparer: &mut Comparer, input: &Input, whole: &[Line]) {
    for at in whole.len().saturating_sub(2)..whole.len() {
        let mut try_field = |word: usize, field: Field, value: u64| {
            let mut lines = whole.to_vec();
            replace_field(&mut lines[at][word], field, value);
            comparer.check(input, &bytes(&lines));
        };
        for index in 0..8 {
            // Every position, so the first beyond the kept values as well.
            (0..=104).for_each(|value| try_field(1, position(index), value));
            for value in [127, 128, 254, 255] {
                try_field(1, position(index), value);
            }
        }
        for index in 0..3 {
            let number = at as u64 + 1;
            for value in [
                0,
                number - 1,
                number,
                number + 1,
                whole.len() as u64,
                0xFFFF,
            ] {
                try_field(2, called(index), value);
            }
            (1..=number.min(8)).for_each(|value| try_field(2, called(index), value));
        }
        (0..=17).for_each(|value| try_field(2, RULE, value));
        try_field(2, RULE, 255);
    }
}

fn every_order(comparer: &mut Comparer, input: &Input, whole: &[Line]) {
    let lines = whole.len();
    for one in 0..lines {
        for other in one + 1..lines.min(one + 4) {
            let mut swapped = whole.to_vec();
            swapped.swap(one, other);
            comparer.check(input, &bytes(&swapped));
            // The lines in their places again, with their numbers exchanged in the calls.
            exchange(&mut swapped, one, other);
            comparer.check(input, &bytes(&swapped));
            let mut exchanged = whole.to_vec();
            exchange(&mut exchanged, one, other);
            comparer.check(input, &bytes(&exchanged));
        }
        let mut fewer = whole.to_vec();
        fewer.remove(one);
        comparer.check(input, &bytes(&fewer));
    }
}

fn every_length(comparer: &mut Comparer, dice: &mut Dice, input: &Input, whole: &[Line]) {
    let all = bytes(whole);
    for length in (0..all.len()).rev().take(2 * LINE + 1) {
        comparer.check(input, &all[..length]);
    }
    for more in 1..=2 * LINE {
        let mut longer = all.clone();
        longer.resize(all.len() + more, 0);
        comparer.check(input, &longer);
        let mut twice = all.clone();
        twice.extend(all.iter().cycle().take(more));
        comparer.check(input, &twice);
        let mut noise = all.clone();
        noise.extend((0..more).map(|_| dice.byte()));
        comparer.check(input, &noise);
    }
    // As long as the entry takes, and longer.
    let most = DESK_BYTES / LINE;
    for lines in [most - 1, most, most + 1, most + 2, 2 * most] {
        if lines > whole.len() {
            let longer = bytes(&with_copies(whole, lines - whole.len()));
            comparer.check(input, &longer);
            comparer.check(input, &longer[..longer.len() - 1]);
            comparer.check(input, &longer[8..]);
        }
    }
}
