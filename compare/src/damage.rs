//! Bytes that are not what they should be: damaged books, snapshots and
//! questions, and lengths that are odd or extreme.

use crate::compare::Comparer;
use crate::input::{Book, Input, FIRST_CONSTANT, MOST_CONSTANTS, NIL};
use crate::nil::{self, END_MARK, LARGEST};
use crate::random::Dice;
use crate::unfoldings;
use reference::api::{BENCH_BYTES, DESK_BYTES};

/// Replacements for a byte: the ends of every range, and a little beyond.
const BYTES: [u8; 20] = [
    0, 1, 2, 3, 4, 5, 6, 7, 8, 9, 16, 17, 127, 128, 129, 135, 136, 253, 254, NIL,
];

/// Random bytes are tried up to this length.
const LONGEST: usize = 4_200;

/// Every byte of the three sections replaced, and every number of four bytes;
/// every section cut short and drawn out; each to both entries.
pub fn every_byte(comparer: &mut Comparer, dice: &mut Dice, input: &Input) {
    let lines = comparer.decide(input).unfoldings.pop();
    let unfolding = unfoldings::bytes(&lines.unwrap_or_default());
    let mut both = |input: &Input| {
        if comparer.takes_turn() {
            comparer.decide(input);
            comparer.check(input, &unfolding);
        }
    };
    for place in nil::places(input) {
        for number in [0, END_MARK, LARGEST] {
            if number != place.number(input) {
                let mut other = input.clone();
                place.write(&mut other, number);
                both(&other);
            }
        }
    }
    for section in 0..3 {
        let whole = input.sections()[section].clone();
        for (at, &old) in whole.iter().enumerate() {
            let near = [old.wrapping_add(1), old.wrapping_sub(1), dice.byte()];
            for byte in BYTES.into_iter().chain(near) {
                if byte != old {
                    let mut other = input.clone();
                    other.sections_mut()[section][at] = byte;
                    both(&other);
                }
            }
            let mut shorter = input.clone();
            shorter.sections_mut()[section].truncate(at);
            both(&shorter);
            let mut less = input.clone();
            less.sections_mut()[section].remove(at);
            both(&less);
            let mut more = input.clone();
            more.sections_mut()[section].insert(at, dice.pick(&BYTES));
            both(&more);
        }
        for more in 1..=9 {
            let mut longer = input.clone();
            longer.sections_mut()[section].extend((0..more).map(|_| dice.pick(&BYTES)));
            both(&longer);
            longer = input.clone();
            longer.sections_mut()[section].extend(vec![0; more]);
            both(&longer);
        }
    }
}

/// The constants as a whole: one more, one less, nine, none, in another order;
/// and every byte of a term for each byte of the rules.
pub fn constants(comparer: &mut Comparer, dice: &mut Dice, book: &Book, input: &Input) {
    let mut lists = vec![Vec::new(), vec![7; MOST_CONSTANTS + 1], vec![0; 255]];
    let mut longer = book.constants.clone();
    longer.push(dice.value());
    lists.push(longer);
    for at in 0..book.constants.len() {
        let mut shorter = book.constants.clone();
        shorter.remove(at);
        lists.push(shorter);
        let mut turned = book.constants.clone();
        turned.rotate_left(at);
        lists.push(turned);
    }
    for list in lists {
        let mut other = input.clone();
        other.book = book.clone().with_constants(&list).bytes();
        comparer.decide(&other);
        comparer.check(&other, &[]);
    }
    let rules = 3 + book.arities.len() + 4 * book.constants.len();
    for at in rules..input.book.len() {
        for byte in FIRST_CONSTANT..=NIL {
            if comparer.takes_turn() {
                let mut other = input.clone();
                other.book[at] = byte;
                comparer.decide(&other);
            }
        }
    }
}

/// The input with a fault for each of the refusals 1 to 9, where it has such
/// bytes at all.
pub fn one_of_each_fault(input: &Input) -> Vec<Input> {
    let constants = 1 + input.book[0] as usize;
    let head = constants + 1 + 4 * input.book[constants] as usize + 1;
    let alter: [&dyn Fn(&mut Input); 9] = [
        &|input| input.book.truncate(input.book.len() - 1),
        &|input| input.book[0] = 9,
        &|input| {
            input
                .book
                .iter_mut()
                .skip(head)
                .take(1)
                .for_each(|byte| *byte = 200)
        },
        &|input| input.book.push(0),
        &|input| input.snapshot.truncate(input.snapshot.len() - 1),
        &|input| input.snapshot[0] = 17,
        &|input| {
            input
                .snapshot
                .iter_mut()
                .skip(1)
                .take(4)
                .for_each(|byte| *byte = 0)
        },
        &|input| input.snapshot.push(0),
        &|input| input.question.clear(),
    ];
    let with = |alter: &dyn Fn(&mut Input)| {
        let mut faulty = input.clone();
        alter(&mut faulty);
        faulty
    };
    alter.into_iter().map(with).collect()
}

/// A few damages at random places, for inputs that are too long for all.
pub fn some_bytes(comparer: &mut Comparer, dice: &mut Dice, input: &Input, count: usize) {
    for _ in 0..count {
        let mut other = input.clone();
        for _ in 0..dice.between(1, 2) {
            let chosen = dice.below(3);
            let section = &mut other.sections_mut()[chosen];
            let at = dice.below(section.len().max(1));
            match dice.below(8) {
                0 => section.truncate(at),
                1 => section.insert(at.min(section.len()), dice.pick(&BYTES)),
                2 => section.extend([dice.pick(&BYTES)]),
                _ if section.is_empty() => {}
                3 => section[at] ^= 1 << dice.below(8),
                _ => section[at] = dice.pick(&BYTES),
            }
        }
        comparer.decide(&other);
        comparer.check(&other, &[]);
    }
}

/// Bytes of this length: any, or such as a reader gets far with.
fn random_bytes(dice: &mut Dice, length: usize) -> Vec<u8> {
    let kind = dice.below(4);
    let small = dice.between(1, 9);
    let mut byte = || match kind {
        0 => dice.byte(),
        1 => dice.below(small + 1) as u8,
        2 if dice.chance(10) => NIL,
        2 => dice.below(small + 1) as u8,
        _ => 0,
    };
    (0..length).map(|_| byte()).collect()
}

/// Random bytes of every length in place of each section, or behind a piece of it.
pub fn every_length(comparer: &mut Comparer, dice: &mut Dice, input: &Input) {
    let whole = input.clone();
    for length in 0..=LONGEST {
        if !comparer.takes_turn() {
            continue;
        }
        for section in 0..3 {
            let mut other = whole.clone();
            *other.sections_mut()[section] = random_bytes(dice, length);
            comparer.decide(&other);
            comparer.check(&other, &[]);
            let mut longer = whole.clone();
            let kept = dice.below(whole.sections()[section].len() + 1);
            longer.sections_mut()[section].truncate(kept);
            longer.sections_mut()[section].extend(random_bytes(dice, length));
            comparer.decide(&longer);
        }
        comparer.check(&whole, &random_bytes(dice, length));
    }
    // A fault counts before the length does.
    let mut faulty = whole.clone();
    faulty.question.clear();
    for length in DESK_BYTES - 25..=DESK_BYTES + 25 {
        comparer.check(&whole, &random_bytes(dice, length));
        comparer.check(&faulty, &random_bytes(dice, length));
    }
    for length in [65_535, 65_536, 3 * 8 * 65_535, 3 * 8 * 65_536] {
        comparer.check(&whole, &random_bytes(dice, length));
    }
}

/// Inputs for the bench program alone: any bytes, and lengths of sections that
/// are not so.
pub fn bench_inputs(comparer: &mut Comparer, dice: &mut Dice, inputs: &[Input], count: usize) {
    for length in [
        0,
        1,
        2,
        3,
        4,
        5,
        6,
        7,
        BENCH_BYTES - 1,
        BENCH_BYTES,
        BENCH_BYTES + 1,
        LONGEST,
    ] {
        let bytes = random_bytes(dice, length);
        comparer.program(&bytes);
        comparer.program(&vec![0; length]);
    }
    for _ in 0..count {
        let length = dice.below(LONGEST + 1);
        let bytes = random_bytes(dice, length);
        comparer.program(&bytes);
    }
    for input in inputs {
        if !comparer.takes_turn() {
            continue;
        }
        let whole = input.bench_bytes();
        comparer.program(&whole);
        let mut cut = whole.clone();
        cut.truncate(dice.below(whole.len()));
        comparer.program(&cut);
        let mut longer = whole.clone();
        longer.extend(random_bytes(dice, 100));
        comparer.program(&longer);
        let mut house = input.clone();
        house.book.clear();
        comparer.program(&house.bench_bytes());
        let mut lengths = whole.clone();
        let at = dice.pick(&[0, 1, 2 + input.book.len(), 3 + input.book.len()]);
        lengths[at] = dice.byte();
        comparer.program(&lengths);
    }
    // A pipe hands over what it has, which may be less than all.
    for input in inputs.iter().take(5) {
        let whole = input.bench_bytes();
        let (first, rest) = whole.split_at(dice.below(whole.len()));
        comparer.program_in_pieces(&[first, rest]);
        let pieces: Vec<&[u8]> = whole.chunks(whole.len().div_ceil(4)).collect();
        comparer.program_in_pieces(&pieces);
    }
    comparer.program(&random_bytes(dice, 100_000));
}
