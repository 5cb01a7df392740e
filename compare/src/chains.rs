//! Books in which long chains of equalities decide whether they are plain.

use crate::generate;
use crate::input::*;
use crate::nil::{END_MARK, LARGEST};
use crate::random::Dice;

/// Puts bound variables between the sides of some conditions.
pub fn stretch(dice: &mut Dice, book: &mut Book) {
    for rule in &mut book.rules {
        let arity = book.arities[rule.head as usize];
        for _ in 0..dice.weighted(&[40, 15, 15, 10, 10, 10]) {
            longer(dice, rule, arity);
        }
        rename(dice, rule, arity);
        dice.shuffle(&mut rule.pures);
    }
}

fn longer(dice: &mut Dice, rule: &mut Rule, arity: u8) {
    let middle = arity + rule.bound;
    let pures = &mut rule.pures;
    if pures.is_empty() || pures.len() == MOST_PURES || middle == MOST_VARIABLES as u8 {
        return;
    }
    let at = dice.below(pures.len());
    let [kind, left, right] = pures[at];
    pures[at] = [kind, middle, right];
    pures.push([0, left, middle]);
    rule.bound += 1;
}

/// Other numbers for the bound variables.
pub fn rename(dice: &mut Dice, rule: &mut Rule, arity: u8) {
    let mut names: Vec<u8> = (0..arity + rule.bound).collect();
    dice.shuffle(&mut names[arity as usize..]);
    for term in terms(rule) {
        *term = names.get(*term as usize).copied().unwrap_or(*term);
    }
}

/// All terms of a rule, the cells' addresses among them.
fn terms(rule: &mut Rule) -> impl Iterator<Item = &mut u8> {
    let pures = rule.pures.iter_mut().flat_map(|pure| &mut pure[1..]);
    let cells = rule.cells.iter_mut();
    let cells = cells.flat_map(|(address, fields)| [address].into_iter().chain(fields));
    let calls = rule.calls.iter_mut();
    pures
        .chain(cells)
        .chain(calls.flat_map(|(_, arguments)| arguments))
}

/// Constants of which most differ, with 0 and both ends of the numbers.
fn constants(dice: &mut Dice) -> Vec<u32> {
    let mut numbers = [1, 2, 3, 7, LARGEST, 0, END_MARK, 0x0100_0000];
    dice.shuffle(&mut numbers);
    let mut constants = numbers[..dice.between(1, MOST_CONSTANTS)].to_vec();
    if dice.chance(20) {
        let one = dice.below(constants.len());
        constants[one] = dice.pick(&constants);
    }
    constants
}

/// The rules of one predicate, mostly of no arguments or one: each is a chain
/// through most of its conditions and variables.
pub fn linked(dice: &mut Dice) -> Book {
    let arity = dice.pick(&[0, 0, 1, 1, 1, 2]);
    let constants = constants(dice);
    let count = dice.weighted(&[0, 5, 60, 20, 10, 5]);
    let rules = (0..count).map(|_| of_links(dice, arity, constants.len()));
    Book::new(&[arity], rules.collect()).with_constants(&constants)
}

fn of_links(dice: &mut Dice, arity: u8, constants: usize) -> Rule {
    let bound = match dice.chance(80) {
        true => MOST_VARIABLES as u8 - arity,
        false => dice.between(1, MOST_VARIABLES - arity as usize) as u8,
    };
    let mut names: Vec<u8> = (arity..arity + bound).collect();
    dice.shuffle(&mut names);
    let links = match dice.chance(60) {
        true => MOST_PURES,
        false => dice.between(1, MOST_PURES),
    };
    // One end may be a variable that nothing but the chain fixes.
    let closed = dice.chance(85);
    let open = names.split_off(names.len().min(links - closed as usize));
    let mut along = vec![generate::fixed_term(dice, constants)];
    along.extend(names);
    if closed {
        along.push(other_end(dice, arity, constants));
    }
    let mut rule = Rule::new(0, bound);
    rule.pures = along.windows(2).map(|two| [0, two[0], two[1]]).collect();
    if dice.chance(20) {
        let at = dice.below(rule.pures.len());
        rule.pures[at][0] = 1;
    }
    disorder(dice, &mut rule.pures);
    of_fields(rule, along[1], &open)
}

/// Sides turned, and the links in this order, the other way round, or in any.
fn disorder(dice: &mut Dice, pures: &mut [[u8; 3]]) {
    for pure in &mut *pures {
        if dice.chance(50) {
            pure.swap(1, 2);
        }
    }
    match dice.below(3) {
        0 => {}
        1 => pures.reverse(),
        _ => dice.shuffle(pures),
    }
}

/// An argument where there is one.
fn other_end(dice: &mut Dice, arity: u8, constants: usize) -> u8 {
    match arity {
        0 => generate::fixed_term(dice, constants),
        _ => dice.below(arity as usize) as u8,
    }
}

/// What the chain leaves out becomes fields of a record, where that is known.
fn of_fields(mut rule: Rule, address: u8, open: &[u8]) -> Rule {
    if address < FIRST_CONSTANT {
        for fields in open.chunks(MOST_FIELDS) {
            rule = rule.cell(address, fields);
        }
    }
    rule
}

/// Two rules that share out a field of their record. It is a bound variable of
/// the same number in both, and the arguments are shared out only if it is tied
/// to one of them.
pub fn by_a_field(dice: &mut Dice) -> Book {
    let arity = dice.between(1, 3) as u8;
    let constants = constants(dice);
    let fields: Vec<u8> = (arity..arity + dice.between(1, 4) as u8).collect();
    let field = dice.pick(&fields);
    let other = match dice.chance(40) {
        true => dice.below(arity as usize) as u8,
        false => generate::fixed_term(dice, constants.len()),
    };
    let tied = dice.chance(40).then(|| dice.below(arity as usize) as u8);
    let rule = |dice: &mut Dice, kind: u8| {
        let mut rule = Rule::new(0, fields.len() as u8).cell(0, &fields);
        rule.pures.push([kind, field, other]);
        rule.pures.extend(tied.map(|argument| [0, argument, field]));
        if dice.chance(40) {
            let arguments: Vec<u8> = (0..arity).map(|_| dice.pick(&fields)).collect();
            rule = rule.call(0, &arguments);
        }
        dice.shuffle(&mut rule.pures);
        rule
    };
    let rules = vec![rule(dice, 0), rule(dice, 1)];
    Book::new(&[arity], rules).with_constants(&constants)
}
