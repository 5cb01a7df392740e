//! Random small books, nearly all of them plain: the rules of a predicate share
//! out its arguments by their conditions, each variable comes from what is
//! fixed before it, and there are no calls without a cell.

use crate::compare::Comparer;
use crate::generate;
use crate::grow;
use crate::input::*;
use crate::nil;
use crate::plain;
use crate::pools;
use crate::random::Dice;
use crate::shapes::Shape;

pub fn run(comparer: &mut Comparer, dice: &mut Dice) {
    for _ in 0..6_000 {
        if !comparer.takes_turn() {
            continue;
        }
        let book = book(dice);
        let records = match dice.chance(80) {
            true => dice.below(6),
            false => dice.below(MOST_RECORDS + 1),
        };
        let (heap, query) = match dice.chance(90) {
            true => grow::grow(dice, &book, records),
            false => random_pool(dice, &book, records),
        };
        let fitting = pools::fitting_part(dice, &book, &heap, &query);
        let shape = Shape { book, heap, query };
        comparer.decide(&nil::input(dice, &shape.book, &shape.heap, &shape.query));
        plain::around(comparer, dice, &shape);
        if let Some((heap, query)) = fitting {
            let input = nil::input(dice, &shape.book, &heap, &query);
            comparer.decide_known(&input, true);
        }
    }
}

fn random_pool(dice: &mut Dice, book: &Book, records: usize) -> (Heap, Query) {
    let heap = generate::heap(dice, book, records);
    let query = generate::query(dice, book, &heap);
    (heap, query)
}

pub fn book(dice: &mut Dice) -> Book {
    let predicates = dice.between(1, 3);
    let arity = |dice: &mut Dice| dice.weighted(&[5, 45, 35, 10, 5]) as u8;
    let arities: Vec<u8> = (0..predicates).map(|_| arity(dice)).collect();
    let constants = constants(dice);
    let named = constants.len();
    let mut rules = Vec::new();
    for head in 0..predicates {
        for share in shares(dice, arities[head] as usize, named) {
            rules.push(rule(dice, &arities, named, head, share));
        }
    }
    dice.shuffle(&mut rules);
    Book {
        arities,
        constants,
        rules,
    }
}

/// None for a third of the books; mostly different ones, since equal ones meet
/// the same arguments.
fn constants(dice: &mut Dice) -> Vec<u32> {
    let count = dice.weighted(&[33, 16, 20, 14, 6, 3, 3, 2, 3]);
    let mut constants: Vec<u32> = Vec::new();
    while constants.len() < count {
        let constant = generate::constant(dice);
        if !constants.contains(&constant) || dice.chance(5) {
            constants.push(constant);
        }
    }
    constants
}

/// The conditions by which a rule has its share of the arguments, and whether
/// the rule is one that ends.
type Share = (Vec<[u8; 3]>, bool);

/// Conditions of which exactly one is met, whatever the arguments: a condition
/// and its opposite, and perhaps another one beside the opposite. Or at most one
/// is met, by the constants.
fn shares(dice: &mut Dice, arity: usize, constants: usize) -> Vec<Share> {
    if arity == 0 {
        return vec![(Vec::new(), true)];
    }
    if constants > 0 && dice.chance(50) {
        return by_constants(dice, arity, constants);
    }
    let opposite = |[kind, left, right]: [u8; 3]| [1 - kind, left, right];
    let first = condition(dice, arity, constants);
    let second = condition(dice, arity, constants);
    let (not_first, not_second) = (opposite(first), opposite(second));
    match dice.chance(40) {
        true => vec![
            (vec![first], true),
            (vec![not_first, second], false),
            (vec![not_first, not_second], false),
        ],
        false => vec![(vec![first], true), (vec![not_first], false)],
    }
}

/// One argument is a constant, or another constant, and so on, or mostly none of
/// these. Nil may be one of them.
fn by_constants(dice: &mut Dice, arity: usize, constants: usize) -> Vec<Share> {
    let argument = dice.below(arity) as u8;
    let mut terms: Vec<u8> = (0..constants as u8).map(|at| FIRST_CONSTANT + at).collect();
    if dice.chance(30) {
        terms.push(NIL);
    }
    dice.shuffle(&mut terms);
    terms.truncate(dice.between(1, 3));
    let conditions: Vec<[u8; 3]> = terms
        .iter()
        .map(|&term| turned(dice, argument, term))
        .collect();
    let mut shares: Vec<Share> = Vec::new();
    for &condition in &conditions {
        shares.push((vec![condition], shares.is_empty()));
    }
    if dice.chance(80) {
        let none = conditions.iter().map(|&[_, left, right]| [1, left, right]);
        shares.push((none.collect(), false));
    }
    shares
}

/// That an argument is nil, a constant or another argument.
fn condition(dice: &mut Dice, arity: usize, constants: usize) -> [u8; 3] {
    let left = dice.below(arity) as u8;
    let right = match dice.below(arity) as u8 {
        right if right != left => right,
        _ => generate::fixed_term(dice, constants),
    };
    turned(dice, left, right)
}

/// That both are equal, either way round.
fn turned(dice: &mut Dice, left: u8, right: u8) -> [u8; 3] {
    match dice.chance(50) {
        true => [0, left, right],
        false => [0, right, left],
    }
}

fn rule(
    dice: &mut Dice,
    arities: &[u8],
    constants: usize,
    head: usize,
    (pures, ends): Share,
) -> Rule {
    let mut variables = arities[head];
    let mut rule = Rule::new(head as u8, 0);
    rule.pures = pures;
    let cells = match ends {
        true => dice.weighted(&[75, 25]),
        false => dice.weighted(&[5, 70, 20, 5]),
    };
    for _ in 0..cells {
        let other = |variable: &u8| !rule.cells.iter().any(|cell| cell.0 == *variable);
        let addresses: Vec<u8> = (0..variables).filter(other).collect();
        if addresses.is_empty() {
            break;
        }
        let address = dice.pick(&addresses);
        let fields = dice.weighted(&[4, 45, 36, 10, 5]);
        let fields = (0..fields)
            .map(|_| next(dice, &mut variables, constants))
            .collect();
        rule.cells.push((address, fields));
    }
    if dice.chance(20) && variables < MOST_VARIABLES as u8 {
        rule.pures
            .push([0, variables, term(dice, variables, constants)]);
        variables += 1;
    }
    if dice.chance(20) {
        let kind = dice.chance(80) as u8;
        let term = |dice: &mut Dice| term(dice, variables, constants);
        let pure = [kind, term(dice), term(dice)];
        rule.pures.push(pure);
    }
    rule.bound = variables - arities[head];
    if !rule.cells.is_empty() {
        rule.calls = calls(dice, arities, constants, arities[head], variables);
    }
    // What fixes a variable may stand anywhere.
    dice.shuffle(&mut rule.cells);
    dice.shuffle(&mut rule.pures);
    rule
}

/// A new variable, mostly.
fn next(dice: &mut Dice, variables: &mut u8, constants: usize) -> u8 {
    if *variables == MOST_VARIABLES as u8 || dice.chance(25) {
        return term(dice, *variables, constants);
    }
    *variables += 1;
    *variables - 1
}

fn term(dice: &mut Dice, variables: u8, constants: usize) -> u8 {
    match variables {
        0 => generate::fixed_term(dice, constants),
        _ if dice.chance(if constants == 0 { 15 } else { 35 }) => {
            generate::fixed_term(dice, constants)
        }
        _ => dice.below(variables as usize) as u8,
    }
}

/// Bound variables are called with first, each once.
fn calls(
    dice: &mut Dice,
    arities: &[u8],
    constants: usize,
    arity: u8,
    variables: u8,
) -> Vec<(u8, Vec<u8>)> {
    let mut bound: Vec<u8> = (arity..variables).collect();
    let mut argument = |dice: &mut Dice| match bound.pop() {
        Some(variable) if dice.chance(85) => variable,
        _ => term(dice, variables, constants),
    };
    let mut calls = Vec::new();
    for _ in 0..dice.weighted(&[15, 45, 28, 12]) {
        let predicate = dice.below(arities.len());
        let arguments = (0..arities[predicate]).map(|_| argument(dice)).collect();
        calls.push((predicate as u8, arguments));
    }
    calls
}
