//! Books that are not quite plain: each misses one of the three conditions, in
//! most cases without a change to what fits.

use crate::generate;
use crate::input::*;
use crate::random::Dice;
use crate::shapes::Shape;

type Miss = fn(&mut Dice, &mut Shape) -> Option<()>;

/// By the condition: a rule with calls has a cell, a variable is fixed, no two
/// rules of a predicate can be met together.
const MISSES: [&[Miss]; 3] = [
    &[by_a_name, by_a_name_unasked, by_way_of],
    &[nowhere, unequal_alone, open_argument, open_address],
    &[condition_less, rule_twice, always],
];

/// The same for the third condition, for books with constants.
const CONSTANT_MISSES: [Miss; 2] = [same_constants, constant_nil];

/// One of each, where there is one.
pub fn misses(dice: &mut Dice, shape: &Shape) -> Vec<Shape> {
    let mut shapes = Vec::new();
    let constants = match shape.book.constants.is_empty() {
        true => &[][..],
        false => &CONSTANT_MISSES[..],
    };
    for &choice in MISSES.iter().chain(&[constants]) {
        if choice.is_empty() {
            continue;
        }
        let mut other = shape.clone();
        let miss = dice.pick(choice);
        shapes.extend(miss(dice, &mut other).map(|()| other));
    }
    shapes
}

/// The question goes by another name of its predicate.
fn by_a_name(_: &mut Dice, shape: &mut Shape) -> Option<()> {
    shape.query.predicate = another_name(&mut shape.book, shape.query.predicate)?;
    Some(())
}

fn by_a_name_unasked(_: &mut Dice, shape: &mut Shape) -> Option<()> {
    another_name(&mut shape.book, shape.query.predicate).map(drop)
}

/// A call of some rule goes by another name.
fn by_way_of(dice: &mut Dice, shape: &mut Shape) -> Option<()> {
    let rule = some_rule(dice, &shape.book, |rule| !rule.calls.is_empty())?;
    let call = dice.below(shape.book.rules[rule].calls.len());
    let predicate = shape.book.rules[rule].calls[call].0;
    shape.book.rules[rule].calls[call].0 = another_name(&mut shape.book, predicate)?;
    Some(())
}

/// A further predicate, whose one rule has nothing but a call of this one.
fn another_name(book: &mut Book, predicate: u8) -> Option<u8> {
    let name = book.arities.len();
    if name == MOST_PREDICATES || book.rules.len() == MOST_RULES {
        return None;
    }
    let arity = book.arities[predicate as usize];
    let arguments: Vec<u8> = (0..arity).collect();
    let rule = Rule::new(name as u8, 0).call(predicate, &arguments);
    book.arities.push(arity);
    book.rules.push(rule);
    Some(name as u8)
}

fn some_rule(dice: &mut Dice, book: &Book, is: impl Fn(&Rule) -> bool) -> Option<usize> {
    let rules = 0..book.rules.len();
    let rules: Vec<usize> = rules.filter(|&rule| is(&book.rules[rule])).collect();
    (!rules.is_empty()).then(|| dice.pick(&rules))
}

/// A variable more, which stands nowhere.
fn nowhere(dice: &mut Dice, shape: &mut Shape) -> Option<()> {
    open_variable(dice, &mut shape.book, |_| true).map(drop)
}

fn unequal_alone(dice: &mut Dice, shape: &mut Shape) -> Option<()> {
    let room = |rule: &Rule| rule.pures.len() < MOST_PURES;
    let constants = shape.book.constants.len();
    let (rule, open) = open_variable(dice, &mut shape.book, room)?;
    let other = match open {
        0 => generate::fixed_term(dice, constants),
        _ if constants > 0 && dice.chance(30) => generate::some_constant(dice, constants),
        _ => dice.below(open as usize) as u8,
    };
    rule.pures.push([1, open, other]);
    Some(())
}

fn open_argument(dice: &mut Dice, shape: &mut Shape) -> Option<()> {
    let told = |rule: &Rule| rule.calls.iter().any(|call| !call.1.is_empty());
    let (rule, open) = open_variable(dice, &mut shape.book, told)?;
    let mut arguments: Vec<&mut u8> = rule.calls.iter_mut().flat_map(|call| &mut call.1).collect();
    let chosen = dice.below(arguments.len());
    *arguments[chosen] = open;
    Some(())
}

fn open_address(dice: &mut Dice, shape: &mut Shape) -> Option<()> {
    let with_cells = |rule: &Rule| !rule.cells.is_empty();
    let (rule, open) = open_variable(dice, &mut shape.book, with_cells)?;
    let chosen = dice.below(rule.cells.len());
    rule.cells[chosen].0 = open;
    Some(())
}

/// A variable more in some rule of this kind.
fn open_variable<'a>(
    dice: &mut Dice,
    book: &'a mut Book,
    is: impl Fn(&Rule) -> bool,
) -> Option<(&'a mut Rule, u8)> {
    let variables = |rule: &Rule| book.arities[rule.head as usize] + rule.bound;
    let room = |rule: &Rule| is(rule) && variables(rule) < MOST_VARIABLES as u8;
    let chosen = some_rule(dice, book, room)?;
    let open = variables(&book.rules[chosen]);
    let rule = &mut book.rules[chosen];
    rule.bound += 1;
    Some((rule, open))
}

fn condition_less(dice: &mut Dice, shape: &mut Shape) -> Option<()> {
    let rule = some_rule(dice, &shape.book, |rule| !rule.pures.is_empty())?;
    let pures = &mut shape.book.rules[rule].pures;
    pures.remove(dice.below(pures.len()));
    Some(())
}

fn rule_twice(dice: &mut Dice, shape: &mut Shape) -> Option<()> {
    let rule = some_rule(dice, &shape.book, |_| true)?;
    let again = shape.book.rules[rule].clone();
    add_rule(dice, shape, again)
}

/// Whatever the arguments are, the empty part.
fn always(dice: &mut Dice, shape: &mut Shape) -> Option<()> {
    let head = dice.below(shape.book.arities.len()) as u8;
    add_rule(dice, shape, Rule::new(head, 0))
}

/// Two constants become one number.
fn same_constants(dice: &mut Dice, shape: &mut Shape) -> Option<()> {
    let constants = &mut shape.book.constants;
    let (one, other) = (dice.below(constants.len()), dice.below(constants.len()));
    let differ = constants[one] != constants[other];
    constants[one] = constants[other];
    differ.then_some(())
}

/// A constant becomes 0, so it is nil.
fn constant_nil(dice: &mut Dice, shape: &mut Shape) -> Option<()> {
    let constants = &mut shape.book.constants;
    let chosen = dice.below(constants.len());
    let differ = constants[chosen] != 0;
    constants[chosen] = 0;
    differ.then_some(())
}

fn add_rule(dice: &mut Dice, shape: &mut Shape, rule: Rule) -> Option<()> {
    let rules = &mut shape.book.rules;
    if rules.len() == MOST_RULES {
        return None;
    }
    rules.insert(dice.below(rules.len() + 1), rule);
    Some(())
}
