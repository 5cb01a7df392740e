//! Books changed in one place, after which a plain one may be plain or not.

use crate::chains;
use crate::generate;
use crate::input::*;
use crate::nil::END_MARK;
use crate::random::Dice;

type Change = fn(&mut Dice, &mut Book) -> Option<()>;

/// The rules keep their places.
const CHANGES: [Change; 20] = [
    condition_less,
    conditions_less,
    condition_more,
    unequal,
    equal,
    cut,
    other_term,
    variable_for_argument,
    variable_more,
    variable_in_use,
    cell_less,
    cells_less,
    other_address,
    other_field,
    call_more,
    constants_equal,
    constant_zero,
    constant_mark,
    constant_other,
    rule_twice,
];

/// The book changed in one place, if there was one.
pub fn one(dice: &mut Dice, book: &Book) -> Option<Book> {
    let mut book = book.clone();
    dice.pick(&CHANGES)(dice, &mut book).map(|()| book)
}

/// Changed in up to so many places.
pub fn several(dice: &mut Dice, book: &Book, most: usize) -> Book {
    let mut book = book.clone();
    for _ in 0..most {
        book = one(dice, &book).unwrap_or(book);
    }
    book
}

/// Some rule, its variables, and how many constants there are.
pub fn rule<'a>(dice: &mut Dice, book: &'a mut Book) -> Option<(&'a mut Rule, u8, usize)> {
    if book.rules.is_empty() {
        return None;
    }
    let rule = dice.below(book.rules.len());
    let rule = &mut book.rules[rule];
    let variables = book.arities[rule.head as usize] + rule.bound;
    Some((rule, variables, book.constants.len()))
}

/// Some condition, of this kind or of any.
fn condition<'a>(dice: &mut Dice, rule: &'a mut Rule, kind: Option<u8>) -> Option<&'a mut [u8; 3]> {
    let fits = |pure: &&mut [u8; 3]| kind.is_none_or(|kind| pure[0] == kind);
    let mut pures: Vec<&mut [u8; 3]> = rule.pures.iter_mut().filter(fits).collect();
    let chosen = dice.below(pures.len().max(1));
    (!pures.is_empty()).then(|| pures.swap_remove(chosen))
}

pub fn term(dice: &mut Dice, variables: u8, constants: usize) -> u8 {
    match variables {
        0 => generate::fixed_term(dice, constants),
        _ if dice.chance(30) => generate::fixed_term(dice, constants),
        _ => dice.below(variables as usize) as u8,
    }
}

fn condition_less(dice: &mut Dice, book: &mut Book) -> Option<()> {
    let (rule, ..) = rule(dice, book)?;
    if rule.pures.is_empty() {
        return None;
    }
    rule.pures.remove(dice.below(rule.pures.len()));
    Some(())
}

fn conditions_less(dice: &mut Dice, book: &mut Book) -> Option<()> {
    let (rule, ..) = rule(dice, book)?;
    let left = dice.below(rule.pures.len().max(1));
    rule.pures.truncate(left);
    Some(())
}

fn condition_more(dice: &mut Dice, book: &mut Book) -> Option<()> {
    let (rule, variables, constants) = rule(dice, book)?;
    let [left, right] = [(); 2].map(|()| term(dice, variables, constants));
    let at = dice.below(rule.pures.len() + 1);
    let room = rule.pures.len() < MOST_PURES;
    room.then(|| rule.pures.insert(at, [dice.below(2) as u8, left, right]))
}

fn unequal(dice: &mut Dice, book: &mut Book) -> Option<()> {
    let (rule, ..) = rule(dice, book)?;
    condition(dice, rule, Some(0))?[0] = 1;
    Some(())
}

fn equal(dice: &mut Dice, book: &mut Book) -> Option<()> {
    let (rule, ..) = rule(dice, book)?;
    condition(dice, rule, Some(1))?[0] = 0;
    Some(())
}

/// An equality that leads from a term to itself.
fn cut(dice: &mut Dice, book: &mut Book) -> Option<()> {
    let (rule, ..) = rule(dice, book)?;
    let pure = condition(dice, rule, Some(0))?;
    let side = dice.between(1, 2);
    pure[side] = pure[3 - side];
    Some(())
}

fn other_term(dice: &mut Dice, book: &mut Book) -> Option<()> {
    let (rule, variables, constants) = rule(dice, book)?;
    let pure = condition(dice, rule, None)?;
    pure[dice.between(1, 2)] = term(dice, variables, constants);
    Some(())
}

/// Bound variables say nothing of the arguments.
fn variable_for_argument(dice: &mut Dice, book: &mut Book) -> Option<()> {
    let (rule, variables, _) = rule(dice, book)?;
    let bound = rule.bound as usize;
    let pure = condition(dice, rule, None)?;
    let side = dice.between(1, 2);
    let argument = pure[side] < variables - bound as u8;
    if bound == 0 || !argument {
        return None;
    }
    pure[side] = variables - 1 - dice.below(bound) as u8;
    Some(())
}

fn variable_more(dice: &mut Dice, book: &mut Book) -> Option<()> {
    let (rule, variables, _) = rule(dice, book)?;
    let room = variables < MOST_VARIABLES as u8;
    room.then(|| rule.bound += 1)
}

/// The same, and it stands in an unequal condition or a call.
fn variable_in_use(dice: &mut Dice, book: &mut Book) -> Option<()> {
    let (rule, variables, constants) = rule(dice, book)?;
    if variables == MOST_VARIABLES as u8 {
        return None;
    }
    let mut calls = rule.calls.iter_mut().flat_map(|call| &mut call.1);
    match calls.next() {
        Some(argument) => *argument = variables,
        None if rule.pures.len() == MOST_PURES => return None,
        None => rule
            .pures
            .push([1, term(dice, variables, constants), variables]),
    }
    rule.bound += 1;
    Some(())
}

fn cell_less(dice: &mut Dice, book: &mut Book) -> Option<()> {
    let (rule, ..) = rule(dice, book)?;
    if rule.cells.is_empty() {
        return None;
    }
    rule.cells.remove(dice.below(rule.cells.len()));
    Some(())
}

fn cells_less(dice: &mut Dice, book: &mut Book) -> Option<()> {
    rule(dice, book)?.0.cells.clear();
    Some(())
}

fn other_address(dice: &mut Dice, book: &mut Book) -> Option<()> {
    let (rule, variables, _) = rule(dice, book)?;
    let at = dice.below(rule.cells.len().max(1));
    rule.cells.get_mut(at)?.0 = dice.below(variables as usize) as u8;
    Some(())
}

fn other_field(dice: &mut Dice, book: &mut Book) -> Option<()> {
    let (rule, variables, constants) = rule(dice, book)?;
    let mut fields: Vec<&mut u8> = rule.cells.iter_mut().flat_map(|cell| &mut cell.1).collect();
    let at = dice.below(fields.len().max(1));
    **fields.get_mut(at)? = term(dice, variables, constants);
    Some(())
}

pub fn call_more(dice: &mut Dice, book: &mut Book) -> Option<()> {
    let predicate = dice.below(book.arities.len());
    let arity = book.arities[predicate];
    let (rule, variables, constants) = rule(dice, book)?;
    let arguments = (0..arity).map(|_| term(dice, variables, constants));
    let call = (predicate as u8, arguments.collect());
    (rule.calls.len() < MOST_CALLS).then(|| rule.calls.push(call))
}

fn constant<'a>(dice: &mut Dice, book: &'a mut Book) -> Option<&'a mut u32> {
    let at = dice.below(book.constants.len().max(1));
    book.constants.get_mut(at)
}

fn constants_equal(dice: &mut Dice, book: &mut Book) -> Option<()> {
    let other = *constant(dice, book)?;
    *constant(dice, book)? = other;
    Some(())
}

fn constant_zero(dice: &mut Dice, book: &mut Book) -> Option<()> {
    *constant(dice, book)? = 0;
    Some(())
}

fn constant_mark(dice: &mut Dice, book: &mut Book) -> Option<()> {
    *constant(dice, book)? = END_MARK;
    Some(())
}

fn constant_other(dice: &mut Dice, book: &mut Book) -> Option<()> {
    *constant(dice, book)? = dice.value();
    Some(())
}

/// The same rule again at the end, perhaps in other words.
fn rule_twice(dice: &mut Dice, book: &mut Book) -> Option<()> {
    let room = book.rules.len() < MOST_RULES;
    let (rule, variables, _) = rule(dice, book)?;
    let mut again = rule.clone();
    if dice.chance(50) {
        chains::rename(dice, &mut again, variables - rule.bound);
        dice.shuffle(&mut again.pures);
    }
    room.then(|| book.rules.push(again))
}
