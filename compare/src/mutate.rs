//! Books that differ in one thing: a weaker one, whose facts are near misses
//! of the first, and one for which the first one's unfoldings are wrong in one
//! condition only.

use crate::generate;
use crate::input::{Book, Rule, MOST_CALLS, MOST_CELLS, MOST_PURES};
use crate::random::Dice;
use crate::unfoldings::{called, called_line, replace_field, rule_of, Line};

/// The book without one condition, cell or call; nothing if it has none. Or one
/// of its constants is another number.
pub fn weaker(dice: &mut Dice, book: &Book) -> Option<Book> {
    let mut book = book.clone();
    if !book.constants.is_empty() && dice.chance(25) {
        let chosen = dice.below(book.constants.len());
        book.constants[chosen] = generate::constant(dice);
        return Some(book);
    }
    let size = |rule: &Rule| rule.pures.len() + rule.cells.len() + rule.calls.len();
    let mut rules: Vec<&mut Rule> = book
        .rules
        .iter_mut()
        .filter(|rule| size(rule) > 0)
        .collect();
    if rules.is_empty() {
        return None;
    }
    let chosen = dice.below(rules.len());
    let rule = &mut rules[chosen];
    let mut at = dice.below(size(rule));
    if at < rule.pures.len() {
        rule.pures.remove(at);
        return Some(book);
    }
    at -= rule.pures.len();
    if at < rule.cells.len() {
        rule.cells.remove(at);
    } else {
        rule.calls.remove(at - rule.cells.len());
    }
    Some(book)
}

/// The book with one rule of the unfolding changed, and the unfolding changed
/// along as far as it can be. No rule has more or fewer variables than before,
/// so positions still mean what they did.
pub fn forge(dice: &mut Dice, book: &Book, whole: &[Line]) -> Option<(Book, Vec<Line>)> {
    let mut book = book.clone();
    let mut lines = whole.to_vec();
    let constants = book.constants.len();
    let number = rule_of(&dice.pick(whole));
    let rule = book.rules.get_mut(number)?;
    let arity = book.arities[rule.head as usize];
    let variables = arity + rule.bound;
    let term = |dice: &mut Dice| match variables {
        0 => generate::fixed_term(dice, constants),
        _ if dice.chance(20) => generate::fixed_term(dice, constants),
        _ => dice.below(variables as usize) as u8,
    };
    match dice.below(8) {
        // The kept values stay the same.
        7 if constants > 1 => {
            let one = dice.below(constants);
            book.constants.swap(one, dice.below(constants));
        }
        0 if rule.pures.len() < MOST_PURES => {
            rule.pures
                .push([dice.below(2) as u8, term(dice), term(dice)]);
        }
        1 if (1..MOST_CELLS).contains(&rule.cells.len()) => {
            let again = rule.cells[dice.below(rule.cells.len())].clone();
            rule.cells.push(again);
        }
        2 if (1..MOST_CALLS).contains(&rule.calls.len()) => {
            let old = dice.below(rule.calls.len());
            let again = rule.calls[old].clone();
            add_call(&mut lines, number, rule, again, |line, _| {
                called_line(line, old)
            });
        }
        3 if rule.calls.len() < MOST_CALLS => {
            let itself = (rule.head, (0..arity).collect());
            let ahead = dice.pick(&[0, 0, 1]);
            add_call(&mut lines, number, rule, itself, |_, own| own + ahead);
        }
        4 if rule.calls.len() < MOST_CALLS => {
            let called = dice.below(whole.len());
            let predicate = (whole[called][0] >> 44) as u8;
            let arguments = book.arities[predicate as usize];
            let arguments = (0..arguments).map(|_| term(dice)).collect();
            let call = (predicate, arguments);
            add_call(&mut lines, number, rule, call, |_, _| called as u64 + 1);
        }
        5 => {
            let other = term(dice);
            let mut terms = terms_of(rule);
            if terms.is_empty() {
                return None;
            }
            let chosen = dice.below(terms.len());
            *terms[chosen] = other;
        }
        _ => {
            let empty = rule.cells.is_empty();
            let cell = dice.below(rule.cells.len().max(1));
            (!empty).then(|| rule.cells.remove(cell));
        }
    }
    Some((book, lines))
}

/// A further call in a rule, and in each of its lines the line that it calls,
/// given the line and its number.
fn add_call(
    lines: &mut [Line],
    number: usize,
    rule: &mut Rule,
    call: (u8, Vec<u8>),
    target: impl Fn(&Line, u64) -> u64,
) {
    let place = called(rule.calls.len());
    rule.calls.push(call);
    for (line, own) in lines.iter_mut().zip(1..) {
        if rule_of(line) == number {
            let target = target(line, own);
            replace_field(&mut line[2], place, target);
        }
    }
}

/// All terms of a rule but the cells' addresses, which must not be nil.
fn terms_of(rule: &mut Rule) -> Vec<&mut u8> {
    let pures = rule.pures.iter_mut().flat_map(|pure| &mut pure[1..]);
    let fields = rule.cells.iter_mut().flat_map(|(_, fields)| fields);
    let arguments = rule.calls.iter_mut().flat_map(|(_, arguments)| arguments);
    pures.chain(fields).chain(arguments).collect()
}
