//! One step of a climb: book, pool or question changed in one place. It may be
//! a step into a fault, which costs no time and is not kept.

use crate::changes;
use crate::generate::{self, Size};
use crate::input::*;
use crate::random::Dice;
use crate::shapes::Shape;

type Change = fn(&mut Dice, &mut Shape) -> Option<()>;

const CHANGES: [Change; 21] = [
    rule_less,
    rule_more,
    rule_anew,
    rules_swapped,
    call_less,
    call_more,
    call_again,
    calls_swapped,
    other_argument,
    cell_more,
    argument_more,
    argument_less,
    predicate_more,
    other_value,
    value_apart,
    fields_of_another,
    record_more,
    record_less,
    field_more,
    field_less,
    other_question,
];

/// How many changes a step has, each as often as it stands here.
const TOGETHER: [usize; 8] = [1, 1, 1, 1, 2, 2, 3, 6];

pub fn step(dice: &mut Dice, shape: &Shape) -> Shape {
    let changes = dice.pick(&TOGETHER);
    far(dice, shape, changes)
}

/// So many changes at once.
pub fn far(dice: &mut Dice, shape: &Shape, changes: usize) -> Shape {
    let mut shape = shape.clone();
    for _ in 0..changes {
        // Not every change finds a place for itself.
        while change(dice, &mut shape).is_none() {}
    }
    shape
}

fn change(dice: &mut Dice, shape: &mut Shape) -> Option<()> {
    if dice.chance(35) {
        shape.book = changes::one(dice, &shape.book)?;
        return Some(());
    }
    dice.pick(&CHANGES)(dice, shape)
}

/// Any place of a list.
fn place<T>(dice: &mut Dice, list: &[T]) -> Option<usize> {
    (!list.is_empty()).then(|| dice.below(list.len()))
}

fn rule_less(dice: &mut Dice, shape: &mut Shape) -> Option<()> {
    let rules = &mut shape.book.rules;
    rules.remove(place(dice, rules)?);
    Some(())
}

pub fn rule_more(dice: &mut Dice, shape: &mut Shape) -> Option<()> {
    let rule = any_rule(dice, &shape.book, None);
    let room = shape.book.rules.len() < MOST_RULES;
    room.then(|| shape.book.rules.push(rule))
}

/// Another rule for the same predicate.
fn rule_anew(dice: &mut Dice, shape: &mut Shape) -> Option<()> {
    let at = place(dice, &shape.book.rules)?;
    let head = shape.book.rules[at].head;
    shape.book.rules[at] = any_rule(dice, &shape.book, Some(head));
    Some(())
}

/// A random rule for this predicate or for any.
fn any_rule(dice: &mut Dice, book: &Book, head: Option<u8>) -> Rule {
    let head = match head {
        Some(head) => head as usize,
        None => dice.below(book.arities.len()),
    };
    let size = dice.pick(&[Size::Middle, Size::Largest]);
    let start = dice.chance(20);
    generate::rule(dice, size, &book.arities, book.constants.len(), head, start)
}

fn rules_swapped(dice: &mut Dice, shape: &mut Shape) -> Option<()> {
    let rules = &mut shape.book.rules;
    let (one, other) = (place(dice, rules)?, place(dice, rules)?);
    rules.swap(one, other);
    (one != other).then_some(())
}

fn call_less(dice: &mut Dice, shape: &mut Shape) -> Option<()> {
    let (rule, ..) = changes::rule(dice, &mut shape.book)?;
    rule.calls.remove(place(dice, &rule.calls)?);
    Some(())
}

fn call_more(dice: &mut Dice, shape: &mut Shape) -> Option<()> {
    changes::call_more(dice, &mut shape.book)
}

/// A call as another one of the rule, with other arguments perhaps.
fn call_again(dice: &mut Dice, shape: &mut Shape) -> Option<()> {
    let (rule, variables, constants) = changes::rule(dice, &mut shape.book)?;
    if rule.calls.len() == MOST_CALLS {
        return None;
    }
    let mut again = rule.calls[place(dice, &rule.calls)?].clone();
    for argument in &mut again.1 {
        if dice.chance(40) {
            *argument = changes::term(dice, variables, constants);
        }
    }
    rule.calls.push(again);
    Some(())
}

fn calls_swapped(dice: &mut Dice, shape: &mut Shape) -> Option<()> {
    let (rule, ..) = changes::rule(dice, &mut shape.book)?;
    let (one, other) = (place(dice, &rule.calls)?, place(dice, &rule.calls)?);
    rule.calls.swap(one, other);
    (one != other).then_some(())
}

fn other_argument(dice: &mut Dice, shape: &mut Shape) -> Option<()> {
    let (rule, variables, constants) = changes::rule(dice, &mut shape.book)?;
    let call = place(dice, &rule.calls)?;
    let arguments = &mut rule.calls[call].1;
    let at = place(dice, arguments)?;
    arguments[at] = changes::term(dice, variables, constants);
    Some(())
}

fn cell_more(dice: &mut Dice, shape: &mut Shape) -> Option<()> {
    let fields = dice.weighted(&generate::field_weights(&shape.book));
    let (rule, variables, constants) = changes::rule(dice, &mut shape.book)?;
    if variables == 0 || rule.cells.len() == MOST_CELLS {
        return None;
    }
    let address = dice.below(variables as usize) as u8;
    let fields = (0..fields).map(|_| changes::term(dice, variables, constants));
    rule.cells.push((address, fields.collect()));
    Some(())
}

/// The first bound variable of each rule becomes an argument.
fn argument_more(dice: &mut Dice, shape: &mut Shape) -> Option<()> {
    let predicate = place(dice, &shape.book.arities)?;
    if shape.book.arities[predicate] == MOST_ARGUMENTS as u8 {
        return None;
    }
    shape.book.arities[predicate] += 1;
    for rule in rules_of(shape, predicate) {
        rule.bound = rule.bound.saturating_sub(1);
    }
    let Book {
        arities,
        constants,
        rules,
    } = &mut shape.book;
    for rule in rules {
        let variables = arities[rule.head as usize] + rule.bound;
        for (_, arguments) in rule
            .calls
            .iter_mut()
            .filter(|call| call.0 == predicate as u8)
        {
            arguments.push(changes::term(dice, variables, constants.len()));
        }
    }
    if shape.query.predicate == predicate as u8 {
        let value = dice.pick(&shape.heap.values());
        shape.query.values.push(value);
    }
    Some(())
}

/// The last argument becomes a bound variable.
fn argument_less(dice: &mut Dice, shape: &mut Shape) -> Option<()> {
    let predicate = place(dice, &shape.book.arities)?;
    if shape.book.arities[predicate] == 0 {
        return None;
    }
    shape.book.arities[predicate] -= 1;
    for rule in rules_of(shape, predicate) {
        rule.bound += 1;
    }
    let calls = shape.book.rules.iter_mut().flat_map(|rule| &mut rule.calls);
    for (_, arguments) in calls.filter(|call| call.0 == predicate as u8) {
        arguments.pop();
    }
    if shape.query.predicate == predicate as u8 {
        shape.query.values.pop();
    }
    Some(())
}

fn rules_of(shape: &mut Shape, predicate: usize) -> impl Iterator<Item = &mut Rule> {
    let rules = shape.book.rules.iter_mut();
    rules.filter(move |rule| rule.head == predicate as u8)
}

/// A predicate with one rule, which some other rule may call later.
fn predicate_more(dice: &mut Dice, shape: &mut Shape) -> Option<()> {
    let book = &mut shape.book;
    if book.arities.len() == MOST_PREDICATES || book.rules.len() == MOST_RULES {
        return None;
    }
    book.arities.push(dice.below(MOST_ARGUMENTS + 1) as u8);
    let head = book.arities.len() as u8 - 1;
    let rule = any_rule(dice, book, Some(head));
    book.rules.push(rule);
    Some(())
}

fn record<'a>(dice: &mut Dice, heap: &'a mut Heap) -> Option<&'a mut Record> {
    let at = place(dice, &heap.records)?;
    heap.records.get_mut(at)
}

fn field<'a>(dice: &mut Dice, heap: &'a mut Heap) -> Option<&'a mut u32> {
    let record = record(dice, heap)?;
    let at = place(dice, &record.fields)?;
    record.fields.get_mut(at)
}

/// A field becomes one of the values that are there, or a constant.
fn other_value(dice: &mut Dice, shape: &mut Shape) -> Option<()> {
    let mut values = shape.heap.values();
    values.extend(&shape.book.constants);
    *field(dice, &mut shape.heap)? = dice.pick(&values);
    Some(())
}

/// A field becomes a value that is not there yet.
fn value_apart(dice: &mut Dice, shape: &mut Shape) -> Option<()> {
    let fresh = fresh(&shape.heap);
    *field(dice, &mut shape.heap)? = fresh;
    Some(())
}

fn fresh(heap: &Heap) -> u32 {
    let values = heap.values();
    let mut numbers = 1..;
    let fresh = numbers.find(|number| !values.contains(number));
    fresh.expect("there are fewer values than numbers")
}

fn fields_of_another(dice: &mut Dice, shape: &mut Shape) -> Option<()> {
    let fields = record(dice, &mut shape.heap)?.fields.clone();
    record(dice, &mut shape.heap)?.fields = fields;
    Some(())
}

pub fn record_more(dice: &mut Dice, shape: &mut Shape) -> Option<()> {
    if shape.heap.records.len() == MOST_RECORDS {
        return None;
    }
    let address = fresh(&shape.heap);
    let mut values = shape.heap.values();
    values.push(address);
    let fields = dice.weighted(&generate::field_weights(&shape.book));
    let fields = (0..fields).map(|_| dice.pick(&values)).collect();
    shape.heap.records.push(Record { address, fields });
    Some(())
}

fn record_less(dice: &mut Dice, shape: &mut Shape) -> Option<()> {
    let records = &mut shape.heap.records;
    records.remove(place(dice, records)?);
    Some(())
}

fn field_more(dice: &mut Dice, shape: &mut Shape) -> Option<()> {
    let value = dice.pick(&shape.heap.values());
    let fields = &mut record(dice, &mut shape.heap)?.fields;
    (fields.len() < MOST_FIELDS).then(|| fields.push(value))
}

fn field_less(dice: &mut Dice, shape: &mut Shape) -> Option<()> {
    let fields = &mut record(dice, &mut shape.heap)?.fields;
    fields.remove(place(dice, fields)?);
    Some(())
}

fn other_question(dice: &mut Dice, shape: &mut Shape) -> Option<()> {
    shape.query = generate::query(dice, &shape.book, &shape.heap);
    Some(())
}
