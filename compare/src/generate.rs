//! Random books, pools and questions, right by construction and of every size
//! up to the limits.

use crate::input::*;
use crate::nil::LARGEST;
use crate::random::Dice;
use crate::shapes;

/// How large a book and its pool may become.
#[derive(Clone, Copy)]
pub enum Size {
    Small,
    Middle,
    /// Every count is drawn up to its limit.
    Largest,
}

pub fn book(dice: &mut Dice, size: Size) -> Book {
    let (predicates, more_rules) = match size {
        Size::Small => (dice.between(1, 2), dice.below(3)),
        Size::Middle => (dice.between(1, 4), dice.below(6)),
        Size::Largest => (dice.between(1, MOST_PREDICATES), dice.below(MOST_RULES)),
    };
    let arity = |dice: &mut Dice| match size {
        Size::Largest => dice.below(MOST_ARGUMENTS + 1) as u8,
        _ => dice.weighted(&[8, 40, 35, 12, 5]) as u8,
    };
    let arities: Vec<u8> = (0..predicates).map(|_| arity(dice)).collect();
    let constants = constants(dice, size);
    let named = constants.len();
    // The first rules are grounds to start from, one for most predicates.
    let starts = (0..predicates)
        .filter(|_| dice.chance(90))
        .collect::<Vec<_>>();
    let mut rules: Vec<Rule> = Vec::new();
    for head in starts {
        rules.push(rule(dice, size, &arities, named, head, true));
    }
    for _ in 0..more_rules.min(MOST_RULES - rules.len()) {
        let head = dice.below(predicates);
        rules.push(rule(dice, size, &arities, named, head, false));
    }
    dice.shuffle(&mut rules);
    Book {
        arities,
        constants,
        rules,
    }
}

/// None for half of the books.
fn constants(dice: &mut Dice, size: Size) -> Vec<u32> {
    let count = match size {
        _ if dice.chance(50) => 0,
        Size::Largest => dice.below(MOST_CONSTANTS + 1),
        _ => dice.weighted(&[0, 40, 30, 15, 5, 4, 2, 2, 2]),
    };
    (0..count).map(|_| constant(dice)).collect()
}

/// Often a small one: that is a spare number otherwise, or an address, and
/// there it is twice soon.
pub fn constant(dice: &mut Dice) -> u32 {
    match dice.below(10) {
        0 => 0,
        1 => LARGEST,
        2 => dice.value(),
        3 => dice.below(60) as u32,
        _ => dice.between(1, 7) as u32,
    }
}

/// The pool's values for some of the book's constants, or its first spare
/// number.
pub fn meet(dice: &mut Dice, book: &mut Book, heap: &Heap) {
    let values = heap.values();
    let spare = (1..).find(|number| !values.contains(number));
    for constant in &mut book.constants {
        match dice.below(10) {
            0..=2 => *constant = dice.pick(&values),
            3 => *constant = spare.expect("there are fewer values than numbers"),
            _ => {}
        }
    }
}

/// Any of so many constants, as a term.
pub fn some_constant(dice: &mut Dice, constants: usize) -> u8 {
    FIRST_CONSTANT + dice.below(constants) as u8
}

/// Nil, or a constant where there is one.
pub fn fixed_term(dice: &mut Dice, constants: usize) -> u8 {
    match constants {
        0 => NIL,
        _ if dice.chance(40) => NIL,
        _ => some_constant(dice, constants),
    }
}

/// With so many constants; one to start from has no calls.
pub fn rule(
    dice: &mut Dice,
    size: Size,
    arities: &[u8],
    constants: usize,
    head: usize,
    start: bool,
) -> Rule {
    let arity = arities[head] as usize;
    let room = MOST_VARIABLES - arity;
    let bound = match size {
        Size::Largest => dice.below(room + 1),
        _ => dice.weighted(&[25, 35, 25, 10, 5]).min(room),
    };
    let mut rule = Rule::new(head as u8, bound as u8);
    let mut terms = Terms::new(dice, arity + bound, constants);
    let cells = match size {
        _ if arity + bound == 0 => 0,
        _ if start => dice.weighted(&[70, 30]),
        Size::Largest => dice.below(MOST_CELLS + 1),
        _ => dice.weighted(&[25, 60, 10, 3, 2]),
    };
    for _ in 0..cells {
        let address = terms.variable(dice);
        let fields = match size {
            Size::Largest => dice.below(MOST_FIELDS + 1),
            _ => dice.weighted(&[5, 60, 25, 6, 4]),
        };
        let fields = (0..fields).map(|_| terms.term(dice)).collect();
        rule.cells.push((address, fields));
    }
    let calls = match size {
        _ if start => 0,
        Size::Largest => dice.weighted(&[15, 40, 30, 15]),
        _ => dice.weighted(&[10, 55, 28, 7]),
    };
    for _ in 0..calls {
        let predicate = dice.below(arities.len());
        let arguments = (0..arities[predicate]).map(|_| terms.term(dice)).collect();
        rule.calls.push((predicate as u8, arguments));
    }
    let pures = match size {
        Size::Largest if dice.chance(20) => dice.below(MOST_PURES + 1),
        _ => dice.weighted(&[45, 30, 15, 10]),
    };
    for _ in 0..pures {
        let kind = dice.chance(60) as u8;
        let pure = [kind, terms.any(dice), terms.any(dice)];
        rule.pures.push(pure);
    }
    if dice.chance(6) {
        rule.pures = all_unequal(dice, arity + bound, constants);
    }
    if dice.chance(88) {
        tie_head(dice, &mut rule, arity, constants);
    }
    rule
}

/// As many unequal conditions as a rule may have, none of them twice: random
/// ones in such a number would contradict each other.
fn all_unequal(dice: &mut Dice, variables: usize, constants: usize) -> Vec<[u8; 3]> {
    let mut pairs = Vec::new();
    for left in 0..variables as u8 {
        pairs.push([1, left, NIL]);
        let terms = FIRST_CONSTANT..FIRST_CONSTANT + constants as u8;
        pairs.extend(terms.map(|right| [1, left, right]));
        pairs.extend((0..left).map(|right| [1, left, right]));
    }
    dice.shuffle(&mut pairs);
    pairs.truncate(MOST_PURES);
    pairs
}

/// Head variables that nothing ties take every kept value, and then the table
/// is soon full: ties most of them by an equality.
fn tie_head(dice: &mut Dice, rule: &mut Rule, arity: usize, constants: usize) {
    for variable in 0..arity as u8 {
        let used_by_cell = |cell: &(u8, Vec<u8>)| cell.0 == variable || cell.1.contains(&variable);
        let tied = rule.cells.iter().any(used_by_cell)
            || rule.calls.iter().any(|call| call.1.contains(&variable))
            || rule
                .pures
                .iter()
                .any(|pure| pure[0] == 0 && pure[1..].contains(&variable));
        if !tied && rule.pures.len() < MOST_PURES {
            let other = match variable {
                0 => fixed_term(dice, constants),
                _ if dice.chance(30) => fixed_term(dice, constants),
                _ => dice.below(variable as usize) as u8,
            };
            rule.pures.push([0, variable, other]);
        }
    }
}

/// The terms of a rule, each variable once before any comes twice: so most
/// variables are used, and cells and calls hang together.
struct Terms {
    variables: usize,
    unused: Vec<u8>,
    constants: usize,
}

impl Terms {
    fn new(dice: &mut Dice, variables: usize, constants: usize) -> Terms {
        let mut unused: Vec<u8> = (0..variables as u8).rev().collect();
        if dice.chance(40) {
            dice.shuffle(&mut unused);
        }
        Terms {
            variables,
            unused,
            constants,
        }
    }

    fn variable(&mut self, dice: &mut Dice) -> u8 {
        match self.unused.pop() {
            Some(variable) if dice.chance(70) => variable,
            _ => dice.below(self.variables) as u8,
        }
    }

    fn term(&mut self, dice: &mut Dice) -> u8 {
        if self.variables == 0 || dice.chance(self.share(8)) {
            fixed_term(dice, self.constants)
        } else {
            self.variable(dice)
        }
    }

    /// Constants come on top of nil.
    fn share(&self, of_nil: usize) -> usize {
        match self.constants {
            0 => of_nil,
            _ => of_nil + 15,
        }
    }

    /// Any term, used or not.
    fn any(&self, dice: &mut Dice) -> u8 {
        if self.variables == 0 || dice.chance(self.share(15)) {
            fixed_term(dice, self.constants)
        } else {
            dice.below(self.variables) as u8
        }
    }
}

/// A pool of so many records that point at each other, mostly. Some of the
/// book's constants stand in it.
pub fn heap(dice: &mut Dice, book: &Book, size: usize) -> Heap {
    let field_weights = field_weights(book);
    let mut places = shapes::places(dice, size);
    for &constant in &book.constants {
        if size > 0 && constant != 0 && !places.contains(&constant) && dice.chance(15) {
            let at = dice.below(size);
            places[at] = constant;
        }
    }
    let apart = dice.chance(5);
    let field = |dice: &mut Dice| match dice.below(10) {
        _ if apart => dice.value(),
        0 => 0,
        1 => dice.below(20) as u32,
        2 if dice.chance(20) => dice.value(),
        3 | 4 if !book.constants.is_empty() => dice.pick(&book.constants),
        _ => dice.pick(&places),
    };
    let mut heap = Heap::default();
    for &place in &places {
        let fields = dice.weighted(&field_weights);
        let fields: Vec<u32> = (0..fields).map(|_| field(dice)).collect();
        heap = heap.with(place, &fields);
    }
    heap
}

/// How often the book's cells have each number of fields, so that its pools
/// have such records.
pub fn field_weights(book: &Book) -> [usize; 5] {
    let mut weights = [1; 5];
    for (_, fields) in book.rules.iter().flat_map(|rule| &rule.cells) {
        weights[fields.len()] += 12;
    }
    weights
}

/// A question about the pool's values, mostly.
pub fn query(dice: &mut Dice, book: &Book, heap: &Heap) -> Query {
    let predicate = dice.below(book.arities.len());
    let values = heap.values();
    let value = |dice: &mut Dice| match dice.below(20) {
        0 | 1 => dice.below(30) as u32,
        2..=4 if !book.constants.is_empty() => dice.pick(&book.constants),
        _ => dice.pick(&values),
    };
    let values: Vec<u32> = (0..book.arities[predicate]).map(|_| value(dice)).collect();
    Query::new(predicate as u8, &values)
}
