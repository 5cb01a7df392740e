//! Chains of equalities in the rules of a book: how long one must be followed
//! to see what the book is.

use reference::formats::{Kind, Rule, RuleSet, Term};
use reference::plain::{self, Fault};

/// So many equalities one after the other are a chain.
pub const CHAIN: usize = 3;

/// A term, by the rule that binds it; arguments and numbers are the same in
/// every rule.
#[derive(Clone, Copy, PartialEq, Eq)]
enum End {
    Argument(usize),
    Bound(usize, usize),
    Number(u64),
}

struct Conditions {
    equal: Vec<[End; 2]>,
    unequal: Vec<[End; 2]>,
}

impl Conditions {
    fn of(rules: &[&Rule], arity: usize) -> Conditions {
        let mut conditions = Conditions {
            equal: Vec::new(),
            unequal: Vec::new(),
        };
        for (place, rule) in rules.iter().enumerate() {
            for pure in &rule.pure {
                let ends = [pure.left, pure.right].map(|term| end(term, place, arity));
                match pure.kind {
                    Kind::Equal => conditions.equal.push(ends),
                    Kind::Unequal => conditions.unequal.push(ends),
                }
            }
        }
        conditions
    }

    /// All ends that so many equalities lead to from these, and no fewer.
    fn levels(&self, from: &[End]) -> Vec<Vec<End>> {
        let mut levels = vec![from.to_vec()];
        let mut met = from.to_vec();
        loop {
            let last = levels.last().expect("there is one");
            let mut next = Vec::new();
            for &[one, other] in &self.equal {
                for (from, to) in [(one, other), (other, one)] {
                    if last.contains(&from) && !met.contains(&to) {
                        met.push(to);
                        next.push(to);
                    }
                }
            }
            if next.is_empty() {
                return levels;
            }
            levels.push(next);
        }
    }

    fn between(&self, one: End, other: End) -> Option<usize> {
        let levels = self.levels(&[one]);
        levels.iter().position(|level| level.contains(&other))
    }

    /// The fewest equalities that show that they cannot all be met.
    fn contradiction(&self) -> Option<usize> {
        let numbers = self.numbers();
        let mut apart = self.unequal.clone();
        for &one in &numbers {
            let different = numbers.iter().filter(|&&other| other != one);
            apart.extend(different.map(|&other| [one, other]));
        }
        let lengths = apart
            .iter()
            .filter_map(|&[one, other]| self.between(one, other));
        lengths.min()
    }

    fn numbers(&self) -> Vec<End> {
        let all = self.equal.iter().flatten().copied();
        all.filter(|end| matches!(end, End::Number(_))).collect()
    }
}

fn end(term: Term, place: usize, arity: usize) -> End {
    match term {
        Term::Variable(variable) if variable < arity => End::Argument(variable),
        Term::Variable(variable) => End::Bound(place, variable),
        _ => End::Number(term.number().expect("it is no variable")),
    }
}

/// How many equalities exclude two rules of one predicate, at least; nothing if
/// they can be met together.
fn excluded_by(rules: &RuleSet, first: usize, second: usize) -> Option<usize> {
    let two = [&rules.rules[first], &rules.rules[second]];
    let arity = rules.arities[two[0].head];
    Conditions::of(&two, arity).contradiction()
}

/// The most equalities that are needed for two rules of a plain book.
pub fn longest_exclusion(rules: &RuleSet) -> usize {
    let all = &rules.rules;
    let pairs = (0..all.len()).flat_map(|second| (0..second).map(move |first| (first, second)));
    let pairs = pairs.filter(|&(first, second)| all[first].head == all[second].head);
    let lengths = pairs.filter_map(|(first, second)| excluded_by(rules, first, second));
    lengths.max().unwrap_or(0)
}

/// The most equalities that are needed to fix a variable of a plain book: from
/// an argument, a number or a field.
pub fn longest_fixing(rules: &RuleSet) -> usize {
    let lengths = rules.rules.iter().map(|rule| {
        let arity = rules.arities[rule.head];
        let conditions = Conditions::of(&[rule], arity);
        let mut known = conditions.numbers();
        known.extend((0..arity).map(End::Argument));
        let fields = rule.cells.iter().flat_map(|cell| &cell.fields);
        known.extend(fields.map(|&field| end(field, 0, arity)));
        conditions.levels(&known).len() - 1
    });
    lengths.max().unwrap_or(0)
}

/// Whether a chain leads from a variable that is not fixed to others that are
/// not fixed either.
pub fn hangs_on_nothing(rules: &RuleSet, faults: &[Fault]) -> bool {
    faults.iter().any(|fault| match *fault {
        Fault::NotFixed { rule, variable } => {
            let rule = &rules.rules[rule];
            let arity = rules.arities[rule.head];
            let conditions = Conditions::of(&[rule], arity);
            conditions.levels(&[End::Bound(0, variable)]).len() > CHAIN
        }
        _ => false,
    })
}

/// Whether a chain excluded two rules before that can be met together now. The
/// rules have kept their places, and further ones may stand after them.
pub fn cut(before: &RuleSet, faults: &[Fault]) -> bool {
    faults.iter().any(|fault| match *fault {
        Fault::MetTogether { first, second } if second < before.rules.len() => {
            excluded_by(before, first, second).is_some_and(|length| length >= CHAIN)
        }
        _ => false,
    })
}

/// Whether no two rules could be met together if bound variables of one number
/// were one variable.
pub fn exclusive_by_number(rules: &RuleSet) -> bool {
    let mut rules = rules.clone();
    let most = rules.rules.iter().map(|rule| rule.variables).max();
    let most = most.unwrap_or(0);
    rules.arities.fill(most);
    for rule in &mut rules.rules {
        rule.variables = most;
    }
    plain::exclusive(&rules)
}
