//! Plain or not once more, by trying: sets of variables for the second
//! condition, numbers for the third. Of `plain` only the names of the faults
//! are used. It may take long for wide rules that contradict themselves late.

use crate::formats::{Kind, Pure, Rule, RuleSet, Term};
use crate::plain::Fault;
use std::collections::BTreeSet;

/// All faults, ascending.
pub fn faults(rules: &RuleSet) -> Vec<Fault> {
    let mut faults = BTreeSet::new();
    for (rule, one) in rules.rules.iter().enumerate() {
        let arity = rules.arities[one.head];
        if let (None, Some(_)) = (one.cells.first(), one.calls.first()) {
            faults.insert(Fault::CallsAlone { rule });
        }
        let fixed = fixed(one, arity);
        let open = (0..one.variables).filter(|variable| !fixed.contains(variable));
        faults.extend(open.map(|variable| Fault::NotFixed { rule, variable }));
        for (second, other) in rules.rules.iter().enumerate().skip(rule + 1) {
            if one.head == other.head && met_together(one, other, arity) {
                let first = rule;
                faults.insert(Fault::MetTogether { first, second });
            }
        }
    }
    faults.into_iter().collect()
}

/// The variables that are fixed. They are the smallest set that has all that
/// the definition puts into it; and since what two such sets have in common is
/// such a set too, they are what all of them have in common.
pub fn fixed(rule: &Rule, arity: usize) -> BTreeSet<usize> {
    let mut common: BTreeSet<usize> = (0..rule.variables).collect();
    for bits in 0..1u32 << rule.variables {
        let in_set = |variable: usize| bits >> variable & 1 == 1;
        if closed(rule, arity, &in_set) {
            common.retain(|&variable| in_set(variable));
        }
    }
    common
}

/// Whether this set has the head's variables, with one side of an equality the
/// other, and with an address the fields.
fn closed(rule: &Rule, arity: usize, in_set: &dyn Fn(usize) -> bool) -> bool {
    let known = |term: Term| match term {
        Term::Variable(variable) => in_set(variable),
        Term::Nil | Term::Constant(_) => true,
    };
    let step = |pure: &Pure| pure.kind == Kind::Unequal || known(pure.left) == known(pure.right);
    (0..arity).all(in_set)
        && rule.pure.iter().all(step)
        && rule.cells.iter().all(|cell| {
            let mut fields = cell.fields.iter();
            !in_set(cell.address) || fields.all(|&field| known(field))
        })
}

/// Whether the same arguments can meet the pure conditions of both rules, each
/// with numbers of its own for its bound variables.
pub fn met_together(first: &Rule, second: &Rule, arity: usize) -> bool {
    let pair = [first, second];
    let numbers = Numbers::named_in(&pair);
    some_arguments(&pair, &numbers, arity, &mut Vec::new())
}

/// Goes through the arguments that start with these.
fn some_arguments(pair: &[&Rule], numbers: &Numbers, arity: usize, values: &mut Vec<u64>) -> bool {
    // Not needed for the answer, but it cuts off what cannot be met any more.
    if pair.iter().any(|rule| contradicted(rule, values)) {
        return false;
    }
    if values.len() == arity {
        return pair.iter().all(|rule| can_be_met(rule, numbers, values));
    }
    let matters = pair.iter().any(|rule| stands_in(rule, values.len()));
    let go_on = |values: &mut Vec<u64>| some_arguments(pair, numbers, arity, values);
    numbers.any_next(values, matters, go_on)
}

/// Whether some numbers after these meet the rule's pure conditions.
fn can_be_met(rule: &Rule, numbers: &Numbers, values: &mut Vec<u64>) -> bool {
    if contradicted(rule, values) {
        return false;
    }
    let matters = stands_in(rule, values.len());
    let go_on = |values: &mut Vec<u64>| can_be_met(rule, numbers, values);
    values.len() == rule.variables || numbers.any_next(values, matters, go_on)
}

/// Whether the rule has a condition on this variable.
fn stands_in(rule: &Rule, variable: usize) -> bool {
    let mut terms = rule.pure.iter().flat_map(|pure| [pure.left, pure.right]);
    terms.any(|term| term == Term::Variable(variable))
}

/// Whether a condition is false by these values of the first variables.
fn contradicted(rule: &Rule, values: &[u64]) -> bool {
    let value = |term: Term| match term {
        Term::Variable(variable) => values.get(variable).copied(),
        Term::Nil => Some(0),
        Term::Constant(number) => Some(number as u64),
    };
    rule.pure
        .iter()
        .any(|pure| match (value(pure.left), value(pure.right)) {
            (Some(left), Some(right)) => (left == right) != (pure.kind == Kind::Equal),
            _ => false,
        })
}

/// The numbers to be tried: those that the conditions name, and others.
///
/// As many others as a rule has variables are enough. Take any numbers that meet
/// the conditions, and rename those that are not named: the one used first to
/// the first of the others, the next one to the second, and so on. What was
/// equal stays equal, and what was not does not become so; thus the conditions
/// are still met. So each variable in turn needs only the named numbers, the
/// others in use before it, and one more.
struct Numbers {
    named: Vec<u64>,
    others: Vec<u64>,
}

impl Numbers {
    fn named_in(rules: &[&Rule]) -> Numbers {
        let conditions = rules.iter().flat_map(|rule| &rule.pure);
        let terms = conditions.flat_map(|pure| [pure.left, pure.right]);
        let named: BTreeSet<u64> = terms.filter_map(Term::number).collect();
        let most = rules.iter().map(|rule| rule.variables).max().unwrap_or(0);
        let others = (0..).filter(|number| !named.contains(number));
        Numbers {
            others: others.take(most).collect(),
            named: named.into_iter().collect(),
        }
    }

    /// Whether it is true for some number after these. One number is enough
    /// for a variable that does not matter.
    fn any_next(
        &self,
        values: &mut Vec<u64>,
        matters: bool,
        mut is_true: impl FnMut(&mut Vec<u64>) -> bool,
    ) -> bool {
        let in_use = |other: &&u64| values.contains(other);
        let used = self.others.iter().filter(in_use).count();
        let all = self.others[..used + 1].iter().chain(&self.named);
        let mut tried = all.take(if matters { usize::MAX } else { 1 });
        tried.any(|&number| {
            values.push(number);
            let answer = is_true(values);
            values.pop();
            answer
        })
    }
}
