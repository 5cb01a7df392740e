//! Whether a rule set is plain: all there is against it, condition by condition
//! in the order of the papers.

use crate::formats::{Kind, Rule, RuleSet, Term};

/// One thing against a rule set. Rules have their places in the book.
#[derive(Clone, Copy, Debug, PartialEq, Eq, PartialOrd, Ord)]
pub enum Fault {
    /// Against the first condition: the rule has calls but no cell.
    CallsAlone { rule: usize },
    /// Against the second: nothing fixes this variable of the rule.
    NotFixed { rule: usize, variable: usize },
    /// Against the third: some arguments can meet the pure conditions of both
    /// rules. The first one is earlier in the book.
    MetTogether { first: usize, second: usize },
}

impl Fault {
    /// The condition it is against: 1, 2 or 3.
    pub fn condition(self) -> usize {
        match self {
            Fault::CallsAlone { .. } => 1,
            Fault::NotFixed { .. } => 2,
            Fault::MetTogether { .. } => 3,
        }
    }
}

pub fn plain(rules: &RuleSet) -> bool {
    faults(rules).is_empty()
}

/// All faults, ascending. Rules that no query can reach count like others.
pub fn faults(rules: &RuleSet) -> Vec<Fault> {
    let mut faults = Vec::new();
    for (number, rule) in rules.rules.iter().enumerate() {
        if calls_alone(rule) {
            faults.push(Fault::CallsAlone { rule: number });
        }
        let fixed = fixed(rule, rules.arities[rule.head]);
        for variable in (0..rule.variables).filter(|&variable| !fixed[variable]) {
            let rule = number;
            faults.push(Fault::NotFixed { rule, variable });
        }
        // Each pair once. The same rule written twice makes two rules.
        for (first, other) in rules.rules[..number].iter().enumerate() {
            let arity = rules.arities[rule.head];
            if other.head == rule.head && met_together(other, rule, arity) {
                let second = number;
                faults.push(Fault::MetTogether { first, second });
            }
        }
    }
    faults.sort();
    faults
}

fn nothing_against(rules: &RuleSet, condition: usize) -> bool {
    let faults = faults(rules);
    faults.iter().all(|fault| fault.condition() != condition)
}

/// Whether each rule with calls has a cell.
pub fn consuming(rules: &RuleSet) -> bool {
    nothing_against(rules, 1)
}

/// Whether each rule fixes all its variables, also those that stand nowhere.
pub fn variables_fixed(rules: &RuleSet) -> bool {
    nothing_against(rules, 2)
}

/// Whether there are no arguments for which the pure conditions of two rules of
/// one predicate can hold.
pub fn exclusive(rules: &RuleSet) -> bool {
    nothing_against(rules, 3)
}

/// A rule with calls but no cell.
pub fn calls_alone(rule: &Rule) -> bool {
    rule.cells.is_empty() && !rule.calls.is_empty()
}

/// For each variable whether it is fixed. Only the way the rule is written
/// counts: conditions that contradict each other fix nothing for that.
pub fn fixed(rule: &Rule, arity: usize) -> Vec<bool> {
    // Nil and the constants share one place after the variables: they are all
    // fixed, and their numbers make no difference to that.
    let number = rule.variables;
    let place = |term: Term| match term {
        Term::Variable(variable) => variable,
        Term::Nil | Term::Constant(_) => number,
    };
    let given = |at: usize| at < arity || at == number;
    let mut fixed: Vec<bool> = (0..=number).map(given).collect();
    loop {
        let before = fixed.clone();
        for pure in &rule.pure {
            if pure.kind == Kind::Equal {
                let (left, right) = (place(pure.left), place(pure.right));
                let either = fixed[left] || fixed[right];
                (fixed[left], fixed[right]) = (either, either);
            }
        }
        for cell in &rule.cells {
            if fixed[cell.address] {
                for &field in &cell.fields {
                    fixed[place(field)] = true;
                }
            }
        }
        if fixed == before {
            fixed.truncate(number);
            return fixed;
        }
    }
}

/// Whether some numbers meet the pure conditions of both rules: the same for
/// the arguments, and for the bound variables of each rule its own.
///
/// The equalities of both put terms into classes. Where all conditions are met,
/// the terms of a class have the same value. So the conditions cannot be met if
/// a class holds two different numbers or both sides of an unequal condition.
/// Else they can: a class that holds a number takes that one, and every other
/// class takes a number that is used nowhere else, of which there always is one
/// more. Then no two classes have the same value, for a number is in one class
/// only; so all unequal conditions are met as well.
fn met_together(first: &Rule, second: &Rule, arity: usize) -> bool {
    let both = Both::of(first, second, arity);
    let class = both.classes();
    let numbers = &class[both.variables..];
    let clash = |index: usize| numbers[..index].contains(&numbers[index]);
    if (0..numbers.len()).any(clash) {
        return false;
    }
    let apart = |&(kind, left, right): &(Kind, usize, usize)| {
        kind == Kind::Equal || class[left] != class[right]
    };
    both.conditions.iter().all(apart)
}

/// The pure conditions of two rules as one list. Each term has a place: first
/// the first rule's variables, then what the second one binds, then the numbers
/// that are named, each once however it is written.
struct Both {
    variables: usize,
    numbers: Vec<u64>,
    conditions: Vec<(Kind, usize, usize)>,
}

impl Both {
    fn of(first: &Rule, second: &Rule, arity: usize) -> Both {
        let mut both = Both {
            variables: first.variables + second.variables - arity,
            numbers: Vec::new(),
            conditions: Vec::new(),
        };
        both.add(first, |variable| variable);
        both.add(second, |variable| {
            if variable < arity {
                variable
            } else {
                first.variables + variable - arity
            }
        });
        both
    }

    fn add(&mut self, rule: &Rule, of_variable: impl Fn(usize) -> usize) {
        for pure in &rule.pure {
            let [left, right] = [pure.left, pure.right].map(|term| match term {
                Term::Variable(variable) => of_variable(variable),
                Term::Nil => self.of_number(0),
                Term::Constant(value) => self.of_number(value as u64),
            });
            self.conditions.push((pure.kind, left, right));
        }
    }

    fn of_number(&mut self, number: u64) -> usize {
        let known = self.numbers.iter().position(|&other| other == number);
        let index = known.unwrap_or_else(|| {
            self.numbers.push(number);
            self.numbers.len() - 1
        });
        self.variables + index
    }

    /// For each place a name for its class.
    fn classes(&self) -> Vec<usize> {
        let mut class: Vec<usize> = (0..self.variables + self.numbers.len()).collect();
        for &(kind, left, right) in &self.conditions {
            if kind == Kind::Equal {
                let (from, to) = (class[left], class[right]);
                for member in &mut class {
                    if *member == from {
                        *member = to;
                    }
                }
            }
        }
        class
    }
}
