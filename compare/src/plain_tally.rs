//! What the walked books were: how one sees that they are plain, or are not.

use crate::input::{Input, MOST_VARIABLES};
use crate::links::{self, CHAIN};
use crate::nil::{self, Kind};
use crate::walk::Expected;
use reference::api;
use reference::formats::{self, Rule, RuleSet};
use reference::plain::Fault;

/// A number that hardly any book has for a constant.
const NO_CONSTANT: u32 = 0x5A5A_5A5A;

/// A chain through all conditions that a rule may have.
const LONG_CHAIN: usize = 8;

/// Books that were walked with the right answer. One that comes several times
/// in a row counts once.
#[derive(Default)]
pub struct Books {
    plain: u64,
    not_plain: u64,
    /// By the reference's trying as well.
    tried_plain: u64,
    tried_not_plain: u64,
    /// Plain by equalities that must be followed, for two rules or a variable.
    excluded_by_chain: u64,
    excluded_by_long_chain: u64,
    fixed_by_chain: u64,
    /// Not plain since such a chain is cut, or hangs on nothing.
    cut: u64,
    hangs_on_nothing: u64,
    /// Not plain, and it would be if bound variables of one number were one.
    by_number: u64,
    /// As many variables as there may be, in two rules of no arguments.
    wide_plain: u64,
    wide_not_plain: u64,
    twice: u64,
    /// Plain since the end mark is nil, or not plain for that.
    plain_by_mark: u64,
    not_plain_by_mark: u64,
    /// Not plain for rules that the question cannot lead to.
    out_of_reach: u64,
}

impl Books {
    /// The book of an input, and whether it was tried.
    pub fn saw(&mut self, input: &Input, expected: &Expected, tried: bool) {
        let rules = formats::read_rule_set(&input.book);
        let (Ok(rules), Some(faults)) = (rules, &expected.faults) else {
            return;
        };
        let wide = is_wide(&rules) as u64;
        let by_mark = other_by_mark(input, faults.is_empty()) as u64;
        if faults.is_empty() {
            self.plain_by_mark += by_mark;
            let exclusion = links::longest_exclusion(&rules);
            self.plain += 1;
            self.tried_plain += tried as u64;
            self.excluded_by_chain += (exclusion >= CHAIN) as u64;
            self.excluded_by_long_chain += (exclusion >= LONG_CHAIN) as u64;
            self.fixed_by_chain += (links::longest_fixing(&rules) >= CHAIN) as u64;
            self.wide_plain += wide;
            return;
        }
        self.not_plain += 1;
        self.not_plain_by_mark += by_mark;
        if expected.reply.refusal == 12 {
            let reached = reached(&rules, input.question[0] as usize);
            let out = faults.iter().all(|fault| !reached[head(&rules, fault)]);
            self.out_of_reach += out as u64;
        }
        self.tried_not_plain += tried as u64;
        self.hangs_on_nothing += links::hangs_on_nothing(&rules, faults) as u64;
        if expected.missed() == [3] {
            self.by_number += links::exclusive_by_number(&rules) as u64;
            self.wide_not_plain += wide;
            self.twice += faults.iter().any(|fault| same_rules(&rules, fault)) as u64;
        }
    }

    /// A book that was plain, and what is against it after a change that left
    /// the rules in their places.
    pub fn changed(&mut self, before: &[u8], faults: &[Fault]) {
        let before = formats::read_rule_set(before);
        self.cut += before.is_ok_and(|before| links::cut(&before, faults)) as u64;
    }

    pub fn kinds(&self) -> [(&'static str, u64); 16] {
        [
            ("plain books", self.plain),
            ("books that are not plain", self.not_plain),
            ("plain by trying too", self.tried_plain),
            ("not plain by trying too", self.tried_not_plain),
            ("rules excluded by 3 equalities", self.excluded_by_chain),
            ("by 8 equalities", self.excluded_by_long_chain),
            ("a variable fixed by 3 equalities", self.fixed_by_chain),
            ("not plain since such a chain is cut", self.cut),
            (
                "a variable not fixed with 3 equalities",
                self.hangs_on_nothing,
            ),
            (
                "not plain, but if bound variables of one number were one",
                self.by_number,
            ),
            ("plain with 8 and 8 bound variables", self.wide_plain),
            (
                "not plain with 8 and 8 bound variables",
                self.wide_not_plain,
            ),
            ("not plain for a rule that is there twice", self.twice),
            ("plain since the mark is nil", self.plain_by_mark),
            ("not plain since the mark is nil", self.not_plain_by_mark),
            (
                "12 for rules that the question cannot lead to",
                self.out_of_reach,
            ),
        ]
    }
}

/// Whether the book would be the other, plain or not, if the mark were a number
/// like others.
fn other_by_mark(input: &Input, plain: bool) -> bool {
    let mut other = input.clone();
    let places = nil::places(input).into_iter();
    let marks = places.filter(|place| place.kind == Kind::Constant && place.is_mark(input));
    for place in marks {
        place.write(&mut other, NO_CONSTANT);
    }
    other.book != input.book && api::plain_book(&other.book) == Ok(!plain)
}

/// The predicates that unfolding this one may come to.
fn reached(rules: &RuleSet, predicate: usize) -> Vec<bool> {
    let mut reached = vec![false; rules.arities.len()];
    let mut next = vec![predicate];
    while let Some(predicate) = next.pop() {
        if !std::mem::replace(&mut reached[predicate], true) {
            let rules = rules.rules.iter().filter(|rule| rule.head == predicate);
            next.extend(rules.flat_map(|rule| rule.calls.iter().map(|call| call.predicate)));
        }
    }
    reached
}

/// The predicate of the rule that the fault is about.
fn head(rules: &RuleSet, fault: &Fault) -> usize {
    let (Fault::CallsAlone { rule }
    | Fault::NotFixed { rule, .. }
    | Fault::MetTogether { first: rule, .. }) = *fault;
    rules.rules[rule].head
}

/// Whether two rules of no arguments have as many variables as there may be.
fn is_wide(rules: &RuleSet) -> bool {
    let wide = |rule: &&Rule| {
        let bound = rule.variables - rules.arities[rule.head];
        bound == MOST_VARIABLES && !rule.pure.is_empty()
    };
    let mut heads: Vec<usize> = rules
        .rules
        .iter()
        .filter(wide)
        .map(|rule| rule.head)
        .collect();
    heads.sort();
    heads.windows(2).any(|two| two[0] == two[1])
}

fn same_rules(rules: &RuleSet, fault: &Fault) -> bool {
    match *fault {
        Fault::MetTogether { first, second } => rules.rules[first] == rules.rules[second],
        _ => false,
    }
}
