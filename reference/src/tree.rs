//! Unfolding trees: what makes one finished, how a certificate opens into
//! one, and a search for one from the query downwards. None of it uses the
//! table, and the search may use numbers beyond the domain.

use crate::domain::Domain;
use crate::fact;
use crate::formats::{Heap, Kind, Problem, Rule, RuleSet, Term};
use std::collections::BTreeSet;

/// A node with all that hangs under it. Its predicate is the rule's head.
#[derive(Clone, Debug, PartialEq, Eq)]
pub struct Tree {
    pub rule: usize,
    /// One number for each variable, the head's first.
    pub values: Vec<u64>,
    /// One for each call.
    pub under: Vec<Tree>,
}

/// The records taken by a finished tree for this predicate and these
/// arguments; nothing if the tree is not finished.
pub fn records_used(
    rules: &RuleSet,
    heap: &Heap,
    predicate: usize,
    arguments: &[u64],
    tree: &Tree,
) -> Option<BTreeSet<usize>> {
    let mut used = BTreeSet::new();
    node_holds(rules, heap, predicate, arguments, tree, &mut used).then_some(used)
}

/// Whether the tree answers the query and takes every record.
pub fn answers(problem: &Problem, tree: &Tree) -> bool {
    answers_part(problem, fact::all_records(problem), tree)
}

/// Whether the tree answers the query and takes the part's records, no others.
pub fn answers_part(problem: &Problem, part: u16, tree: &Tree) -> bool {
    let used = records_used(
        &problem.rules,
        &problem.heap,
        problem.query.predicate,
        &query_arguments(problem),
        tree,
    );
    used.is_some_and(|used| part_of(&used) == part)
}

fn part_of(records: &BTreeSet<usize>) -> u16 {
    records.iter().fold(0, |part, record| part | 1 << record)
}

fn query_arguments(problem: &Problem) -> Vec<u64> {
    let values = problem.query.values.iter();
    values.map(|&value| value as u64).collect()
}

fn node_holds(
    rules: &RuleSet,
    heap: &Heap,
    predicate: usize,
    arguments: &[u64],
    tree: &Tree,
    used: &mut BTreeSet<usize>,
) -> bool {
    let Some(rule) = rules.rules.get(tree.rule) else {
        return false;
    };
    if rule.head != predicate
        || rules.arities[predicate] != arguments.len()
        || tree.values.len() != rule.variables
        || tree.values[..arguments.len()] != *arguments
        || tree.under.len() != rule.calls.len()
    {
        return false;
    }
    let value = |term: Term| term.value(&tree.values);
    for pure in &rule.pure {
        let equal = value(pure.left) == value(pure.right);
        if equal != (pure.kind == Kind::Equal) {
            return false;
        }
    }
    for cell in &rule.cells {
        let address = tree.values[cell.address];
        let fields: Vec<u64> = cell.fields.iter().map(|&term| value(term)).collect();
        let record = heap.records.iter().position(|record| {
            let same: Vec<u64> = record.fields.iter().map(|&field| field as u64).collect();
            record.address as u64 == address && same == fields
        });
        match record {
            // False from the set means that the record was taken before.
            Some(record) if used.insert(record) => {}
            _ => return false,
        }
    }
    rule.calls.iter().zip(&tree.under).all(|(call, below)| {
        let arguments: Vec<u64> = call.arguments.iter().map(|&term| value(term)).collect();
        node_holds(rules, heap, call.predicate, &arguments, below, used)
    })
}

/// The tree a certificate stands for, its last line on top. A line called
/// more than once is copied, so the tree may be large: nothing beyond `nodes`.
pub fn open(problem: &Problem, words: &[u64], nodes: usize) -> Option<Tree> {
    let domain = Domain::of(problem);
    let mut nodes = nodes;
    open_line(problem, &domain, words, words.len() / 3, &mut nodes)
}

fn open_line(
    problem: &Problem,
    domain: &Domain,
    words: &[u64],
    line: usize,
    nodes: &mut usize,
) -> Option<Tree> {
    if *nodes == 0 || line == 0 {
        return None;
    }
    *nodes -= 1;
    let positions = words[3 * (line - 1) + 1];
    let step = words[3 * (line - 1) + 2];
    let number = (step & 0xff) as usize;
    let rule = problem.rules.rules.get(number)?;
    let mut values = Vec::new();
    for variable in 0..rule.variables {
        let position = (positions >> (8 * variable)) as usize & 0xff;
        values.push(*domain.values().get(position)?);
    }
    let mut under = Vec::new();
    for call in 0..rule.calls.len() {
        let called = (step >> (8 + 16 * call)) as usize & 0xffff;
        // Only earlier lines, or the opening might not come to an end.
        if called >= line {
            return None;
        }
        under.push(open_line(problem, domain, words, called, nodes)?);
    }
    Some(Tree {
        rule: number,
        values,
        under,
    })
}

#[derive(Clone, Debug, PartialEq, Eq)]
pub enum Answer {
    /// A finished tree that takes the records it should.
    Yes(Tree),
    /// There is none of at most this depth over these numbers.
    NoneFound,
    /// The budget ran out first; nothing is said.
    OutOfBudget,
}

/// Looks for a tree that takes every record. It has at most `depth` levels,
/// shallow ones first. Numbers tried for bound variables: the domain and
/// `further` more unused ones.
pub fn search(problem: &Problem, further: usize, depth: usize, budget: u64) -> Answer {
    let mut every_record = |left: &BTreeSet<usize>| left.is_empty();
    search_until(problem, further, depth, budget, &mut every_record)
}

/// Looks for a tree that takes any records, or none.
pub fn search_part(problem: &Problem, further: usize, depth: usize, budget: u64) -> Answer {
    search_until(problem, further, depth, budget, &mut |_| true)
}

/// The parts taken by all the trees there are, ascending; nothing if the budget
/// runs out first.
pub fn fitting_parts(
    problem: &Problem,
    further: usize,
    depth: usize,
    budget: u64,
) -> Option<Vec<u16>> {
    let mut parts = BTreeSet::new();
    let mut note = |left: &BTreeSet<usize>| {
        parts.insert(fact::all_records(problem) & !part_of(left));
        false
    };
    match search_until(problem, further, depth, budget, &mut note) {
        Answer::OutOfBudget => None,
        _ => Some(parts.into_iter().collect()),
    }
}

/// Goes through the finished trees until `enough`, which is given the records
/// not taken.
fn search_until(
    problem: &Problem,
    further: usize,
    depth: usize,
    budget: u64,
    enough: &mut dyn FnMut(&BTreeSet<usize>) -> bool,
) -> Answer {
    let kept = Domain::of(problem);
    let good = Domain::with_spares(problem, 0);
    let numbers = Domain::with_spares(problem, kept.len() - good.len() + further);
    let mut search = Search {
        problem,
        numbers: numbers.values(),
        budget,
        steps: Vec::new(),
        enough,
    };
    for depth in 1..=depth {
        let top = Goal {
            predicate: problem.query.predicate,
            arguments: query_arguments(problem),
            depth,
        };
        let left = (0..problem.heap.records.len()).collect();
        if search.agenda(&[top], &left) {
            let mut steps = search.steps.into_iter();
            return Answer::Yes(grow(&problem.rules, &mut steps));
        }
        if search.budget == 0 {
            return Answer::OutOfBudget;
        }
    }
    Answer::NoneFound
}

/// A node still to be unfolded, with the levels allowed from it downwards.
#[derive(Clone)]
struct Goal {
    predicate: usize,
    arguments: Vec<u64>,
    depth: usize,
}

struct Search<'a> {
    problem: &'a Problem,
    numbers: &'a [u64],
    budget: u64,
    /// Rule and values of the nodes unfolded so far, each before its own
    /// calls and these from left to right.
    steps: Vec<(usize, Vec<u64>)>,
    /// Whether to end with the tree just finished, by the records left.
    enough: &'a mut dyn FnMut(&BTreeSet<usize>) -> bool,
}

impl Search<'_> {
    /// Unfolds every goal, the last one first, using the records left.
    fn agenda(&mut self, goals: &[Goal], left: &BTreeSet<usize>) -> bool {
        let Some((goal, others)) = goals.split_last() else {
            return (self.enough)(left);
        };
        if goal.depth == 0 {
            return false;
        }
        let problem = self.problem;
        for (number, rule) in problem.rules.rules.iter().enumerate() {
            if rule.head != goal.predicate {
                continue;
            }
            let mut values = vec![None; rule.variables];
            for (index, &argument) in goal.arguments.iter().enumerate() {
                values[index] = Some(argument);
            }
            let node = Node {
                number,
                rule,
                depth: goal.depth,
                others,
            };
            if self.cells(&node, 0, values, left) {
                return true;
            }
        }
        false
    }

    fn spend(&mut self) -> bool {
        self.budget = self.budget.saturating_sub(1);
        self.budget > 0
    }

    /// Finds a record for each cell in turn, which settles the values of the
    /// variables in it.
    fn cells(
        &mut self,
        node: &Node,
        index: usize,
        values: Vec<Option<u64>>,
        left: &BTreeSet<usize>,
    ) -> bool {
        if !self.spend() || contradicted(node.rule, &values) {
            return false;
        }
        let Some(cell) = node.rule.cells.get(index) else {
            return self.bound(node, values, left);
        };
        for &number in left {
            let record = &self.problem.heap.records[number];
            if record.fields.len() != cell.fields.len() {
                continue;
            }
            let mut values = values.clone();
            let address = Term::Variable(cell.address);
            let mut same = settle(&mut values, address, record.address as u64);
            for (&term, &field) in cell.fields.iter().zip(&record.fields) {
                same = same && settle(&mut values, term, field as u64);
            }
            if same {
                let mut rest = left.clone();
                rest.remove(&number);
                if self.cells(node, index + 1, values, &rest) {
                    return true;
                }
            }
        }
        false
    }

    /// Tries every number for each variable that no cell has settled.
    fn bound(&mut self, node: &Node, values: Vec<Option<u64>>, left: &BTreeSet<usize>) -> bool {
        if !self.spend() || contradicted(node.rule, &values) {
            return false;
        }
        if let Some(open) = values.iter().position(Option::is_none) {
            let numbers = self.numbers;
            return numbers.iter().any(|&number| {
                let mut values = values.clone();
                values[open] = Some(number);
                self.bound(node, values, left)
            });
        }
        let values: Vec<u64> = values.into_iter().flatten().collect();
        let mut goals = node.others.to_vec();
        // The last goal is taken up first, so the first call goes in last.
        for call in node.rule.calls.iter().rev() {
            let arguments = call.arguments.iter();
            goals.push(Goal {
                predicate: call.predicate,
                arguments: arguments.map(|term| term.value(&values)).collect(),
                depth: node.depth - 1,
            });
        }
        self.steps.push((node.number, values));
        if self.agenda(&goals, left) {
            return true;
        }
        self.steps.pop();
        false
    }
}

/// A goal being unfolded by a rule, and the goals that wait meanwhile.
struct Node<'a> {
    number: usize,
    rule: &'a Rule,
    depth: usize,
    others: &'a [Goal],
}

fn settle(values: &mut [Option<u64>], term: Term, number: u64) -> bool {
    match term {
        Term::Variable(variable) => *values[variable].get_or_insert(number) == number,
        _ => term.number() == Some(number),
    }
}

/// Whether some pure condition is false already, whatever the rest will be.
fn contradicted(rule: &Rule, values: &[Option<u64>]) -> bool {
    let value = |term: Term| match term {
        Term::Variable(variable) => values[variable],
        _ => term.number(),
    };
    rule.pure
        .iter()
        .any(|pure| match (value(pure.left), value(pure.right)) {
            (Some(a), Some(b)) => (a == b) != (pure.kind == Kind::Equal),
            _ => false,
        })
}

/// Puts the steps back into a tree.
fn grow(rules: &RuleSet, steps: &mut impl Iterator<Item = (usize, Vec<u64>)>) -> Tree {
    let (rule, values) = steps.next().expect("a step for each node");
    let under = rules.rules[rule]
        .calls
        .iter()
        .map(|_| grow(rules, steps))
        .collect();
    Tree {
        rule,
        values,
        under,
    }
}
