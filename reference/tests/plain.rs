//! Plain books: known shapes, near misses of each of the three demands, and
//! each demand against other ways to decide it.

mod common;

use common::*;
use reference::api;
use reference::formats::{self, Kind, RuleSet, Term};
use reference::{naive, plain, trial};

fn read(book: &[u8]) -> RuleSet {
    formats::read_rule_set(book).expect("no fault")
}

/// The three demands one by one: cells, fixed variables, exclusive rules.
fn demands(book: &[u8]) -> [bool; 3] {
    let rules = read(book);
    let met = [
        plain::consuming(&rules),
        plain::variables_fixed(&rules),
        plain::exclusive(&rules),
    ];
    let all = met.iter().all(|&is| is);
    assert_eq!(plain::plain(&rules), all);
    assert_eq!(api::plain_book(book), Ok(all));
    met
}

const PLAIN: [bool; 3] = [true, true, true];
const CALLS_ALONE: [bool; 3] = [false, true, true];
const NOT_FIXED: [bool; 3] = [true, false, true];
const NOT_EXCLUSIVE: [bool; 3] = [true, true, false];

#[test]
fn known_shapes() {
    for book in plain_books() {
        assert_eq!(demands(&book), PLAIN, "{book:?}");
        assert_eq!(written(&read(&book)), book);
    }
    // The fewest there can be: no rule at all, and one that says nothing.
    assert_eq!(demands(&book(&[2], &[])), PLAIN);
    assert_eq!(demands(&book(&[4], &[rule(0, 0, &[], &[], &[])])), PLAIN);
}

#[test]
fn the_papers_books() {
    assert_eq!(demands(&book_l()), NOT_EXCLUSIVE);
    // Ring and queue: the queue has two calls and no cell.
    assert_eq!(demands(&book_h()), [false, true, false]);
    // One rule for each predicate.
    assert_eq!(demands(&book_s()), [false, false, true]);
}

#[test]
fn refused_books() {
    let mut book = plain_segment();
    book.push(0);
    assert_eq!(api::plain_book(&book), Err(4));
    assert_eq!(api::plain_book(&book[..10]), Err(1));
    assert_eq!(api::plain_book(&[9]), Err(2));
    assert_eq!(api::plain_book(&[1, 0, 0, 1, 1]), Err(3));
}

#[test]
fn calls_need_a_cell() {
    // One more call to the list, from a predicate of its own.
    let also = |wrapper: Vec<u8>| {
        let mut rules = vec![wrapper];
        rules.push(rule(1, 0, &[[EQUAL, 0, NIL]], &[], &[]));
        rules.push(rule(1, 1, &[[UNEQUAL, 0, NIL]], &[(0, &[1])], &[(1, &[1])]));
        demands(&book(&[1, 1], &rules))
    };
    assert_eq!(also(rule(0, 0, &[], &[], &[(1, &[0])])), CALLS_ALONE);
    assert_eq!(also(rule(0, 0, &[], &[(0, &[])], &[(1, &[0])])), PLAIN);
    assert_eq!(also(rule(0, 0, &[], &[], &[])), PLAIN);
    // Neither arguments nor conditions make up for the cell.
    assert_eq!(also(rule(0, 0, &[], &[], &[(1, &[NIL])])), CALLS_ALONE);
    let never = [[UNEQUAL, NIL, NIL]];
    assert_eq!(also(rule(0, 0, &never, &[], &[(1, &[0])])), CALLS_ALONE);
}

/// The variables that are fixed in a rule for a predicate with one argument.
fn fixed(pure: &[[u8; 3]], cells: &[(u8, &[u8])]) -> Vec<usize> {
    let rules = read(&book(&[1], &[rule(0, 3, pure, cells, &[])]));
    let fixed = plain::fixed(&rules.rules[0], 1);
    assert_eq!(plain::variables_fixed(&rules), fixed == [true; 4]);
    (0..4).filter(|&variable| fixed[variable]).collect()
}

#[test]
fn what_fixes_a_variable() {
    let cut = [[EQUAL, 3, 2], [EQUAL, 2, 1]];
    let chain = [[EQUAL, 3, 2], [EQUAL, 2, 1], [EQUAL, 1, 0]];
    let back = [[EQUAL, 2, 3], [EQUAL, 1, 2], [EQUAL, 0, 1]];
    let from_nil = [[EQUAL, 3, 2], [EQUAL, 2, 1], [EQUAL, NIL, 1]];
    let apart = [[UNEQUAL, 1, 0], [UNEQUAL, NIL, 2], [EQUAL, 3, 3]];
    let false_chain = [[EQUAL, 0, NIL], [UNEQUAL, 0, NIL], [UNEQUAL, 1, 1]];
    type Row<'a> = (&'a [[u8; 3]], &'a [(u8, &'a [u8])], &'a [usize]);
    let rows: [Row; 15] = [
        // By conditions: nothing there, chains either way round, a chain
        // that nothing holds.
        (&[], &[], &[0]),
        (&chain, &[], &[0, 1, 2, 3]),
        (&back, &[], &[0, 1, 2, 3]),
        (&from_nil, &[], &[0, 1, 2, 3]),
        (&cut, &[], &[0]),
        // Unequal to something fixed, or equal to itself.
        (&apart, &[], &[0]),
        // Conditions that are never met.
        (&false_chain, &[], &[0]),
        // By cells: fields, in whatever order the cells stand.
        (&[], &[(0, &[1, 2, 3])], &[0, 1, 2, 3]),
        (&[], &[(2, &[3]), (1, &[2]), (0, &[1])], &[0, 1, 2, 3]),
        // An open address: its fields stay open, and it is not fixed by
        // them.
        (&[], &[(1, &[2, 3])], &[0]),
        (&[], &[(1, &[0, NIL]), (2, &[2])], &[0]),
        (&[], &[(2, &[1]), (1, &[2, 3])], &[0]),
        // From a field along an equality to an address, and on.
        (&[[EQUAL, 2, 1]], &[(2, &[3]), (0, &[1])], &[0, 1, 2, 3]),
        (&[[UNEQUAL, 2, 1]], &[(2, &[3]), (0, &[1])], &[0, 1]),
        // Nil is fixed, so what equals it is an address that is fixed.
        (&[[EQUAL, 2, NIL]], &[(2, &[3])], &[0, 2, 3]),
    ];
    for (row, (pure, cells, expected)) in rows.into_iter().enumerate() {
        assert_eq!(fixed(pure, cells), expected, "row {row}");
    }
}

#[test]
fn variables_that_are_not_fixed() {
    let list = |step: Vec<u8>| {
        let end = rule(0, 0, &[[EQUAL, 0, NIL]], &[], &[]);
        demands(&book(&[1], &[end, step]))
    };
    let on = [UNEQUAL, 0, NIL];
    assert_eq!(list(rule(0, 1, &[on], &[(0, &[1])], &[(0, &[1])])), PLAIN);
    // It stands nowhere.
    let nowhere = rule(0, 2, &[on], &[(0, &[1])], &[(0, &[1])]);
    assert_eq!(list(nowhere), NOT_FIXED);
    // It stands only in a call, only in an unequal condition.
    let called = rule(0, 1, &[on], &[(0, &[0])], &[(0, &[1])]);
    assert_eq!(list(called), NOT_FIXED);
    let apart = rule(0, 2, &[on, [UNEQUAL, 2, 1]], &[(0, &[1])], &[(0, &[1])]);
    assert_eq!(list(apart), NOT_FIXED);
    // It is a field of a record whose address is open.
    let astray = rule(0, 2, &[on], &[(0, &[0]), (1, &[2])], &[(0, &[2])]);
    assert_eq!(list(astray), NOT_FIXED);
    // The paper's segment from the right: the last record's address is open.
    assert_eq!(demands(&known_books()[3]), NOT_FIXED);
}

/// One predicate with two arguments; each rule binds two variables to them, so
/// only the third demand is in doubt.
fn pair(first: &[[u8; 3]], second: &[[u8; 3]]) -> bool {
    let both = |pure: &[[u8; 3]]| {
        let fixing = [[EQUAL, 2, 0], [EQUAL, 3, 1]];
        rule(0, 2, &[&fixing, pure].concat(), &[], &[])
    };
    let answer = demands(&book(&[2], &[both(first), both(second)]));
    let turned = demands(&book(&[2], &[both(second), both(first)]));
    assert_eq!(answer, turned);
    assert_eq!(answer[..2], [true, true]);
    answer[2]
}

#[test]
fn rules_that_exclude_each_other() {
    let never = [[UNEQUAL, 0, 0]];
    assert!(pair(&[[EQUAL, 0, 1]], &[[UNEQUAL, 0, 1]]));
    assert!(pair(&[[EQUAL, 0, 1]], &[[UNEQUAL, 1, 0]]));
    // The bound variables have the arguments' values.
    assert!(pair(&[[EQUAL, 2, 1]], &[[UNEQUAL, 3, 0]]));
    // By way of nil, and of a third term.
    assert!(pair(
        &[[EQUAL, 0, NIL], [EQUAL, 1, NIL]],
        &[[UNEQUAL, 0, 1]]
    ));
    assert!(pair(
        &[[EQUAL, 0, 1], [EQUAL, 1, NIL]],
        &[[UNEQUAL, 0, NIL]]
    ));
    // Each alone can be met with the other's condition, not both.
    assert!(!pair(&[[EQUAL, 0, NIL]], &[[EQUAL, 1, NIL]]));
    assert!(!pair(&[[UNEQUAL, 0, 1]], &[[UNEQUAL, 0, NIL]]));
    // The paper's list: nothing in the second rule.
    assert!(!pair(&[[EQUAL, 0, 1]], &[]));
    assert!(!pair(&[], &[]));
    // The same rule twice, and the same that can never be met.
    assert!(!pair(&[[EQUAL, 0, 1]], &[[EQUAL, 0, 1]]));
    assert!(pair(&never, &never));
    assert!(pair(&[], &never));
}

#[test]
fn each_rule_has_bound_numbers_of_its_own() {
    // The first variable after the argument equals it, or does not: both can
    // be met by any argument.
    let field = |kind| rule(0, 1, &[[kind, 1, 0]], &[(0, &[1])], &[]);
    let both = book(&[1], &[field(EQUAL), field(UNEQUAL)]);
    assert_eq!(demands(&both), NOT_EXCLUSIVE);
    // The same with two variables that are bound.
    let fields = |kind| rule(0, 2, &[[kind, 1, 2]], &[(0, &[1, 2])], &[]);
    let both = book(&[1], &[fields(EQUAL), fields(UNEQUAL)]);
    assert_eq!(demands(&both), NOT_EXCLUSIVE);
    // But a bound variable may tie arguments together.
    let tied = rule(0, 1, &[[EQUAL, 2, 0], [EQUAL, 1, 2]], &[], &[]);
    let apart = rule(0, 0, &[[UNEQUAL, 0, 1]], &[], &[]);
    assert_eq!(demands(&book(&[2], &[tied, apart])), PLAIN);
    // Four arguments, all different and not nil, with four more beside them:
    // that takes 8 numbers besides 0.
    let mut pure = Vec::new();
    for variable in 4..8 {
        pure.push([UNEQUAL, variable, variable - 4]);
        pure.push([UNEQUAL, variable, (variable - 3) % 4]);
    }
    let many = rule(0, 4, &pure, &[], &[]);
    let more = rule(0, 4, &[[UNEQUAL, 4, NIL], [UNEQUAL, 5, 4]], &[], &[]);
    let both = book(&[4], &[many, more]);
    assert_eq!(demands(&both), [true, false, false]);
}

#[test]
fn rules_of_different_predicates_may_overlap() {
    let one = |head| rule(head, 0, &[[EQUAL, 0, 1]], &[], &[]);
    assert_eq!(demands(&book(&[2, 2], &[one(0), one(1)])), PLAIN);
    assert_eq!(
        demands(&book(&[2, 2], &[one(0), one(1), one(0)])),
        NOT_EXCLUSIVE
    );
    // Not only neighbours: the first and the last of sixteen.
    let never = rule(0, 0, &[[UNEQUAL, 0, 0]], &[], &[]);
    let mut rules = vec![never; 16];
    assert_eq!(demands(&book(&[2], &rules)), PLAIN);
    rules[15] = one(0);
    assert_eq!(demands(&book(&[2], &rules)), PLAIN);
    rules[0] = one(0);
    assert_eq!(demands(&book(&[2], &rules)), NOT_EXCLUSIVE);
}

#[test]
fn no_arguments() {
    let met = rule(0, 0, &[[EQUAL, NIL, NIL]], &[], &[]);
    let never = rule(0, 0, &[[UNEQUAL, NIL, NIL]], &[], &[]);
    assert_eq!(
        demands(&book(&[0], &[met.clone(), met.clone()])),
        NOT_EXCLUSIVE
    );
    assert_eq!(demands(&book(&[0], &[met, never.clone()])), PLAIN);
    assert_eq!(demands(&book(&[0], &[never.clone(), never])), PLAIN);
}

/// Fixed variables a third time: what can be reached from the head or nil, going
/// along equalities both ways and from addresses to fields.
fn fixed_by_reaching(rules: &RuleSet) -> bool {
    rules.rules.iter().all(|rule| {
        let nil = rule.variables;
        let place = |term: Term| match term {
            Term::Variable(variable) => variable,
            _ => nil,
        };
        let mut reach = [[false; 9]; 9];
        for pure in rule.pure.iter().filter(|pure| pure.kind == Kind::Equal) {
            let (left, right) = (place(pure.left), place(pure.right));
            reach[left][right] = true;
            reach[right][left] = true;
        }
        for cell in &rule.cells {
            for &field in &cell.fields {
                reach[cell.address][place(field)] = true;
            }
        }
        for middle in 0..=nil {
            for from in 0..=nil {
                for to in 0..=nil {
                    reach[from][to] |= reach[from][middle] && reach[middle][to];
                }
            }
        }
        let arity = rules.arities[rule.head];
        (arity..nil).all(|variable| (0..arity).chain([nil]).any(|from| reach[from][variable]))
    })
}

#[test]
fn each_demand_against_other_ways() {
    let (mut kinds, mut tried) = ([0; 8], 0);
    for seed in 0..40_000 {
        let mut dice = Dice::new(20_000_000 + seed);
        let book = match seed % 4 {
            0 => dice.book(4),
            1 => dice.conditions(4, 8),
            _ => dice.split_book(),
        };
        let rules = read(&book);
        let [consuming, fixed, exclusive] = demands(&book);
        assert_eq!(consuming, without_calls_alone(&book) == book);
        assert_eq!(fixed, fixed_by_reaching(&rules), "seed {seed}");
        let once_more = trial::faults(&rules);
        assert_eq!(plain::faults(&rules), once_more, "seed {seed}");
        let widest = rules.rules.iter().map(|rule| rule.variables).max();
        if seed < 8000 && widest <= Some(3) {
            assert_eq!(exclusive, naive::exclusive(&rules), "seed {seed}");
            tried += 1;
        }
        kinds[consuming as usize + 2 * fixed as usize + 4 * exclusive as usize] += 1;
    }
    assert!(kinds.iter().all(|&kind| kind > 150), "{kinds:?}");
    assert!(tried > 1000, "{tried}");
}
