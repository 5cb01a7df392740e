//! Bytes for the tests.
#![allow(dead_code)]

pub mod near;

use reference::api::HOUSE;
use reference::formats::{self, Kind, Problem, Rule, RuleSet, Term};
use reference::tree::Tree;
use std::collections::{BTreeMap, BTreeSet};

pub fn book_h() -> Vec<u8> {
    HOUSE.to_vec()
}

/// The list segment: the first two rules of the house book.
pub fn book_l() -> Vec<u8> {
    let mut book = vec![0x01, 0x02, 0x00, 0x02];
    book.extend(&HOUSE[6..25]);
    book
}

/// The empty segment from x to y, by hand.
pub fn leaf(x: u64, y: u64) -> Tree {
    Tree {
        rule: 0,
        values: vec![x, y],
        under: vec![],
    }
}

/// The segment from x to y whose first record holds z.
pub fn node(x: u64, y: u64, z: u64, below: Tree) -> Tree {
    Tree {
        rule: 1,
        values: vec![x, y, z],
        under: vec![below],
    }
}

pub fn book_s() -> Vec<u8> {
    vec![
        0x02, 0x01, 0x02, 0x00, 0x02, //
        0x00, 0x01, 0x01, 0x01, 0x01, 0x00, 0x00, 0x01, 0x01, 0x00, 0x01, //
        0x01, 0x00, 0x00, 0x00, 0x00,
    ]
}

/// Books with many fits, for the random tests.
pub fn known_books() -> Vec<Vec<u8>> {
    let right = vec![
        1, 2, 0, 2, // segment from the right
        0, 0, 1, 0, 0, 1, 0, 0, // empty
        0, 1, 1, 1, 0, 1, 1, 2, 1, 1, 1, 0, 0, 2, // a unequal b, last record
    ];
    let halves = vec![
        1, 2, 0, 3, // segment in two halves
        0, 0, 1, 0, 0, 1, 0, 0, // empty
        0, 0, 0, 1, 0, 1, 1, 0, // one record
        0, 1, 0, 0, 2, 0, 0, 2, 0, 2, 1, // two segments
    ];
    let any = vec![
        2, 0, 1, 0, 6, // any pool of records with up to two fields
        0, 0, 0, 0, 0, // empty
        0, 1, 0, 0, 2, 1, 0, 0, // one record and the rest
        1, 0, 0, 1, 0, 0, 0, // no field
        1, 1, 0, 1, 0, 1, 1, 0, // one field
        1, 2, 0, 1, 0, 2, 1, 2, 0, // two fields
        0, 0, 0, 0, 3, 0, 0, 0, // three pools
    ];
    let tree = vec![
        1, 1, 0, 2, // binary tree
        0, 0, 1, 0, 0, 255, 0, 0, // nil
        0, 2, 0, 1, 0, 2, 1, 2, 2, 0, 1, 0, 2, // two below
    ];
    vec![book_l(), book_s(), book_h(), right, halves, any, tree]
}

/// The end mark, and the greatest number that is not it.
pub const MARK: u32 = 0xFFFF_FFFF;
pub const MOST: u32 = 0xFFFF_FFFE;

pub const NIL: u8 = 255;
/// The first three constants.
pub const C: u8 = 128;
pub const D: u8 = 129;
pub const E: u8 = 130;
pub const EQUAL: u8 = 0;
pub const UNEQUAL: u8 = 1;

/// A rule's bytes: conditions as kind and two terms, cells as address and
/// fields, calls as predicate and arguments.
pub fn rule(
    head: u8,
    bound: u8,
    pure: &[[u8; 3]],
    cells: &[(u8, &[u8])],
    calls: &[(u8, &[u8])],
) -> Vec<u8> {
    let mut bytes = vec![head, bound, pure.len() as u8];
    bytes.extend(pure.iter().flatten());
    bytes.push(cells.len() as u8);
    for (address, fields) in cells {
        bytes.extend([*address, fields.len() as u8]);
        bytes.extend(*fields);
    }
    bytes.push(calls.len() as u8);
    for (predicate, arguments) in calls {
        bytes.push(*predicate);
        bytes.extend(*arguments);
    }
    bytes
}

pub fn book(arities: &[u8], rules: &[Vec<u8>]) -> Vec<u8> {
    book_with(arities, &[], rules)
}

/// A book with constants.
pub fn book_with(arities: &[u8], constants: &[u32], rules: &[Vec<u8>]) -> Vec<u8> {
    let mut bytes = vec![arities.len() as u8];
    bytes.extend(arities);
    bytes.push(constants.len() as u8);
    for constant in constants {
        bytes.extend(constant.to_le_bytes());
    }
    bytes.push(rules.len() as u8);
    bytes.extend(rules.iter().flatten());
    bytes
}

/// A rule set's bytes; of equal constants, rules name the first one.
pub fn written(rules: &RuleSet) -> Vec<u8> {
    near::Draft::of(rules).bytes()
}

/// The book without its rules that have calls but no cell.
pub fn without_calls_alone(book: &[u8]) -> Vec<u8> {
    let mut rules = formats::read_rule_set(book).expect("no fault");
    rules
        .rules
        .retain(|rule| !rule.cells.is_empty() || rule.calls.is_empty());
    written(&rules)
}

/// Segments whose two rules exclude each other.
pub fn plain_segment() -> Vec<u8> {
    book(
        &[2],
        &[
            rule(0, 0, &[[EQUAL, 0, 1]], &[], &[]),
            rule(0, 1, &[[UNEQUAL, 0, 1]], &[(0, &[2])], &[(0, &[2, 1])]),
        ],
    )
}

/// A list to nil.
pub fn plain_list() -> Vec<u8> {
    book(
        &[1],
        &[
            rule(0, 0, &[[EQUAL, 0, NIL]], &[], &[]),
            rule(0, 1, &[[UNEQUAL, 0, NIL]], &[(0, &[1])], &[(0, &[1])]),
        ],
    )
}

/// A binary tree.
pub fn plain_tree() -> Vec<u8> {
    book(
        &[1],
        &[
            rule(0, 0, &[[EQUAL, 0, NIL]], &[], &[]),
            rule(
                0,
                2,
                &[[UNEQUAL, NIL, 0]],
                &[(0, &[1, 2])],
                &[(0, &[1]), (0, &[2])],
            ),
        ],
    )
}

/// Lists with links both ways: first record, the one before it, last record,
/// the one after it.
pub fn plain_double() -> Vec<u8> {
    book(
        &[4],
        &[
            rule(0, 0, &[[EQUAL, 0, 3], [EQUAL, 1, 2]], &[], &[]),
            rule(
                0,
                1,
                &[[UNEQUAL, 0, 3]],
                &[(0, &[4, 1])],
                &[(0, &[4, 0, 2, 3])],
            ),
        ],
    )
}

/// A binary tree whose records also hold the one above.
pub fn plain_parents() -> Vec<u8> {
    book(
        &[2],
        &[
            rule(0, 0, &[[EQUAL, 0, NIL]], &[], &[]),
            rule(
                0,
                2,
                &[[UNEQUAL, 0, NIL]],
                &[(0, &[2, 3, 1])],
                &[(0, &[2, 0]), (0, &[3, 0])],
            ),
        ],
    )
}

/// A list of lists: the outer records hold the next one and an inner list.
pub fn plain_lists() -> Vec<u8> {
    book(
        &[1, 1],
        &[
            rule(0, 0, &[[EQUAL, 0, NIL]], &[], &[]),
            rule(
                0,
                2,
                &[[UNEQUAL, 0, NIL]],
                &[(0, &[1, 2])],
                &[(0, &[1]), (1, &[2])],
            ),
            rule(1, 0, &[[EQUAL, 0, NIL]], &[], &[]),
            rule(1, 1, &[[UNEQUAL, 0, NIL]], &[(0, &[1])], &[(1, &[1])]),
        ],
    )
}

pub fn plain_books() -> Vec<Vec<u8>> {
    vec![
        plain_segment(),
        plain_list(),
        plain_tree(),
        plain_double(),
        plain_parents(),
        plain_lists(),
    ]
}

/// A list to nil whose records hold type code 7 first.
pub fn typed_list() -> Vec<u8> {
    book_with(
        &[1],
        &[7],
        &[
            rule(0, 0, &[[EQUAL, 0, NIL]], &[], &[]),
            rule(0, 1, &[[UNEQUAL, 0, NIL]], &[(0, &[C, 1])], &[(0, &[1])]),
        ],
    )
}

/// A tree in which whoever points to a record also holds its type: 1 for a
/// leaf, 3 for a record with two below. The types keep the rules apart.
pub fn typed_tree() -> Vec<u8> {
    book_with(
        &[2],
        &[1, 3],
        &[
            rule(0, 1, &[[EQUAL, 1, C]], &[(0, &[2])], &[]),
            rule(
                0,
                4,
                &[[EQUAL, D, 1]],
                &[(0, &[2, 3, 4, 5])],
                &[(0, &[2, 3]), (0, &[4, 5])],
            ),
        ],
    )
}

/// Segments of records of either type, 7 or 9, with a segment's type given.
pub fn typed_segment() -> Vec<u8> {
    book_with(
        &[3],
        &[7, 9, 0, 7],
        &[
            rule(0, 0, &[[EQUAL, 0, 1]], &[], &[]),
            rule(
                0,
                1,
                &[[UNEQUAL, 0, 1], [EQUAL, 2, C]],
                &[(0, &[131, 3])],
                &[(0, &[3, 1, 131])],
            ),
            rule(
                0,
                1,
                &[[UNEQUAL, 0, 1], [EQUAL, 2, D]],
                &[(0, &[D, 3])],
                &[(0, &[3, 1, 2])],
            ),
        ],
    )
}

pub fn plain_typed_books() -> Vec<Vec<u8>> {
    vec![typed_list(), typed_tree(), typed_segment()]
}

/// Books with constants that have many fits.
pub fn typed_books() -> Vec<Vec<u8>> {
    // A segment whose records may be of either type; the types are arguments
    // of a predicate that holds for these two only.
    let mixed = book_with(
        &[2, 1],
        &[4, 7],
        &[
            rule(0, 0, &[[EQUAL, 0, 1]], &[], &[]),
            rule(0, 2, &[], &[(0, &[2, 3])], &[(1, &[2]), (0, &[3, 1])]),
            rule(1, 0, &[[EQUAL, 0, C]], &[], &[]),
            rule(1, 0, &[[EQUAL, D, 0]], &[], &[]),
        ],
    );
    // Any number but the constants, and records that hold such a number.
    let others = book_with(
        &[1, 0],
        &[1, 3, 3, 0],
        &[
            rule(0, 0, &[[UNEQUAL, 0, C], [UNEQUAL, D, 0]], &[], &[]),
            rule(1, 0, &[], &[], &[]),
            rule(1, 2, &[], &[(0, &[1])], &[(0, &[1]), (1, &[])]),
            rule(1, 1, &[[EQUAL, 0, D]], &[(0, &[131])], &[(0, &[131])]),
        ],
    );
    let mut books = plain_typed_books();
    books.extend([mixed, others]);
    books
}

/// That many rules of one predicate, eight variables, eight conditions and eight
/// constants, made so that a search through numbers ends late or never.
pub fn hostile_books(count: usize) -> Vec<Vec<u8>> {
    let constants = [1, 2, 3, 4, 5, 6, 7, 8];
    let mut books = Vec::new();
    for arity in 0..=4u8 {
        let bound = 8 - arity;
        let mut sets: Vec<Vec<[u8; 3]>> = Vec::new();
        // The last variable is no constant but one, and is another one.
        let mut none: Vec<[u8; 3]> = (0..7).map(|index| [UNEQUAL, 7, C + index]).collect();
        none.push([EQUAL, 7, C]);
        sets.push(none);
        // A contradiction between the last variables.
        sets.push(vec![[EQUAL, 6, 7], [UNEQUAL, 7, 6]]);
        sets.push(vec![[UNEQUAL, 7, 7]]);
        sets.push(vec![[EQUAL, C, D]]);
        // A chain through all variables with a constant at either end.
        let mut chain: Vec<[u8; 3]> = (0..7).map(|index| [EQUAL, index, index + 1]).collect();
        chain.push([UNEQUAL, 0, 7]);
        sets.push(chain.clone());
        chain[7] = [EQUAL, 7, C];
        sets.push(chain);
        // All variables unequal in a ring, and pairs with constants.
        sets.push(
            (0..8)
                .map(|index| [UNEQUAL, index, (index + 1) % 8])
                .collect(),
        );
        sets.push((0..8).map(|index| [UNEQUAL, index, C + index]).collect());
        sets.push((0..8).map(|index| [EQUAL, 7 - index, C + index]).collect());
        sets.push(vec![]);
        for first in &sets {
            for second in &sets {
                let rules: Vec<Vec<u8>> = (0..count)
                    .map(|number| {
                        let pure = if number % 2 == 0 { first } else { second };
                        rule(0, bound, pure, &[], &[])
                    })
                    .collect();
                books.push(book_with(&[arity], &constants, &rules));
                books.push(book_with(&[arity], &[9; 8], &rules));
            }
        }
    }
    books
}

pub fn snapshot(records: &[(u32, &[u32])]) -> Vec<u8> {
    let mut bytes = vec![records.len() as u8];
    for (address, fields) in records {
        bytes.extend(address.to_le_bytes());
        bytes.push(fields.len() as u8);
        for field in *fields {
            bytes.extend(field.to_le_bytes());
        }
    }
    bytes
}

pub fn question(predicate: u8, values: &[u32]) -> Vec<u8> {
    let mut bytes = vec![predicate, values.len() as u8];
    for value in values {
        bytes.extend(value.to_le_bytes());
    }
    bytes
}

pub fn problem(book: &[u8], snapshot: &[u8], question: &[u8]) -> Problem {
    formats::read(book, snapshot, question).expect("no fault")
}

/// What the engine's unfoldings have besides: facts that all differ, and before
/// the last no line that nothing further down calls.
pub fn engine_promises(words: &[u64]) {
    let lines = words.len() / 3;
    let facts: BTreeSet<u64> = words.iter().step_by(3).copied().collect();
    assert_eq!(facts.len(), lines);
    for line in 1..lines {
        let called = (line + 1..=lines).any(|later| {
            let step = words[3 * (later - 1) + 2];
            (0..3).any(|call| (step >> (8 + 16 * call)) & 0xffff == line as u64)
        });
        assert!(called);
    }
}

/// What grown pools are made of.
const NUMBERS: [u32; 12] = [0, 1, 3, 4, 7, 9, 12, 20, 21, 30, 40, 50];

/// Records and calls of one node.
type Step = Option<(BTreeMap<u32, Vec<u32>>, Vec<(usize, Vec<u32>)>)>;

/// A small generator of numbers, the same in every run.
pub struct Dice {
    state: u64,
    /// For the books to be made; without any, numbers come as they always did.
    constants: Vec<u32>,
}

impl Dice {
    pub fn new(seed: u64) -> Dice {
        let mut dice = Dice {
            state: seed.wrapping_mul(0x9E37_79B9_7F4A_7C15) | 1,
            constants: Vec::new(),
        };
        // The first few numbers of near seeds are too much alike.
        for _ in 0..20 {
            dice.below(2);
        }
        dice
    }

    /// With up to that many constants, among them often 0 and equal ones.
    pub fn with_constants(seed: u64, most: usize) -> Dice {
        let mut dice = Dice::new(seed);
        for _ in 0..dice.between(1, most) {
            let constant = dice.pick(&[0, 0, 1, 3, 3, 4, 7, 9, 20, MOST]);
            dice.constants.push(constant);
        }
        dice
    }

    /// A number from 0 up to, not including, `end`.
    pub fn below(&mut self, end: usize) -> usize {
        self.state ^= self.state << 13;
        self.state ^= self.state >> 7;
        self.state ^= self.state << 17;
        (self.state >> 33) as usize % end
    }

    pub fn between(&mut self, low: usize, high: usize) -> usize {
        low + self.below(high - low + 1)
    }

    pub fn pick<T: Copy>(&mut self, from: &[T]) -> T {
        from[self.below(from.len())]
    }

    /// One of these, or now and then a constant.
    fn number(&mut self, from: &[u32]) -> u32 {
        if !self.constants.is_empty() && self.below(3) == 0 {
            let constants = self.constants.clone();
            return self.pick(&constants);
        }
        self.pick(from)
    }

    fn constant_term(&mut self) -> u8 {
        C + self.below(self.constants.len()) as u8
    }

    fn term(&mut self, variables: usize) -> u8 {
        if !self.constants.is_empty() && self.below(4) == 0 {
            return self.constant_term();
        }
        if variables == 0 || self.below(6) == 0 {
            255
        } else {
            self.below(variables) as u8
        }
    }

    /// A book that is read without fault, with few variables in each rule.
    /// Now and then it is one of the known ones instead.
    pub fn book(&mut self, most_variables: usize) -> Vec<u8> {
        let known = if self.constants.is_empty() {
            known_books()
        } else {
            typed_books()
        };
        if self.below(4) == 0 {
            return known[self.below(known.len())].clone();
        }
        let predicates = self.between(1, 3);
        let arities: Vec<usize> = (0..predicates)
            .map(|_| self.pick(&[0, 1, 1, 2, 2, 2, 3]).min(most_variables))
            .collect();
        let numbers: Vec<u8> = arities.iter().map(|&arity| arity as u8).collect();
        let mut book = book_with(&numbers, &self.constants, &[]);
        let rules = self.between(predicates, predicates + 3);
        *book.last_mut().unwrap() = rules as u8;
        for rule in 0..rules {
            // The first rules are grounds to start from, one for each predicate.
            let start = rule < predicates;
            let head = if start { rule } else { self.below(predicates) };
            let bound = self.between(0, (most_variables - arities[head]).min(2));
            let variables = arities[head] + bound;
            book.extend([head as u8, bound as u8]);
            let pure = self.pick(&[0, 1, 1, 2, 3]);
            book.push(pure);
            for _ in 0..pure {
                let unequal = self.below(if start { 4 } else { 2 }) == 1;
                book.push(unequal as u8);
                book.push(self.term(variables));
                book.push(self.term(variables));
            }
            let cells = if variables == 0 {
                0
            } else if start {
                self.pick(&[0, 0, 1])
            } else {
                self.pick(&[0, 0, 1, 1, 1, 2])
            };
            book.push(cells);
            for _ in 0..cells {
                book.push(self.below(variables) as u8);
                let fields = self.pick(&[0, 1, 1, 1, 2]);
                book.push(fields);
                for _ in 0..fields {
                    book.push(self.term(variables));
                }
            }
            let calls = if start { 0 } else { self.pick(&[1, 1, 2, 3]) };
            book.push(calls);
            for _ in 0..calls {
                let predicate = self.below(predicates);
                book.push(predicate as u8);
                for _ in 0..arities[predicate] {
                    book.push(self.term(variables));
                }
            }
        }
        book
    }

    pub fn constants(&self) -> Vec<u32> {
        self.constants.clone()
    }

    pub fn condition(&mut self, variables: usize) -> [u8; 3] {
        let kind = self.pick(&[EQUAL, EQUAL, UNEQUAL]);
        [kind, self.term(variables), self.term(variables)]
    }

    /// A book of few rules with many conditions and variables, and nothing else.
    pub fn conditions(&mut self, most_arguments: usize, most_variables: usize) -> Vec<u8> {
        let arity = self.between(0, most_arguments);
        let mut rules = Vec::new();
        for _ in 0..self.between(2, 3) {
            let variables = self.between(arity, most_variables);
            let count = self.between(0, 8);
            let pure: Vec<[u8; 3]> = (0..count).map(|_| self.condition(variables)).collect();
            rules.push(rule(0, (variables - arity) as u8, &pure, &[], &[]));
        }
        book_with(&[arity as u8], &self.constants, &rules)
    }

    /// A book made to be plain: the rules of a predicate split its arguments
    /// among them, bound variables come from fields or equalities, and calls
    /// have a cell before them. In about every other book something is wrong.
    pub fn split_book(&mut self) -> Vec<u8> {
        let known = if self.constants.is_empty() {
            plain_books()
        } else {
            plain_typed_books()
        };
        if self.below(8) == 0 {
            return known[self.below(known.len())].clone();
        }
        let predicates = self.between(1, 2);
        let arities: Vec<u8> = (0..predicates)
            .map(|_| self.pick(&[0, 1, 1, 1, 2, 2, 2, 3]))
            .collect();
        let mut rules = Vec::new();
        for head in 0..predicates {
            for split in self.splits(arities[head]) {
                rules.push(self.split_rule(&arities, head, split));
            }
        }
        let fault = self.below(20);
        if fault == 0 {
            // The same rule twice.
            rules.push(rules[self.below(rules.len())].clone());
        }
        let book = book_with(&arities, &self.constants, &rules);
        let mut set = formats::read_rule_set(&book).expect("no fault");
        let rule = self.below(set.rules.len());
        let rule = &mut set.rules[rule];
        match fault {
            1 | 2 => rule.pure.truncate(1),
            3 => rule.pure.clear(),
            4 | 5 => rule.cells.clear(),
            6 => rule.cells.truncate(1),
            7 if rule.variables < 8 => rule.variables += 1,
            8 => rule.cells.reverse(),
            9 => rule.pure.reverse(),
            10 => {
                if let Some(pure) = rule.pure.last_mut() {
                    pure.kind = Kind::Unequal;
                }
            }
            _ => {}
        }
        written(&set)
    }

    /// Conditions on the arguments of which no two can be met together.
    fn splits(&mut self, arity: u8) -> Vec<Vec<[u8; 3]>> {
        if arity == 0 {
            return vec![vec![]];
        }
        if !self.constants.is_empty() && self.below(2) == 0 {
            // By constants; if these are equal, the first two are not apart.
            let (a, c, d) = (
                self.below(arity as usize) as u8,
                self.constant_term(),
                self.constant_term(),
            );
            let mut splits = vec![vec![[EQUAL, a, c]], vec![[EQUAL, d, a]]];
            if self.below(2) == 0 {
                splits.push(vec![[UNEQUAL, c, a], [UNEQUAL, a, d]]);
            }
            return splits;
        }
        let mut pair = || {
            let left = self.below(arity as usize) as u8;
            let right = self.term(arity as usize);
            [left, if right == left { NIL } else { right }]
        };
        let ([a, b], [c, d]) = (pair(), pair());
        let (same, apart) = ([EQUAL, a, b], [UNEQUAL, a, b]);
        if self.below(3) == 0 {
            let (and, but) = ([EQUAL, c, d], [UNEQUAL, c, d]);
            vec![vec![same], vec![apart, and], vec![apart, but]]
        } else {
            vec![vec![same], vec![apart]]
        }
    }

    fn split_rule(&mut self, arities: &[u8], head: usize, mut pure: Vec<[u8; 3]>) -> Vec<u8> {
        let arity = arities[head] as usize;
        let mut variables = arity;
        if self.below(5) == 0 {
            pure.push([EQUAL, variables as u8, self.term(variables)]);
            variables += 1;
        }
        let first = pure.first().is_none_or(|pure| pure[0] == EQUAL);
        let most = if first { self.pick(&[0, 0, 1]) } else { 2 };
        let mut cells: Vec<(u8, Vec<u8>)> = Vec::new();
        for _ in 0..self.between(most / 2, most).min(variables) {
            let address = self.below(variables) as u8;
            let mut fields = Vec::new();
            for _ in 0..self.pick(&[0, 1, 1, 2, 2]) {
                if variables < 5 && self.below(4) > 0 {
                    fields.push(variables as u8);
                    variables += 1;
                } else {
                    fields.push(self.term(variables));
                }
            }
            cells.push((address, fields));
        }
        if variables > arity && self.below(4) == 0 {
            pure.push([UNEQUAL, variables as u8 - 1, self.term(variables)]);
        }
        let mut calls: Vec<(u8, Vec<u8>)> = Vec::new();
        let most = if cells.is_empty() { 0 } else { 3 };
        for _ in 0..self.between(0, most).min(self.below(4)) {
            let predicate = self.below(arities.len());
            let arguments = (0..arities[predicate]).map(|_| match self.below(2) {
                0 if variables > arity => self.between(arity, variables - 1) as u8,
                _ => self.term(variables),
            });
            calls.push((predicate as u8, arguments.collect()));
        }
        let cells: Vec<(u8, &[u8])> = cells.iter().map(|(a, f)| (*a, &f[..])).collect();
        let calls: Vec<(u8, &[u8])> = calls.iter().map(|(p, a)| (*p, &a[..])).collect();
        let bound = (variables - arity) as u8;
        rule(head as u8, bound, &pure, &cells, &calls)
    }

    /// A pool and a question that often fit, by unfolding the book with values
    /// at random and noting the records that takes. Now and then something is
    /// changed afterwards.
    pub fn grown(&mut self, book: &[u8], most: usize) -> (Vec<u8>, Vec<u8>) {
        let rules = formats::read_rule_set(book).expect("no fault");
        let predicate = self.below(rules.arities.len());
        let mut values: Vec<u32> = (0..rules.arities[predicate])
            .map(|_| self.number(&NUMBERS))
            .collect();
        let mut records: BTreeMap<u32, Vec<u32>> = BTreeMap::new();
        let mut goals = vec![(predicate, values.clone())];
        for _ in 0..400 {
            let Some((predicate, arguments)) = goals.pop() else {
                break;
            };
            let mut busy: BTreeSet<u32> = records.keys().copied().collect();
            busy.extend(goals.iter().flat_map(|(_, arguments)| arguments));
            let rule = &rules.rules[self.below(rules.rules.len().max(1))..];
            let rule = rule.first().filter(|rule| rule.head == predicate);
            let step = rule.and_then(|rule| self.step(rule, &arguments, busy, most));
            match step {
                Some((more, below))
                    if records.len() + more.len() <= most
                        && !more.keys().any(|address| records.contains_key(address)) =>
                {
                    records.extend(more);
                    goals.extend(below);
                }
                _ => goals.push((predicate, arguments)),
            }
        }
        let some = records.keys().nth(self.below(most + 1)).copied();
        match (self.below(8), some) {
            (0, Some(address)) => drop(records.remove(&address)),
            (1, Some(address)) => {
                let fields = records.get_mut(&address).unwrap();
                if !fields.is_empty() {
                    let field = self.below(fields.len());
                    fields[field] = self.number(&NUMBERS);
                }
            }
            (2, _) if !values.is_empty() => {
                let value = self.below(values.len());
                values[value] = self.number(&NUMBERS);
            }
            (3, _) if records.len() < most => {
                let address = self.pick(&NUMBERS[1..]);
                records.entry(address).or_default();
            }
            _ => {}
        }
        let records: Vec<(u32, &[u32])> = records.iter().map(|(a, f)| (*a, &f[..])).collect();
        (snapshot(&records), question(predicate as u8, &values))
    }

    /// One node at random: its records and what it calls, if all goes well.
    /// Bound variables are mostly 0 or a number nothing is busy with.
    fn step(
        &mut self,
        rule: &Rule,
        arguments: &[u32],
        mut busy: BTreeSet<u32>,
        most: usize,
    ) -> Step {
        let mut values = arguments.to_vec();
        while values.len() < rule.variables {
            let mut value = self.number(&NUMBERS);
            if self.below(8) > 0 && (busy.len() > most || busy.contains(&value)) {
                value = 0;
            }
            busy.insert(value);
            values.push(value);
        }
        let value = |values: &[u32], term: Term| match term {
            Term::Nil => 0,
            Term::Constant(value) => value,
            Term::Variable(variable) => values[variable],
        };
        // Help bound variables to the values they must have.
        for pure in rule.pure.iter().filter(|pure| pure.kind == Kind::Equal) {
            for (to, from) in [(pure.left, pure.right), (pure.right, pure.left)] {
                match to {
                    Term::Variable(to) if to >= arguments.len() => {
                        values[to] = value(&values, from);
                    }
                    _ => {}
                }
            }
        }
        for pure in &rule.pure {
            let equal = value(&values, pure.left) == value(&values, pure.right);
            if equal != (pure.kind == Kind::Equal) {
                return None;
            }
        }
        let terms = |terms: &[Term]| terms.iter().map(|&term| value(&values, term)).collect();
        let mut records = BTreeMap::new();
        for cell in &rule.cells {
            let address = values[cell.address];
            let before = records.insert(address, terms(&cell.fields));
            if address == 0 || before.is_some() {
                return None;
            }
        }
        let calls = rule.calls.iter();
        let calls = calls.map(|call| (call.predicate, terms(&call.arguments)));
        Some((records, calls.collect()))
    }

    /// A few records with values from a small range, so that they link up.
    pub fn snapshot(&mut self, most: usize) -> Vec<u8> {
        let most = self.between(0, most);
        let mut records: Vec<(u32, Vec<u32>)> = Vec::new();
        for address in [1, 3, 4, 7, 9] {
            if records.len() < most && self.below(2) == 0 {
                let fields = self.pick(&[0, 1, 1, 1, 2]);
                let fields = (0..fields).map(|_| self.number(&[0, 1, 3, 4, 7]));
                records.push((address, fields.collect()));
            }
        }
        let records: Vec<(u32, &[u32])> = records
            .iter()
            .map(|(address, fields)| (*address, &fields[..]))
            .collect();
        snapshot(&records)
    }

    pub fn question(&mut self, book: &[u8]) -> Vec<u8> {
        let rules = formats::read_rule_set(book).expect("no fault");
        let predicate = self.below(rules.arities.len());
        let values: Vec<u32> = (0..rules.arities[predicate])
            .map(|_| self.number(&[0, 1, 3, 4, 7]))
            .collect();
        question(predicate as u8, &values)
    }
}
