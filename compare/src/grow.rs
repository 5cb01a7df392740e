//! Pools that fit a book, grown from a question downwards by its rules.
//!
//! Values are left open while rules are unfolded: each is a node, equalities
//! join nodes, and numbers are given out at the end. Unequal conditions are
//! left to luck, so now and then the pool does not fit after all.

use crate::input::{Book, Heap, Query, Rule, FIRST_CONSTANT, MOST_RECORDS, NIL};
use crate::nil::{as_read, END_MARK};
use crate::random::Dice;
use crate::shapes;

/// Rules unfolded for one pool, at most.
const MOST_UNFOLDED: usize = 60;

/// Values that are no address start here.
const OUTSIDE: u32 = 5_000;

/// A pool of about so many records and the question it was grown from.
pub fn grow(dice: &mut Dice, book: &Book, wanted: usize) -> (Heap, Query) {
    let numbers = numbers(book);
    let mut growth = Growth {
        book,
        parents: (0..numbers.len()).collect(),
        numbers,
        records: Vec::new(),
        wanted,
        left: MOST_UNFOLDED,
    };
    let predicate = dice.below(book.arities.len()) as u8;
    let arity = book.arities[predicate as usize];
    let arguments: Vec<usize> = (0..arity).map(|_| growth.node()).collect();
    growth.unfold(dice, predicate, &arguments);
    growth.settle(dice, predicate, &arguments)
}

/// Nil and the constants, each number once.
fn numbers(book: &Book) -> Vec<u32> {
    let mut numbers = vec![0];
    for constant in book.constants.iter().map(|&constant| as_read(constant)) {
        if !numbers.contains(&constant) {
            numbers.push(constant);
        }
    }
    numbers
}

struct Growth<'a> {
    book: &'a Book,
    /// The numbers of the first nodes, which are known. Node 0 is nil.
    numbers: Vec<u32>,
    /// Each node's parent; a root is its own.
    parents: Vec<usize>,
    /// Nodes of address and fields.
    records: Vec<(usize, Vec<usize>)>,
    wanted: usize,
    /// How many rules may still be unfolded.
    left: usize,
}

impl<'a> Growth<'a> {
    fn node(&mut self) -> usize {
        self.parents.push(self.parents.len());
        self.parents.len() - 1
    }

    /// The node of a constant.
    fn known(&self, number: u32) -> usize {
        let mut numbers = self.numbers.iter();
        let node = numbers.position(|&other| other == as_read(number));
        node.expect("every constant has one")
    }

    fn root(&self, mut node: usize) -> usize {
        while self.parents[node] != node {
            node = self.parents[node];
        }
        node
    }

    fn join(&mut self, one: usize, other: usize) {
        let (one, other) = (self.root(one), self.root(other));
        // The lower one stays root, so nil and constants do.
        self.parents[one.max(other)] = one.min(other);
    }

    fn unfold(&mut self, dice: &mut Dice, predicate: u8, arguments: &[usize]) {
        let Some(rule) = self.choose(dice, predicate) else {
            return;
        };
        self.left -= 1;
        let mut nodes = arguments.to_vec();
        nodes.extend((0..rule.bound).map(|_| self.node()));
        let known: Vec<usize> = self
            .book
            .constants
            .iter()
            .map(|&number| self.known(number))
            .collect();
        let node = |term: u8| match term {
            NIL => 0,
            FIRST_CONSTANT.. => known[(term - FIRST_CONSTANT) as usize],
            _ => nodes[term as usize],
        };
        for pure in rule.pures.iter().filter(|pure| pure[0] == 0) {
            self.join(node(pure[1]), node(pure[2]));
        }
        for (address, fields) in &rule.cells {
            let fields = fields.iter().map(|&term| node(term)).collect();
            self.records.push((node(*address), fields));
        }
        for (predicate, terms) in &rule.calls {
            let arguments: Vec<usize> = terms.iter().map(|&term| node(term)).collect();
            self.unfold(dice, *predicate, &arguments);
        }
    }

    /// Any rule while records are wanted, then the one that ends soonest.
    fn choose(&self, dice: &mut Dice, predicate: u8) -> Option<&'a Rule> {
        let all = self.book.rules.iter();
        let rules: Vec<&Rule> = all.filter(|rule| rule.head == predicate).collect();
        if rules.is_empty() || self.left == 0 {
            None
        } else if self.records.len() < self.wanted {
            let going: Vec<&Rule> = rules
                .iter()
                .copied()
                .filter(|rule| !rule.calls.is_empty())
                .collect();
            let goes_on = !going.is_empty() && dice.chance(75);
            Some(dice.pick(if goes_on { &going } else { &rules }))
        } else {
            rules
                .into_iter()
                .min_by_key(|rule| (rule.calls.len(), rule.cells.len()))
        }
    }

    /// Gives out the numbers. A record whose address is nil or taken already
    /// cannot be, and is left away.
    fn settle(&self, dice: &mut Dice, predicate: u8, arguments: &[usize]) -> (Heap, Query) {
        let mut taken: Vec<usize> = Vec::new();
        let mut kept = Vec::new();
        for (address, fields) in &self.records {
            let address = self.root(*address);
            if address != 0 && !taken.contains(&address) && taken.len() < MOST_RECORDS {
                taken.push(address);
                kept.push((address, fields));
            }
        }
        let known = self.numbers.len();
        let places = self.places(dice, &taken);
        let mut values: Vec<u32> = (0..self.parents.len() as u32)
            .map(|node| OUTSIDE + node)
            .collect();
        values[..known].copy_from_slice(&self.numbers);
        for (&node, &place) in taken.iter().zip(&places) {
            values[node] = place;
        }
        // Some of the others are made equal to something.
        for node in known..values.len() {
            if !taken.contains(&node) && dice.chance(10) {
                values[node] = dice.pick(&values);
            }
        }
        let value = |&node: &usize| values[self.root(node)];
        let mut heap = Heap::default();
        for (address, fields) in kept {
            let fields: Vec<u32> = fields.iter().map(value).collect();
            heap = heap.with(values[address], &fields);
        }
        let arguments: Vec<u32> = arguments.iter().map(value).collect();
        (heap, Query::new(predicate, &arguments))
    }

    /// An address for each of these nodes: a constant's own, or one that is not
    /// among those. Now and then it is a constant all the same.
    fn places(&self, dice: &mut Dice, nodes: &[usize]) -> Vec<u32> {
        let own = |node: usize| self.numbers.get(node).copied();
        let mut taken: Vec<u32> = nodes.iter().filter_map(|&node| own(node)).collect();
        let mut places = Vec::new();
        for (&node, drawn) in nodes.iter().zip(shapes::places(dice, nodes.len())) {
            let mut place = own(node).unwrap_or(drawn);
            if own(node).is_none() {
                if dice.chance(10) {
                    place = dice.pick(&self.numbers);
                }
                while place == 0 || place == END_MARK || taken.contains(&place) {
                    place = place.wrapping_add(1);
                }
                taken.push(place);
            }
            places.push(place);
        }
        places
    }
}
