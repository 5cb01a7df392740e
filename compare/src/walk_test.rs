//! The self-test of the walk: its answers, each altered in one thing.

use crate::books;
use crate::damage;
use crate::input::{Book, Heap, Input, Query, Rule};
use crate::lent::{self, Block, Sizes, Walked};
use crate::selftest::MANNER;
use crate::walk::{self, Engine, Expected};
use reference::{api, plain};

/// An input by what is known of it.
#[derive(Clone, Copy, PartialEq)]
enum Way {
    PlainFits,
    PlainDoesNot,
    /// It fits, but the engine has too few lines to say so.
    PlainFull,
    /// From here on the book is not plain, and the walk says 12. It misses the
    /// condition that rules exclude each other.
    OtherFits,
    OtherDoesNot,
    OtherFull,
    /// That a rule with calls has a cell.
    CallsAlone,
    /// That variables are fixed.
    Open,
    /// And then the question has a fault, so the walk says 9.
    OtherFault,
    /// For each of the refusals.
    Fault(usize),
}

const WAYS: [Way; 9] = {
    use Way::*;
    [
        PlainFits,
        PlainDoesNot,
        PlainFull,
        OtherFits,
        OtherDoesNot,
        OtherFull,
        CallsAlone,
        Open,
        OtherFault,
    ]
};

const FAULTS: usize = 9;

/// Records 10 and 20, a chain to nil or a ring.
fn heap(way: Way) -> Heap {
    match way {
        Way::OtherFits | Way::OtherDoesNot | Way::OtherFull | Way::OtherFault => {
            Heap::default().with(10, &[20]).with(20, &[10])
        }
        _ => Heap::default().with(10, &[20]).with(20, &[0]),
    }
}

/// A further predicate, whose one rule has nothing but a call.
fn calls_alone() -> Book {
    let mut book = books::plain_segment();
    book.arities.push(2);
    book.rules.push(Rule::new(1, 0).call(0, &[0, 1]));
    book
}

/// A variable more, which stands nowhere.
fn open() -> Book {
    let mut book = books::plain_segment();
    book.rules[0].bound += 1;
    book
}

fn asked(way: Way) -> (Input, Sizes) {
    use Way::*;
    let (book, query) = match way {
        PlainFits | PlainFull | Fault(_) => (books::plain_segment(), Query::new(0, &[10, 0])),
        PlainDoesNot => (books::plain_segment(), Query::new(0, &[10, 20])),
        OtherFits | OtherFull | OtherFault => (books::segment(), Query::new(0, &[10, 10])),
        OtherDoesNot => (books::segment(), Query::new(0, &[10, 20])),
        CallsAlone => (calls_alone(), Query::new(1, &[10, 0])),
        Open => (open(), Query::new(0, &[10, 0])),
    };
    let input = Input::new(&book, &heap(way), &query);
    let faulty = |number: usize| damage::one_of_each_fault(&input).swap_remove(number - 1);
    match way {
        PlainFull | OtherFull => (input, Sizes::of(1)),
        OtherFault => (faulty(9), Sizes::OWN),
        Fault(number) => (faulty(number), Sizes::OWN),
        _ => (input, Sizes::OWN),
    }
}

type Alter = fn(&mut Walked);

const ALTERED: [(Way, &str, Alter); 41] = {
    use Way::*;
    [
        (PlainFits, "no", no),
        (PlainFits, "another number", |walked| verdict(walked, 2)),
        (PlainFits, "all bits", |walked| verdict(walked, u64::MAX)),
        (PlainFits, "the verdict not written", as_found),
        (PlainFits, "a refusal", |walked| walked.refusal = 9),
        (PlainFits, "a refusal, and no", |walked| refused(walked, 9)),
        (PlainFits, "12 beside a yes", |walked| walked.refusal = 12),
        (PlainFits, "12", twelve),
        (PlainFits, "a word after the verdict", |walked| {
            walked.verdict.write_beyond(0)
        }),
        (PlainFits, "a byte of the book", |walked| {
            walked.input.book[3] ^= 1
        }),
        (PlainFits, "a byte of the snapshot", |walked| {
            walked.input.snapshot[1] ^= 1
        }),
        (PlainFits, "a byte of the question", |walked| {
            walked.input.question[2] ^= 1
        }),
        (PlainDoesNot, "yes", yes),
        (PlainDoesNot, "the verdict not written", as_found),
        (PlainDoesNot, "a refusal", |walked| walked.refusal = 9),
        (PlainDoesNot, "12", twelve),
        (PlainDoesNot, "a word after the verdict", |walked| {
            walked.verdict.write_beyond(0)
        }),
        (PlainFull, "no", no),
        (PlainFull, "12", twelve),
        (PlainFull, "the engine's refusal", |walked| {
            refused(walked, 11)
        }),
        (OtherFits, "yes, and not plain", answered_yes),
        (OtherFits, "no, and not plain", answered_no),
        (OtherFits, "a verdict beside 12", yes),
        (OtherFits, "another number", |walked| verdict(walked, 3)),
        (OtherFits, "the verdict not written", as_found),
        (OtherFits, "9 for 12", |walked| walked.refusal = 9),
        (OtherFits, "11 for 12", |walked| walked.refusal = 11),
        (OtherFits, "13 for 12", |walked| walked.refusal = 13),
        (OtherFits, "a byte of the book", |walked| {
            walked.input.book[3] ^= 1
        }),
        (OtherDoesNot, "yes, and not plain", answered_yes),
        (OtherDoesNot, "no, and not plain", answered_no),
        (OtherDoesNot, "a verdict beside 12", yes),
        (OtherFull, "yes, and not plain", answered_yes),
        (OtherFull, "no, and not plain", answered_no),
        (CallsAlone, "yes, and calls alone", answered_yes),
        (CallsAlone, "no, and calls alone", answered_no),
        (Open, "yes, and not fixed", answered_yes),
        (Open, "no, and not fixed", answered_no),
        (OtherFault, "12 for 9", twelve),
        (OtherFault, "no refusal", answered_no),
        (OtherFault, "a verdict beside 9", yes),
    ]
};

/// Altered answers to each of the faults.
const FAULT_ALTERED: [(&str, Alter); 6] = [
    ("the next refusal", |walked| walked.refusal += 1),
    ("the refusal before", |walked| walked.refusal -= 1),
    ("no refusal", |walked| walked.refusal = 0),
    ("12 for an earlier refusal", twelve),
    ("a verdict on a refusal", yes),
    ("not written on a refusal", as_found),
];

fn verdict(walked: &mut Walked, value: u64) {
    walked.verdict.lent_mut()[0] = value;
}

fn yes(walked: &mut Walked) {
    verdict(walked, 1)
}

fn no(walked: &mut Walked) {
    verdict(walked, 0)
}

fn refused(walked: &mut Walked, refusal: u64) {
    walked.refusal = refusal;
    no(walked)
}

fn twelve(walked: &mut Walked) {
    refused(walked, 12)
}

fn answered_no(walked: &mut Walked) {
    refused(walked, 0)
}

fn answered_yes(walked: &mut Walked) {
    walked.refusal = 0;
    yes(walked)
}

fn as_found(walked: &mut Walked) {
    walked.verdict = Block::number(MANNER);
}

type AlterExpected = fn(&mut Expected);

/// What the reference says is altered, and the walk's answer is not.
const EXPECTED_ALTERED: [(Way, &str, AlterExpected); 5] = {
    use Way::*;
    [
        (PlainFits, "another verdict of the engine", |expected| {
            expected.engine = Engine::Says(false)
        }),
        (PlainDoesNot, "another verdict of the engine", |expected| {
            expected.engine = Engine::Says(true)
        }),
        (PlainFits, "two parts", |expected| {
            expected.parts = Some(vec![1, 3])
        }),
        (PlainFits, "something against a plain book", |expected| {
            expected.faults = Some(vec![plain::Fault::CallsAlone { rule: 0 }])
        }),
        (Open, "nothing against another book", |expected| {
            expected.faults = Some(Vec::new())
        }),
    ]
};

/// Facts of a segment: two of other values, and one for another part.
const FACTS: [u64; 3] = [1 << 16, 1 << 23 | 1, 1 << 16 | 1];

const OTHER: usize = EXPECTED_ALTERED.len() + 1;

pub const COUNT: usize = ALTERED.len() + FAULTS * FAULT_ALTERED.len() + OTHER;

/// What was missed, or found where there is nothing.
pub fn missed() -> Vec<&'static str> {
    let mut missed = Vec::new();
    let faults = (1..=FAULTS).map(Way::Fault);
    for way in WAYS.into_iter().chain(faults.clone()) {
        if !right(way, |_| {}) {
            missed.push("an answer of the walk as it is");
        }
    }
    let each_fault =
        faults.flat_map(|way| FAULT_ALTERED.map(move |(name, alter)| (way, name, alter)));
    for (way, name, alter) in ALTERED.into_iter().chain(each_fault) {
        if right(way, alter) {
            missed.push(name);
        }
    }
    for (way, name, alter) in EXPECTED_ALTERED {
        let (input, mut expected) = known(way);
        alter(&mut expected);
        if walk::judged(&input, &expected, &lent::walk(&input, MANNER)).is_ok() {
            missed.push(name);
        }
    }
    if !walk::one_part_each(&FACTS[..2]) || walk::one_part_each(&FACTS) {
        missed.push("two parts for the same values");
    }
    missed
}

fn known(way: Way) -> (Input, Expected) {
    let (input, sizes) = asked(way);
    let [book, snapshot, question] = input.sections();
    let outcome = api::decide(book, snapshot, question, sizes.lines, sizes.words);
    let expected = Expected::of(&input, outcome.reply);
    (input, expected)
}

/// Whether the answer is called right once it is altered.
fn right(way: Way, alter: Alter) -> bool {
    let (input, expected) = known(way);
    let mut walked = lent::walk(&input, MANNER);
    alter(&mut walked);
    walk::judged(&input, &expected, &walked).is_ok()
}
