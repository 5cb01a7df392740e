//! Inputs made to cost time.

use crate::climbed;
use crate::input::*;
use crate::nil::{self, END_MARK, LARGEST};
use crate::random::Dice;
use crate::shapes;

pub fn made() -> Vec<(&'static str, Input)> {
    [by_hand(), climbed::made()].concat()
}

fn by_hand() -> Vec<(&'static str, Input)> {
    vec![
        ("unequal-only", unequal_only()),
        ("unequal-all-pairs", unequal_all_pairs()),
        ("unmet-at-the-end", unmet_at_the_end()),
        ("unmet-by-nil", unmet_by_nil()),
        ("equality-chains", equality_chains()),
        ("three-calls", three_calls(Rule::new(1, 6), 24)),
        ("three-calls-unequal", three_calls_unequal()),
        ("three-calls-joined", three_calls_joined()),
        ("three-calls-unmet", three_calls_unmet()),
        ("open-head", open_head()),
        ("always-true-16", always_true(16)),
        ("three-halves-10", three_halves()),
        ("four-cells", four_cells()),
        ("many-predicates", many_predicates()),
        ("mutual-rotation", mutual_rotation()),
        ("segments-in-halves", segments_in_halves()),
        ("largest-book", largest_book()),
        ("found-with-no-record", found_with_no_record()),
        ("found-with-16-records", found_with_16_records()),
        ("plain-tree-of-three", tree_of_three()),
        ("plain-ladder", ladder()),
        ("most-kept-values", most_kept_values()),
        ("unmet-by-constants", unmet_by_constants()),
        ("plain-tree-by-constants", tree_by_constants()),
        ("unmet-by-marks", unmet_by_marks()),
        (
            "plain-tree-to-marks",
            nil::spelt(&tree_of_three(), END_MARK),
        ),
        ("plain-test-pairs", test_pairs(false)),
        ("not-plain-at-the-end", test_pairs(true)),
        ("plain-test-never-met", test_never_met()),
    ]
}

/// A pool with so many values apart from nil, all different. Only its values
/// matter: they make the list of kept values long.
fn apart(values: usize) -> Heap {
    let all: Vec<u32> = (1..=values as u32).map(|index| 100 * index).collect();
    let mut heap = Heap::default();
    for five in all.chunks(1 + MOST_FIELDS) {
        heap = heap.with(five[0], &five[1..]);
    }
    heap
}

const MOST_APART: usize = MOST_RECORDS * (1 + MOST_FIELDS);

/// Eight bound variables that occur nowhere but in unequal conditions.
fn unequal_only() -> Input {
    let mut rule = Rule::new(0, 8);
    for variable in 0..8 {
        rule = rule.unequal(variable, (variable + 1) % 8);
    }
    let book = Book::new(&[0], vec![rule]);
    Input::new(&book, &apart(MOST_APART), &Query::new(0, &[]))
}

/// Four variables, each unequal to each other and to nil, beside four records.
fn unequal_all_pairs() -> Input {
    let rule = Rule::new(0, 7)
        .unequal(1, 2)
        .unequal(1, 3)
        .unequal(1, 4)
        .unequal(2, 3)
        .unequal(2, 4)
        .unequal(3, 4)
        .unequal(0, 1)
        .unequal(4, NIL)
        .cell(0, &[5, 6, 7, 7]);
    let book = Book::new(&[1], vec![rule.clone(), Rule::new(0, 7), rule]);
    Input::new(&book, &apart(MOST_APART), &Query::new(0, &[100]))
}

/// The contradiction is between the first variable and the last.
fn unmet_at_the_end() -> Input {
    let mut rule = Rule::new(0, 8);
    for variable in 0..7 {
        rule = rule.equal(variable, variable + 1);
    }
    let book = Book::new(&[0], vec![rule.unequal(7, 0); 16]);
    Input::new(&book, &apart(MOST_APART), &Query::new(0, &[]))
}

/// Records and calls are there, but the conditions cannot be met.
fn unmet_by_nil() -> Input {
    let dead = Rule::new(0, 4)
        .equal(4, NIL)
        .equal(5, 4)
        .unequal(5, NIL)
        .call(1, &[0, 1])
        .call(1, &[2, 3])
        .call(1, &[1, 2]);
    let mut rules = vec![dead; 15];
    rules.push(Rule::new(1, 0));
    let book = Book::new(&[4, 2], rules);
    Input::new(&book, &apart(16), &Query::new(0, &[0, 0, 0, 0]))
}

/// Eight equalities in each of fifteen rules, all for the same facts.
fn equality_chains() -> Input {
    let mut rule = Rule::new(0, 7).equal(NIL, NIL).equal(0, 6);
    for variable in 0..6 {
        rule = rule.equal(6 - variable, 5 - variable);
    }
    let rule = rule.cell(0, &[1, 2, 3, 4]).call(0, &[7]);
    let mut rules = vec![rule; 15];
    rules.push(Rule::new(0, 0).equal(0, NIL));
    let mut heap = Heap::default();
    for address in 1..=7 {
        heap = heap.with(address, &[address; 4]);
    }
    Input::new(&Book::new(&[1], rules), &heap, &Query::new(0, &[7]))
}

/// The rule has three calls with six variables of a predicate that holds for
/// every two values. The time is bounded by the product of the facts called.
fn three_calls(rule: Rule, values: usize) -> Input {
    let rule = rule.call(0, &[0, 1]).call(0, &[2, 3]).call(0, &[4, 5]);
    let book = Book::new(&[2, 0], vec![Rule::new(0, 0), rule]);
    Input::new(&book, &apart(values), &Query::new(1, &[]))
}

fn three_calls_unequal() -> Input {
    let rule = Rule::new(1, 6).unequal(0, 2).unequal(2, 4).unequal(0, 4);
    three_calls(rule, 24)
}

/// Each call shares a variable with the next.
fn three_calls_joined() -> Input {
    let joined = Rule::new(1, 4)
        .call(0, &[0, 1])
        .call(0, &[1, 2])
        .call(0, &[2, 3]);
    let book = Book::new(&[2, 0], vec![Rule::new(0, 0), joined]);
    Input::new(&book, &apart(26), &Query::new(1, &[]))
}

/// The last call never succeeds, and the head wants all of the first two.
fn three_calls_unmet() -> Input {
    let rules = vec![
        Rule::new(0, 0).unequal(0, 1),
        Rule::new(1, 1)
            .call(0, &[0, 1])
            .call(0, &[2, 3])
            .call(0, &[4, 4]),
    ];
    let book = Book::new(&[2, 4], rules);
    Input::new(&book, &apart(25), &Query::new(1, &[0, 0, 0, 0]))
}

/// Each step leaves the head open, so every kept value comes again each time.
fn open_head() -> Input {
    let mut rules = Vec::new();
    for predicate in 0..8u8 {
        rules.push(Rule::new(predicate, 0).unequal(0, NIL));
        let call = |ahead: u8| (predicate + ahead) % 8;
        rules.push(
            Rule::new(predicate, 3)
                .unequal(0, 1)
                .unequal(1, 2)
                .unequal(2, 3)
                .unequal(1, 3)
                .call(call(1), &[1])
                .call(call(2), &[2])
                .call(call(3), &[3]),
        );
    }
    let book = Book::new(&[1; 8], rules);
    Input::new(&book, &apart(30), &Query::new(0, &[0]))
}

/// Every subset of the records is a fact, until the table is full.
fn always_true(records: usize) -> Input {
    let shape = shapes::anything(&mut Dice::new(1, 1), records);
    Input::new(&shape.book, &shape.heap, &shape.query)
}

/// As many facts as lines: every subset of ten records, put together from
/// three in every way.
fn three_halves() -> Input {
    let rules = vec![
        Rule::new(0, 0),
        Rule::new(0, 1).cell(0, &[]),
        Rule::new(0, 0).call(0, &[]).call(0, &[]).call(0, &[]),
    ];
    let mut heap = Heap::default();
    for address in 1..=10 {
        heap = heap.with(address, &[]);
    }
    let book = Book::new(&[0], rules);
    Input::new(&book, &heap, &Query::new(0, &[]))
}

/// Four cells that any records serve, in sixteen rules.
fn four_cells() -> Input {
    let rule = Rule::new(0, 4)
        .cell(0, &[])
        .cell(1, &[])
        .cell(2, &[])
        .cell(3, &[]);
    let mut rules = vec![rule; 15];
    rules.push(Rule::new(1, 0).call(0, &[]).call(0, &[]).call(0, &[]));
    let mut heap = Heap::default();
    for address in 1..=12 {
        heap = heap.with(address, &[]);
    }
    let book = Book::new(&[0, 0], rules);
    Input::new(&book, &heap, &Query::new(1, &[]))
}

/// Eight predicates, each of every value, and each asking three others.
fn many_predicates() -> Input {
    let mut rules = Vec::new();
    for predicate in 0..8u8 {
        rules.push(Rule::new(predicate, 0).unequal(0, NIL));
        let call = |ahead: u8| (predicate + ahead) % 8;
        rules.push(
            Rule::new(predicate, 2)
                .unequal(0, 1)
                .unequal(1, 2)
                .unequal(0, 2)
                .call(call(1), &[0])
                .call(call(2), &[1])
                .call(call(3), &[2]),
        );
    }
    let book = Book::new(&[1; 8], rules);
    Input::new(&book, &apart(MOST_APART), &Query::new(0, &[0]))
}

/// Eight predicates in a circle that turn their arguments: many rounds of one
/// fact each. A record is taken only when all has come round four times.
fn mutual_rotation() -> Input {
    let mut rules = vec![
        // One record of three fields gives what is turned.
        Rule::new(0, 1).equal(0, NIL).cell(4, &[1, 2, 3]),
        Rule::new(0, 1).cell(0, &[4]).call(7, &[4, 1, 2, 3]),
        Rule::new(0, 0).call(7, &[0, 1, 2, 3]),
    ];
    for predicate in 1..8u8 {
        rules.push(Rule::new(predicate, 0).call(predicate - 1, &[3, 0, 1, 2]));
    }
    let mut heap = Heap::default().with(1000, &[7, 8, 9]);
    for index in 1..=15 {
        heap = heap.with(10 * index, &[10 * (index - 1)]);
    }
    let book = Book::new(&[4; 8], rules);
    Input::new(&book, &heap, &Query::new(7, &[150, 7, 8, 9]))
}

/// Every arc of a ring, put together from two in every way.
fn segments_in_halves() -> Input {
    let rules = vec![
        Rule::new(0, 0).cell(0, &[1]),
        Rule::new(0, 1).call(0, &[0, 2]).call(0, &[2, 1]),
        Rule::new(0, 2)
            .call(0, &[0, 2])
            .call(0, &[2, 3])
            .call(0, &[3, 1]),
    ];
    let shape = shapes::ring(&mut Dice::new(1, 2), 16);
    let book = Book::new(&[2], rules);
    let start = shape.query.values[0];
    Input::new(&book, &shape.heap, &Query::new(0, &[start, start]))
}

/// Every count of the book at its limit or near it, on records that serve every
/// cell. One rule starts, seven pass on what it gives, and eight more want four
/// records and three calls.
fn largest_book() -> Input {
    let mut rules = vec![Rule::new(0, 4).cell(4, &[0, 1, 2, 3])];
    for number in 1..16u8 {
        let mut rule = Rule::new(number % 8, 4);
        for variable in 0..8 {
            let other = if variable % 2 == 0 { NIL } else { variable - 1 };
            rule = rule.unequal(variable, other);
        }
        if number < 8 {
            rule = rule.call(number - 1, &[1, 2, 3, 0]);
        } else {
            for cell in 4..8 {
                rule = rule.cell(cell, &[0, 1, 2, 3]);
            }
            for ahead in 1..=3 {
                let arguments = [ahead, 0, (ahead + 1) % 4, 2];
                rule = rule.call((number + ahead) % 8, &arguments);
            }
        }
        rules.push(rule);
    }
    let mut heap = Heap::default();
    for index in 0..16 {
        heap = heap.with(50 + index, &[1, 2, 3, 4]);
    }
    let book = Book::new(&[4; 8], rules);
    Input::new(&book, &heap, &Query::new(7, &[1, 2, 3, 4]))
}

/// The constants that are in none of the pools here.
const ODD: [u32; MOST_CONSTANTS] = [51, 151, 1_051, 2_051, 4_051, 8_051, 9_051, LARGEST];

fn constant(place: usize) -> u8 {
    FIRST_CONSTANT + place as u8
}

/// As many kept values as there may be, and bound variables that are unequal to
/// constants and to each other alone.
fn most_kept_values() -> Input {
    let mut rule = Rule::new(0, 4);
    for variable in 0..4 {
        rule = rule.equal(variable, constant(variable as usize));
        let bound = 4 + variable;
        rule = match variable % 2 {
            0 => rule.unequal(bound, constant(bound as usize)),
            _ => rule.unequal(bound, bound - 1),
        };
    }
    let all = Rule::new(1, 0).equal(0, 1);
    let book = Book::new(&[4, 2], vec![rule.clone(), all, rule]).with_constants(&ODD);
    let question = Query::new(0, &[9_999, 9_998, 9_997, 9_996]);
    Input::new(&book, &apart(MOST_APART), &question)
}

/// Records and calls are there, but the first variable and the last are
/// different constants.
fn unmet_by_constants() -> Input {
    let mut rule = Rule::new(0, 7).equal(0, constant(0)).equal(6, constant(7));
    for variable in [3, 1, 5, 0, 4, 2] {
        rule = rule.equal(variable, variable + 1);
    }
    let open = rule.call(1, &[5, 6]).call(1, &[6, 5]).call(1, &[5, 5]);
    let mut rules = vec![open; 15];
    rules.push(Rule::new(1, 0).unequal(0, constant(3)));
    let book = Book::new(&[0, 2], rules).with_constants(&ODD);
    Input::new(&book, &apart(15), &Query::new(0, &[]))
}

/// Every constant, field and value of the question is the mark. One that is
/// kept as a number makes the calls of some rule worth trying.
fn unmet_by_marks() -> Input {
    let mut rules = Vec::new();
    for place in 0..15 {
        let named = constant(place % MOST_CONSTANTS);
        let dead = Rule::new(0, 4).equal(4, NIL).equal(5, 4);
        let dead = dead.unequal(5, named).call(1, &[0, 1]);
        rules.push(dead.call(1, &[2, 3]).call(1, &[1, 2]));
    }
    rules.push(Rule::new(1, 0));
    let mut heap = Heap::default();
    for address in 1..=MOST_RECORDS as u32 {
        heap = heap.with(100 * address, &[0; MOST_FIELDS]);
    }
    let book = Book::new(&[4, 2], rules).with_constants(&[0; MOST_CONSTANTS]);
    let zeros = Input::new(&book, &heap, &Query::new(0, &[0; 4]));
    nil::spelt(&zeros, END_MARK)
}

/// As the tree of three, but what can never be met are two constants, and the
/// rules share out a type code.
fn tree_by_constants() -> Input {
    let mut rules = Vec::new();
    for place in 0..6 {
        let mut never = Rule::new(0, 6).equal(7, constant(place + 1));
        for variable in (1..7).rev() {
            never = never.equal(variable + 1, variable);
        }
        rules.push(never.equal(1, constant(place)));
    }
    rules.push(Rule::new(0, 0).equal(0, NIL));
    for place in 0..2 {
        let step = Rule::new(0, 3).unequal(0, NIL).equal(1, constant(place));
        let other = constant(1 - place);
        let step = step.cell(0, &[2, 3, 4]).call(0, &[2, other]);
        rules.push(step.call(0, &[3, other]).call(0, &[4, other]));
    }
    let mut heap = Heap::default();
    for address in 1..=MOST_RECORDS as u32 {
        let below = [3 * address - 1, 3 * address, 3 * address + 1];
        heap = heap.with(address, &below.map(up_to_the_last));
    }
    let book = Book::new(&[2], rules).with_constants(&ODD);
    Input::new(&book, &heap, &Query::new(0, &[1, ODD[0]]))
}

/// An input that was found, in hex. Those here are the random ones that took the
/// reference longest.
pub fn found([book, snapshot, question]: [&str; 3]) -> Input {
    let bytes = |text| from_hex(text).expect("it is hex");
    Input {
        book: bytes(book),
        snapshot: bytes(snapshot),
        question: bytes(question),
    }
}

/// A thousand facts of one predicate, and rules that call it three times.
fn found_with_no_record() -> Input {
    found([
        concat!(
            "0103000f00000201000001000104000201ff0002020000010102040001ff00020001ff0200ff020100",
            "05080107060105ff0103010104030106020106040102ff010503000300010702000304050006ff07",
            "0001010001000100020300010003000200010101ff01030003010203030201010103010200010000",
            "00000001000403010102040302000301020100010402ff0003030002020100010000000101ff0004",
            "030102030001020102010001000406020004010103ff020003060203040105010006010100030400",
            "04ff0101030004040102000000000001010000030003010202020402010001000101010000ff0000",
            "0401000100020204060303000502040302000400ff000405060000030000ff0001ff000200000000",
            "04000200030102040400020005060000060106000302000003000200000200030003000001040001",
            "020101030000ff0001000203010003020000ff00010002040202ff02000100ff0304",
        ),
        "00",
        "0003000000000200000002000000",
    ])
}

fn found_with_16_records() -> Input {
    found([
        concat!(
            "0102000700020101020003000203010302ffff03000200020300020200030000010001030003080104",
            "ff0103020102000103ff01040201030101010001040100030000010002030000ff00030201030100",
            "00ff00010001040002010001010200000203ff0203020000010003000005080103010105ff010601",
            "01030001050301010001050201020000020000030001030005080102000102010105010104010106",
            "030106050101000106010000",
        ),
        concat!(
            "10010000000002000000030900000006000000010000000300000002070000000500000004000000",
            "000500000002080000000c0000000600000003060000000d0000000400000007000000020c000000",
            "0b0000000800000004040000000400000010000000080000000900000003080000000f0000000b00",
            "00000a0000000206000000000000000b0000000200000000070000000c000000020a000000050000",
            "000d00000003050000000b000000020000000e000000000f0000000010000000030e000000050000",
            "0002000000",
        ),
        "00020c0000000a000000",
    ])
}

/// A record and three below it, by a plain book. Before the two rules for that
/// there are others that can never be met: their values go along equalities that
/// stand in the wrong order, and only the last condition fails.
fn three_below(below: impl Fn(u32) -> [u32; 3]) -> Input {
    let mut never = Rule::new(0, 7);
    for variable in (0..7).rev() {
        never = never.equal(variable + 1, variable);
    }
    let step = Rule::new(0, 3).unequal(0, NIL).cell(0, &[1, 2, 3]);
    let mut rules = vec![never.unequal(7, 0); MOST_RULES - 2];
    rules.push(Rule::new(0, 0).equal(0, NIL));
    rules.push(step.call(0, &[1]).call(0, &[2]).call(0, &[3]));
    let mut heap = Heap::default();
    for address in 1..=MOST_RECORDS as u32 {
        heap = heap.with(address, &below(address).map(up_to_the_last));
    }
    Input::new(&Book::new(&[1], rules), &heap, &Query::new(0, &[1]))
}

fn up_to_the_last(address: u32) -> u32 {
    match address {
        1..=16 => address,
        _ => 0,
    }
}

fn tree_of_three() -> Input {
    three_below(|address| [3 * address - 1, 3 * address, 3 * address + 1])
}

/// Each record has the next one below it three times.
fn ladder() -> Input {
    three_below(|address| [address + 1; 3])
}

/// What tells the rules apart that the test of plain books goes through; the
/// last two are the third and the fourth again.
const TOLD: [u32; 6] = [10, 20, 30, 40, 30, 40];

/// Sixteen rules of one predicate, each with a chain from both arguments to a
/// constant. Only the last two conditions tell two rules apart. If so asked, the
/// last rule is the one before it with the constants by their other names.
fn test_pairs(last_again: bool) -> Input {
    let mut rules = Vec::new();
    for number in 0..MOST_RULES {
        let (one, other) = match number {
            15 if last_again => (5, 4),
            _ => (number / 4, number % 4),
        };
        let rule = Rule::new(0, 6).equal(4, 3).equal(7, 6);
        let rule = rule.equal(3, 2).equal(6, 5).equal(2, 0).equal(5, 1);
        let rule = rule.equal(4, constant(one)).equal(7, constant(other));
        rules.push(rule.cell(0, &[1, 4, 7, 1]));
    }
    let book = Book::new(&[2], rules).with_constants(&TOLD);
    let last = if last_again { 30 } else { 40 };
    let heap = Heap::default().with(40, &[last, 40, last, last]);
    Input::new(&book, &heap, &Query::new(0, &[40, last]))
}

/// Sixteen rules of no arguments that can never be met: a chain from a constant
/// through seven variables, last link first, and the other end is not that
/// constant. Each fixes one variable at a time, the last one by a cell.
fn test_never_met() -> Input {
    let mut never = Rule::new(0, 8);
    for variable in (0..6).rev() {
        never = never.equal(variable + 1, variable);
    }
    let never = never.equal(0, constant(0)).unequal(6, constant(0));
    let never = never.cell(7, &[7; 4]).cell(6, &[7; 4]);
    let book = Book::new(&[0], vec![never; MOST_RULES]).with_constants(&TOLD);
    Input::new(&book, &apart(MOST_APART), &Query::new(0, &[]))
}
