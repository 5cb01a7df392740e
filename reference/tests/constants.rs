//! Constants: how they are read, each refusal they bring, what they mean at
//! every place of a term, and many small books with constants against the
//! slower ways and against the same books with arguments instead.

mod common;

use common::*;
use reference::api::{self, PartReply, Reply, WalkReply};
use reference::check::{self, Broken};
use reference::domain::Domain;
use reference::formats::{self, Kind, Problem, RuleSet, Term};
use reference::tree::{self, Answer};
use reference::{certificate, fact, fixpoint, naive, plain, verdict, walk};
use std::time::{Duration, Instant};

fn read(book: &[u8]) -> RuleSet {
    formats::read_rule_set(book).expect("no fault")
}

fn book_refusal(book: &[u8]) -> u32 {
    formats::read_rule_set(book).map_or_else(|refusal| refusal.number(), |_| 0)
}

// Reading.

#[test]
fn older_books_with_the_added_byte() {
    let house = [
        0x03, 0x02, 0x01, 0x02, 0x00, 0x04, 0x00, 0x00, 0x01, 0x00, 0x00, 0x01, 0x00, 0x00, 0x00,
        0x01, 0x00, 0x01, 0x00, 0x01, 0x02, 0x01, 0x00, 0x02, 0x01, 0x01, 0x01, 0x00, 0x01, 0x00,
        0x01, 0x01, 0x01, 0x00, 0x01, 0x00, 0x02, 0x00, 0x00, 0x00, 0x02, 0x00, 0x00, 0xFF, 0x00,
        0x01, 0xFF,
    ];
    assert_eq!(api::HOUSE, house);
    assert_eq!(book_l()[..4], [1, 2, 0, 2]);
    assert_eq!(book_l()[4..], house[6..25]);
    for book in [book_h(), book_l(), book_s()] {
        assert_eq!(read(&book).constants, []);
        // Without the byte, the rule count is taken for it.
        let mut older = book;
        older.remove(1 + older[0] as usize);
        assert_ne!(book_refusal(&older), 0);
    }
}

#[test]
fn constants_stand_as_listed() {
    for constants in [
        &[][..],
        &[0],
        &[0, 0, 0],
        &[7, 0, 7],
        &[MOST, 1, MOST, 0x0102_0304],
        &[8, 7, 6, 5, 4, 3, 2, 1],
    ] {
        let book = book_with(&[1, 2], constants, &[]);
        assert_eq!(read(&book).constants, constants);
    }
    // Lowest byte first, after the argument counts.
    let bytes = [1, 0, 2, 1, 2, 3, 4, 0, 0, 0, 255, 0];
    assert_eq!(read(&bytes).constants, [0x0403_0201, 0xFF00_0000]);
}

#[test]
fn terms_that_name_constants() {
    let rules = [rule(
        0,
        1,
        &[[EQUAL, C, 0], [UNEQUAL, 1, E]],
        &[(1, &[D, NIL, 131, 0])],
        &[(0, &[130])],
    )];
    let set = read(&book_with(&[1], &[7, 7, 0, MOST], &rules));
    let rule = &set.rules[0];
    assert_eq!(rule.pure[0].left, Term::Constant(7));
    assert_eq!(rule.pure[1].right, Term::Constant(0));
    let most = Term::Constant(MOST);
    let fields = [Term::Constant(7), Term::Nil, most, Term::Variable(0)];
    assert_eq!(rule.cells[0].fields, fields);
    assert_eq!(rule.calls[0].arguments, [Term::Constant(0)]);
    // A constant of 0 is read as one, though it has nil's number.
    assert_eq!(Term::Constant(0).number(), Term::Nil.number());
    assert_eq!(most.number(), Some(MOST as u64));
    assert_eq!(Term::Variable(0).number(), None);
}

// Refusals.

#[test]
fn faults_in_the_section() {
    let rows: &[(&[u8], u32)] = &[
        // The count is due, and too high at once.
        (&[1, 0], 1),
        (&[1, 0, 9], 2),
        (&[1, 0, 10], 2),
        (&[1, 0, 128], 2),
        (&[1, 0, 255], 2),
        (&[1, 0, 9, 0, 0, 0, 0], 2),
        // An end at every byte of a constant, and at the rule count.
        (&[1, 0, 1], 1),
        (&[1, 0, 1, 0], 1),
        (&[1, 0, 1, 0, 0], 1),
        (&[1, 0, 1, 0, 0, 0], 1),
        (&[1, 0, 1, 0, 0, 0, 0], 1),
        (&[1, 0, 1, 0, 0, 0, 0, 0], 0),
        (&[1, 0, 1, 0, 0, 0, 0, 0, 0], 4),
        // Whatever bytes a constant has, they are no fault.
        (&[1, 0, 1, 255, 255, 255, 255, 0], 0),
        (&[1, 0, 1, 9, 17, 128, 254, 0], 0),
        (&[1, 0, 2, 9, 17, 128, 254, 9, 17, 128, 254, 0], 0),
        // What is before the section counts first, then what is after it.
        (&[0, 9], 2),
        (&[2, 4, 5, 9], 2),
        (&[2, 4], 1),
        (&[1, 0, 1, 0, 0, 0, 0, 17], 2),
        (&[1, 0, 1, 0, 0, 0, 0, 1, 1], 3),
        (&[1, 0, 9, 17, 1], 2),
    ];
    for (book, refusal) in rows {
        assert_eq!(book_refusal(book), *refusal, "{book:?}");
        let expected = (*refusal == 0).then_some(true).ok_or(*refusal);
        assert_eq!(api::plain_book(book), expected, "{book:?}");
    }
}

#[test]
fn every_start_of_a_book_with_constants_is_too_short() {
    let mut books = typed_books();
    books.push(book_with(&[4; 8], &[MARK; 8], &[]));
    for book in books {
        assert_eq!(book_refusal(&book), 0);
        for end in 0..book.len() {
            assert_eq!(book_refusal(&book[..end]), 1, "{end}");
        }
        let longer = [&book[..], &[0]].concat();
        assert_eq!(book_refusal(&longer), 4);
    }
}

#[test]
fn eight_constants_and_nine() {
    for count in 0..=255u8 {
        let mut bytes = vec![1, 0, count];
        bytes.extend([5, 0, 0, 0].repeat(count as usize));
        bytes.push(0);
        assert_eq!(book_refusal(&bytes), if count > 8 { 2 } else { 0 });
    }
}

/// A rule for a predicate with one argument and one bound variable, with this
/// byte at one of the places where a term stands; the last is the address.
fn with_term(place: usize, byte: u8, constants: &[u32]) -> Vec<u8> {
    let mut at = [0, 1, 1, 0, 1, 0, 0];
    at[place] = byte;
    let [a, b, c, d, e, f, address] = at;
    let pure = [[EQUAL, a, b], [UNEQUAL, c, 0]];
    let call: &[(u8, &[u8])] = &[(0, &[e]), (0, &[f])];
    let one = rule(0, 1, &pure, &[(address, &[d, 0])], call);
    book_with(&[1], constants, &[one])
}

const ADDRESS: usize = 6;

#[test]
fn every_byte_at_every_place_of_a_term() {
    for count in 0..=8 {
        let constants = &[3, 0, 3, 7, 8, 9, MOST, MARK][..count];
        for place in 0..=ADDRESS {
            for byte in 0..=255u8 {
                let variable = byte < 2;
                let constant = byte >= 128 && (byte as usize) < 128 + count;
                let number = constant || byte == NIL;
                let good = variable || number && place != ADDRESS;
                let book = with_term(place, byte, constants);
                let expected = if good { 0 } else { 3 };
                assert_eq!(book_refusal(&book), expected, "{count} {place} {byte}");
            }
        }
    }
}

#[test]
fn the_first_of_several_faults_in_a_book() {
    let good = with_term(0, C, &[7]);
    // Behind the constant: rule count, head, bound; both conditions; the cell;
    // the calls.
    let rest = [1, 0, 1, 2, 0, C, 1, 1, 1, 0, 1, 0, 2, 0, 0, 2, 0, 1, 0, 0];
    assert_eq!(good[7..], rest);
    let places = [12, 13, 15, 16, 18, 20, 21, 24, 26];
    for &first in &places {
        let mut one = good.clone();
        // Beyond the list, or as an address any constant.
        one[first] = if first == 18 { C } else { D };
        assert_eq!(book_refusal(&one), 3, "{first}");
        // Once the byte is there, the end of the book is too late to count.
        assert_eq!(book_refusal(&one[..=first]), 3, "{first}");
        assert_eq!(book_refusal(&one[..first]), 1, "{first}");
        let longer = [&one[..], &[0]].concat();
        assert_eq!(book_refusal(&longer), 3, "{first}");
        // A count beyond its range after it, and before it.
        for count in [9, 10, 17, 19, 22] {
            let mut two = one.clone();
            two[count] = 99;
            let expected = if count < first { 2 } else { 3 };
            assert_eq!(book_refusal(&two), expected, "{first} {count}");
        }
        // Too many constants come before all that.
        let mut many = one.clone();
        many[2] = 9;
        assert_eq!(book_refusal(&many), 2, "{first}");
    }
}

#[test]
fn refusals_from_every_call_and_nothing_changed() {
    let (pool, ask) = (snapshot(&[(10, &[7])]), question(0, &[10]));
    let good = with_term(0, C, &[7]);
    let cut = good[..5].to_vec();
    let nine = [&[1, 1, 9], &[0; 37][..]].concat();
    let beyond = with_term(3, D, &[7]);
    let address = with_term(ADDRESS, C, &[7]);
    let longer = [&good[..], &[0]].concat();
    let cases = [(cut, 1), (nine, 2), (beyond, 3), (address, 3), (longer, 4)];
    let found = 0xAAAA_AAAA_AAAA_AAAA;
    for (book, refusal) in &cases {
        // Later faults, in the snapshot and elsewhere, do not count.
        for (pool, ask, lines) in [(&pool[..], &ask[..], 8), (&[17], &ask, 8), (&pool, &[], 0)] {
            let mut table = vec![found; lines];
            let mut space = vec![found; 3 * lines];
            let reply = api::decide_lent(book, pool, ask, &mut table, &mut space);
            let refused = Reply {
                refusal: *refusal,
                ..Reply::default()
            };
            assert_eq!(reply, refused);
            let reply = api::decide_part_lent(book, pool, ask, &mut table, &mut space);
            let refused = PartReply {
                refusal: *refusal,
                ..PartReply::default()
            };
            assert_eq!(reply, refused);
            assert!(table.iter().chain(&space).all(|&word| word == found));
            assert_eq!(api::check(book, pool, ask, &[]), (*refusal, 0));
            assert_eq!(api::check_part(book, pool, ask, 1, &[]), (*refusal, 0));
            let refused = WalkReply {
                refusal: *refusal,
                verdict: 0,
            };
            assert_eq!(api::walk(book, pool, ask), refused);
            assert_eq!(api::plain_book(book), Err(*refusal));
            assert_eq!(api::desk_engine(book, pool, ask), 2 * refusal);
            assert_eq!(api::desk_check(book, pool, ask, &[]), 2 * refusal);
        }
    }
}

// Kept values.

fn kept(book: &[u8], pool: &[u8], question: &[u8]) -> Vec<u64> {
    Domain::of(&problem(book, pool, question)).values().to_vec()
}

#[test]
fn kept_values_with_constants() {
    let (none, two) = (snapshot(&[]), question(0, &[2]));
    let three = rule(0, 2, &[], &[], &[]);
    // No rule names them; spares go round them; equal ones and 0 count once.
    let book = book_with(&[1], &[3, 1, 0, 3], &[three]);
    assert_eq!(kept(&book, &none, &two), [0, 1, 2, 3, 4, 5, 6]);
    // No rule, no spare; the constants stay.
    let book = book_with(&[1], &[9, MOST, 1], &[]);
    let most = MOST as u64;
    assert_eq!(kept(&book, &none, &two), [0, 1, 2, 9, most]);
    // One that is a record's address and one that is asked about.
    let book = book_with(&[1], &[10, 2], &[rule(0, 0, &[], &[], &[])]);
    let pool = snapshot(&[(10, &[20])]);
    assert_eq!(kept(&book, &pool, &two), [0, 1, 2, 10, 20]);
    let bare = problem(&book, &pool, &two);
    assert_eq!(Domain::with_spares(&bare, 0).values(), [0, 2, 10, 20]);
}

/// 16 records with 80 numbers in them, none of them below 100.
fn wide_pool() -> Vec<u8> {
    let fields: Vec<[u32; 4]> = (0..16)
        .map(|i| [1000 + i, 2000 + i, 3000 + i, 4000 + i])
        .collect();
    let records: Vec<(u32, &[u32])> = (100..).zip(fields.iter().map(|four| &four[..])).collect();
    snapshot(&records)
}

const EIGHT: [u32; 8] = [6, 50, 60, 70, 80, 90, 9000, MOST];

#[test]
fn at_most_101_kept_values() {
    // P(a,b,c,d) if e is the last constant: for any arguments.
    let any = rule(0, 4, &[[EQUAL, 4, C + 7]], &[], &[]);
    let book = book_with(&[4], &EIGHT, &[any]);
    let (pool, ask) = (wide_pool(), question(0, &[1, 3, 5, 7]));
    let values = kept(&book, &pool, &ask);
    assert_eq!(values.len(), 101);
    // Spares 2 4 8 to 13.
    assert_eq!(values[..14], (0..14).collect::<Vec<u64>>());
    assert_eq!(values[14..20], [50, 60, 70, 80, 90, 100]);
    assert_eq!(values[99..], [9000, MOST as u64]);
    // There are far too many facts for any table, but the check needs none.
    let full = api::decide_part(&book, &pool, &ask, 65_535, 196_605).reply;
    assert_eq!(full.refusal, 11);
    let line = |e: u64| {
        let fact = fact::pack(0, &[1, 3, 5, 7], 0);
        let arguments = 1 | 3 << 8 | 5 << 16 | 7 << 24;
        [fact, arguments | e << 32 | 100 << 40, 0]
    };
    let taken = |e| api::check_part(&book, &pool, &ask, 0, &line(e)).1;
    assert_eq!([taken(99), taken(100), taken(101)], [0, 1, 0]);
    let problem = problem(&book, &pool, &ask);
    assert_eq!(
        check::first_broken_part(&problem, 0, &line(101)),
        Err(Broken::Position)
    );
    assert_eq!(
        check::first_broken_part(&problem, 0, &line(99)),
        Err(Broken::Pure)
    );
}

#[test]
fn the_greatest_number_in_a_table() {
    // P(a) if a is the last constant; seven more variables for the spares.
    let last = rule(0, 7, &[[EQUAL, C + 7, 0]], &[], &[]);
    let book = book_with(&[1], &EIGHT, &[last]);
    let (pool, ask) = (wide_pool(), question(0, &[MOST]));
    let outcome = api::decide_part(&book, &pool, &ask, 1, 3);
    let expected = PartReply {
        refusal: 0,
        verdict: 1,
        part: 0,
        facts: 1,
        rounds: 1,
        lines: 1,
    };
    assert_eq!(outcome.reply, expected);
    let memory = outcome.memory.unwrap();
    assert_eq!(kept(&book, &pool, &ask).len(), 97);
    assert_eq!(memory.table, [96 << 16]);
    assert_eq!(
        api::check_part(&book, &pool, &ask, 0, &memory.space),
        (0, 1)
    );
}

// Meaning.

/// The verdict with facts, rounds and lines, the same by every way there is.
#[track_caller]
fn verdict_by_all(book: &[u8], pool: &[u8], question: &[u8]) -> (u32, [usize; 3]) {
    let outcome = api::decide(book, pool, question, 1024, 3072);
    let (reply, memory) = (outcome.reply, outcome.memory.expect("no fault"));
    assert_eq!(reply.refusal, 0);
    let problem = problem(book, pool, question);
    let domain = Domain::of(&problem);
    let (table, rounds) = naive::table(&problem, &domain, 1024).expect("few facts");
    assert_eq!(table, memory.table[..reply.facts]);
    assert_eq!(rounds, reply.rounds);
    let words = &memory.space[..3 * reply.lines];
    let taken = api::check(book, pool, question, words);
    assert_eq!(taken, (0, reply.verdict));
    match tree::search(&problem, 2, reply.rounds + 1, 200_000) {
        Answer::Yes(found) => {
            assert!(tree::answers(&problem, &found));
            assert_eq!(reply.verdict, 1);
            let opened = tree::open(&problem, words, 1000).expect("small");
            assert!(tree::answers(&problem, &opened));
        }
        other => assert_eq!((other, reply.verdict), (Answer::NoneFound, 0)),
    }
    let walked = api::walk(book, pool, question);
    let expected = match api::plain_book(book) {
        Ok(true) => (0, reply.verdict),
        _ => (12, 0),
    };
    assert_eq!((walked.refusal, walked.verdict), expected);
    (reply.verdict, [reply.facts, reply.rounds, reply.lines])
}

#[test]
fn in_a_pure_condition() {
    let none = snapshot(&[]);
    for number in [7, MOST] {
        let of = |condition| book_with(&[1], &[3, number], &[rule(0, 0, &[condition], &[], &[])]);
        for [a, b] in [[0, D], [D, 0]] {
            // Kept: 0, one spare, 3 and the number; and then 5.
            let same = of([EQUAL, a, b]);
            let reply = verdict_by_all(&same, &none, &question(0, &[number]));
            assert_eq!(reply, (1, [1, 1, 1]));
            let reply = verdict_by_all(&same, &none, &question(0, &[5]));
            assert_eq!(reply, (0, [1, 1, 0]));
            let apart = of([UNEQUAL, a, b]);
            let reply = verdict_by_all(&apart, &none, &question(0, &[number]));
            assert_eq!(reply, (0, [3, 1, 0]));
            let reply = verdict_by_all(&apart, &none, &question(0, &[5]));
            assert_eq!(reply, (1, [4, 1, 1]));
        }
    }
}

#[test]
fn between_constants_and_nil() {
    let none = snapshot(&[]);
    let holds = |constants: &[u32], condition| {
        let book = book_with(&[0], constants, &[rule(0, 0, &[condition], &[], &[])]);
        verdict_by_all(&book, &none, &question(0, &[])).0 == 1
    };
    let terms = [C, D, E, NIL];
    for constants in [[7, 7, 8], [0, 7, 0], [0, 0, MOST], [1, 2, 1 << 31]] {
        let value = |term: u8| match term {
            NIL => 0,
            term => constants[(term - C) as usize],
        };
        for a in terms {
            for b in terms {
                let same = value(a) == value(b);
                assert_eq!(holds(&constants, [EQUAL, a, b]), same);
                assert_eq!(holds(&constants, [UNEQUAL, a, b]), !same);
            }
        }
    }
}

#[test]
fn in_a_field() {
    for number in [7, MOST] {
        let book = book_with(&[1], &[number], &[rule(0, 0, &[], &[(0, &[NIL, C])], &[])]);
        let ask = question(0, &[10]);
        let reply = |fields: &[u32]| verdict_by_all(&book, &snapshot(&[(10, fields)]), &ask);
        assert_eq!(reply(&[0, number]), (1, [1, 1, 1]));
        assert_eq!(reply(&[0, number - 1]), (0, [0, 0, 0]));
        assert_eq!(reply(&[number, 0]), (0, [0, 0, 0]));
        assert_eq!(reply(&[0, 0]), (0, [0, 0, 0]));
        assert_eq!(reply(&[0]), (0, [0, 0, 0]));
        assert_eq!(reply(&[0, number, 0]), (0, [0, 0, 0]));
    }
    // A constant of 0 in a field is nil there.
    let book = book_with(&[1], &[0], &[rule(0, 0, &[], &[(0, &[C])], &[])]);
    let reply = verdict_by_all(&book, &snapshot(&[(10, &[0])]), &question(0, &[10]));
    assert_eq!(reply, (1, [1, 1, 1]));
}

#[test]
fn in_a_call() {
    // P if Q(nil, c, a); Q(a, b, c) if b: (a), with c equal to b. So a record's
    // address may well come from a constant, by way of a variable.
    for number in [7, MOST] {
        let rules = [
            rule(0, 1, &[], &[], &[(1, &[NIL, C, 0])]),
            rule(1, 0, &[[EQUAL, 2, 1]], &[(1, &[0])], &[]),
        ];
        let book = book_with(&[0, 3], &[number], &rules);
        let ask = question(0, &[]);
        let reply = |pool: &[(u32, &[u32])]| verdict_by_all(&book, &snapshot(pool), &ask);
        assert_eq!(reply(&[(number, &[0])]), (1, [2, 2, 2]));
        assert_eq!(reply(&[(number, &[1])]), (0, [1, 1, 0]));
        assert_eq!(reply(&[(number - 1, &[0])]), (0, [1, 1, 0]));
        assert_eq!(reply(&[(3, &[0]), (number, &[0])]), (0, [3, 2, 0]));
    }
}

#[test]
fn an_address_may_equal_a_constant() {
    // P if a: (a) with a equal to a constant; one of 0 is never an address.
    let rules = [rule(0, 1, &[[EQUAL, 0, C]], &[(0, &[C])], &[])];
    for (number, expected) in [
        (10, (1, [1, 1, 1])),
        (11, (0, [0, 0, 0])),
        (0, (0, [0, 0, 0])),
    ] {
        let book = book_with(&[0], &[number], &rules);
        let reply = verdict_by_all(&book, &snapshot(&[(10, &[10])]), &question(0, &[]));
        assert_eq!(reply, expected, "{number}");
    }
}

#[test]
fn a_bound_variable_beside_all_constants() {
    // P if a is none of eight constants: there is always a spare.
    let pure: Vec<[u8; 3]> = (0..8).map(|index| [UNEQUAL, 0, C + index]).collect();
    let book = book_with(
        &[0],
        &[0, 1, 2, 3, 4, 5, 6, 7],
        &[rule(0, 1, &pure, &[], &[])],
    );
    let reply = verdict_by_all(&book, &snapshot(&[]), &question(0, &[]));
    assert_eq!(reply, (1, [1, 1, 1]));
    assert_eq!(kept(&book, &snapshot(&[]), &question(0, &[])).len(), 9);
}

#[test]
fn typed_pools() {
    let list = snapshot(&[(10, &[7, 20]), (20, &[7, 0])]);
    let wrong = snapshot(&[(10, &[7, 20]), (20, &[8, 0])]);
    let tree = snapshot(&[(10, &[20, 1, 30, 1]), (20, &[5]), (30, &[0])]);
    let segment = snapshot(&[(10, &[9, 20]), (20, &[9, 30])]);
    type Row<'a> = (Vec<u8>, &'a [u8], &'a [u32], u32);
    let rows: [Row; 12] = [
        (typed_list(), &list, &[10], 1),
        (typed_list(), &list, &[20], 0),
        (typed_list(), &wrong, &[10], 0),
        (typed_list(), &snapshot(&[]), &[0], 1),
        (typed_tree(), &tree, &[10, 3], 1),
        (typed_tree(), &tree, &[10, 1], 0),
        (typed_tree(), &tree, &[10, 0], 0),
        (typed_tree(), &snapshot(&[(20, &[5])]), &[20, 1], 1),
        (typed_segment(), &segment, &[10, 30, 9], 1),
        (typed_segment(), &segment, &[10, 30, 7], 0),
        (typed_segment(), &segment, &[10, 20, 9], 0),
        (typed_segment(), &snapshot(&[]), &[10, 10, 5], 1),
    ];
    for (row, (book, pool, values, expected)) in rows.into_iter().enumerate() {
        let ask = question(0, values);
        // These rules are too wide for all assignments.
        let reply = api::decide(&book, pool, &ask, 1024, 3072).reply;
        assert_eq!((reply.refusal, reply.verdict), (0, expected), "row {row}");
        assert_eq!(api::walk(&book, pool, &ask).verdict, expected, "row {row}");
        let problem = problem(&book, pool, &ask);
        let by_hand = tree::search(&problem, 1, 4, 200_000);
        assert_eq!(
            matches!(by_hand, Answer::Yes(_)),
            expected == 1,
            "row {row}"
        );
        assert_ne!(by_hand, Answer::OutOfBudget, "row {row}");
    }
}

// Unfoldings.

#[test]
fn what_the_check_says_of_constants() {
    // P(a) if a: (c, b) and Q(d, b); Q(a, b) if b unequal c. Kept values: 0, a
    // spare 1 and 2, constants 7 and 9, address 10 and field 20.
    let rules = [
        rule(0, 1, &[], &[(0, &[C, 1])], &[(1, &[D, 1])]),
        rule(1, 0, &[[UNEQUAL, 1, C]], &[], &[]),
    ];
    let book = book_with(&[1, 2], &[7, 9], &rules);
    let ask = question(0, &[10]);
    let good = [
        [fact::pack(1, &[4, 6], 0), 4 | 6 << 8, 1],
        [fact::pack(0, &[5], 1), 5 | 6 << 8, 1 << 8],
    ];
    let of = |fields: &[u32]| problem(&book, &snapshot(&[(10, fields)]), &ask);
    let pool = of(&[7, 20]);
    assert_eq!(Domain::of(&pool).values(), [0, 1, 2, 7, 9, 10, 20]);
    assert_eq!(check::first_broken(&pool, &good.concat()), Ok(()));
    let opened = tree::open(&pool, &good.concat(), 10).unwrap();
    assert!(tree::answers(&pool, &opened));
    // The called line has the first constant for the second.
    let mut other = good;
    other[0] = [fact::pack(1, &[3, 6], 0), 3 | 6 << 8, 1];
    assert_eq!(
        check::first_broken(&pool, &other.concat()),
        Err(Broken::CalledArguments)
    );
    // Its condition is false: b is the first constant.
    other[0] = [fact::pack(1, &[4, 3], 0), 4 | 3 << 8, 1];
    assert_eq!(
        check::first_broken(&pool, &other.concat()),
        Err(Broken::Pure)
    );
    // The record has the second constant in its field.
    let pool = of(&[9, 20]);
    assert_eq!(
        check::first_broken(&pool, &good.concat()),
        Err(Broken::Cell)
    );
    let opened = tree::open(&pool, &good.concat(), 10).unwrap();
    assert!(!tree::answers(&pool, &opened));
}

#[test]
fn no_flipped_bit_gets_a_false_unfolding_taken() {
    let list = snapshot(&[(10, &[7, 20]), (20, &[7, 0])]);
    let tree = snapshot(&[(10, &[20, 1, 30, 1]), (20, &[5]), (30, &[0])]);
    let pools = [
        (typed_list(), list, question(0, &[10])),
        (typed_tree(), tree, question(0, &[10, 3])),
    ];
    for (book, pool, ask) in pools {
        let outcome = api::decide(&book, &pool, &ask, 1024, 3072);
        assert_eq!(outcome.reply.verdict, 1);
        let words = &outcome.memory.unwrap().space[..3 * outcome.reply.lines];
        let problem = problem(&book, &pool, &ask);
        for index in 0..words.len() {
            for bit in 0..64 {
                let mut flipped = words.to_vec();
                flipped[index] ^= 1 << bit;
                if api::check(&book, &pool, &ask, &flipped) == (0, 1) {
                    let tree = tree::open(&problem, &flipped, 1000).unwrap();
                    assert!(tree::answers(&problem, &tree));
                }
            }
        }
    }
}

#[test]
fn the_bench_program_takes_constants() {
    let parts = [
        typed_list(),
        snapshot(&[(10, &[7, 20]), (20, &[7, 0])]),
        question(0, &[10]),
    ];
    let mut input = Vec::new();
    for part in &parts {
        input.extend((part.len() as u16).to_le_bytes());
        input.extend(part);
    }
    let line = "refusal 0 verdict 1 facts 3 rounds 3 lines 3\n";
    assert_eq!(api::bench(&input), line);
    assert_eq!(api::desk_engine(&parts[0], &parts[1], &parts[2]), 1);
}

// Only the values matter.

/// The same book with its constants in another order, some of them twice if
/// there is room, and terms of 0 as nil or as a constant at random.
fn rewritten(dice: &mut Dice, book: &[u8]) -> Vec<u8> {
    let mut set = read(book);
    set.constants.rotate_left(1);
    if set.constants.len() < 8 {
        let again = dice.pick(&set.constants);
        set.constants.insert(0, again);
    }
    let has_zero = set.constants.contains(&0);
    let mut turn = |term: &mut Term| {
        if has_zero && term.number() == Some(0) {
            *term = dice.pick(&[Term::Nil, Term::Constant(0)]);
        }
    };
    for rule in &mut set.rules {
        for pure in &mut rule.pure {
            turn(&mut pure.left);
            turn(&mut pure.right);
        }
        rule.cells
            .iter_mut()
            .flat_map(|cell| &mut cell.fields)
            .for_each(&mut turn);
        rule.calls
            .iter_mut()
            .flat_map(|call| &mut call.arguments)
            .for_each(&mut turn);
    }
    written(&set)
}

#[test]
fn only_values_matter() {
    let (mut fits, mut plain, mut changed) = (0, 0, 0);
    for seed in 0..6000 {
        let mut dice = Dice::with_constants(50_000_000 + seed, 4);
        let book = match seed % 2 {
            0 => dice.book(4),
            _ => dice.split_book(),
        };
        let (pool, ask) = dice.grown(&book, 4);
        let other = rewritten(&mut dice, &book);
        changed += (other != book) as usize;
        let first = api::decide(&book, &pool, &ask, 500, 1500);
        // Replies and all that is written, to the last bit.
        assert_eq!(
            first,
            api::decide(&other, &pool, &ask, 500, 1500),
            "seed {seed}"
        );
        assert_eq!(
            api::decide_part(&book, &pool, &ask, 500, 1500),
            api::decide_part(&other, &pool, &ask, 500, 1500),
            "seed {seed}"
        );
        assert_eq!(
            api::walk(&book, &pool, &ask),
            api::walk(&other, &pool, &ask)
        );
        assert_eq!(
            api::plain_book(&book),
            api::plain_book(&other),
            "seed {seed}"
        );
        fits += first.reply.verdict;
        plain += (api::plain_book(&book) == Ok(true)) as usize;
    }
    assert!(
        fits > 500 && plain > 500 && changed > 4000,
        "{fits} {plain} {changed}"
    );
}

// Arguments instead of constants.

/// The book without constants: each predicate has further arguments for them,
/// handed on in every call. Nothing if that is too many.
fn as_arguments(set: &RuleSet) -> Option<RuleSet> {
    let more = set.constants.len();
    let wide = set.rules.iter().any(|rule| rule.variables + more > 8);
    if wide || set.arities.iter().any(|arity| arity + more > 4) {
        return None;
    }
    let mut other = set.clone();
    other.constants.clear();
    for arity in &mut other.arities {
        *arity += more;
    }
    for rule in &mut other.rules {
        let arity = set.arities[rule.head];
        let variable = |variable: usize| variable + if variable < arity { 0 } else { more };
        let place = |value: u32| set.constants.iter().position(|&other| other == value);
        let term = |term: &mut Term| {
            *term = match *term {
                Term::Nil => Term::Nil,
                Term::Constant(value) => Term::Variable(arity + place(value).unwrap()),
                Term::Variable(number) => Term::Variable(variable(number)),
            }
        };
        rule.variables += more;
        for pure in &mut rule.pure {
            term(&mut pure.left);
            term(&mut pure.right);
        }
        for cell in &mut rule.cells {
            cell.address = variable(cell.address);
            cell.fields.iter_mut().for_each(term);
        }
        for call in &mut rule.calls {
            call.arguments.iter_mut().for_each(term);
            let further = (arity..arity + more).map(Term::Variable);
            call.arguments.extend(further);
        }
    }
    Some(other)
}

#[test]
fn against_arguments_instead_of_constants() {
    let (mut fits, mut not, mut proper, mut kinds) = (0, 0, 0, [0; 4]);
    for seed in 0..16_000 {
        let mut dice = Dice::with_constants(60_000_000 + seed, 2);
        let book = match seed % 2 {
            0 => dice.book(4),
            _ => dice.split_book(),
        };
        let (pool, ask) = match seed % 3 {
            0 => (dice.snapshot(4), dice.question(&book)),
            _ => dice.grown(&book, 5),
        };
        let before = problem(&book, &pool, &ask);
        let Some(rules) = as_arguments(&before.rules) else {
            continue;
        };
        // What the head fixes is fixed, as a constant is; and rules that are
        // apart for all further arguments are so for the constants.
        assert_eq!(plain::consuming(&before.rules), plain::consuming(&rules));
        let fixed = plain::variables_fixed(&before.rules);
        assert_eq!(fixed, plain::variables_fixed(&rules), "seed {seed}");
        let apart = plain::exclusive(&before.rules);
        assert!(apart || !plain::exclusive(&rules), "seed {seed}");
        kinds[fixed as usize + 2 * apart as usize] += 1;

        let mut query = before.query.clone();
        query.values.extend(&before.rules.constants);
        let after = Problem {
            rules,
            heap: before.heap.clone(),
            query,
        };
        let parts = |problem: &Problem| {
            let domain = Domain::of(problem);
            let facts = fixpoint::facts(problem, &domain, 1500)?;
            Some(verdict::fitting_parts(problem, &domain, &facts.table))
        };
        let (Some(with), Some(without)) = (parts(&before), parts(&after)) else {
            continue;
        };
        assert_eq!(with, without, "seed {seed}");
        let all = fact::all_records(&before);
        let yes = with.contains(&all);
        fits += yes as usize;
        not += !yes as usize;
        proper += with.iter().any(|&part| part != 0 && part != all) as usize;
    }
    assert!(
        fits > 1000 && not > 1000 && proper > 100,
        "{fits} {not} {proper}"
    );
    assert!(kinds.iter().all(|&kind| kind > 300), "{kinds:?}");
}

// Slower ways.

#[test]
fn table_against_all_assignments() {
    let (mut full, mut fits, mut late) = (0, 0, 0);
    for seed in 0..6000 {
        let mut dice = Dice::with_constants(70_000_000 + seed, 3);
        let book = dice.book(3);
        let (snapshot, question) = match seed % 2 {
            0 => (dice.snapshot(3), dice.question(&book)),
            _ => dice.grown(&book, 3),
        };
        let problem = problem(&book, &snapshot, &question);
        if problem.rules.rules.iter().any(|rule| rule.variables > 4) {
            continue;
        }
        let domain = Domain::of(&problem);
        let by_rounds = fixpoint::facts(&problem, &domain, 300);
        let by_all = naive::table(&problem, &domain, 300);
        let Some((table, rounds)) = by_all else {
            assert!(by_rounds.is_none(), "seed {seed}");
            full += 1;
            continue;
        };
        let by_rounds = by_rounds.expect("the table holds them all");
        assert_eq!(by_rounds.table, table, "seed {seed}");
        assert_eq!(by_rounds.rounds, rounds, "seed {seed}");
        fits += table.contains(&fact::of_query(&problem, &domain)) as usize;
        late += (rounds > 2) as usize;
    }
    assert!(
        full > 100 && fits > 500 && late > 100,
        "{full} {fits} {late}"
    );
}

#[test]
fn parts_against_pools_of_their_own() {
    let (mut none, mut several, mut proper) = (0, 0, 0);
    for seed in 0..3000 {
        let mut dice = Dice::with_constants(75_000_000 + seed, 3);
        let book = dice.book(3);
        let (snapshot, question) = dice.grown(&book, 3);
        let problem = problem(&book, &snapshot, &question);
        if problem.rules.rules.iter().any(|rule| rule.variables > 4) {
            continue;
        }
        let domain = Domain::of(&problem);
        let Some(facts) = fixpoint::facts(&problem, &domain, 300) else {
            continue;
        };
        let parts = verdict::fitting_parts(&problem, &domain, &facts.table);
        let alone = naive::fitting_parts(&problem, 300).expect("the tables hold them all");
        assert_eq!(parts, alone, "seed {seed}");
        let all = fact::all_records(&problem);
        for part in 0..=all {
            let words = certificate::build_part(&problem, &domain, &facts, part);
            assert_eq!(words.is_some(), parts.contains(&part), "seed {seed}");
            if let Some(words) = words {
                assert!(check::takes_part(&problem, part, &words), "seed {seed}");
                engine_promises(&words);
            }
        }
        none += parts.is_empty() as usize;
        several += (parts.len() > 1) as usize;
        proper += parts.iter().any(|&part| part != 0 && part != all) as usize;
    }
    assert!(
        none > 300 && several > 20 && proper > 50,
        "{none} {several} {proper}"
    );
}

#[test]
fn certificates_and_verdicts() {
    let (mut yes, mut none, mut long) = (0, 0, 0);
    for seed in 0..16_000 {
        let mut dice = Dice::with_constants(80_000_000 + seed, 4);
        let book = dice.book(4);
        let (snapshot, question) = match seed % 2 {
            0 => (dice.snapshot(4), dice.question(&book)),
            _ => dice.grown(&book, 4),
        };
        let outcome = api::decide(&book, &snapshot, &question, 500, 1500);
        let reply = outcome.reply;
        let memory = outcome.memory.expect("no fault before the table");
        if reply.refusal == 11 {
            continue;
        }
        let problem = problem(&book, &snapshot, &question);
        let (words, rest) = memory.space.split_at(3 * reply.lines);
        assert!(rest.iter().all(|&word| word == 0));
        if reply.verdict == 1 {
            assert!(check::takes(&problem, words), "seed {seed}");
            engine_promises(words);
            long += (reply.lines > 3) as usize;
            if let Some(tree) = tree::open(&problem, words, 10_000) {
                assert!(tree::answers(&problem, &tree), "seed {seed}");
            }
        }
        match tree::search(&problem, 2, (reply.rounds + 1).min(6), 20_000) {
            Answer::Yes(tree) => {
                assert_eq!(reply.verdict, 1, "seed {seed}");
                assert!(tree::answers(&problem, &tree), "seed {seed}");
                yes += 1;
            }
            Answer::NoneFound => {
                assert!(reply.verdict == 0 || reply.rounds > 6, "seed {seed}");
                none += 1;
            }
            Answer::OutOfBudget => {}
        }
    }
    assert!(
        yes > 1000 && none > 1000 && long > 50,
        "{yes} {none} {long}"
    );
}

#[test]
fn the_walk_against_the_engine_and_by_hand() {
    let (mut kinds, mut by_hand) = ([0; 4], [0; 2]);
    for seed in 0..20_000 {
        let mut dice = Dice::with_constants(90_000_000 + seed, 4);
        let book = match seed % 4 {
            0 => dice.book(4),
            _ => dice.split_book(),
        };
        let (pool, question) = match seed % 3 {
            0 => (dice.snapshot(4), dice.question(&book)),
            _ => dice.grown(&book, 6),
        };
        let problem = problem(&book, &pool, &question);
        let outcome = api::decide(&book, &pool, &question, 600, 1800);
        if outcome.reply.refusal == 11 {
            continue;
        }
        let engine = outcome.reply.verdict == 1;
        let plain = plain::plain(&problem.rules);
        kinds[plain as usize + 2 * engine as usize] += 1;
        let reply = api::walk(&book, &pool, &question);
        if !plain {
            assert_eq!((reply.refusal, reply.verdict), (12, 0), "seed {seed}");
            continue;
        }
        let verdict = (reply.refusal, reply.verdict);
        assert_eq!(verdict, (0, engine as u32), "seed {seed}");
        let parts = walk::fitting_parts(&problem).expect("the book is plain");
        assert!(parts.len() <= 1, "seed {seed}");
        let table = &outcome.memory.unwrap().table[..outcome.reply.facts];
        let from_table = verdict::fitting_parts(&problem, &Domain::of(&problem), table);
        assert_eq!(parts, from_table, "seed {seed}");
        let depth = problem.heap.records.len() + 1;
        match tree::search(&problem, 2, depth, 20_000) {
            Answer::Yes(tree) => {
                assert!(engine && tree::answers(&problem, &tree), "seed {seed}");
                by_hand[1] += 1;
            }
            Answer::NoneFound => {
                assert!(!engine, "seed {seed}");
                by_hand[0] += 1;
            }
            Answer::OutOfBudget => {}
        }
    }
    assert!(kinds.iter().all(|&kind| kind > 500), "{kinds:?}");
    assert!(by_hand.iter().all(|&kind| kind > 500), "{by_hand:?}");
}

// Plain books.

#[test]
fn plain_books_with_constants() {
    for book in plain_typed_books() {
        assert_eq!(api::plain_book(&book), Ok(true), "{book:?}");
    }
    // The tree's types made equal, and one of them 0: the latter is still
    // another number.
    let tree = |types: &[u32; 2]| {
        let mut set = read(&typed_tree());
        set.constants = types.to_vec();
        set.rules[0].pure[0].right = Term::Constant(types[0]);
        set.rules[1].pure[0].left = Term::Constant(types[1]);
        api::plain_book(&written(&set))
    };
    assert_eq!(tree(&[1, 3]), Ok(true));
    assert_eq!(tree(&[3, 3]), Ok(false));
    assert_eq!(tree(&[0, 3]), Ok(true));
    assert_eq!(tree(&[0, 0]), Ok(false));
    assert_eq!(tree(&[MOST, MOST - 1]), Ok(true));
}

/// The variables that are fixed in a rule for a predicate without arguments.
fn fixed(pure: &[[u8; 3]], cells: &[(u8, &[u8])]) -> Vec<usize> {
    let rules = read(&book_with(&[0], &[7, 8], &[rule(0, 4, pure, cells, &[])]));
    let fixed = plain::fixed(&rules.rules[0], 0);
    assert_eq!(plain::variables_fixed(&rules), fixed == [true; 4]);
    (0..4).filter(|&variable| fixed[variable]).collect()
}

#[test]
fn a_constant_fixes_a_variable() {
    let chain = [[EQUAL, 3, 2], [EQUAL, 2, 1], [EQUAL, 1, 0], [EQUAL, C, 0]];
    let two = [[EQUAL, 3, C], [EQUAL, D, 1]];
    assert_eq!(fixed(&chain, &[]), [0, 1, 2, 3]);
    assert_eq!(fixed(&chain[..3], &[]), []);
    assert_eq!(fixed(&two, &[]), [1, 3]);
    // Unequal to a constant, or constants among themselves.
    assert_eq!(fixed(&[[UNEQUAL, 0, C]], &[]), []);
    assert_eq!(fixed(&[[EQUAL, D, C], [EQUAL, C, C]], &[]), []);
    // An address that is a constant's, and the fields from there.
    assert_eq!(
        fixed(&[[EQUAL, 0, C]], &[(1, &[2]), (0, &[1, C])]),
        [0, 1, 2]
    );
    // A constant in a field says nothing about the address.
    assert_eq!(fixed(&[], &[(0, &[C, 1])]), []);
}

/// Whether two rules with these conditions on two arguments are apart. Each
/// has a third variable that is bound.
fn apart(constants: &[u32], first: &[[u8; 3]], second: &[[u8; 3]]) -> bool {
    let both = [first, second].map(|pure| rule(0, 1, pure, &[], &[]));
    let rules = read(&book_with(&[2], constants, &both));
    let answer = plain::exclusive(&rules);
    assert_eq!(answer, naive::exclusive(&rules));
    answer
}

#[test]
fn different_constants_are_unequal() {
    let (c, d) = ([EQUAL, 0, C], [EQUAL, D, 0]);
    assert!(apart(&[7, 8], &[c], &[d]));
    assert!(!apart(&[7, 7], &[c], &[d]));
    assert!(!apart(&[0, 0], &[c], &[d]));
    assert!(apart(&[0, 7], &[c], &[d]));
    // Nil against a constant of 0, and of another number.
    assert!(!apart(&[0], &[c], &[[EQUAL, 0, NIL]]));
    assert!(apart(&[7], &[c], &[[EQUAL, 0, NIL]]));
    assert!(apart(&[0], &[c], &[[UNEQUAL, NIL, 0]]));
    assert!(!apart(&[7], &[c], &[[UNEQUAL, NIL, 0]]));
    // A constant and any other number; both of two others.
    assert!(apart(&[7], &[c], &[[UNEQUAL, 0, C]]));
    assert!(apart(&[7, 7], &[c], &[[UNEQUAL, 0, D]]));
    assert!(!apart(&[7, 8], &[c], &[[UNEQUAL, 0, D]]));
    assert!(!apart(&[7, 8], &[[UNEQUAL, 0, C]], &[[UNEQUAL, 0, D]]));
    // Another argument is no matter.
    assert!(!apart(&[7, 8], &[c], &[[EQUAL, 1, D]]));
    // By way of the arguments, and of bound variables, which each rule has
    // for itself.
    let (same, chain) = ([EQUAL, 0, 1], [[EQUAL, 2, D], [EQUAL, 1, 2]]);
    assert!(apart(&[7, 8], &[c, same], &chain));
    assert!(!apart(&[7, 7], &[c, same], &chain));
    assert!(!apart(&[7, 8], &[c], &chain));
    assert!(!apart(&[7, 8], &[[EQUAL, 2, C]], &[[EQUAL, 2, D]]));
    assert!(!apart(&[7, 8], &[[EQUAL, 2, C]], &[[UNEQUAL, 2, C]]));
}

#[test]
fn conditions_that_only_name_constants() {
    let (same, other) = ([EQUAL, C, D], [UNEQUAL, C, D]);
    for constants in [[7, 7], [0, 0]] {
        assert!(!apart(&constants, &[same], &[]));
        assert!(apart(&constants, &[other], &[]));
        assert!(apart(&constants, &[other], &[other]));
    }
    for constants in [[7, 8], [0, 8]] {
        assert!(apart(&constants, &[same], &[]));
        assert!(!apart(&constants, &[other], &[]));
        assert!(!apart(&constants, &[other], &[other]));
    }
    assert!(apart(&[7], &[[EQUAL, C, NIL]], &[]));
    assert!(!apart(&[0], &[[EQUAL, C, NIL]], &[]));
    // One variable with two different constants.
    assert!(apart(&[7, 8], &[[EQUAL, 2, C], [EQUAL, 2, D]], &[]));
}

/// How many ways the slow way would have to try.
fn ways(rules: &RuleSet) -> usize {
    let widest = rules.rules.iter().map(|rule| rule.variables).max();
    let size = 2 * widest.unwrap_or(0) - rules.arities.iter().min().unwrap();
    (1 + rules.constants.len() + size).pow(size as u32)
}

#[test]
fn exclusive_against_all_numbers() {
    let (mut answers, mut equal, mut zero) = ([0; 2], 0, 0);
    for seed in 0..60_000 {
        let mut dice = Dice::with_constants(100_000_000 + seed, 3);
        let book = match seed % 3 {
            0 => dice.split_book(),
            _ => dice.conditions(2, 3),
        };
        let rules = read(&book);
        if ways(&rules) > 60_000 {
            continue;
        }
        let exclusive = plain::exclusive(&rules);
        assert_eq!(exclusive, naive::exclusive(&rules), "seed {seed}");
        answers[exclusive as usize] += 1;
        let numbers = &rules.constants;
        equal += (1..numbers.len()).any(|at| numbers[..at].contains(&numbers[at])) as usize;
        zero += numbers.contains(&0) as usize;
    }
    assert!(answers.iter().all(|&times| times > 5000), "{answers:?}");
    assert!(equal > 3000 && zero > 8000, "{equal} {zero}");
}

#[test]
fn plain_is_quick_on_every_book() {
    let mut slowest = Duration::ZERO;
    let mut time = |book: &[u8]| {
        let rules = read(book);
        // The best of three, since others use the machine as well.
        let once = || {
            let start = Instant::now();
            assert!(api::plain_book(book).is_ok());
            // All demands, though the book may fail the first.
            plain::variables_fixed(&rules);
            plain::exclusive(&rules);
            start.elapsed()
        };
        let best = (0..3).map(|_| once()).min().unwrap();
        slowest = slowest.max(best);
    };
    let hostile = hostile_books(16);
    assert!(hostile.iter().all(|book| read(book).rules.len() == 16));
    for book in &hostile {
        time(book);
    }
    for seed in 0..4000 {
        let mut dice = Dice::with_constants(110_000_000 + seed, 8);
        let arity = dice.between(0, 4) as u8;
        let rules: Vec<Vec<u8>> = (0..16)
            .map(|_| {
                let pure: Vec<[u8; 3]> = (0..8).map(|_| dice.condition(8)).collect();
                rule(0, 8 - arity, &pure, &[], &[])
            })
            .collect();
        time(&book_with(&[arity], &dice.constants(), &rules));
    }
    println!("slowest plain book: {slowest:?}");
    assert!(slowest < Duration::from_millis(100), "{slowest:?}");
}

/// Rules with eight variables over many kept values: late contradictions,
/// conditions against all constants, and calls between.
#[test]
fn the_table_is_quick_with_constants() {
    let mut slowest = Duration::ZERO;
    for book in hostile_books(16) {
        let arity = book[1] as usize;
        let ask = question(0, &vec![1; arity]);
        let start = Instant::now();
        api::decide(&book, &wide_pool(), &ask, 1024, 3072);
        slowest = slowest.max(start.elapsed());
    }
    // Q(a, b) for all a and b that are none of the constants; P if Q three
    // times, all arguments being none of them.
    let apart = |variables: u8| -> Vec<[u8; 3]> {
        (0..8)
            .map(|index| [UNEQUAL, index % variables, C + index])
            .collect()
    };
    let calls: [(u8, &[u8]); 3] = [(1, &[0, 1]), (1, &[2, 3]), (1, &[4, 5])];
    let rules = [
        rule(0, 6, &apart(6), &[], &calls),
        rule(1, 0, &apart(2), &[], &[]),
    ];
    let book = book_with(&[0, 2], &EIGHT, &rules);
    let start = Instant::now();
    let reply = api::decide(&book, &wide_pool(), &question(0, &[]), 65_535, 196_605).reply;
    slowest = slowest.max(start.elapsed());
    assert_eq!(
        (reply.refusal, reply.facts, reply.rounds),
        (0, 91 * 91 + 1, 2)
    );
    println!("slowest table: {slowest:?}");
    assert!(slowest < Duration::from_secs(2), "{slowest:?}");
}

#[test]
fn kinds_are_read_as_before() {
    // A byte of a constant's range is no kind and no predicate.
    assert_eq!(book_refusal(&[1, 0, 1, 5, 0, 0, 0, 1, C]), 3);
    assert_eq!(book_refusal(&[1, 0, 1, 5, 0, 0, 0, 1, 0, 0, 1, C]), 3);
    let equal = [1, 0, 1, 5, 0, 0, 0, 1, 0, 0, 1, 0, C, NIL, 0, 0];
    assert_eq!(read(&equal).rules[0].pure[0].kind, Kind::Equal);
}
