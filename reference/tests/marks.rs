//! The end mark: as a field, question value or constant it is read as 0, and as
//! an address it is refused. Inputs with the mark against the same inputs with
//! 0, at every place.

mod common;

use common::*;
use reference::api::{self, PartReply, Reply, WalkReply};
use reference::check;
use reference::domain::Domain;
use reference::formats::{self, Term};
use reference::tree::{self, Answer, Tree};
use reference::{naive, plain};
use std::collections::BTreeSet;

fn heap_refusal(snapshot: &[u8]) -> u32 {
    formats::read_heap(snapshot).map_or_else(|refusal| refusal.number(), |_| 0)
}

fn fields_read(fields: &[u32]) -> Vec<u32> {
    let heap = formats::read_heap(&snapshot(&[(10, fields)])).expect("no fault");
    heap.records[0].fields.clone()
}

fn values_read(values: &[u32]) -> Vec<u32> {
    let book = book(&[values.len() as u8], &[]);
    let rules = formats::read_rule_set(&book).expect("no fault");
    let query = formats::read_query(&question(0, values), &rules).expect("no fault");
    query.values
}

fn constants_read(constants: &[u32]) -> Vec<u32> {
    let rules = formats::read_rule_set(&book_with(&[1], constants, &[])).expect("no fault");
    rules.constants
}

// Reading.

#[test]
fn values_of_every_kind() {
    // Each of four places with 0, the mark, its neighbour or another number.
    let numbers = [0, MARK, MOST, 7];
    for choice in 0..256 {
        let four = [0, 2, 4, 6].map(|shift| numbers[choice >> shift & 3]);
        for count in 0..=4 {
            let written = &four[..count];
            let read: Vec<u32> = written
                .iter()
                .map(|&number| if number == MARK { 0 } else { number })
                .collect();
            assert_eq!(fields_read(written), read);
            assert_eq!(values_read(written), read);
            assert_eq!(constants_read(written), read);
        }
    }
    assert_eq!(constants_read(&[MARK; 8]), [0; 8]);
    let last = [1, 2, 3, 4, 5, 6, 7, MARK];
    assert_eq!(constants_read(&last), [1, 2, 3, 4, 5, 6, 7, 0]);
}

#[test]
fn only_this_number_is_the_mark() {
    let mut others: Vec<u32> = (0..32).map(|bit| MARK ^ 1 << bit).collect();
    others.extend([MOST - 1, MARK >> 8, 0xFF, 0xFFFF, 0xFF00_0000, 1]);
    assert!(others.contains(&MOST) && !others.contains(&MARK));
    for number in others {
        assert_eq!(fields_read(&[number, 0]), [number, 0]);
        assert_eq!(values_read(&[0, number]), [0, number]);
        assert_eq!(constants_read(&[number]), [number]);
        let heap = formats::read_heap(&snapshot(&[(number, &[])])).expect("no fault");
        assert_eq!(heap.records[0].address, number);
    }
}

#[test]
fn bytes_across_two_numbers_are_no_mark() {
    for shift in [8, 16, 24] {
        let two = [MARK << shift, MARK >> (32 - shift)];
        let bytes = two.map(u32::to_le_bytes).concat();
        let at = shift as usize / 8;
        assert_eq!(bytes[at..at + 4], [255; 4]);
        assert_eq!(fields_read(&two), two);
        assert_eq!(values_read(&two), two);
        assert_eq!(constants_read(&two), two);
    }
    // Nor are terms: these are nil, four times over.
    let four = rule(0, 0, &[], &[(0, &[NIL; 4])], &[(1, &[NIL; 4])]);
    let all = [0, 1, 2, 3].map(|variable| [EQUAL, variable, NIL]);
    let book = book(&[1, 4], &[four, rule(1, 0, &all, &[], &[])]);
    assert!(book.windows(4).any(|four| four == [255; 4]));
    let rules = formats::read_rule_set(&book).expect("no fault");
    assert_eq!(rules.rules[0].cells[0].fields, [Term::Nil; 4]);
    assert_eq!(rules.rules[0].calls[0].arguments, [Term::Nil; 4]);
    // And they meet either end.
    for end in [0, MARK] {
        let pool = snapshot(&[(10, &[end, 0, MARK, end])]);
        assert_eq!(api::desk_engine(&book, &pool, &question(0, &[10])), 1);
    }
    // Two lengths in the bench input are none either.
    let parts: [&[u8]; 3] = [&[255, 255], &[], &[]];
    assert_eq!(api::bench_parts(&[255; 4]), parts);
}

#[test]
fn terms_that_name_a_mark() {
    let one = rule(
        0,
        1,
        &[[EQUAL, C, 0], [UNEQUAL, 1, D]],
        &[(1, &[D, E, NIL, C])],
        &[(0, &[E])],
    );
    let rules = formats::read_rule_set(&book_with(&[1], &[MARK, MOST, 0], &[one])).unwrap();
    let rule = &rules.rules[0];
    let (mark, most) = (Term::Constant(0), Term::Constant(MOST));
    assert_eq!(rule.pure[0].left, mark);
    assert_eq!(rule.pure[1].right, most);
    assert_eq!(rule.cells[0].fields, [most, mark, Term::Nil, mark]);
    assert_eq!(rule.calls[0].arguments, [mark]);
    // As a cell's address it is refused like any constant, and like nil.
    for address in [C, D, E, NIL] {
        let one = common::rule(0, 1, &[], &[(address, &[])], &[]);
        let book = book_with(&[1], &[MARK, MOST, 0], &[one]);
        assert_eq!(api::plain_book(&book), Err(3));
    }
    // An end within it is an end.
    for end in 3..7 {
        let cut = [1, 0, 1, 255, 255, 255, 255];
        assert_eq!(api::plain_book(&cut[..end]), Err(1));
    }
}

// Addresses.

#[test]
fn an_address_that_is_the_mark() {
    let rows: &[(&[u8], u32)] = &[
        // Alone: refused once its last byte is there, not before.
        (&[1], 5),
        (&[1, 255], 5),
        (&[1, 255, 255], 5),
        (&[1, 255, 255, 255], 5),
        (&[1, 255, 255, 255, 255], 7),
        (&[1, 255, 255, 255, 255, 0], 7),
        (&[1, 255, 255, 255, 255, 1, 0, 0, 0, 0], 7),
        // One less is an address.
        (&[1, 254, 255, 255, 255], 5),
        (&[1, 254, 255, 255, 255, 0], 0),
        (&[1, 255, 255, 255, 254, 0], 0),
        // Last, after the highest that is allowed.
        (&[2, 254, 255, 255, 255, 0, 255, 255, 255, 255, 0], 7),
        (&[2, 5, 0, 0, 0, 0, 255, 255, 255, 255, 0], 7),
        // First of two, or twice.
        (&[2, 255, 255, 255, 255, 0, 5, 0, 0, 0, 0], 7),
        (&[2, 255, 255, 255, 255, 0, 255, 255, 255, 255, 0], 7),
        // Further faults after it: field count, end, later bytes.
        (&[1, 255, 255, 255, 255, 5], 7),
        (&[1, 255, 255, 255, 255, 255], 7),
        (&[1, 255, 255, 255, 255, 1, 0], 7),
        (&[1, 255, 255, 255, 255, 0, 0], 7),
        (&[16, 255, 255, 255, 255], 7),
        // And before it: record count, field count, an end, an address of 0.
        (&[17, 255, 255, 255, 255, 0], 6),
        (&[2, 5, 0, 0, 0, 5, 255, 255, 255, 255], 6),
        (&[2, 5, 0, 0, 0, 255, 255, 255, 255], 6),
        (&[2, 5, 0, 0, 0, 1, 255, 255, 255, 255], 5),
        (&[2, 0, 0, 0, 0, 0, 255, 255, 255, 255, 0], 7),
        // No address is due there.
        (&[0, 255, 255, 255, 255], 8),
        (&[1, 5, 0, 0, 0, 0, 255, 255, 255, 255], 8),
        (&[1, 5, 0, 0, 0, 1, 255, 255, 255, 255], 0),
    ];
    for (snapshot, refusal) in rows {
        assert_eq!(heap_refusal(snapshot), *refusal, "{snapshot:?}");
    }
}

#[test]
fn at_every_place_among_sixteen() {
    let links: Vec<[u32; 2]> = (0..16).map(|index| [MARK, 11 + index]).collect();
    for count in 1..=16 {
        for place in 0..count {
            let mut records: Vec<(u32, &[u32])> = (10..)
                .zip(links.iter().map(|link| &link[..]))
                .take(count)
                .collect();
            assert_eq!(heap_refusal(&snapshot(&records)), 0);
            records[place].0 = MARK;
            let bytes = snapshot(&records);
            // Up to the address's last byte the end counts, then the address.
            let due = 1 + 13 * place + 4;
            assert_eq!(bytes[due - 4..due], [255; 4]);
            for end in 0..=bytes.len() {
                let expected = if end < due { 5 } else { 7 };
                assert_eq!(
                    heap_refusal(&bytes[..end]),
                    expected,
                    "{count} {place} {end}"
                );
            }
            // A field count beyond its range before it, and after it.
            for other in 0..count {
                let mut two = bytes.clone();
                two[1 + 13 * other + 4] = 5;
                let expected = if other < place { 6 } else { 7 };
                assert_eq!(heap_refusal(&two), expected, "{count} {place} {other}");
            }
        }
    }
}

#[test]
fn its_refusal_among_all_others() {
    let long = [book_l(), vec![0]].concat();
    let books: [(&[u8], u32); 6] = [
        (&[], 1),
        (&[0], 2),
        (&[1, 0, 0, 1, 1], 3),
        (&long, 4),
        (&book_l(), 7),
        (&book_with(&[2], &[MARK], &[]), 7),
    ];
    let pools = [
        snapshot(&[(MARK, &[])]),
        snapshot(&[(10, &[MARK]), (MARK, &[10])]),
        [snapshot(&[(10, &[20]), (MARK, &[0])]), vec![0]].concat(),
        vec![3, 255, 255, 255, 255],
        vec![1, 255, 255, 255, 255, 9],
    ];
    let questions = [
        question(0, &[10, 10]),
        question(0, &[MARK, MARK]),
        question(9, &[MARK]),
        vec![],
    ];
    let sizes = [(0, 0), (9, 26), (65_536, 196_608), (1, 3), (10, 30)];
    let found = 0xAAAA_AAAA_AAAA_AAAA;
    for (book, expected) in books {
        for pool in &pools {
            for ask in &questions {
                for (lines, words) in sizes {
                    let mut table = vec![found; lines];
                    let mut space = vec![found; words];
                    let reply = api::decide_lent(book, pool, ask, &mut table, &mut space);
                    let refused = Reply {
                        refusal: expected,
                        ..Reply::default()
                    };
                    assert_eq!(reply, refused);
                    let reply = api::decide_part_lent(book, pool, ask, &mut table, &mut space);
                    let refused = PartReply {
                        refusal: expected,
                        ..PartReply::default()
                    };
                    assert_eq!(reply, refused);
                    assert!(table.iter().chain(&space).all(|&word| word == found));
                }
                for words in [&[][..], &[0; 3], &[u64::MAX; 3]] {
                    assert_eq!(api::check(book, pool, ask, words), (expected, 0));
                    assert_eq!(api::check_part(book, pool, ask, 1, words), (expected, 0));
                    let bytes: Vec<u8> = words.iter().flat_map(|word| word.to_le_bytes()).collect();
                    assert_eq!(api::desk_check(book, pool, ask, &bytes), 2 * expected);
                }
                let refused = WalkReply {
                    refusal: expected,
                    verdict: 0,
                };
                assert_eq!(api::walk(book, pool, ask), refused);
                assert_eq!(api::desk_engine(book, pool, ask), 2 * expected);
            }
        }
    }
}

// Kept values.

fn kept(book: &[u8], pool: &[u8], question: &[u8]) -> Vec<u64> {
    Domain::of(&problem(book, pool, question)).values().to_vec()
}

#[test]
fn kept_values_without_it() {
    let two = rule(0, 1, &[], &[], &[]);
    let book = book_with(&[1], &[MARK, 9, MARK], &[two]);
    let pool = snapshot(&[(10, &[MARK, 1]), (MOST, &[0, MARK])]);
    let ask = question(0, &[MARK]);
    let most = MOST as u64;
    // Spares 2 and 3. The mark brings nothing but 0, which is kept anyway.
    assert_eq!(kept(&book, &pool, &ask), [0, 1, 2, 3, 9, 10, most]);
    // No rule, no spare.
    let bare = book_with(&[1], &[MARK], &[]);
    assert_eq!(kept(&bare, &snapshot(&[]), &ask), [0]);
    // The last of all kept numbers gone: 101 less one.
    let fields: Vec<[u32; 4]> = (0..16)
        .map(|i| [1000 + i, 2000 + i, 3000 + i, 4000 + i])
        .collect();
    let full: Vec<(u32, &[u32])> = (100..).zip(fields.iter().map(|four| &four[..])).collect();
    let rules = [rule(0, 4, &[], &[], &[])];
    let size = |last: u32| {
        let book = book_with(&[4], &[50, 51, 52, 53, 54, 55, 56, last], &rules);
        kept(&book, &snapshot(&full), &question(0, &[1, 3, 5, 7])).len()
    };
    assert_eq!(
        [size(57), size(MOST), size(MARK), size(0)],
        [101, 101, 100, 100]
    );
}

// Meaning.

/// Facts, rounds, lines and verdict, checked by the slower ways.
#[track_caller]
fn reply(book: &[u8], pool: &[u8], question: &[u8]) -> (u32, [usize; 3]) {
    let outcome = api::decide(book, pool, question, 1024, 3072);
    let (reply, memory) = (outcome.reply, outcome.memory.expect("no fault"));
    assert_eq!(reply.refusal, 0);
    let problem = problem(book, pool, question);
    let domain = Domain::of(&problem);
    let by_all = naive::table(&problem, &domain, 1024).expect("few facts");
    assert_eq!(by_all, (memory.table[..reply.facts].to_vec(), reply.rounds));
    let words = &memory.space[..3 * reply.lines];
    assert_eq!(api::check(book, pool, question, words), (0, reply.verdict));
    match tree::search(&problem, 2, reply.rounds + 1, 200_000) {
        Answer::Yes(tree) => assert!(reply.verdict == 1 && tree::answers(&problem, &tree)),
        other => assert_eq!((other, reply.verdict), (Answer::NoneFound, 0)),
    }
    let walked = api::walk(book, pool, question);
    let expected = match api::plain_book(book) {
        Ok(true) => (0, reply.verdict),
        _ => (12, 0),
    };
    assert_eq!((walked.refusal, walked.verdict), expected);
    (reply.verdict, [reply.facts, reply.rounds, reply.lines])
}

#[test]
fn the_papers_rows_with_a_0_in_them() {
    let (s, h) = (book_s(), book_h());
    for end in [0, MARK] {
        let none = snapshot(&[]);
        assert_eq!(reply(&s, &none, &question(0, &[end])), (1, [12, 2, 2]));
        let pool = snapshot(&[(10, &[end])]);
        for other in [0, MARK] {
            let ask = question(2, &[10, other]);
            assert_eq!(reply(&h, &pool, &ask), (1, [9, 3, 3]));
        }
        let ask = question(2, &[10, 10]);
        assert_eq!(reply(&h, &pool, &ask), (0, [9, 3, 0]));
    }
}

#[test]
fn chains_that_end_either_way() {
    // A list to nil, and a segment whose end is asked about.
    let (list, segment) = (plain_list(), plain_segment());
    for (end, ends) in [(0, 1), (MARK, 1), (MOST, 0), (7, 0)] {
        let pool = snapshot(&[(10, &[20]), (20, &[end])]);
        assert_eq!(reply(&list, &pool, &question(0, &[10])).0, ends);
        for (asked, nil) in [(0, true), (MARK, true), (MOST, false), (7, false)] {
            let same = nil && ends == 1 || asked == end;
            let ask = question(0, &[10, asked]);
            assert_eq!(reply(&segment, &pool, &ask).0, same as u32);
            assert_eq!(reply(&book_l(), &pool, &ask).0, same as u32);
        }
        // The empty list, from either end.
        let empty = reply(&list, &snapshot(&[]), &question(0, &[end])).0;
        assert_eq!(empty, ends);
    }
    // Both ends in one pool, so from different controllers: two below.
    for left in [0, MARK] {
        for right in [0, MARK] {
            let pool = snapshot(&[(10, &[left, 20]), (20, &[MARK, right])]);
            assert_eq!(reply(&plain_tree(), &pool, &question(0, &[10])).0, 1);
        }
    }
}

#[test]
fn sixteen_records_and_the_mark() {
    let links: Vec<[u32; 1]> = (101..116).chain([MARK]).map(|next| [next]).collect();
    let records: Vec<(u32, &[u32])> = (100..).zip(links.iter().map(|link| &link[..])).collect();
    let (book, pool) = (book_l(), snapshot(&records));
    let ask = question(0, &[100, MARK]);
    let outcome = api::decide(&book, &pool, &ask, 1024, 3072);
    // Empty segments for 16 addresses, 0 and three spares; and 136 stretches.
    let expected = Reply {
        refusal: 0,
        verdict: 1,
        facts: 20 + 136,
        rounds: 17,
        lines: 17,
    };
    assert_eq!(outcome.reply, expected);
    // A part of all records is no mark, and stands in the fact.
    let words = &outcome.memory.unwrap().space[..51];
    assert_eq!(words[48] & 0xFFFF, 0xFFFF);
    assert_eq!(api::check_part(&book, &pool, &ask, 0xFFFF, words), (0, 1));
}

#[test]
fn constants_that_are_the_mark() {
    let none = snapshot(&[]);
    // Between constants, nil and what is asked about.
    let constants = [MARK, 0, MOST];
    for (a, first) in [(C, true), (D, true), (E, false), (NIL, true)] {
        for (b, second) in [(C, true), (D, true), (E, false), (NIL, true)] {
            for (kind, wanted) in [(EQUAL, true), (UNEQUAL, false)] {
                let rules = [rule(0, 0, &[[kind, a, b]], &[], &[])];
                let book = book_with(&[0], &constants, &rules);
                let holds = reply(&book, &none, &question(0, &[])).0 == 1;
                assert_eq!(holds, (first == second) == wanted);
            }
        }
        let rules = [rule(0, 0, &[[EQUAL, 0, a]], &[], &[])];
        let book = book_with(&[1], &constants, &rules);
        for (value, nil) in [(0, true), (MARK, true), (MOST, false)] {
            let reply = reply(&book, &none, &question(0, &[value]));
            assert_eq!(
                reply,
                ((nil == first) as u32, [1, 1, (nil == first) as usize])
            );
        }
    }
    // In a field and in a call.
    for constant in [0, MARK] {
        let rules = [
            rule(0, 0, &[], &[(0, &[C])], &[(1, &[C])]),
            rule(1, 0, &[[EQUAL, 0, NIL]], &[], &[]),
        ];
        let book = book_with(&[1, 1], &[constant], &rules);
        for (field, expected) in [(0, 1), (MARK, 1), (MOST, 0), (1, 0)] {
            let pool = snapshot(&[(10, &[field])]);
            assert_eq!(reply(&book, &pool, &question(0, &[10])).0, expected);
        }
    }
    // By way of a variable it is an address, but never that of a record.
    for (constant, expected) in [(MARK, 0), (0, 0), (MOST, 1)] {
        let rules = [rule(0, 1, &[[EQUAL, 0, C]], &[(0, &[])], &[])];
        let book = book_with(&[0], &[constant], &rules);
        let pool = snapshot(&[(MOST, &[])]);
        assert_eq!(reply(&book, &pool, &question(0, &[])).0, expected);
    }
}

#[test]
fn plain_books_with_the_mark() {
    let apart = |constants: &[u32], first: [u8; 3], second: [u8; 3]| {
        let both = [first, second].map(|pure| rule(0, 0, &[pure], &[], &[]));
        let book = book_with(&[1], constants, &both);
        let rules = formats::read_rule_set(&book).expect("no fault");
        let answer = plain::exclusive(&rules);
        assert_eq!(answer, naive::exclusive(&rules));
        assert_eq!(api::plain_book(&book), Ok(answer));
        answer
    };
    let (c, d) = ([EQUAL, 0, C], [EQUAL, 0, D]);
    assert!(!apart(&[MARK, 0], c, d));
    assert!(!apart(&[MARK, MARK], c, d));
    assert!(apart(&[MARK, MOST], c, d));
    assert!(apart(&[MARK, 7], c, d));
    assert!(!apart(&[MARK], c, [EQUAL, NIL, 0]));
    assert!(apart(&[MARK], c, [UNEQUAL, NIL, 0]));
    assert!(apart(&[MARK], [UNEQUAL, 0, C], [EQUAL, NIL, 0]));
    assert!(!apart(&[MOST], c, [UNEQUAL, NIL, 0]));
    // It fixes a variable.
    let one = rule(0, 1, &[[EQUAL, 0, C]], &[], &[]);
    assert_eq!(api::plain_book(&book_with(&[0], &[MARK], &[one])), Ok(true));
}

#[test]
fn by_hand() {
    // A segment of one record; what is asked about and held is 0.
    let mark = MARK as u64;
    for field in [0, MARK] {
        for asked in [0, MARK] {
            let pool = snapshot(&[(10, &[field])]);
            let problem = problem(&book_l(), &pool, &question(0, &[10, asked]));
            assert!(tree::answers(&problem, &node(10, 0, 0, leaf(0, 0))));
            for tree in [
                node(10, mark, mark, leaf(mark, mark)),
                node(10, 0, mark, leaf(mark, 0)),
                node(10, 0, mark, leaf(0, 0)),
                node(10, mark, 0, leaf(0, mark)),
            ] {
                assert!(!tree::answers(&problem, &tree), "{tree:?}");
            }
        }
    }
    // Nothing is read where a bound variable takes a number by hand: the
    // mark's is one like others there, and is not nil.
    for asked in [0, MARK] {
        let problem = problem(&book_s(), &snapshot(&[]), &question(0, &[asked]));
        let with = |b: u64| Tree {
            rule: 0,
            values: vec![0, b],
            under: vec![Tree {
                rule: 1,
                values: vec![0, b],
                under: vec![],
            }],
        };
        assert!(tree::answers(&problem, &with(mark)));
        assert!(tree::answers(&problem, &with(mark + 1)));
        assert!(!tree::answers(&problem, &with(0)));
    }
}

#[test]
fn the_check_reads_no_mark_in_lines() {
    // Positions and facts are not values: with all bits set they stay so.
    let (book, pool) = (book_l(), snapshot(&[(10, &[MARK])]));
    let ask = question(0, &[10, MARK]);
    let words = api::decide(&book, &pool, &ask, 9, 27).memory.unwrap().space[..6].to_vec();
    assert_eq!(api::check(&book, &pool, &ask, &words), (0, 1));
    for index in 0..6 {
        for shift in 0..=32 {
            let mut other = words.clone();
            other[index] |= (MARK as u64) << shift;
            assert_eq!(api::check(&book, &pool, &ask, &other), (0, 0));
            // Bits that are 0 for nil cannot be the mark's instead.
            other[index] = words[index] & !((MARK as u64) << shift);
            let cleared = api::check(&book, &pool, &ask, &other) == (0, 1);
            assert_eq!(cleared, other == words);
        }
    }
}

#[test]
fn the_bench_program() {
    let line = |book: &[u8], pool: &[u8], ask: &[u8]| {
        let mut input = Vec::new();
        for part in [book, pool, ask] {
            input.extend((part.len() as u16).to_le_bytes());
            input.extend(part);
        }
        api::bench(&input)
    };
    let pool = snapshot(&[(10, &[MARK])]);
    let ask = question(2, &[10, MARK]);
    let fits = "refusal 0 verdict 1 facts 9 rounds 3 lines 3\n";
    assert_eq!(line(&[], &pool, &ask), fits);
    assert_eq!(line(&book_h(), &pool, &ask), fits);
    let pool = snapshot(&[(10, &[MARK]), (MARK, &[])]);
    let seven = "refusal 7 verdict 0 facts 0 rounds 0 lines 0\n";
    assert_eq!(line(&[], &pool, &ask), seven);
}

// The mark against 0, at every place.

/// Book, snapshot and question.
type Input = [Vec<u8>; 3];

/// A four-byte number of an input: in which part it is, and where it starts.
type Place = (usize, usize);

/// The places of constants, fields and question values, and then those of
/// addresses. Nothing of the program's is used to find them.
fn places(input: &Input) -> (Vec<Place>, Vec<Place>) {
    let [book, pool, ask] = input;
    let (mut values, mut addresses) = (Vec::new(), Vec::new());
    let section = 1 + book[0] as usize;
    for index in 0..book[section] as usize {
        values.push((0, section + 1 + 4 * index));
    }
    let mut at = 1;
    for _ in 0..pool[0] {
        addresses.push((1, at));
        let fields = pool[at + 4] as usize;
        values.extend((0..fields).map(|index| (1, at + 5 + 4 * index)));
        at += 5 + 4 * fields;
    }
    assert_eq!(at, pool.len());
    values.extend((0..ask[1] as usize).map(|index| (2, 2 + 4 * index)));
    (values, addresses)
}

fn number_at(input: &Input, (part, at): Place) -> u32 {
    let four = &input[part][at..at + 4];
    u32::from_le_bytes([four[0], four[1], four[2], four[3]])
}

/// The input with this number at these places.
fn with(input: &Input, places: &[Place], number: u32) -> Input {
    let mut other = input.clone();
    for &(part, at) in places {
        other[part][at..at + 4].copy_from_slice(&number.to_le_bytes());
    }
    other
}

/// All that the calls say of an input, and the lent memory afterwards.
#[derive(Debug, PartialEq)]
struct Said {
    whole: Reply,
    part: PartReply,
    memory: [Vec<u64>; 4],
    walk: WalkReply,
    plain: Result<bool, u32>,
    desk: [u32; 2],
    bench: String,
    /// Of each unfolding, for the whole pool and for the part above.
    checks: Vec<[(u32, u32); 2]>,
}

fn said(input: &Input, lines: usize, unfoldings: &[Vec<u64>]) -> Said {
    let [book, pool, ask] = input;
    let found = 0xAAAA_AAAA_AAAA_AAAA;
    let [mut table, mut other_table] = [(); 2].map(|_| vec![found; lines]);
    let [mut space, mut other_space] = [(); 2].map(|_| vec![found; 3 * lines]);
    let whole = api::decide_lent(book, pool, ask, &mut table, &mut space);
    let part = api::decide_part_lent(book, pool, ask, &mut other_table, &mut other_space);
    let mut checks = Vec::new();
    for words in unfoldings {
        let one = api::check(book, pool, ask, words);
        checks.push([one, api::check_part(book, pool, ask, part.part, words)]);
    }
    let first = unfoldings.first().into_iter().flatten();
    let bytes: Vec<u8> = first.flat_map(|word| word.to_le_bytes()).collect();
    let mut bench = Vec::new();
    for part in input {
        bench.extend((part.len() as u16).to_le_bytes());
        bench.extend(part);
    }
    Said {
        whole,
        part,
        memory: [table, space, other_table, other_space],
        walk: api::walk(book, pool, ask),
        plain: api::plain_book(book),
        desk: [
            api::desk_engine(book, pool, ask),
            api::desk_check(book, pool, ask, &bytes),
        ],
        bench: api::bench(&bench),
        checks,
    }
}

/// A book, pool and question at random, with or without constants.
fn input(dice: &mut Dice, seed: u64) -> Input {
    let book = match seed % 3 {
        0 => dice.split_book(),
        _ => dice.book(4),
    };
    let (pool, ask) = match seed % 5 {
        0 => (dice.snapshot(4), dice.question(&book)),
        _ => dice.grown(&book, 4),
    };
    [book, pool, ask]
}

fn dice(seed: u64) -> Dice {
    match seed % 4 {
        0 => Dice::new(seed),
        _ => Dice::with_constants(seed, 3),
    }
}

/// Asserts that the mark at these places says what 0 says there. True if the
/// question fits, and then true if another number there says something else.
fn same(input: &Input, places: &[Place], seed: u64) -> (bool, bool) {
    let zero = with(input, places, 0);
    let mark = with(input, places, MARK);
    let [book, pool, ask] = &zero;
    let outcome = api::decide(book, pool, ask, 400, 1200);
    let mut unfoldings = vec![vec![]];
    if outcome.reply.verdict == 1 {
        let words = outcome.memory.unwrap().space[..3 * outcome.reply.lines].to_vec();
        let mut wrong = words.clone();
        wrong[1] ^= 1;
        unfoldings = vec![words, wrong, vec![]];
    }
    let expected = said(&zero, 400, &unfoldings);
    assert_eq!(said(&mark, 400, &unfoldings), expected, "seed {seed}");
    // Also what is read is the same, and has no mark in it.
    let [book, pool, ask] = &mark;
    let read = problem(book, pool, ask);
    assert_eq!(problem(&zero[0], &zero[1], &zero[2]), read, "seed {seed}");
    if expected.whole.verdict == 1 {
        assert!(check::takes(&read, &unfoldings[0]), "seed {seed}");
        engine_promises(&unfoldings[0]);
    }
    let [book, pool, ask] = with(input, places, MOST);
    let other = api::decide(&book, &pool, &ask, 400, 1200).reply;
    let told = (other.refusal, other.verdict) != (expected.whole.refusal, expected.whole.verdict);
    (expected.whole.verdict == 1, told)
}

#[test]
fn the_mark_and_0_at_each_place() {
    // For constants, fields and question values: tried, fits, told apart.
    let mut counts = [[0; 3]; 3];
    for seed in 0..5000 {
        let seed = 120_000_000 + seed;
        let input = input(&mut dice(seed), seed);
        for place in places(&input).0 {
            let (fits, told) = same(&input, &[place], seed);
            let count = &mut counts[place.0];
            count[0] += 1;
            count[1] += fits as usize;
            count[2] += told as usize;
        }
    }
    for [tried, fits, told] in counts {
        assert!(tried > 3000 && fits > 400 && told > 200, "{counts:?}");
    }
}

#[test]
fn the_mark_and_0_at_several_places() {
    let (mut fits, mut told, mut all_zeros) = (0, 0, 0);
    for seed in 0..4000 {
        let seed = 130_000_000 + seed;
        let mut dice = dice(seed);
        let input = input(&mut dice, seed);
        let (values, _) = places(&input);
        let chosen: Vec<Place> = match seed % 3 {
            // All of them, any, and those that have a 0.
            0 => values,
            1 => values.into_iter().filter(|_| dice.below(2) == 0).collect(),
            _ => values
                .into_iter()
                .filter(|&place| number_at(&input, place) == 0)
                .collect(),
        };
        if chosen.is_empty() {
            continue;
        }
        let (fit, tell) = same(&input, &chosen, seed);
        fits += fit as usize;
        told += tell as usize;
        all_zeros += (fit && seed % 3 == 2) as usize;
    }
    assert!(
        fits > 500 && told > 100 && all_zeros > 100,
        "{fits} {told} {all_zeros}"
    );
}

#[test]
fn the_mark_and_0_as_addresses() {
    let mut counts = [0; 5];
    for seed in 0..4000 {
        let seed = 140_000_000 + seed;
        let mut dice = dice(seed);
        let mut input = input(&mut dice, seed);
        let (values, addresses) = places(&input);
        if addresses.is_empty() {
            continue;
        }
        // Marks elsewhere are no fault before it, nor after it.
        let some: Vec<Place> = values.into_iter().filter(|_| dice.below(3) == 0).collect();
        input = with(&input, &some, MARK);
        for (index, &place) in addresses.iter().enumerate() {
            let mark = with(&input, &[place], MARK);
            let expected = said(&with(&input, &[place], 0), 10, &[vec![]]);
            assert_eq!(said(&mark, 10, &[vec![]]), expected, "seed {seed}");
            let refused = Reply {
                refusal: 7,
                ..Reply::default()
            };
            assert_eq!(expected.whole, refused);
            let found = 0xAAAA_AAAA_AAAA_AAAA;
            assert!(expected.memory.iter().flatten().all(|&word| word == found));
            counts[index] += 1;
            // The last address may be as high as there is but for the mark.
            let [book, pool, ask] = with(&input, &[place], MOST);
            let last = index + 1 == addresses.len();
            let reply = api::decide(&book, &pool, &ask, 10, 30).reply;
            assert_eq!(reply.refusal != 7, last, "seed {seed}");
        }
    }
    assert!(counts[..4].iter().all(|&count| count > 50), "{counts:?}");
}

/// The kept values as the papers say, from the bytes.
fn kept_by_hand(input: &Input) -> Vec<u64> {
    let (values, addresses) = places(input);
    let mut kept = BTreeSet::from([0]);
    for place in values {
        let number = number_at(input, place);
        if number != MARK {
            kept.insert(number as u64);
        }
    }
    kept.extend(
        addresses
            .iter()
            .map(|&place| number_at(input, place) as u64),
    );
    let rules = formats::read_rule_set(&input[0]).expect("no fault").rules;
    let widest = rules.iter().map(|rule| rule.variables).max().unwrap_or(0);
    let spares: Vec<u64> = (0..)
        .filter(|number| !kept.contains(number))
        .take(widest)
        .collect();
    kept.extend(spares);
    kept.into_iter().collect()
}

#[test]
fn kept_values_never_have_it() {
    let mut marks = 0;
    for seed in 0..20_000 {
        let seed = 150_000_000 + seed;
        let mut dice = dice(seed);
        let input = input(&mut dice, seed);
        let (values, _) = places(&input);
        let chosen: Vec<Place> = values.into_iter().filter(|_| dice.below(2) == 0).collect();
        marks += chosen.len();
        let marked = with(&input, &chosen, MARK);
        let [book, pool, ask] = &marked;
        let values = kept(book, pool, ask);
        assert_eq!(values, kept_by_hand(&marked), "seed {seed}");
        assert!(!values.contains(&(MARK as u64)), "seed {seed}");
        assert!(values.is_sorted_by(|a, b| a < b) && values[0] == 0);
    }
    assert!(marks > 20_000, "{marks}");
}
