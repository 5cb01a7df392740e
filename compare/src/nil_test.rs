//! The self-test of the end mark: answers that would be right if it were kept as
//! a number, or if another number were read as nil; and answers to one spelling
//! of nil, altered so that they are not those to the other.

use crate::books;
use crate::constants_test::{self, circle, typed, Misread, ALL, ENGINE, NO_CHECK, SIZES};
use crate::input::{Book, Heap, Input, Query};
use crate::nil::{self, END_MARK, LARGEST};
use crate::selftest::MANNER;
use crate::twins::{Asked, Replies};
use reference::api;

/// Records 10 and 20 as a segment that ends so, and the end that is asked for.
fn segment(end: u32, asked: u32) -> Input {
    let heap = Heap::default().with(10, &[20]).with(20, &[end]);
    let query = Query::new(0, &[10, asked]);
    Input::new(&books::plain_segment(), &heap, &query)
}

/// A list to nil with its last record there.
fn list_over(address: u32) -> Input {
    let heap = Heap::default().with(10, &[address]).with(address, &[0]);
    Input::new(&books::plain_list(), &heap, &Query::new(0, &[10]))
}

/// The same, cut behind that address.
fn cut_behind(address: u32) -> Input {
    let mut input = list_over(address);
    input.snapshot.truncate(input.snapshot.len() - 5);
    input
}

/// A record at that address alone, where any record will do.
fn record_at(address: u32) -> Input {
    let heap = Heap::default().with(address, &[]);
    let book: Book = books::always_true();
    Input::new(&book, &heap, &Query::new(0, &[]))
}

fn cases() -> Vec<Misread> {
    let case = |name, asked, input, other| Misread {
        name,
        input,
        other,
        asked,
    };
    vec![
        case(
            "a mark in a field kept",
            NO_CHECK,
            segment(END_MARK, 0),
            segment(LARGEST, 0),
        ),
        case(
            "a mark in a field kept, and it would fit",
            ALL,
            segment(END_MARK, LARGEST),
            segment(LARGEST, LARGEST),
        ),
        case(
            "a mark in the question kept",
            NO_CHECK,
            segment(0, END_MARK),
            segment(0, LARGEST),
        ),
        case(
            "a mark in the question kept, and it would fit",
            ALL,
            segment(LARGEST, END_MARK),
            segment(LARGEST, LARGEST),
        ),
        case(
            "a mark in a constant kept",
            NO_CHECK,
            typed(&[END_MARK], 0),
            typed(&[LARGEST], 0),
        ),
        case(
            "a mark in a constant kept, and it would fit",
            ALL,
            typed(&[END_MARK], LARGEST),
            typed(&[LARGEST], LARGEST),
        ),
        case(
            "a mark kept beside nil",
            ENGINE,
            circle(&[END_MARK]),
            circle(&[LARGEST]),
        ),
        case(
            "FFFFFFFE read as nil",
            ALL,
            typed(&[LARGEST], 0),
            typed(&[0], 0),
        ),
        case(
            "three bytes of the mark read as nil",
            ALL,
            typed(&[0x00FF_FFFF], 0),
            typed(&[0], 0),
        ),
        case(
            "the mark as an address",
            ALL,
            list_over(END_MARK),
            list_over(LARGEST),
        ),
        case(
            "the mark as the only address",
            ALL,
            record_at(END_MARK),
            record_at(LARGEST),
        ),
        case(
            "FFFFFFFE refused as an address",
            NO_CHECK,
            record_at(LARGEST),
            record_at(END_MARK),
        ),
        case(
            "a later fault before the mark as an address",
            NO_CHECK,
            cut_behind(END_MARK),
            cut_behind(LARGEST),
        ),
    ]
}

type Alter = fn(&mut Replies);

/// Altered answers to a list that fits, in its other spelling.
const ALTERED: [(&str, Alter); 15] = [
    ("the desk's number", |replies| replies.desk[0] ^= 1),
    ("the desk's check", |replies| replies.desk[1] ^= 1),
    ("a refusal", |replies| replies.whole.refusal = 7),
    ("no verdict", |replies| {
        replies.whole.numbers[0].lent_mut()[0] = 0
    }),
    ("lines", |replies| {
        replies.whole.numbers[3].lent_mut()[0] += 1
    }),
    ("the lowest bit of the table", |replies| {
        replies.whole.table.lent_mut()[0] ^= 1
    }),
    ("the table's last word", |replies| {
        *last(replies.whole.table.lent_mut()) ^= 1 << 63
    }),
    ("the space's last word", |replies| {
        *last(replies.some_part.space.lent_mut()) ^= 1
    }),
    ("a word after the space", |replies| {
        replies.some_part.space.write_beyond(0)
    }),
    ("the part", |replies| {
        replies.some_part.part.lent_mut()[0] ^= 1
    }),
    ("the walk's refusal", |replies| replies.walked.0 = 7),
    ("the walk's verdict", |replies| {
        replies.walked.1.lent_mut()[0] ^= 1
    }),
    ("not taken", |replies| {
        replies.check.taken.lent_mut()[0] ^= 1
    }),
    ("not taken for the part", |replies| {
        replies.check_part.taken.lent_mut()[0] ^= 1
    }),
    ("a word of the unfolding", |replies| {
        replies.check.words[0] ^= 1
    }),
];

fn last(words: &mut [u64]) -> &mut u64 {
    words.last_mut().expect("some are lent")
}

/// The reference's unfolding of the input, and its part.
fn asked(input: &Input) -> Asked {
    let [book, snapshot, question] = input.sections();
    let outcome = api::decide(book, snapshot, question, SIZES.lines, SIZES.words);
    let memory = outcome.memory.expect("the input has no fault");
    Asked {
        sizes: SIZES,
        manner: MANNER,
        words: memory.space[..3 * outcome.reply.lines].to_vec(),
        part: 3,
    }
}

/// What was missed, and how many answers were altered.
pub fn missed() -> (Vec<&'static str>, usize) {
    let (mut missed, misread) = constants_test::missed_of(&cases());
    let zeros = segment(0, 0);
    let asked = asked(&zeros);
    let of_zeros = Replies::of(&zeros, &asked);
    let of_marks = Replies::of(&nil::spelt(&zeros, END_MARK), &asked);
    if of_zeros.same(&of_marks).is_err() || !of_zeros.fits() {
        missed.push("both spellings as they are");
    }
    for (name, alter) in ALTERED {
        let mut altered = of_marks.clone();
        alter(&mut altered);
        if of_zeros.same(&altered).is_ok() {
            missed.push(name);
        }
    }
    // A mark that is kept as a number, in one place or in both.
    let kept = [
        segment(LARGEST, 0),
        segment(0, LARGEST),
        segment(LARGEST, LARGEST),
    ];
    for input in &kept {
        if of_zeros.same(&Replies::of(input, &asked)).is_ok() {
            missed.push("a mark kept as a number, between two spellings");
        }
    }
    (missed, misread + ALTERED.len() + kept.len())
}
