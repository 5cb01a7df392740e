//! Whether the comparison finds what it is there for: answers of the proved
//! program, each altered in one thing, must all be called wrong.

use crate::books;
use crate::climb_test;
use crate::constants_test;
use crate::input::{Heap, Input, Query};
use crate::judge::{self, Expected, Table};
use crate::lent::{self, About, Answer, Block, Checked, Manner, Sizes, AROUND};
use crate::nil_test;
use crate::parts;
use crate::plain_test;
use crate::unfoldings::{lines_of_words, with_copies, Line};
use crate::walk_test;
use reference::api::{self, Memory};

pub const MANNER: Manner = Manner {
    around: AROUND,
    dirt: u64::MAX,
};

/// A way out of the engine, by a small input: first those of the question about
/// the whole pool, then those about some part.
#[derive(Clone, Copy, PartialEq)]
enum Way {
    Fits,
    DoesNot,
    Fault,
    WrongSize,
    Full,
    /// The empty part and the whole pool fit.
    TwoParts,
    /// One part fits, neither empty nor whole.
    OnePart,
    EmptyPart,
    NoPart,
    PartFault,
    PartWrongSize,
    PartFull,
}

const WAYS: [Way; 12] = {
    use Way::*;
    [
        Fits,
        DoesNot,
        Fault,
        WrongSize,
        Full,
        TwoParts,
        OnePart,
        EmptyPart,
        NoPart,
        PartFault,
        PartWrongSize,
        PartFull,
    ]
};

struct Asked {
    about: About,
    input: Input,
    sizes: Sizes,
}

/// Whether there is a segment from one value to the other, among records 10 and
/// 20 that point to each other, and perhaps 30 that points to nil.
fn segment(from: u32, to: u32, third: bool) -> Input {
    let mut heap = Heap::default().with(10, &[20]).with(20, &[10]);
    if third {
        heap = heap.with(30, &[0]);
    }
    Input::new(&books::segment(), &heap, &Query::new(0, &[from, to]))
}

/// Both records, as a segment from 10 to 10: 10 facts, 3 lines.
fn circle() -> Input {
    segment(10, 10, false)
}

fn asked(way: Way) -> Asked {
    use Way::*;
    let about = match way {
        Fits | DoesNot | Fault | WrongSize | Full => About::Whole,
        _ => About::SomePart,
    };
    let mut input = match way {
        DoesNot => segment(10, 20, false),
        OnePart => segment(10, 20, true),
        EmptyPart => segment(30, 30, true),
        NoPart => segment(20, 30, true),
        _ => circle(),
    };
    let mut sizes = match way {
        Fits | TwoParts => Sizes::of(12),
        Full | PartFull => Sizes::of(9),
        OnePart | EmptyPart | NoPart => Sizes::of(40),
        _ => Sizes::of(10),
    };
    match way {
        Fault | PartFault => input.book.truncate(20),
        WrongSize | PartWrongSize => sizes.words -= 1,
        _ => {}
    }
    Asked {
        about,
        input,
        sizes,
    }
}

type Alter = fn(&mut Answer);

const ALTERED: [(Way, &str, Alter); 34] = {
    use Way::*;
    [
        (Fits, "another refusal", |answer| answer.refusal = 11),
        (Fits, "no verdict", |answer| set(answer, VERDICT, 0)),
        (Fits, "one fact more", |answer| set(answer, FACTS, 11)),
        (Fits, "one round more", |answer| set(answer, ROUNDS, 4)),
        (Fits, "no lines", |answer| set(answer, LINES, 0)),
        (Fits, "one line more", |answer| set(answer, LINES, 4)),
        (Fits, "one line less", |answer| set(answer, LINES, 2)),
        (Fits, "a bit of the first fact", |answer| {
            table(answer)[0] ^= 1 << 20
        }),
        (Fits, "a bit of the last fact", |answer| {
            table(answer)[9] ^= 1
        }),
        (Fits, "two facts of a round swapped", |answer| {
            table(answer).swap(0, 1)
        }),
        (Fits, "a fact left out", |answer| table(answer)[9] = 0),
        (Fits, "a fact after the last", |answer| {
            table(answer)[11] = 1
        }),
        (Fits, "the last line missing", |answer| {
            space(answer)[6..9].fill(0)
        }),
        (Fits, "another position", |answer| space(answer)[7] ^= 1),
        (Fits, "another line called", |answer| {
            space(answer)[8] ^= 3 << 8
        }),
        (Fits, "a word after the last line", |answer| {
            space(answer)[9] = 1
        }),
        (Fits, "the last word of the space", |answer| {
            space(answer)[35] = 1
        }),
        (Fits, "a fact twice in the unfolding", |answer| {
            longer(answer, None)
        }),
        (Fits, "a line that is not called", |answer| {
            longer(answer, Some([0; 3]))
        }),
        (Fits, "a word after the table", |answer| {
            answer.table.write_beyond(0)
        }),
        (Fits, "a word after the space", |answer| {
            answer.space.write_beyond(0)
        }),
        (Fits, "a word after a number", |answer| {
            answer.numbers[0].write_beyond(0)
        }),
        (DoesNot, "a verdict", |answer| set(answer, VERDICT, 1)),
        (DoesNot, "a line", |answer| set(answer, LINES, 1)),
        (DoesNot, "a word in the space", |answer| {
            space(answer)[29] = 1
        }),
        (Fault, "another refusal", |answer| answer.refusal = 2),
        (Fault, "the table cleared", |answer| table(answer).fill(0)),
        (Fault, "facts not written", |answer| set(answer, FACTS, 77)),
        (WrongSize, "the first word written", |answer| {
            table(answer)[0] = 0
        }),
        (WrongSize, "the space cleared", |answer| {
            space(answer).fill(0)
        }),
        (WrongSize, "lines not written", |answer| {
            set(answer, LINES, 77)
        }),
        (Full, "a fact left in the table", |answer| {
            table(answer)[8] = 1
        }),
        (Full, "a word left in the space", |answer| {
            space(answer)[0] = 1
        }),
        (Full, "facts shown", |answer| set(answer, FACTS, 9)),
    ]
};

/// Altered answers about some part. The one part has record 10 alone, which is
/// number 1, and one line above the last.
const PART_ALTERED: [(Way, &str, Alter); 46] = {
    use Way::*;
    [
        (TwoParts, "the other part", |answer| {
            name(answer, 3 ^ part_of(answer))
        }),
        (TwoParts, "the other part's unfolding", other_unfolding),
        (TwoParts, "one record of the two", |answer| name(answer, 2)),
        (TwoParts, "none fits", none_fits),
        (OnePart, "another refusal", |answer| answer.refusal = 11),
        (OnePart, "no verdict", |answer| set(answer, VERDICT, 0)),
        (OnePart, "none fits", none_fits),
        (OnePart, "the empty part", |answer| name(answer, 0)),
        (OnePart, "the whole pool", |answer| name(answer, 7)),
        (OnePart, "another record", |answer| name(answer, 2)),
        (OnePart, "one record more", |answer| name(answer, 5)),
        (OnePart, "a bit beyond the records", |answer| {
            name(answer, 9)
        }),
        (OnePart, "the highest bit", |answer| {
            name(answer, 1 << 15 | 1)
        }),
        (OnePart, "the part not written", part_as_found),
        (OnePart, "a number beside the part", |answer| {
            answer.part.write_beyond(0)
        }),
        (OnePart, "no facts", |answer| set(answer, FACTS, 0)),
        (OnePart, "no rounds", |answer| set(answer, ROUNDS, 0)),
        (OnePart, "no lines", |answer| set(answer, LINES, 0)),
        (OnePart, "one line less", |answer| set(answer, LINES, 1)),
        (OnePart, "one line more", |answer| set(answer, LINES, 3)),
        (OnePart, "a bit of the first fact", |answer| {
            table(answer)[0] ^= 1 << 20
        }),
        (OnePart, "a fact after the last", |answer| {
            table(answer)[39] = 1
        }),
        (OnePart, "the last line of another part", |answer| {
            space(answer)[3] ^= 2
        }),
        (OnePart, "another position", |answer| space(answer)[4] ^= 1),
        (OnePart, "a word after the last line", |answer| {
            space(answer)[6] = 1
        }),
        (OnePart, "the space not cleared", |answer| {
            space(answer)[6..].fill(77)
        }),
        (OnePart, "the space cleared", |answer| space(answer).fill(0)),
        (EmptyPart, "none fits", none_fits),
        (EmptyPart, "no verdict", |answer| set(answer, VERDICT, 0)),
        (EmptyPart, "a record", |answer| name(answer, 4)),
        (EmptyPart, "the whole pool", |answer| name(answer, 7)),
        (EmptyPart, "the part not written", part_as_found),
        (EmptyPart, "no line", |answer| set(answer, LINES, 0)),
        (NoPart, "the empty part", |answer| set(answer, VERDICT, 1)),
        (NoPart, "a part", |answer| name(answer, 1)),
        (NoPart, "a verdict and a part", |answer| {
            set(answer, VERDICT, 1);
            name(answer, 1)
        }),
        (NoPart, "the part not written", part_as_found),
        (NoPart, "a word in the space", |answer| space(answer)[0] = 1),
        (PartFault, "another refusal", |answer| answer.refusal = 2),
        (PartFault, "the part not written", part_as_found),
        (PartFault, "the table cleared", |answer| {
            table(answer).fill(0)
        }),
        (PartWrongSize, "the part not written", part_as_found),
        (PartWrongSize, "the space cleared", |answer| {
            space(answer).fill(0)
        }),
        (PartFull, "the part not written", part_as_found),
        (PartFull, "a part", |answer| name(answer, 3)),
        (PartFull, "a fact left in the table", |answer| {
            table(answer)[8] = 1
        }),
    ]
};

const VERDICT: usize = 0;
const FACTS: usize = 1;
const ROUNDS: usize = 2;
const LINES: usize = 3;

fn set(answer: &mut Answer, number: usize, value: u64) {
    answer.numbers[number].lent_mut()[0] = value;
}

fn table(answer: &mut Answer) -> &mut [u64] {
    answer.table.lent_mut()
}

fn space(answer: &mut Answer) -> &mut [u64] {
    answer.space.lent_mut()
}

fn part_of(answer: &Answer) -> u16 {
    answer.part.lent()[0]
}

fn name(answer: &mut Answer, part: u16) {
    answer.part.lent_mut()[0] = part;
}

fn part_as_found(answer: &mut Answer) {
    answer.part = Block::number(MANNER);
}

/// What would be right if no part fitted.
fn none_fits(answer: &mut Answer) {
    set(answer, VERDICT, 0);
    set(answer, LINES, 0);
    name(answer, 0);
    space(answer).fill(0);
}

/// The unfolding of the circle's other part: the reference has one for the whole
/// pool, and one for the empty part, which has the smaller number.
fn other_unfolding(answer: &mut Answer) {
    let Asked { input, sizes, .. } = asked(Way::TwoParts);
    let [book, snapshot, question] = input.sections();
    let Sizes { lines, words } = sizes;
    let (lines, memory) = if part_of(answer) == 0 {
        let whole = api::decide(book, snapshot, question, lines, words);
        (whole.reply.lines, whole.memory)
    } else {
        let empty = api::decide_part(book, snapshot, question, lines, words);
        (empty.reply.lines, empty.memory)
    };
    let Memory { space: words, .. } = memory.expect("the circle fits");
    space(answer).copy_from_slice(&words);
    set(answer, LINES, lines as u64);
}

/// One more line in front: the same as the first, or this.
fn longer(answer: &mut Answer, first: Option<Line>) {
    let mut lines = with_copies(&lines_of_words(&space(answer)[..9]), 1);
    lines[0] = first.unwrap_or(lines[0]);
    space(answer)[..12].copy_from_slice(&lines.concat());
    set(answer, LINES, 4);
}

type AlterCheck = fn(&mut Checked);

/// Altered answers of the check to the engine's unfolding, for the whole pool or
/// for a part.
const CHECK_ALTERED: [(Way, Option<u16>, &str, AlterCheck); 17] = {
    use Way::*;
    [
        (Fits, None, "not taken", |checked| taken(checked, 0)),
        (Fits, None, "a refusal", |checked| checked.refusal = 9),
        (Fits, None, "a word changed", |checked| {
            checked.words[0] ^= 1
        }),
        (Fits, None, "a word after the number", |checked| {
            checked.taken.write_beyond(0)
        }),
        (Fault, None, "taken", |checked| taken(checked, 1)),
        (Fault, None, "not written", |checked| taken(checked, 77)),
        (OnePart, Some(1), "not taken", |checked| taken(checked, 0)),
        (OnePart, Some(1), "a word changed", |checked| {
            checked.words[0] ^= 1
        }),
        (OnePart, Some(1), "a word after the number", |checked| {
            checked.taken.write_beyond(0)
        }),
        (OnePart, Some(3), "taken for a larger part", |checked| {
            taken(checked, 1)
        }),
        (OnePart, Some(0), "taken for the empty part", |checked| {
            taken(checked, 1)
        }),
        (OnePart, Some(7), "taken for the whole pool", |checked| {
            taken(checked, 1)
        }),
        (OnePart, Some(9), "taken with a bit beyond", |checked| {
            taken(checked, 1)
        }),
        (OnePart, Some(9), "a bit beyond refused", |checked| {
            checked.refusal = 9
        }),
        (OnePart, None, "taken for every part", |checked| {
            taken(checked, 1)
        }),
        (PartFault, Some(1), "taken", |checked| taken(checked, 1)),
        (PartFault, Some(1), "not written", |checked| {
            taken(checked, 77)
        }),
    ]
};

fn taken(checked: &mut Checked, value: u64) {
    checked.taken.lent_mut()[0] = value;
}

/// Says whether each altered answer was found, and no answer that was not.
pub fn run() -> bool {
    let answers = WAYS.map(|way| {
        let Asked {
            about,
            input,
            sizes,
        } = asked(way);
        (way, lent::decide(about, &input, sizes, MANNER))
    });
    let mut missed = Vec::new();
    for (way, answer) in &answers {
        if !right(*way, answer) {
            missed.push("an answer as it is");
        }
    }
    for (way, name, alter) in ALTERED.into_iter().chain(PART_ALTERED) {
        let mut answer = answer_of(&answers, way).clone();
        alter(&mut answer);
        if right(way, &answer) {
            missed.push(name);
        }
    }
    for (way, part, name, alter) in CHECK_ALTERED {
        missed.extend(check_missed(&answers, way, part, name, alter));
    }
    missed.extend(walk_test::missed());
    let (by_constants, of_constants) = constants_test::missed();
    missed.extend(by_constants);
    let (by_nil, of_nil) = nil_test::missed();
    missed.extend(by_nil);
    let (by_plain, of_plain) = plain_test::missed();
    missed.extend(by_plain);
    missed.extend(climb_test::missed());
    let by_hand = [books::small(), books::plain()].concat();
    if by_hand
        .iter()
        .any(|book| api::plain_book(&book.bytes()).is_err())
    {
        missed.push("a book written by hand has a fault");
    }
    for name in &missed {
        println!("self-test: not told apart: {name}");
    }
    let altered = ALTERED.len() + PART_ALTERED.len() + CHECK_ALTERED.len() + walk_test::COUNT;
    let altered = altered + of_constants + of_nil + of_plain;
    println!(
        "self-test: {altered} altered answers, {} mistakes",
        missed.len()
    );
    missed.is_empty()
}

fn answer_of(answers: &[(Way, Answer)], way: Way) -> &Answer {
    let mut all = answers.iter();
    let answer = all.find(|answer| answer.0 == way);
    &answer.expect("all were asked").1
}

fn right(way: Way, answer: &Answer) -> bool {
    let Asked {
        about,
        input,
        sizes,
    } = asked(way);
    let [book, snapshot, question] = input.sections();
    let outcome = api::decide(book, snapshot, question, sizes.lines, sizes.words);
    let (reply, table) = (outcome.reply, Table::of(&outcome));
    let parts = parts::fitting(&input, table.facts(reply));
    let expected = match about {
        About::Whole => Expected::whole(reply, table),
        About::SomePart => Expected::some_part(reply, table, &parts),
    };
    judge::decided(&input, &expected, answer).is_ok()
}

/// The check of the unfolding that came this way, or of any words if none did.
fn check_missed(
    answers: &[(Way, Answer)],
    way: Way,
    part: Option<u16>,
    name: &'static str,
    alter: AlterCheck,
) -> Vec<&'static str> {
    let answer = answer_of(answers, way);
    let lines = answer.numbers[LINES].lent()[0].max(1) as usize;
    let words = &answer.space.lent()[..3 * lines];
    let input = asked(way).input;
    let expected = judge::reference_check(part, &input, words);
    let mut checked = lent::check(part, &input, words, MANNER);
    let mut missed = Vec::new();
    if judge::checked(expected, words, &checked).is_err() {
        missed.push("an answer of the check as it is");
    }
    alter(&mut checked);
    if judge::checked(expected, words, &checked).is_ok() {
        missed.push(name);
    }
    missed
}
