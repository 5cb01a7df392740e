//! The library `shapes`: the engine on lent memory, and the check of an
//! unfolding that is lent as words, each for the whole pool and for a part; and
//! the walk, which is lent no memory. All that a call may write is dirty before,
//! and there is something around it that must stay.

use crate::input::Input;
use crate::random::word_at;
use reference::api::OWN_LINES;

extern "C" {
    fn shapes_decide(
        book: *const u8,
        book_len: usize,
        snapshot: *const u8,
        snapshot_len: usize,
        question: *const u8,
        question_len: usize,
        table: *mut u64,
        table_len: usize,
        space: *mut u64,
        space_len: usize,
        verdict: *mut u64,
        facts: *mut u64,
        rounds: *mut u64,
        lines: *mut u64,
    ) -> u64;

    fn shapes_check(
        book: *const u8,
        book_len: usize,
        snapshot: *const u8,
        snapshot_len: usize,
        question: *const u8,
        question_len: usize,
        words: *const u64,
        words_len: usize,
        taken: *mut u64,
    ) -> u64;

    fn shapes_part(
        book: *const u8,
        book_len: usize,
        snapshot: *const u8,
        snapshot_len: usize,
        question: *const u8,
        question_len: usize,
        table: *mut u64,
        table_len: usize,
        space: *mut u64,
        space_len: usize,
        verdict: *mut u64,
        part: *mut u16,
        facts: *mut u64,
        rounds: *mut u64,
        lines: *mut u64,
    ) -> u64;

    fn shapes_check_part(
        book: *const u8,
        book_len: usize,
        snapshot: *const u8,
        snapshot_len: usize,
        question: *const u8,
        question_len: usize,
        part: u16,
        words: *const u64,
        words_len: usize,
        taken: *mut u64,
    ) -> u64;

    fn shapes_walk(
        book: *const u8,
        book_len: usize,
        snapshot: *const u8,
        snapshot_len: usize,
        question: *const u8,
        question_len: usize,
        verdict: *mut u64,
    ) -> u64;
}

/// A call with the sections of an input before its other arguments. Safe where
/// each of those is a number, a pointer to one that is lent, or a pointer to as
/// many words as the length after it says, all apart from each other.
macro_rules! call {
    ($entry:ident, $input:expr, $($other:expr),+) => {{
        let [book, snapshot, question] = $input.sections();
        unsafe {
            $entry(
                book.as_ptr(),
                book.len(),
                snapshot.as_ptr(),
                snapshot.len(),
                question.as_ptr(),
                question.len(),
                $($other),+
            )
        }
    }};
}

/// What the engine is asked about.
#[derive(Clone, Copy, PartialEq, Eq)]
pub enum About {
    Whole,
    SomePart,
}

impl About {
    pub fn entry(self) -> &'static str {
        match self {
            About::Whole => "shapes_decide",
            About::SomePart => "shapes_part",
        }
    }
}

/// The longest table that is not refused.
pub const MOST_LINES: usize = 65_535;

/// How much is lent: lines of the table, words of the unfolding space.
#[derive(Clone, Copy, Debug, PartialEq, Eq)]
pub struct Sizes {
    pub lines: usize,
    pub words: usize,
}

impl Sizes {
    /// What the desk's entry and the bench program lend.
    pub const OWN: Sizes = Sizes::of(OWN_LINES);

    pub const fn of(lines: usize) -> Sizes {
        let words = 3 * lines;
        Sizes { lines, words }
    }
}

/// How it is lent.
#[derive(Clone, Copy, Debug, PartialEq, Eq)]
pub struct Manner {
    /// Words before and after each block. Without any, a memory checker sees a
    /// read beyond the block; with some, every run sees a write.
    pub around: usize,
    /// What the words are before the call.
    pub dirt: u64,
}

/// Words around a block, where no memory checker looks.
pub const AROUND: usize = 4;

/// What is lent in blocks.
pub trait Unit: Copy + PartialEq {
    fn of(word: u64) -> Self;
}

impl Unit for u64 {
    fn of(word: u64) -> u64 {
        word
    }
}

impl Unit for u16 {
    fn of(word: u64) -> u16 {
        word as u16
    }
}

/// Lent words, or shorter units, between others.
#[derive(Clone, PartialEq, Eq)]
pub struct Block<T = u64> {
    all: Vec<T>,
    manner: Manner,
}

impl<T: Unit> Block<T> {
    fn new(length: usize, manner: Manner) -> Block<T> {
        let Manner { around, dirt } = manner;
        let mut all = Vec::with_capacity(length + 2 * around);
        all.extend((0..around).map(|place| border::<T>(dirt, place)));
        all.extend((0..length).map(|place| dirty::<T>(dirt, place)));
        all.extend((around..2 * around).map(|place| border::<T>(dirt, place)));
        Block { all, manner }
    }

    /// One number that the call writes: anything before.
    pub fn number(manner: Manner) -> Block<T> {
        let dirt = manner.dirt | 7;
        Block::new(1, Manner { dirt, ..manner })
    }

    pub fn lent(&self) -> &[T] {
        &self.all[self.manner.around..self.all.len() - self.manner.around]
    }

    pub fn lent_mut(&mut self) -> &mut [T] {
        let end = self.all.len() - self.manner.around;
        &mut self.all[self.manner.around..end]
    }

    /// Whether all that is lent is what it was before the call.
    pub fn is_as_found(&self) -> bool {
        let dirt = self.manner.dirt;
        (0..)
            .zip(self.lent())
            .all(|(at, &unit)| unit == dirty(dirt, at))
    }

    /// Whether all around it is what it was.
    pub fn kept_to_itself(&self) -> bool {
        let Manner { around, dirt } = self.manner;
        let after = &self.all[self.all.len() - around..];
        let mut borders = (0..).zip(self.all[..around].iter().chain(after));
        borders.all(|(place, &unit)| unit == border(dirt, place))
    }

    /// For the self-test: the block as it would be if a call wrote there.
    pub fn write_beyond(&mut self, unit: T) {
        let after = self.all.len() - self.manner.around;
        self.all[after] = unit;
    }
}

/// What is lent, before the call: mostly anything, but also nothing or little
/// other than zeros, and words that look like facts.
fn dirty<T: Unit>(dirt: u64, place: usize) -> T {
    let word = word_at(dirt, place);
    T::of(match dirt % 8 {
        0 => 0,
        1 if !word.is_multiple_of(64) => 0,
        2 if !word.is_multiple_of(1_024) => 0,
        3 => word & 0x0000_7020_4081_000F,
        _ => word,
    })
}

/// Never zero, which is what a call would most likely write there.
fn border<T: Unit>(dirt: u64, place: usize) -> T {
    T::of(!word_at(!dirt, place) | 1)
}

/// All that one call of the engine gave back.
#[derive(Clone, PartialEq, Eq)]
pub struct Answer {
    pub refusal: u64,
    /// Verdict, facts, rounds and lines.
    pub numbers: [Block; 4],
    /// Not lent where the question is about the whole pool.
    pub part: Block<u16>,
    pub table: Block,
    pub space: Block,
}

pub fn decide(about: About, input: &Input, sizes: Sizes, manner: Manner) -> Answer {
    let mut answer = Answer {
        refusal: 0,
        numbers: [0; 4].map(|_| Block::number(manner)),
        part: Block::number(manner),
        table: Block::new(sizes.lines, manner),
        space: Block::new(sizes.words, manner),
    };
    let numbers = answer.numbers.each_mut();
    answer.refusal = decide_on(
        about,
        input,
        answer.table.lent_mut(),
        answer.space.lent_mut(),
        numbers.map(|number| &mut number.lent_mut()[0]),
        &mut answer.part.lent_mut()[0],
    );
    answer
}

/// The refusal. Verdict, facts, rounds and lines go to the numbers.
pub fn decide_on(
    about: About,
    input: &Input,
    table: &mut [u64],
    space: &mut [u64],
    [verdict, facts, rounds, lines]: [&mut u64; 4],
    part: &mut u16,
) -> u64 {
    let (lent, words) = (table.len(), space.len());
    let (table, space) = (table.as_mut_ptr(), space.as_mut_ptr());
    match about {
        About::Whole => call!(
            shapes_decide,
            input,
            table,
            lent,
            space,
            words,
            verdict,
            facts,
            rounds,
            lines
        ),
        About::SomePart => call!(
            shapes_part,
            input,
            table,
            lent,
            space,
            words,
            verdict,
            part,
            facts,
            rounds,
            lines
        ),
    }
}

/// All that one call of the check gave back.
#[derive(Clone, PartialEq, Eq)]
pub struct Checked {
    pub refusal: u64,
    pub taken: Block,
    /// The unfolding after the call.
    pub words: Vec<u64>,
}

pub fn check_entry(part: Option<u16>) -> &'static str {
    match part {
        None => "shapes_check",
        Some(_) => "shapes_check_part",
    }
}

/// The check for this part, or for the whole pool.
pub fn check(part: Option<u16>, input: &Input, words: &[u64], manner: Manner) -> Checked {
    let words = words.to_vec();
    let (first, count) = (words.as_ptr(), words.len());
    let mut taken = Block::number(manner);
    let into = taken.lent_mut().as_mut_ptr();
    let refusal = match part {
        None => call!(shapes_check, input, first, count, into),
        Some(part) => call!(shapes_check_part, input, part, first, count, into),
    };
    Checked {
        refusal,
        taken,
        words,
    }
}

/// All that one call of the walk gave back.
#[derive(Clone)]
pub struct Walked {
    pub refusal: u64,
    pub verdict: Block,
    /// Book, snapshot and question after the call.
    pub input: Input,
}

pub fn walk(input: &Input, manner: Manner) -> Walked {
    let input = input.clone();
    let mut verdict = Block::number(manner);
    let refusal = walk_on(&input, &mut verdict.lent_mut()[0]);
    Walked {
        refusal,
        verdict,
        input,
    }
}

/// The refusal. The verdict goes to the number.
pub fn walk_on(input: &Input, verdict: &mut u64) -> u64 {
    call!(shapes_walk, input, verdict)
}
