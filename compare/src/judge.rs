//! Whether what a call gave back is right, down to the last word of the memory
//! it was lent.

use crate::input::Input;
use crate::lent::{About, Answer, Block, Checked};
use crate::unfoldings::{called_line, lines_of_words, Line};
use reference::api::{self, Outcome, Reply};
use std::collections::HashSet;

/// What a call of the engine should give.
pub struct Expected<'a> {
    pub reply: Reply,
    pub table: Table<'a>,
    /// The parts that fit, where the question was whether some part does.
    pub parts: Option<&'a [u16]>,
}

impl<'a> Expected<'a> {
    pub fn whole(reply: Reply, table: Table<'a>) -> Expected<'a> {
        Expected {
            reply,
            table,
            parts: None,
        }
    }

    /// About some part, where these fit: all but the verdict is as for the
    /// whole pool.
    pub fn some_part(whole: Reply, table: Table<'a>, parts: &'a [u16]) -> Expected<'a> {
        let verdict = !parts.is_empty() as u32;
        Expected {
            reply: Reply { verdict, ..whole },
            table,
            parts: Some(parts),
        }
    }

    pub fn about(&self) -> About {
        match self.parts {
            None => About::Whole,
            Some(_) => About::SomePart,
        }
    }
}

/// What the table should be.
#[derive(Clone, Copy)]
pub enum Table<'a> {
    /// What it was before, and so should the space be.
    AsFound,
    Words(&'a [u64]),
    /// Facts with this fingerprint, and then zeros.
    Kept(u64),
}

impl Table<'_> {
    pub fn of(outcome: &Outcome) -> Table<'_> {
        match &outcome.memory {
            None => Table::AsFound,
            Some(memory) => Table::Words(&memory.table),
        }
    }

    /// The facts that are known by their words, of so many as the reply says.
    pub fn facts(&self, reply: Reply) -> &[u64] {
        match self {
            Table::Words(words) => &words[..reply.facts],
            _ => &[],
        }
    }

    fn agrees(&self, answer: &Answer) -> Result<(), String> {
        let table = answer.table.lent();
        match self {
            Table::AsFound => {
                let right = answer.table.is_as_found() && answer.space.is_as_found();
                says(right, "the memory is not as found")
            }
            Table::Words(words) => same_words(words, table),
            Table::Kept(print) => {
                let (facts, rest) = table.split_at(answer.numbers[1].lent()[0] as usize);
                let right = fingerprint(facts) == *print && is_zero(rest);
                says(right, "not the facts that were kept")
            }
        }
    }
}

/// Depends on every word and on the order.
pub fn fingerprint(words: &[u64]) -> u64 {
    let step = |print: u64, word: &u64| (print ^ word).wrapping_mul(0x0000_0100_0000_01B3);
    words.iter().fold(0xCBF2_9CE4_8422_2325, step)
}

fn is_zero(words: &[u64]) -> bool {
    words.iter().all(|&word| word == 0)
}

pub fn says(right: bool, wrong: &str) -> Result<(), String> {
    match right {
        true => Ok(()),
        false => Err(wrong.into()),
    }
}

/// Gives the engine's unfolding, without lines if there is none, or what is
/// wrong.
pub fn decided(input: &Input, expected: &Expected, answer: &Answer) -> Result<Vec<Line>, String> {
    numbers(expected.reply, answer)?;
    borders(answer)?;
    part(expected, answer)?;
    expected.table.agrees(answer)?;
    if matches!(expected.table, Table::AsFound) {
        return Ok(Vec::new());
    }
    let (written, rest) = answer.space.lent().split_at(3 * written_lines(answer));
    says(is_zero(rest), "the space is not 0 after the last line")?;
    let part = expected.parts.map(|_| answer.part.lent()[0]);
    unfolding(input, part, written)
}

/// Any part that fits will do; without one it is 0.
fn part(expected: &Expected, answer: &Answer) -> Result<(), String> {
    let Some(parts) = expected.parts else {
        return Ok(());
    };
    let part = answer.part.lent()[0];
    if parts.contains(&part) || parts.is_empty() && part == 0 {
        return Ok(());
    }
    let (count, some) = (parts.len(), &parts[..parts.len().min(SHOWN_PARTS)]);
    Err(format!("the part is {part}; {count} fit, first {some:?}"))
}

/// Of the parts that fit, so many are shown with a difference.
const SHOWN_PARTS: usize = 4;

fn written_lines(answer: &Answer) -> usize {
    answer.numbers[3].lent()[0] as usize
}

/// How many lines the unfolding has is the program's choice, but on a fit
/// there is at least one, and no fact stands in it twice.
pub fn lines_agree(reply: Reply, lines: usize) -> bool {
    match reply.verdict {
        1 => (1..=reply.facts).contains(&lines),
        _ => lines == 0,
    }
}

fn numbers(expected: Reply, answer: &Answer) -> Result<(), String> {
    let [verdict, facts, rounds, lines] = answer.numbers.each_ref().map(|number| number.lent()[0]);
    let given = [answer.refusal, verdict, facts, rounds];
    let wanted = [
        expected.refusal as u64,
        expected.verdict as u64,
        expected.facts as u64,
        expected.rounds as u64,
    ];
    let right = given == wanted && lines_agree(expected, lines as usize);
    let wrong = format!(
        "refusal, verdict, facts, rounds are {given:?}; should be {wanted:?}; lines are {lines}"
    );
    says(right, &wrong)
}

fn borders(answer: &Answer) -> Result<(), String> {
    let lent = [&answer.table, &answer.space];
    let mut blocks = lent.into_iter().chain(&answer.numbers);
    let kept = blocks.all(Block::kept_to_itself) && answer.part.kept_to_itself();
    says(kept, "a word beside the lent memory was written")
}

fn same_words(expected: &[u64], given: &[u64]) -> Result<(), String> {
    let Some(at) = (0..expected.len()).find(|&at| given[at] != expected[at]) else {
        return Ok(());
    };
    let (given, expected) = (given[at], expected[at]);
    Err(format!(
        "table word {at} is {given:#x}; should be {expected:#x}"
    ))
}

/// What the engine's unfolding has beyond what the check asks: its facts differ,
/// and a later line calls every line before the last.
fn unfolding(input: &Input, part: Option<u16>, words: &[u64]) -> Result<Vec<Line>, String> {
    let lines = lines_of_words(words);
    if lines.is_empty() {
        return Ok(lines);
    }
    let taken = reference_check(part, input, words) == (0, 1);
    says(taken, "the reference does not take the unfolding")?;
    let mut facts = HashSet::new();
    let once = lines.iter().all(|line| facts.insert(line[0]));
    says(once, "a fact stands in the unfolding twice")?;
    // The check was passed, so a called line is an earlier one.
    let mut called = vec![false; lines.len()];
    for line in &lines {
        for index in 0..3 {
            match called_line(line, index) as usize {
                0 => {}
                number => called[number - 1] = true,
            }
        }
    }
    let all = called.iter().rev().skip(1).all(|&called| called);
    says(all, "a line of the unfolding is not called")?;
    Ok(lines)
}

/// What the reference's check says: refusal, and 1 if taken.
pub fn reference_check(part: Option<u16>, input: &Input, words: &[u64]) -> (u32, u32) {
    let [book, snapshot, question] = input.sections();
    match part {
        None => api::check(book, snapshot, question, words),
        Some(part) => api::check_part(book, snapshot, question, part, words),
    }
}

/// Refusal and 1 if taken, and nothing else.
pub fn checked(expected: (u32, u32), words: &[u64], checked: &Checked) -> Result<(), String> {
    let given = (checked.refusal, checked.taken.lent()[0]);
    if given != (expected.0 as u64, expected.1 as u64) {
        return Err(format!(
            "refusal {} taken {}; should be {} and {}",
            given.0, given.1, expected.0, expected.1
        ));
    }
    let kept = checked.taken.kept_to_itself() && checked.words == words;
    says(kept, "a word was written that should stay")
}
