//! Whether an answer of the walk is right: by the reference's walk, by the
//! engine's verdict, and by the parts that fit.

use crate::input::Input;
use crate::judge::says;
use crate::lent::Walked;
use reference::api::{self, Reply, WalkReply};
use reference::formats;
use reference::plain::Fault;
use reference::walk;

/// What the engine says of the whole pool.
#[derive(Clone, Copy, Debug, PartialEq, Eq)]
pub enum Engine {
    NotAsked,
    Refuses,
    Says(bool),
}

/// What the reference knows of an input before it is walked.
pub struct Expected {
    pub reply: WalkReply,
    /// What keeps the book from being plain, where it can be read.
    pub faults: Option<Vec<Fault>>,
    /// The parts that fit, where there is a verdict.
    pub parts: Option<Vec<u16>>,
    pub engine: Engine,
}

impl Expected {
    /// Of an input to which the engine replies so, on memory of any size.
    pub fn of(input: &Input, reply: Reply) -> Expected {
        let engine = match reply.refusal {
            0 => Engine::Says(reply.verdict == 1),
            _ => Engine::Refuses,
        };
        Expected {
            engine,
            ..Expected::without_engine(input)
        }
    }

    pub fn without_engine(input: &Input) -> Expected {
        let [book, snapshot, question] = input.sections();
        let problem = formats::read(book, snapshot, question).ok();
        Expected {
            reply: api::walk(book, snapshot, question),
            faults: api::plain_faults(book).ok(),
            parts: problem.and_then(|problem| walk::fitting_parts(&problem).ok()),
            engine: Engine::NotAsked,
        }
    }

    pub fn plain(&self) -> bool {
        self.faults.as_ref().is_some_and(Vec::is_empty)
    }

    /// The conditions that the book misses, 1 to 3, each once.
    pub fn missed(&self) -> Vec<usize> {
        let faults = self.faults.iter().flatten();
        let mut missed: Vec<usize> = faults.map(|fault| fault.condition()).collect();
        missed.sort();
        missed.dedup();
        missed
    }
}

/// Says whether it was a yes, or what is wrong.
pub fn judged(input: &Input, expected: &Expected, walked: &Walked) -> Result<bool, String> {
    let kept = walked.verdict.kept_to_itself();
    says(kept, "a word beside the verdict was written")?;
    let same = walked.input == *input;
    says(same, "book, snapshot or question changed")?;
    let WalkReply { refusal, verdict } = expected.reply;
    let given = (walked.refusal, walked.verdict.lent()[0]);
    let numbers = format!(
        "refusal {} and verdict {}; should be {refusal} and {verdict}; against the book {:?}",
        given.0, given.1, expected.faults
    );
    says(given == (refusal as u64, verdict as u64), &numbers)?;
    agreed(expected)?;
    Ok(verdict == 1)
}

/// What the reference says in other ways: a verdict is given exactly for a
/// plain book, it is the engine's, and at most one part fits.
fn agreed(expected: &Expected) -> Result<(), String> {
    let WalkReply { refusal, verdict } = expected.reply;
    let plain = expected.plain();
    let of_book = match refusal {
        0 => plain,
        1..=4 => expected.faults.is_none(),
        12 => !plain && expected.faults.is_some(),
        _ => expected.faults.is_some(),
    };
    let wrong = format!("refusal {refusal}, and plain is {plain}");
    says(of_book, &wrong)?;
    let other = Engine::Says(verdict == 0);
    let wrong = format!("verdict {verdict}, and the engine says another");
    says(refusal != 0 || expected.engine != other, &wrong)?;
    let parts = expected.parts.as_deref().unwrap_or_default();
    let wrong = format!("plain, and more than one part fits: {parts:?}");
    says(parts.len() <= 1, &wrong)
}

/// Whether no two facts differ in their records alone, as in every table of a
/// plain book.
pub fn one_part_each(facts: &[u64]) -> bool {
    let mut others: Vec<u64> = facts.iter().map(|fact| fact >> 16).collect();
    others.sort();
    others.windows(2).all(|two| two[0] != two[1])
}
