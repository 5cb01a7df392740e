//! The public calls: engine and check, about the whole pool or some part of it,
//! the walk, the two desk entries, and the bench program.

use crate::domain::Domain;
use crate::fixpoint::{self, Facts};
use crate::formats::{self, Problem, Refusal};
use crate::plain::{self, Fault};
use crate::{certificate, check as conditions, fact, verdict, walk as downwards};

#[derive(Clone, Copy, Debug, Default, PartialEq, Eq)]
pub struct Reply {
    pub refusal: u32,
    pub verdict: u32,
    pub facts: usize,
    pub rounds: usize,
    pub lines: usize,
}

/// The reply about some part.
#[derive(Clone, Copy, Debug, Default, PartialEq, Eq)]
pub struct PartReply {
    pub refusal: u32,
    pub verdict: u32,
    /// Bit i for record i. With verdict 1, 0 is the empty part.
    pub part: u16,
    pub facts: usize,
    pub rounds: usize,
    pub lines: usize,
}

impl PartReply {
    fn refused(refusal: Refusal) -> PartReply {
        PartReply {
            refusal: refusal.number(),
            ..PartReply::default()
        }
    }

    fn without_part(self) -> Reply {
        Reply {
            refusal: self.refusal,
            verdict: self.verdict,
            facts: self.facts,
            rounds: self.rounds,
            lines: self.lines,
        }
    }
}

/// The two lent memories in full, as they are after a call that wrote them.
#[derive(Clone, Debug, PartialEq, Eq)]
pub struct Memory {
    pub table: Vec<u64>,
    pub space: Vec<u64>,
}

impl Memory {
    fn copy_to(&self, table: &mut [u64], space: &mut [u64]) {
        table.copy_from_slice(&self.table);
        space.copy_from_slice(&self.space);
    }
}

#[derive(Clone, Debug, PartialEq, Eq)]
pub struct Outcome {
    pub reply: Reply,
    /// Nothing if the memory was left as found (refusals 1 to 10).
    pub memory: Option<Memory>,
}

#[derive(Clone, Debug, PartialEq, Eq)]
pub struct PartOutcome {
    pub reply: PartReply,
    /// As for the whole pool.
    pub memory: Option<Memory>,
}

const MAX_LINES: usize = 65_535;

/// The engine, given the sizes of the lent memory instead of the memory.
pub fn decide(
    book: &[u8],
    snapshot: &[u8],
    question: &[u8],
    table_lines: usize,
    space_words: usize,
) -> Outcome {
    let whole = |problem: &Problem, domain: &Domain, facts: &Facts| {
        verdict::fits(problem, domain, facts).then(|| fact::all_records(problem))
    };
    let outcome = run(book, snapshot, question, table_lines, space_words, whole);
    Outcome {
        reply: outcome.reply.without_part(),
        memory: outcome.memory,
    }
}

/// The engine about some part: of those that fit, the one with the smallest
/// number.
pub fn decide_part(
    book: &[u8],
    snapshot: &[u8],
    question: &[u8],
    table_lines: usize,
    space_words: usize,
) -> PartOutcome {
    let some = |problem: &Problem, domain: &Domain, facts: &Facts| {
        let parts = verdict::fitting_parts(problem, domain, &facts.table);
        parts.first().copied()
    };
    run(book, snapshot, question, table_lines, space_words, some)
}

/// What both have in common. They differ only in the part they choose, if any,
/// once all facts are there.
fn run(
    book: &[u8],
    snapshot: &[u8],
    question: &[u8],
    table_lines: usize,
    space_words: usize,
    choose: impl Fn(&Problem, &Domain, &Facts) -> Option<u16>,
) -> PartOutcome {
    let as_found = |refusal| PartOutcome {
        reply: PartReply::refused(refusal),
        memory: None,
    };
    let problem = match formats::read(book, snapshot, question) {
        Ok(problem) => problem,
        Err(refusal) => return as_found(refusal),
    };
    // The upper end is looked at first, so the product stays small.
    if table_lines == 0 || table_lines > MAX_LINES || space_words != 3 * table_lines {
        return as_found(Refusal::Space);
    }
    let mut memory = Memory {
        table: vec![0; table_lines],
        space: vec![0; space_words],
    };
    let domain = Domain::of(&problem);
    let Some(facts) = fixpoint::facts(&problem, &domain, table_lines) else {
        return PartOutcome {
            reply: PartReply::refused(Refusal::TableFull),
            memory: Some(memory),
        };
    };
    memory.table[..facts.table.len()].copy_from_slice(&facts.table);
    let mut reply = PartReply {
        facts: facts.table.len(),
        rounds: facts.rounds,
        ..PartReply::default()
    };
    if let Some(part) = choose(&problem, &domain, &facts) {
        let words = certificate::build_part(&problem, &domain, &facts, part);
        let words = words.expect("a fit has grounds");
        memory.space[..words.len()].copy_from_slice(&words);
        reply.verdict = 1;
        reply.part = part;
        reply.lines = words.len() / 3;
    }
    PartOutcome {
        reply,
        memory: Some(memory),
    }
}

/// The engine on lent memory.
pub fn decide_lent(
    book: &[u8],
    snapshot: &[u8],
    question: &[u8],
    table: &mut [u64],
    space: &mut [u64],
) -> Reply {
    let outcome = decide(book, snapshot, question, table.len(), space.len());
    if let Some(memory) = outcome.memory {
        memory.copy_to(table, space);
    }
    outcome.reply
}

/// The engine about some part, on lent memory.
pub fn decide_part_lent(
    book: &[u8],
    snapshot: &[u8],
    question: &[u8],
    table: &mut [u64],
    space: &mut [u64],
) -> PartReply {
    let outcome = decide_part(book, snapshot, question, table.len(), space.len());
    if let Some(memory) = outcome.memory {
        memory.copy_to(table, space);
    }
    outcome.reply
}

/// Refusal (0 to 9), and 1 if the unfolding is taken.
pub fn check(book: &[u8], snapshot: &[u8], question: &[u8], words: &[u64]) -> (u32, u32) {
    match formats::read(book, snapshot, question) {
        Ok(problem) => (0, conditions::takes(&problem, words) as u32),
        Err(refusal) => (refusal.number(), 0),
    }
}

/// The same for an unfolding that should end in this part.
pub fn check_part(
    book: &[u8],
    snapshot: &[u8],
    question: &[u8],
    part: u16,
    words: &[u64],
) -> (u32, u32) {
    match formats::read(book, snapshot, question) {
        Ok(problem) => (0, conditions::takes_part(&problem, part, words) as u32),
        Err(refusal) => (refusal.number(), 0),
    }
}

/// The walk's reply.
#[derive(Clone, Copy, Debug, Default, PartialEq, Eq)]
pub struct WalkReply {
    pub refusal: u32,
    pub verdict: u32,
}

/// The walk: no memory is lent, so after 1 to 9 there is only 12, the book is
/// not plain.
pub fn walk(book: &[u8], snapshot: &[u8], question: &[u8]) -> WalkReply {
    let problem = formats::read(book, snapshot, question);
    match problem.and_then(|problem| downwards::fits(&problem)) {
        Ok(fits) => WalkReply {
            refusal: 0,
            verdict: fits as u32,
        },
        Err(refusal) => WalkReply {
            refusal: refusal.number(),
            verdict: 0,
        },
    }
}

/// Whether a book is plain, or its refusal (1 to 4).
pub fn plain_book(book: &[u8]) -> Result<bool, u32> {
    plain_faults(book).map(|faults| faults.is_empty())
}

/// All that keeps a book from being plain, or its refusal (1 to 4).
pub fn plain_faults(book: &[u8]) -> Result<Vec<Fault>, u32> {
    match formats::read_rule_set(book) {
        Ok(rules) => Ok(plain::faults(&rules)),
        Err(refusal) => Err(refusal.number()),
    }
}

/// Lines lent by the desk's engine entry and by the bench program.
pub const OWN_LINES: usize = 1_024;

/// Most bytes the desk's check entry takes.
pub const DESK_BYTES: usize = 24_576;

pub fn desk_engine(book: &[u8], snapshot: &[u8], question: &[u8]) -> u32 {
    let reply = decide(book, snapshot, question, OWN_LINES, 3 * OWN_LINES).reply;
    2 * reply.refusal + reply.verdict
}

pub fn desk_check(book: &[u8], snapshot: &[u8], question: &[u8], unfolding: &[u8]) -> u32 {
    if let Err(refusal) = formats::read(book, snapshot, question) {
        return 2 * refusal.number();
    }
    if unfolding.len() > DESK_BYTES || !unfolding.len().is_multiple_of(8) {
        return 0;
    }
    let words: Vec<u64> = unfolding
        .chunks(8)
        .map(|eight| {
            let mut word = 0;
            for (index, &byte) in eight.iter().enumerate() {
                word |= (byte as u64) << (8 * index);
            }
            word
        })
        .collect();
    let (refusal, taken) = check(book, snapshot, question, &words);
    2 * refusal + taken
}

/// Most bytes the bench program reads.
pub const BENCH_BYTES: usize = 4_096;

/// The house rule set: segment, ring, queue with free chain.
pub const HOUSE: [u8; 47] = [
    0x03, 0x02, 0x01, 0x02, 0x00, 0x04, // predicates, no constants, number of rules
    0x00, 0x00, 0x01, 0x00, 0x00, 0x01, 0x00, 0x00, // segment: empty
    0x00, 0x01, 0x00, 0x01, 0x00, 0x01, 0x02, 0x01, 0x00, 0x02, 0x01, // segment: one more
    0x01, 0x01, 0x00, 0x01, 0x00, 0x01, 0x01, 0x01, 0x00, 0x01, 0x00, // ring
    0x02, 0x00, 0x00, 0x00, 0x02, 0x00, 0x00, 0xFF, 0x00, 0x01, 0xFF, // queue and free
];

/// Book, snapshot and question as they stand in the bench input.
pub fn bench_parts(input: &[u8]) -> [&[u8]; 3] {
    let mut rest = &input[..input.len().min(BENCH_BYTES)];
    let mut parts: [&[u8]; 3] = [&[]; 3];
    for part in &mut parts {
        let low = rest.first().copied().unwrap_or(0) as usize;
        let high = rest.get(1).copied().unwrap_or(0) as usize;
        rest = &rest[rest.len().min(2)..];
        let length = (low + 256 * high).min(rest.len());
        (*part, rest) = rest.split_at(length);
    }
    parts
}

/// The bench program's reply to its input.
pub fn bench_reply(input: &[u8]) -> Reply {
    let [book, snapshot, question] = bench_parts(input);
    let book = if book.is_empty() { &HOUSE } else { book };
    decide(book, snapshot, question, OWN_LINES, 3 * OWN_LINES).reply
}

/// A reply as the bench program prints it, newline included.
pub fn bench_line(reply: Reply) -> String {
    format!(
        "refusal {} verdict {} facts {} rounds {} lines {}\n",
        reply.refusal, reply.verdict, reply.facts, reply.rounds, reply.lines
    )
}

/// From standard input's bytes to standard output's.
pub fn bench(input: &[u8]) -> String {
    bench_line(bench_reply(input))
}
