//! Hands each input to the reference and to the proved program, and counts.

use crate::desk;
use crate::differences::{call, Call};
use crate::input::{hex, Input};
use crate::judge::{self, Expected, Table};
use crate::lent::{self, About, Answer, Manner, Sizes, MOST_LINES};
use crate::parts;
use crate::patience;
use crate::random::Dice;
use crate::sizes;
use crate::tally::Tally;
use crate::trying;
use crate::twins::{self, Replies};
use crate::unfoldings::{bytes_of, lines_of, words_of, Line};
use crate::walk;
use reference::api::{self, Outcome, PartReply, Reply, DESK_BYTES};
use std::path::PathBuf;
use std::time::{Duration, Instant};

/// After so many differences the rest would add nothing.
const MOST_DIFFERENCES: u64 = 5;

const PROGRESS_EVERY: Duration = Duration::from_secs(10);

/// One of so many inputs is asked with lent memory of other sizes as well.
const SIZES_SHARE: u64 = 2;

/// Of each kind that matters there must be so many inputs in a run of all.
const ENOUGH: u64 = 100;

/// For one of so many inputs the reference is asked for a part of its own.
const OWN_PART_SHARE: u64 = 4;

/// When to stop, for a run that has no end of its own.
#[derive(Clone, Copy)]
pub enum Limit {
    Inputs(u64),
    Time(Duration),
}

pub struct Comparer {
    program: Option<PathBuf>,
    /// One of so many of the engine's inputs also goes to the bench program: a
    /// process costs far more than a call.
    pub program_share: u64,
    /// Words around what is lent.
    around: usize,
    /// For the sizes of what is lent, and for what is in it.
    pub dice: Dice,
    /// One of so many turns is taken.
    thin: u64,
    turns: u64,
    decided: u64,
    /// Of the last walk.
    last_book: Vec<u8>,
    pub inputs: u64,
    pub differences: u64,
    pub tally: Tally,
    start: Instant,
    /// When to show progress next, if at all.
    progress: Option<Instant>,
}

/// What came of an input; nothing after a difference.
#[derive(Default)]
pub struct Decided {
    /// The reference's, unless that needs too long.
    pub reply: Option<Reply>,
    /// Where the pool fits: the reference's unfolding, and the engine's if it
    /// is another.
    pub unfoldings: Vec<Vec<Line>>,
    /// The parts that fit, by the reference.
    pub parts: Vec<u16>,
    /// Unfoldings of some of them that are not among the others: the engine's,
    /// and of some inputs the reference's.
    pub of_parts: Vec<Vec<Line>>,
}

impl Decided {
    pub fn all_unfoldings(self) -> Vec<Vec<Line>> {
        [self.unfoldings, self.of_parts].concat()
    }
}

/// What came of both questions on lent memory, without lines where nothing
/// fits.
struct Both {
    whole: Vec<Line>,
    parts: Vec<u16>,
    part: Vec<Line>,
}

impl Comparer {
    pub fn new(program: Option<PathBuf>, thin: u64, around: usize) -> Comparer {
        Comparer {
            program,
            program_share: u64::MAX,
            around,
            dice: Dice::new(0, 0),
            thin,
            turns: 0,
            decided: 0,
            last_book: Vec::new(),
            inputs: 0,
            differences: 0,
            tally: Tally::default(),
            start: Instant::now(),
            progress: None,
        }
    }

    pub fn show_progress(&mut self) {
        self.progress = Some(self.start + PROGRESS_EVERY);
    }

    pub fn reached(&self, limit: Limit) -> bool {
        match limit {
            Limit::Inputs(inputs) => self.inputs >= inputs,
            Limit::Time(time) => self.start.elapsed() >= time,
        }
    }

    /// Asked before each piece of work: whether it is to be done, in a run that
    /// does only some of all.
    pub fn takes_turn(&mut self) -> bool {
        self.turns += 1;
        self.turns.is_multiple_of(self.thin)
    }

    /// The engine: the desk's entry, and those on lent memory.
    pub fn decide(&mut self, input: &Input) -> Decided {
        let Some(outcome) = self.reference(input, Sizes::OWN) else {
            return Decided::default();
        };
        let reply = outcome.reply;
        self.desk_decide(input, reply);
        let both = self.lend_both(input, Sizes::OWN, reply, Table::of(&outcome));
        self.walk(input, Some(reply));
        self.counted();
        let Some(both) = both else {
            return Decided::default();
        };
        self.decided += 1;
        if self.decided.is_multiple_of(SIZES_SHARE) {
            let sizes = sizes::drawn(&mut self.dice, reply);
            self.decide_lent(input, sizes);
        }
        if self.decided.is_multiple_of(self.program_share) && !input.book.is_empty() {
            self.program_replies(&[&input.bench_bytes()], reply);
        }
        let mut unfoldings = vec![lines_of(&outcome.memory, reply.lines), both.whole];
        unfoldings.dedup();
        self.tally.lent.own_unfoldings += unfoldings.len() as u64 - 1;
        unfoldings.retain(|lines| !lines.is_empty());
        let mut of_parts = vec![both.part];
        if self.decided.is_multiple_of(OWN_PART_SHARE) {
            of_parts.push(self.reference_part(input, reply, &both.parts));
        }
        of_parts.dedup();
        of_parts.retain(|lines| !lines.is_empty() && !unfoldings.contains(lines));
        Decided {
            reply: Some(reply),
            unfoldings,
            parts: both.parts,
            of_parts,
        }
    }

    /// The reference's own answer about some part, which should be the first of
    /// those that fit. Gives its unfolding.
    fn reference_part(&mut self, input: &Input, reply: Reply, parts: &[u16]) -> Vec<Line> {
        let [book, snapshot, question] = input.sections();
        let Sizes { lines, words } = Sizes::OWN;
        let outcome = api::decide_part(book, snapshot, question, lines, words);
        let expected = PartReply {
            refusal: reply.refusal,
            verdict: !parts.is_empty() as u32,
            part: parts.first().copied().unwrap_or(0),
            facts: reply.facts,
            rounds: reply.rounds,
            lines: outcome.reply.lines,
        };
        if outcome.reply != expected {
            let what = "the reference's two questions";
            let wrong = format!("{:?}; should be {expected:?}", outcome.reply);
            self.wrong(call(what, input), &wrong);
        }
        lines_of(&outcome.memory, outcome.reply.lines)
    }

    /// The engine on an input whose reply is known from how it was made, so
    /// that the reference is tried as well.
    pub fn decide_known(&mut self, input: &Input, fits: bool) -> Decided {
        let decided = self.decide(input);
        if let Some(reply) = decided.reply {
            if reply.refusal != 11 && (reply.refusal, reply.verdict) != (0, fits as u32) {
                let what = "the reference and how the input was made";
                self.other_number(call(what, input), number(reply), fits as u64);
            }
        }
        decided
    }

    /// The engine on an input of which this part is known to fit.
    pub fn decide_with(&mut self, input: &Input, part: u16) -> Decided {
        let decided = self.decide(input);
        let answered = decided.reply.is_some_and(|reply| reply.refusal != 11);
        if answered && !decided.parts.contains(&part) {
            let what = "the reference and how the input was made";
            let wrong = format!("the part {part} is not among those that fit");
            self.wrong(call(what, input), &wrong);
        }
        decided
    }

    /// The engine on lent memory of these sizes. Gives the reference's reply,
    /// unless that needs too long.
    pub fn decide_lent(&mut self, input: &Input, sizes: Sizes) -> Option<Reply> {
        let outcome = self.reference(input, sizes)?;
        self.lend_both(input, sizes, outcome.reply, Table::of(&outcome));
        self.walk(input, Some(outcome.reply));
        self.tally.lent.other_sizes += 1;
        self.counted();
        Some(outcome.reply)
    }

    fn reference(&mut self, input: &Input, sizes: Sizes) -> Option<Outcome> {
        let before = Instant::now();
        let outcome = patience::outcome(input, sizes);
        match outcome {
            Some(_) => self.tally.reference.saw(before.elapsed(), input, sizes),
            None => self.tally.passed_over += 1,
        }
        outcome
    }

    fn desk_decide(&mut self, input: &Input, reply: Reply) {
        let lent = exact(input);
        let before = Instant::now();
        let answer = desk::decide(&lent.book, &lent.snapshot, &lent.question);
        self.tally.proved.saw(before.elapsed(), input, Sizes::OWN);
        let expected = number(reply);
        self.tally.engine[expected as usize] += 1;
        if answer != expected {
            self.other_number(call("desk_decide", input), expected, answer);
        }
        self.unchanged(input, &lent);
    }

    /// Both questions, on memory of these sizes. The one about some part leaves
    /// the same table, where the reference finds the parts that fit. Nothing
    /// comes of answers that are wrong.
    fn lend_both(
        &mut self,
        input: &Input,
        sizes: Sizes,
        reply: Reply,
        table: Table,
    ) -> Option<Both> {
        let (answer, whole) = self.lend(input, sizes, &Expected::whole(reply, table))?;
        let words = answer.table.lent();
        let parts = parts::fitting(input, &words[..reply.facts]);
        self.whole_among(input, reply, &parts);
        self.one_part_each(input, &words[..reply.facts]);
        let table = match table {
            Table::AsFound => Table::AsFound,
            _ => Table::Words(words),
        };
        let expected = Expected::some_part(reply, table, &parts);
        let (answer, part) = self.lend(input, sizes, &expected)?;
        let (every, returned) = (parts::every_record(input), answer.part.lent()[0]);
        self.tally.parts.saw(reply, &parts, every, returned);
        self.tally.constants.saw(input, reply, &parts);
        self.tally.nils.saw(input, reply);
        Some(Both { whole, parts, part })
    }

    /// The whole pool fits exactly if it is one of the parts that do.
    fn whole_among(&mut self, input: &Input, reply: Reply, parts: &[u16]) {
        let among = parts.contains(&parts::every_record(input));
        if among != (reply.verdict == 1) {
            let what = "the reference's verdict and its parts";
            self.other_number(call(what, input), number(reply), among as u64);
        }
    }

    /// For a plain book, no predicate with the same values has two parts.
    fn one_part_each(&mut self, input: &Input, facts: &[u64]) {
        if walk::one_part_each(facts) {
            return;
        }
        if api::plain_book(&input.book) == Ok(true) {
            let what = "the facts of a plain book";
            let wrong = "two of them differ in their records alone";
            self.wrong(call(what, input), wrong);
        }
    }

    /// Lends memory of these sizes, and looks at all of it after the call.
    /// Gives the answer if it is right, and the engine's unfolding, which the
    /// check must take as well.
    fn lend(
        &mut self,
        input: &Input,
        sizes: Sizes,
        expected: &Expected,
    ) -> Option<(Answer, Vec<Line>)> {
        let about = expected.about();
        let lent = exact(input);
        let manner = self.manner();
        let before = Instant::now();
        let answer = lent::decide(about, &lent, sizes, manner);
        self.tally.proved.saw(before.elapsed(), input, sizes);
        self.tally.lent.calls += 1;
        let right = match judge::decided(input, expected, &answer) {
            Ok(lines) => {
                let by_words = matches!(expected.table, Table::Words(_));
                self.tally.lent.saw(expected.reply, by_words);
                self.check_own(about, &lent, &answer, &lines);
                Some((answer, lines))
            }
            Err(wrong) => {
                let call = call(about.entry(), input);
                self.wrong(call.lent(sizes, manner.dirt), &wrong);
                None
            }
        };
        self.unchanged(input, &lent);
        right
    }

    /// The engine's unfolding, which the reference took: for the part that it
    /// was returned with, and for some other.
    fn check_own(&mut self, about: About, input: &Input, answer: &Answer, lines: &[Line]) {
        if lines.is_empty() {
            return;
        }
        let words = lines.concat();
        if about == About::Whole {
            self.check_words(None, input, &words, (0, 1));
            return;
        }
        let part = answer.part.lent()[0];
        self.check_words(Some(part), input, &words, (0, 1));
        let other = parts::other(&mut self.dice, part, parts::every_record(input));
        let expected = judge::reference_check(Some(other), input, &words);
        self.check_words(Some(other), input, &words, expected);
        self.tally.parts.not_for_another += (expected.1 == 0) as u64;
    }

    /// The walk, and not the engine.
    pub fn walk_alone(&mut self, input: &Input) {
        self.walk(input, None);
        self.counted();
    }

    /// The walk, on an input to which the engine replies so if it was asked.
    fn walk(&mut self, input: &Input, reply: Option<Reply>) {
        let manner = self.manner();
        let before = Instant::now();
        let walked = lent::walk(input, manner);
        self.tally.walk.saw(before.elapsed(), input, Sizes::OWN);
        let expected = match reply {
            Some(reply) => walk::Expected::of(input, reply),
            None => walk::Expected::without_engine(input),
        };
        match walk::judged(input, &expected, &walked) {
            Ok(yes) => {
                self.tally.walks.saw(&expected, yes);
                self.tally.constants.walked(input, &expected, yes);
                self.tried(input, &expected);
            }
            Err(wrong) => {
                let call = call("shapes_walk", input);
                self.wrong(call.lent(Sizes::OWN, manner.dirt), &wrong);
            }
        }
    }

    /// The book by the reference's trying, unless it is that of the last walk.
    fn tried(&mut self, input: &Input, expected: &walk::Expected) {
        if expected.faults.is_none() || input.book == self.last_book {
            return;
        }
        self.last_book = input.book.clone();
        let tried = trying::faults(&input.book);
        if tried.is_some() && tried != expected.faults {
            let what = "the reference's two ways to see that a book is plain";
            let wrong = format!("{:?} and {tried:?}", expected.faults);
            self.wrong(call(what, input), &wrong);
        }
        let tried = tried.is_some();
        self.tally.books.saw(input, expected, tried);
    }

    /// Dirt of any kind.
    pub fn manner(&mut self) -> Manner {
        Manner {
            around: self.around,
            dirt: self.dice.word(),
        }
    }

    fn unchanged(&mut self, input: &Input, lent: &Input) {
        if input != lent {
            self.wrong(call("a call", input), "book, snapshot or question changed");
        }
    }

    /// The check: the desk's entry, and those that get words.
    pub fn check(&mut self, input: &Input, unfolding: &[u8]) {
        let lent = exact(input);
        let [book, snapshot, question] = lent.sections();
        let exact = &unfolding.to_vec()[..];
        let expected = api::desk_check(book, snapshot, question, exact) as u64;
        let answer = desk::check(book, snapshot, question, exact);
        match expected {
            0 => self.tally.not_taken += 1,
            1 => {
                self.tally.taken += 1;
                self.tally.constants.took(input);
            }
            _ => self.tally.check_refused += 1,
        }
        if answer != expected {
            let call = call("desk_check", input).with(unfolding);
            self.other_number(call, expected, answer);
        }
        self.check_parts(&lent, unfolding, expected);
        self.unchanged(input, &lent);
        self.counted();
    }

    /// An unfolding that is right, by how it was made.
    pub fn check_taken(&mut self, input: &Input, unfolding: &[u8]) {
        let before = self.tally.taken;
        self.check(input, unfolding);
        if self.tally.taken == before {
            let what = "the reference and how the unfolding was made";
            self.wrong(call(what, input).with(unfolding), "it is not taken");
        }
    }

    /// As the desk's entry, but with no limit of its own, and a rest that is no
    /// word is left out. With every record for a part it should come to the
    /// same; and then two more parts.
    fn check_parts(&mut self, input: &Input, unfolding: &[u8], of_desk: u64) {
        let words = words_of(unfolding);
        let of_whole = if unfolding.len() <= DESK_BYTES && unfolding.len().is_multiple_of(8) {
            ((of_desk / 2) as u32, (of_desk % 2) as u32)
        } else {
            judge::reference_check(None, input, &words)
        };
        let every = parts::every_record(input);
        let last = parts::of_last_line(&words);
        self.check_words(None, input, &words, of_whole);
        self.check_words(Some(every), input, &words, of_whole);
        for part in [last, parts::other(&mut self.dice, last, every)] {
            if part != every {
                let expected = judge::reference_check(Some(part), input, &words);
                self.check_words(Some(part), input, &words, expected);
            }
        }
    }

    /// The check for this part, or for the whole pool.
    fn check_words(
        &mut self,
        part: Option<u16>,
        input: &Input,
        words: &[u64],
        expected: (u32, u32),
    ) {
        let manner = self.manner();
        let checked = lent::check(part, input, words, manner);
        match part {
            None => self.tally.lent.checked(expected.1),
            Some(part) => {
                let every = parts::every_record(input);
                self.tally.parts.checked(part, every, expected.1);
            }
        }
        if let Err(wrong) = judge::checked(expected, words, &checked) {
            let unfolding = bytes_of(words);
            let call = call(lent::check_entry(part), input).with(&unfolding);
            let call = call.part(part).lent(Sizes::OWN, manner.dirt);
            self.wrong(call, &wrong);
        }
    }

    /// The proved program on another spelling of an input that it gave all this
    /// back for.
    pub fn spelt(&mut self, input: &Input, asked: &twins::Asked, zeros: &Replies) {
        let lent = exact(input);
        let given = Replies::of(&lent, asked);
        match zeros.same(&given) {
            Ok(()) => self.tally.nils.compared(given.refusal(), given.fits()),
            Err(wrong) => {
                let unfolding = bytes_of(&asked.words);
                let call = call("both spellings of nil", input).with(&unfolding);
                let call = call.part(Some(asked.part));
                self.wrong(call.lent(asked.sizes, asked.manner.dirt), &wrong);
            }
        }
        self.unchanged(input, &lent);
        self.counted();
    }

    /// An input whose reply was kept, since the reference may need long for it,
    /// with the fingerprint of the table.
    pub fn kept(&mut self, input: &Input, reply: Reply, print: u64) {
        self.desk_decide(input, reply);
        self.lend_both(input, Sizes::OWN, reply, Table::Kept(print));
        self.walk(input, Some(reply));
        self.counted();
        if reply.facts > 1 {
            let full = Reply {
                refusal: 11,
                ..Reply::default()
            };
            let nothing = Table::Kept(judge::fingerprint(&[]));
            self.lend_both(input, Sizes::of(reply.facts), reply, Table::Kept(print));
            self.lend_both(input, Sizes::of(reply.facts - 1), full, nothing);
            self.lend_both(input, Sizes::of(MOST_LINES), reply, Table::Kept(print));
        }
        self.program_replies(&[&input.bench_bytes()], reply);
    }

    /// The same for an input with a reply for the longest table, asked there alone.
    pub fn kept_long(&mut self, input: &Input, reply: Reply, print: u64) {
        self.lend_both(input, Sizes::of(MOST_LINES), reply, Table::Kept(print));
        self.walk(input, Some(reply));
        self.counted();
    }

    /// The bench program, by what it prints.
    pub fn program(&mut self, bytes: &[u8]) {
        self.program_in_pieces(&[bytes]);
    }

    /// The same with the input handed over bit by bit.
    pub fn program_in_pieces(&mut self, pieces: &[&[u8]]) {
        if self.program.is_some() {
            let bytes = pieces.concat();
            let reply = api::bench_reply(&bytes);
            self.walk(&Input::of_program(&bytes), Some(reply));
            self.program_replies(pieces, reply);
        }
    }

    fn program_replies(&mut self, pieces: &[&[u8]], reply: Reply) {
        let Some(program) = &self.program else {
            return;
        };
        let printed = match desk::bench_program(program, pieces) {
            Ok(printed) => printed,
            Err(error) => {
                eprintln!("{}: {error}", program.display());
                std::process::exit(2);
            }
        };
        let text = String::from_utf8_lossy(&printed.text).into_owned();
        if !printed.success || !line_agrees(reply, &text) {
            println!("difference: the bench program");
            println!("  input     {}", hex(&pieces.concat()));
            println!("  reference {}", api::bench_line(reply).trim_end());
            println!("  proved    {text:?}");
            self.one_more_difference();
        }
        self.tally.program += 1;
        self.counted();
    }

    fn counted(&mut self) {
        self.inputs += 1;
        // The clock is read now and then only.
        if self.inputs.is_multiple_of(64) && self.progress.is_some_and(|at| at <= Instant::now()) {
            let seconds = self.start.elapsed().as_secs();
            eprintln!("{seconds} s, {}", self.summary());
            self.progress = Some(Instant::now() + PROGRESS_EVERY);
        }
    }

    fn other_number(&mut self, call: Call, expected: u64, answer: u64) {
        call.print();
        println!("  reference {}", number_line(expected));
        println!("  proved    {}", number_line(answer));
        self.one_more_difference();
    }

    fn wrong(&mut self, call: Call, wrong: &str) {
        call.print();
        println!("  wrong     {wrong}");
        self.one_more_difference();
    }

    fn one_more_difference(&mut self) {
        println!("  after     {} inputs", self.inputs);
        self.differences += 1;
        if self.differences == MOST_DIFFERENCES {
            println!("{}", self.summary());
            std::process::exit(1);
        }
    }

    /// Kinds of input of which a run of all pools had too few.
    pub fn missing(&self) -> Vec<&'static str> {
        self.tally.missing((ENOUGH / self.thin).max(1))
    }

    pub fn summary(&self) -> String {
        format!(
            "compared {} inputs, {} differences",
            self.inputs, self.differences
        )
    }
}

/// The same input in blocks of just its size, so that a memory checker sees a
/// read past the end.
fn exact(input: &Input) -> Input {
    input.clone()
}

/// The number that the engine's entry gives for a reply.
pub fn number(reply: Reply) -> u64 {
    2 * reply.refusal as u64 + reply.verdict as u64
}

/// What an entry's number says.
pub fn number_line(number: u64) -> String {
    format!("{number} (refusal {} and {})", number / 2, number % 2)
}

/// Whether the line is a right one where the reference gives this reply.
fn line_agrees(reply: Reply, text: &str) -> bool {
    let last = text.trim_end_matches('\n').rsplit(' ').next();
    let Some(lines) = last.and_then(|word| word.parse().ok()) else {
        return false;
    };
    judge::lines_agree(reply, lines) && text == api::bench_line(Reply { lines, ..reply })
}
