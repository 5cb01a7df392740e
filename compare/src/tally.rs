//! What the inputs were, for a reader who wants to know what was tried.

use crate::constant_use::{ConstantUse, Fault};
use crate::differences::call;
use crate::input::Input;
use crate::lent::Sizes;
use crate::nil_tally::Nils;
use crate::plain_tally::Books;
use crate::walk::{Engine, Expected};
use reference::api::{self, Reply};
use reference::domain::Domain;
use reference::formats;
use std::time::Duration;

#[derive(Default)]
pub struct Tally {
    /// Replies of the desk's engine entry: twice the refusal plus the verdict.
    pub engine: [u64; 24],
    pub taken: u64,
    pub not_taken: u64,
    pub check_refused: u64,
    pub program: u64,
    /// Inputs for which the reference needs too long.
    pub passed_over: u64,
    pub lent: Lent,
    pub parts: Parts,
    pub walks: Walks,
    pub books: Books,
    pub constants: Constants,
    pub nils: Nils,
    pub proved: Slowest,
    pub walk: Slowest,
    pub reference: Slowest,
}

/// Calls on lent memory.
#[derive(Default)]
pub struct Lent {
    pub calls: u64,
    /// Those with other sizes than the desk's.
    pub other_sizes: u64,
    /// Those that left a table of facts, all of which were looked at.
    tables: u64,
    unfoldings: u64,
    /// Inputs for which the engine's unfolding is not the reference's.
    pub own_unfoldings: u64,
    refusals: [u64; 12],
    checks: u64,
    taken: u64,
}

impl Lent {
    /// A call that gave what it should.
    pub fn saw(&mut self, reply: Reply, by_words: bool) {
        self.tables += (by_words && reply.refusal == 0) as u64;
        self.unfoldings += reply.verdict as u64;
        self.refusals[reply.refusal as usize] += 1;
    }

    pub fn checked(&mut self, taken: u32) {
        self.checks += 1;
        self.taken += taken as u64;
    }

    fn print(&self) {
        println!(
            "lent memory: {} calls, {} with other sizes, {} refusal 10, {} refusal 11; check: {}, {} taken",
            self.calls, self.other_sizes, self.refusals[10], self.refusals[11], self.checks, self.taken
        );
        println!(
            "{} tables the same word by word; {} unfoldings of the engine taken by the reference, whose own was another for {} inputs",
            self.tables, self.unfoldings, self.own_unfoldings
        );
    }
}

/// Questions about some part.
#[derive(Default)]
pub struct Parts {
    /// Right answers without a refusal, by what fits.
    none: u64,
    empty_alone: u64,
    proper_alone: u64,
    whole_alone: u64,
    several: u64,
    many: u64,
    /// Some part fits, and the whole pool does not.
    not_whole: u64,
    full_pool: u64,
    /// The same by the part returned.
    returned_empty: u64,
    returned_proper: u64,
    returned_whole: u64,
    /// Calls of the check with a part.
    checks: u64,
    taken_empty: u64,
    taken_proper: u64,
    /// An unfolding that is taken for its own part.
    pub not_for_another: u64,
    beyond: u64,
}

fn list(kinds: &[(&str, u64)]) -> String {
    let kinds = kinds.iter().map(|(kind, count)| format!("{kind} {count}"));
    kinds.collect::<Vec<_>>().join(", ")
}

/// So many fitting parts are many.
const MANY_PARTS: usize = 100;

impl Parts {
    /// A call that gave what it should: which parts fit, out of every record,
    /// and which was returned. The reply is that about the whole pool.
    pub fn saw(&mut self, reply: Reply, parts: &[u16], every: u16, returned: u16) {
        if reply.refusal != 0 || every == 0 {
            return;
        }
        let (none, one) = (parts.is_empty(), parts.len() == 1);
        let alone = |part: u16| one && parts[0] == part;
        self.none += none as u64;
        self.empty_alone += alone(0) as u64;
        self.whole_alone += alone(every) as u64;
        self.proper_alone += (one && !alone(0) && !alone(every)) as u64;
        self.several += (parts.len() > 1) as u64;
        self.many += (parts.len() > MANY_PARTS) as u64;
        self.not_whole += (!none && reply.verdict == 0) as u64;
        self.full_pool += (!none && every == u16::MAX) as u64;
        match returned {
            _ if none => {}
            0 => self.returned_empty += 1,
            part if part == every => self.returned_whole += 1,
            _ => self.returned_proper += 1,
        }
    }

    pub fn checked(&mut self, part: u16, every: u16, taken: u32) {
        self.checks += 1;
        self.beyond += (part & !every != 0) as u64;
        if taken == 1 && every != 0 {
            self.taken_empty += (part == 0) as u64;
            self.taken_proper += (part != 0 && part != every) as u64;
        }
    }

    /// What must have been asked, by what the reference finds: the program may
    /// return whichever part it likes.
    fn asked_kinds(&self) -> [(&'static str, u64); 8] {
        [
            ("no part fits", self.none),
            ("the empty part alone", self.empty_alone),
            ("one that is neither empty nor whole", self.proper_alone),
            ("the whole pool alone", self.whole_alone),
            ("several parts", self.several),
            ("over 100 parts", self.many),
            ("some part and not the whole pool", self.not_whole),
            ("some part of 16 records", self.full_pool),
        ]
    }

    /// The same of the check.
    fn checked_kinds(&self) -> [(&'static str, u64); 4] {
        [
            ("taken with the empty part", self.taken_empty),
            ("with one that is neither", self.taken_proper),
            ("with its own and not with another", self.not_for_another),
            ("bits beyond the records", self.beyond),
        ]
    }

    fn print(&self) {
        println!(
            "some part, of pools with records: {}",
            list(&self.asked_kinds())
        );
        println!(
            "part returned: {} empty, {} neither, {} the whole pool",
            self.returned_empty, self.returned_proper, self.returned_whole
        );
        println!(
            "check with a part: {}; {}",
            self.checks,
            list(&self.checked_kinds())
        );
    }
}

/// Walks that gave what they should.
#[derive(Default)]
pub struct Walks {
    /// By the refusal, from 1.
    refused: [u64; 9],
    /// Refused too, with a book that is not plain: the snapshot, the question.
    snapshot_before: u64,
    question_before: u64,
    /// The book misses one condition alone, or several.
    missed_one: [u64; 3],
    missed_several: u64,
    /// Not plain, and the pool fits, or it does not.
    other_fits: u64,
    other_does_not: u64,
    plain_yes: u64,
    plain_no: u64,
    /// No, and some other part fits.
    plain_part: u64,
    /// All records there may be, by a plain book.
    full_pool: u64,
    /// A yes by a plain book, where the engine has no room to say so.
    unknown: u64,
}

impl Walks {
    pub fn saw(&mut self, expected: &Expected, yes: bool) {
        match expected.reply.refusal {
            0 => self.answered(expected, yes),
            12 => self.not_plain(expected),
            refusal => {
                let other = !expected.missed().is_empty();
                self.refused[refusal as usize - 1] += 1;
                self.snapshot_before += (other && refusal < 9) as u64;
                self.question_before += (other && refusal == 9) as u64;
            }
        }
    }

    fn answered(&mut self, expected: &Expected, yes: bool) {
        let part = expected.parts.as_ref().and_then(|parts| parts.first());
        if yes {
            self.plain_yes += 1;
            self.full_pool += (part == Some(&u16::MAX)) as u64;
            self.unknown += (expected.engine == Engine::Refuses) as u64;
        } else {
            self.plain_no += 1;
            self.plain_part += part.is_some() as u64;
        }
    }

    fn not_plain(&mut self, expected: &Expected) {
        match expected.missed()[..] {
            [one] => self.missed_one[one - 1] += 1,
            _ => self.missed_several += 1,
        }
        match expected.engine {
            Engine::Says(true) => self.other_fits += 1,
            Engine::Says(false) => self.other_does_not += 1,
            _ => {}
        }
    }

    fn kinds(&self) -> [(&'static str, u64); 13] {
        [
            ("plain and yes", self.plain_yes),
            ("plain and no", self.plain_no),
            ("plain and no, but another part fits", self.plain_part),
            ("plain and yes with 16 records", self.full_pool),
            ("plain and yes where the engine refuses", self.unknown),
            ("12 for calls without a cell alone", self.missed_one[0]),
            ("12 for a variable not fixed alone", self.missed_one[1]),
            (
                "12 for rules that can be met together alone",
                self.missed_one[2],
            ),
            ("12 for several of these", self.missed_several),
            ("12 where the engine says yes", self.other_fits),
            ("12 where it says no", self.other_does_not),
            ("9 for a book that is not plain", self.question_before),
            ("5 to 8 for such a book", self.snapshot_before),
        ]
    }

    fn refusals(&self) -> impl Iterator<Item = (&'static str, u64)> {
        REFUSALS.into_iter().zip(self.refused)
    }

    fn print(&self) {
        println!("walk: {}", list(&self.kinds()));
        println!("walk refused, 1 to 9: {:?}", self.refused);
    }
}

const REFUSALS: [&str; 9] = [
    "the walk's refusal 1",
    "the walk's refusal 2",
    "the walk's refusal 3",
    "the walk's refusal 4",
    "the walk's refusal 5",
    "the walk's refusal 6",
    "the walk's refusal 7",
    "the walk's refusal 8",
    "the walk's refusal 9",
];

/// Inputs whose books have constants.
#[derive(Default)]
pub struct Constants {
    /// A rule names one.
    fits: u64,
    does_not: u64,
    /// A rule names two that are the same number, or one that is 0.
    twice: u64,
    /// No rule names any.
    unnamed: u64,
    cut: u64,
    ninth: u64,
    beyond: u64,
    address: u64,
    /// With more kept values than a book without constants has.
    many_kept: u64,
    most_kept: u64,
    many_kept_part: u64,
    many_kept_taken: u64,
    plain_yes: u64,
    plain_no: u64,
    /// Plain, and not if all of them were one number.
    plain_apart: u64,
    /// Not plain, and it would be if they were all different and not nil.
    not_apart: u64,
}

/// Kept values without constants, at most, and with them.
const KEPT: usize = 93;
const KEPT_WITH_CONSTANTS: usize = 101;

/// How many values are kept, unless there is a fault.
fn kept(input: &Input) -> usize {
    let problem = formats::read(&input.book, &input.snapshot, &input.question);
    problem.map_or(0, |problem| Domain::of(&problem).len())
}

impl Constants {
    /// A call that gave what it should, and the parts that fit.
    pub fn saw(&mut self, input: &Input, reply: Reply, parts: &[u16]) {
        let used = ConstantUse::of(&input.book);
        match (reply.refusal, used.fault) {
            (1, Some(Fault::Cut)) => self.cut += 1,
            (2, Some(Fault::Count)) => self.ninth += 1,
            (3, Some(Fault::Term)) => self.beyond += 1,
            (3, Some(Fault::Address)) => self.address += 1,
            _ => {}
        }
        if reply.refusal != 0 || used.constants.is_empty() {
            return;
        }
        match (used.named.is_empty(), reply.verdict) {
            (true, _) => self.unnamed += 1,
            (false, 1) => self.fits += 1,
            _ => self.does_not += 1,
        }
        self.twice += used.named_twice() as u64;
        let kept = kept(input);
        self.many_kept += (kept > KEPT) as u64;
        self.most_kept += (kept == KEPT_WITH_CONSTANTS) as u64;
        self.many_kept_part += (kept > KEPT && !parts.is_empty()) as u64;
    }

    /// An unfolding that the check takes for the whole pool.
    pub fn took(&mut self, input: &Input) {
        let listed = !ConstantUse::of(&input.book).constants.is_empty();
        self.many_kept_taken += (listed && kept(input) > KEPT) as u64;
    }

    pub fn walked(&mut self, input: &Input, expected: &Expected, yes: bool) {
        let used = ConstantUse::of(&input.book);
        if !matches!(expected.reply.refusal, 0 | 12) || used.named.is_empty() {
            return;
        }
        let constants = used.constants.len();
        if expected.plain() {
            self.plain_yes += yes as u64;
            self.plain_no += !yes as u64;
            let same = with_constants(&input.book, &vec![1; constants]);
            self.plain_apart += (api::plain_book(&same) == Ok(false)) as u64;
        } else if used.named_twice() {
            let others: Vec<u32> = (1..=constants as u32).collect();
            let apart = with_constants(&input.book, &others);
            self.not_apart += (api::plain_book(&apart) == Ok(true)) as u64;
        }
    }

    fn kinds(&self) -> [(&'static str, u64); 16] {
        [
            ("a rule names one and it fits", self.fits),
            ("and it does not", self.does_not),
            ("two names in use are one number", self.twice),
            ("constants that no rule names", self.unnamed),
            ("refusal 1 among the constants", self.cut),
            ("refusal 2 by a ninth constant", self.ninth),
            ("refusal 3 by a term beyond the list", self.beyond),
            ("refusal 3 by a constant as an address", self.address),
            ("over 93 kept values", self.many_kept),
            ("101 kept values", self.most_kept),
            ("over 93 and some part fits", self.many_kept_part),
            ("over 93 and an unfolding taken", self.many_kept_taken),
            ("plain with constants and yes", self.plain_yes),
            ("plain with constants and no", self.plain_no),
            ("plain since constants differ", self.plain_apart),
            ("not plain since constants do not", self.not_apart),
        ]
    }

    fn print(&self) {
        println!("constants: {}", list(&self.kinds()));
    }
}

/// The book, which has no fault, with as many other constants.
fn with_constants(book: &[u8], constants: &[u32]) -> Vec<u8> {
    let mut book = book.to_vec();
    let first = 2 + book[0] as usize;
    for (&constant, at) in constants.iter().zip((first..).step_by(4)) {
        book[at..at + 4].copy_from_slice(&constant.to_le_bytes());
    }
    book
}

/// The longest answer, and to what.
#[derive(Default)]
pub struct Slowest {
    time: Duration,
    asked: Option<(Input, Sizes)>,
}

impl Slowest {
    pub fn saw(&mut self, time: Duration, input: &Input, sizes: Sizes) {
        if time > self.time {
            self.time = time;
            self.asked = Some((input.clone(), sizes));
        }
    }

    /// An answer that took over a second is worth a look at its input.
    fn print(&self, name: &str) {
        println!("slowest, {name}: {:.1} ms", self.time.as_secs_f64() * 1e3);
        if let Some((input, sizes)) = self.asked.as_ref().filter(|_| self.time.as_secs() >= 1) {
            println!("  {}", call(name, input).lent(*sizes, 0).words());
        }
    }
}

impl Tally {
    /// Kinds of input of which there were fewer than enough.
    pub fn missing(&self, enough: u64) -> Vec<&'static str> {
        let kinds = self
            .parts
            .asked_kinds()
            .into_iter()
            .chain(self.parts.checked_kinds())
            .chain(self.walks.kinds())
            .chain(self.walks.refusals())
            .chain(self.books.kinds())
            .chain(self.constants.kinds())
            .chain(self.nils.kinds());
        let few = kinds.filter(|&(_, count)| count < enough);
        few.map(|(kind, _)| kind).collect()
    }

    pub fn fits(&self) -> u64 {
        self.engine[1]
    }

    pub fn print(&self) {
        print!("engine: {} fit, {} do not", self.fits(), self.engine[0]);
        for refusal in 1..=11 {
            print!(", {} refusal {refusal}", self.engine[2 * refusal]);
        }
        println!();
        println!(
            "check: {} taken, {} not taken, {} refused; bench program: {}; passed over: {}",
            self.taken, self.not_taken, self.check_refused, self.program, self.passed_over
        );
        self.lent.print();
        self.parts.print();
        self.walks.print();
        println!("books walked: {}", list(&self.books.kinds()));
        self.constants.print();
        println!("nil: {}", list(&self.nils.kinds()));
        self.proved.print("proved");
        self.walk.print("walk");
        self.reference.print("reference");
    }
}
