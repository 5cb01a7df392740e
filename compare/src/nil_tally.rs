//! How often nil was written as the end mark, and what came of it.

use crate::constant_use::ConstantUse;
use crate::input::Input;
use crate::nil::{self, Kind, Place, END_MARK, LARGEST};
use reference::api::Reply;
use reference::formats;

#[derive(Default)]
pub struct Nils {
    /// The pool fits with the mark there.
    field: u64,
    value: u64,
    /// One that a rule names.
    constant: u64,
    does_not: u64,
    both: u64,
    both_fit: u64,
    /// Refusal 7 for the mark, where all is right but for that, and where a
    /// fault follows.
    address_alone: u64,
    address_first: u64,
    /// The largest address there may be.
    largest: u64,
    /// Spellings that were compared with each other.
    twins: u64,
    twins_fit: u64,
    twins_refused: u64,
}

impl Nils {
    /// A call that gave what it should.
    pub fn saw(&mut self, input: &Input, reply: Reply) {
        let places = nil::places(input);
        match reply.refusal {
            0 => self.read(input, &places, reply.verdict == 1),
            7 => self.refused(input, &places),
            _ => {}
        }
    }

    fn read(&mut self, input: &Input, places: &[Place], fits: bool) {
        let (nils, mut others) = (places.iter(), places.iter());
        let nils: Vec<&Place> = nils.filter(|place| place.is_nil(input)).collect();
        let marks = nils.iter().filter(|place| place.is_mark(input)).count();
        let mark_in = |kind| {
            let mut nils = nils.iter();
            nils.any(|place| place.kind == kind && place.is_mark(input))
        };
        if fits {
            self.field += mark_in(Kind::Field) as u64;
            self.value += mark_in(Kind::Value) as u64;
            self.constant += named_mark(input, places) as u64;
        }
        self.does_not += (marks > 0 && !fits) as u64;
        let both = 0 < marks && marks < nils.len();
        self.both += both as u64;
        self.both_fit += (both && fits) as u64;
        let largest = |place: &Place| place.kind == Kind::Address && place.number(input) == LARGEST;
        self.largest += (fits && others.any(largest)) as u64;
    }

    /// The first address that is wrong may be so for another reason.
    fn refused(&mut self, input: &Input, places: &[Place]) {
        let mut before = 0;
        for place in places.iter().filter(|place| place.kind == Kind::Address) {
            let address = place.number(input);
            if address == END_MARK {
                let mut other = input.clone();
                place.write(&mut other, LARGEST);
                match formats::read(&other.book, &other.snapshot, &other.question) {
                    Ok(_) => self.address_alone += 1,
                    Err(_) => self.address_first += 1,
                }
                return;
            }
            if address <= before {
                return;
            }
            before = address;
        }
    }

    /// Two spellings for which the program gave back the same.
    pub fn compared(&mut self, refusal: u64, fits: bool) {
        self.twins += 1;
        self.twins_fit += fits as u64;
        self.twins_refused += (refusal != 0) as u64;
    }

    pub fn kinds(&self) -> [(&'static str, u64); 12] {
        [
            ("the mark in a field and it fits", self.field),
            ("in a value of the question and it fits", self.value),
            ("in a constant that a rule names and it fits", self.constant),
            ("the mark and it does not fit", self.does_not),
            ("both spellings in one input", self.both),
            ("both spellings and it fits", self.both_fit),
            ("refusal 7 for the mark alone", self.address_alone),
            (
                "refusal 7 for the mark before another fault",
                self.address_first,
            ),
            ("FFFFFFFE as an address and it fits", self.largest),
            ("two spellings compared", self.twins),
            ("two spellings that fit", self.twins_fit),
            ("two spellings refused", self.twins_refused),
        ]
    }
}

fn named_mark(input: &Input, places: &[Place]) -> bool {
    let constants = places.iter().filter(|place| place.kind == Kind::Constant);
    let marked: Vec<bool> = constants.map(|place| place.is_mark(input)).collect();
    // The book is read again only where there is a mark.
    marked.contains(&true)
        && ConstantUse::of(&input.book)
            .named
            .iter()
            .any(|&at| marked[at])
}
