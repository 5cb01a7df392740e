//! How a difference is shown: as words by which it can be asked again.

use crate::input::{hex, Input};
use crate::lent::Sizes;

/// A call, with all that is needed to make it again.
pub struct Call<'a> {
    name: &'a str,
    input: &'a Input,
    unfolding: Option<&'a [u8]>,
    part: Option<u16>,
    lent: Option<(Sizes, u64)>,
}

pub fn call<'a>(name: &'a str, input: &'a Input) -> Call<'a> {
    Call {
        name,
        input,
        unfolding: None,
        part: None,
        lent: None,
    }
}

impl<'a> Call<'a> {
    pub fn with(mut self, unfolding: &'a [u8]) -> Call<'a> {
        self.unfolding = Some(unfolding);
        self
    }

    pub fn part(mut self, part: Option<u16>) -> Call<'a> {
        self.part = part;
        self
    }

    /// With memory of these sizes, and this in it.
    pub fn lent(mut self, sizes: Sizes, dirt: u64) -> Call<'a> {
        self.lent = Some((sizes, dirt));
        self
    }

    pub fn words(&self) -> String {
        let mut words = vec!["--input".to_string()];
        if let Some((Sizes { lines, words: size }, dirt)) = self.lent {
            words.push(format!("--lent {lines} {size} --dirt {dirt}"));
        }
        words.extend(self.part.map(|part| format!("--part {part}")));
        let sections = self.input.sections().map(Vec::as_slice);
        let parts = sections.into_iter().chain(self.unfolding);
        words.extend(parts.map(|part| {
            if part.is_empty() {
                "-".into()
            } else {
                hex(part)
            }
        }));
        words.join(" ")
    }

    pub fn print(&self) {
        println!("difference: {}", self.name);
        println!("  again     {}", self.words());
    }
}
