//! What a book has to do with constants, by its bytes alone.

use crate::input::*;
use crate::nil::as_read;

/// The first fault of a book, if it is about constants.
#[derive(Clone, Copy, PartialEq, Eq)]
pub enum Fault {
    /// More of them than there may be.
    Count,
    /// The book ends among them.
    Cut,
    /// A term beyond the list.
    Term,
    /// One as a cell's address.
    Address,
    Other,
}

/// Up to the first fault.
#[derive(Default)]
pub struct ConstantUse {
    /// As they are read.
    pub constants: Vec<u32>,
    /// Those that a term names, by their places.
    pub named: Vec<usize>,
    pub fault: Option<Fault>,
}

impl ConstantUse {
    pub fn of(book: &[u8]) -> ConstantUse {
        let mut reader = Reader {
            rest: book,
            found: ConstantUse::default(),
        };
        reader.found.fault = reader.book().err();
        let mut found = reader.found;
        found.named.sort();
        found.named.dedup();
        found
    }

    /// Numbers of which two names are in use, nil among them.
    pub fn named_twice(&self) -> bool {
        let mut numbers: Vec<u32> = self.named.iter().map(|&at| self.constants[at]).collect();
        numbers.push(0);
        let all = numbers.len();
        numbers.sort();
        numbers.dedup();
        numbers.len() < all
    }
}

struct Reader<'a> {
    rest: &'a [u8],
    found: ConstantUse,
}

impl Reader<'_> {
    fn byte(&mut self) -> Result<u8, Fault> {
        let (&byte, rest) = self.rest.split_first().ok_or(Fault::Other)?;
        self.rest = rest;
        Ok(byte)
    }

    fn count(&mut self, most: usize, fault: Fault) -> Result<usize, Fault> {
        let count = self.byte()? as usize;
        (count <= most).then_some(count).ok_or(fault)
    }

    fn book(&mut self) -> Result<(), Fault> {
        let predicates = self.count(MOST_PREDICATES, Fault::Other)?;
        if predicates == 0 {
            return Err(Fault::Other);
        }
        let mut arities = Vec::new();
        for _ in 0..predicates {
            arities.push(self.count(MOST_ARGUMENTS, Fault::Other)?);
        }
        for _ in 0..self.count(MOST_CONSTANTS, Fault::Count)? {
            let mut value = [0; 4];
            for byte in &mut value {
                *byte = self.byte().map_err(|_| Fault::Cut)?;
            }
            self.found
                .constants
                .push(as_read(u32::from_le_bytes(value)));
        }
        for _ in 0..self.count(MOST_RULES, Fault::Other)? {
            self.rule(&arities)?;
        }
        Ok(())
    }

    fn rule(&mut self, arities: &[usize]) -> Result<(), Fault> {
        let head = self.count(arities.len() - 1, Fault::Other)?;
        let variables = arities[head] + self.byte()? as usize;
        if variables > MOST_VARIABLES {
            return Err(Fault::Other);
        }
        for _ in 0..self.count(MOST_PURES, Fault::Other)? {
            self.count(1, Fault::Other)?;
            self.terms(2, variables)?;
        }
        for _ in 0..self.count(MOST_CELLS, Fault::Other)? {
            let address = self.byte()?;
            let listed = FIRST_CONSTANT..FIRST_CONSTANT + self.found.constants.len() as u8;
            match address {
                _ if listed.contains(&address) => return Err(Fault::Address),
                _ if (address as usize) < variables => {}
                _ => return Err(Fault::Other),
            }
            let fields = self.count(MOST_FIELDS, Fault::Other)?;
            self.terms(fields, variables)?;
        }
        for _ in 0..self.count(MOST_CALLS, Fault::Other)? {
            let predicate = self.count(arities.len() - 1, Fault::Other)?;
            self.terms(arities[predicate], variables)?;
        }
        Ok(())
    }

    fn terms(&mut self, count: usize, variables: usize) -> Result<(), Fault> {
        for _ in 0..count {
            let term = self.byte()?;
            match term {
                NIL => {}
                FIRST_CONSTANT.. => {
                    let at = (term - FIRST_CONSTANT) as usize;
                    if at >= self.found.constants.len() {
                        return Err(Fault::Term);
                    }
                    self.found.named.push(at);
                }
                _ if (term as usize) < variables => {}
                _ => return Err(Fault::Other),
            }
        }
        Ok(())
    }
}
