//! Books, pools and questions as they were before they became bytes.

use crate::input::{Book, Heap, Input, Query, Record, Rule};
use crate::shapes::Shape;
use reference::formats;

/// Nothing if the input has a fault.
pub fn shape(input: &Input) -> Option<Shape> {
    let [book, snapshot, question] = input.sections();
    formats::read(book, snapshot, question).ok()?;
    let book = Bytes(book).book()?;
    let heap = Bytes(snapshot).heap()?;
    let query = Bytes(question).query()?;
    Some(Shape { book, heap, query })
}

/// What is still to be read.
struct Bytes<'a>(&'a [u8]);

impl Bytes<'_> {
    fn byte(&mut self) -> Option<u8> {
        let (&first, rest) = self.0.split_first()?;
        self.0 = rest;
        Some(first)
    }

    fn number(&mut self) -> Option<u32> {
        let (&first, rest) = self.0.split_first_chunk()?;
        self.0 = rest;
        Some(u32::from_le_bytes(first))
    }

    /// As many as this.
    fn row<T>(&mut self, count: u8, mut one: impl FnMut(&mut Self) -> Option<T>) -> Option<Vec<T>> {
        (0..count).map(|_| one(self)).collect()
    }

    /// As many as the byte before them says.
    fn counted<T>(&mut self, one: impl FnMut(&mut Self) -> Option<T>) -> Option<Vec<T>> {
        let count = self.byte()?;
        self.row(count, one)
    }

    fn book(&mut self) -> Option<Book> {
        let arities = self.counted(Self::byte)?;
        let constants = self.counted(Self::number)?;
        let rules = self.counted(|bytes| bytes.rule(&arities))?;
        Some(Book {
            arities,
            constants,
            rules,
        })
    }

    fn rule(&mut self, arities: &[u8]) -> Option<Rule> {
        Some(Rule {
            head: self.byte()?,
            bound: self.byte()?,
            pures: self.counted(|bytes| Some([bytes.byte()?, bytes.byte()?, bytes.byte()?]))?,
            cells: self.counted(|bytes| Some((bytes.byte()?, bytes.counted(Self::byte)?)))?,
            calls: self.counted(|bytes| bytes.call(arities))?,
        })
    }

    fn call(&mut self, arities: &[u8]) -> Option<(u8, Vec<u8>)> {
        let predicate = self.byte()?;
        let arity = *arities.get(predicate as usize)?;
        Some((predicate, self.row(arity, Self::byte)?))
    }

    fn heap(&mut self) -> Option<Heap> {
        let record = |bytes: &mut Self| {
            Some(Record {
                address: bytes.number()?,
                fields: bytes.counted(Self::number)?,
            })
        };
        let records = self.counted(record)?;
        Some(Heap { records })
    }

    fn query(&mut self) -> Option<Query> {
        let predicate = self.byte()?;
        let values = self.counted(Self::number)?;
        Some(Query { predicate, values })
    }
}
