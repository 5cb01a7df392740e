//! Reading of rule set, heap and query from bytes, with the first fault met.

/// Every way to refuse, numbered as in the ladder.
#[derive(Clone, Copy, Debug, PartialEq, Eq)]
pub enum Refusal {
    BookEnds = 1,
    BookCount = 2,
    BookName = 3,
    BookTail = 4,
    SnapshotEnds = 5,
    SnapshotCount = 6,
    SnapshotAddress = 7,
    SnapshotTail = 8,
    Question = 9,
    Space = 10,
    TableFull = 11,
    /// From the walk only.
    NotPlain = 12,
}

impl Refusal {
    pub fn number(self) -> u32 {
        self as u32
    }
}

#[derive(Clone, Copy, Debug, PartialEq, Eq)]
pub enum Term {
    Nil,
    /// A constant by its value, since nothing depends on its place in the list.
    Constant(u32),
    Variable(usize),
}

impl Term {
    /// The number that the term stands for by itself; a variable has none. Nil
    /// and a constant of 0 are the same here.
    pub fn number(self) -> Option<u64> {
        match self {
            Term::Nil => Some(0),
            Term::Constant(value) => Some(value as u64),
            Term::Variable(_) => None,
        }
    }

    /// The term's value, given the values of the variables.
    pub fn value(self, values: &[u64]) -> u64 {
        match self {
            Term::Nil => 0,
            Term::Constant(value) => value as u64,
            Term::Variable(variable) => values[variable],
        }
    }
}

#[derive(Clone, Copy, Debug, PartialEq, Eq)]
pub enum Kind {
    Equal,
    Unequal,
}

#[derive(Clone, Debug, PartialEq, Eq)]
pub struct Pure {
    pub kind: Kind,
    pub left: Term,
    pub right: Term,
}

#[derive(Clone, Debug, PartialEq, Eq)]
pub struct Cell {
    /// A variable; neither nil nor a constant is allowed here.
    pub address: usize,
    pub fields: Vec<Term>,
}

#[derive(Clone, Debug, PartialEq, Eq)]
pub struct Call {
    pub predicate: usize,
    pub arguments: Vec<Term>,
}

#[derive(Clone, Debug, PartialEq, Eq)]
pub struct Rule {
    pub head: usize,
    /// Head arguments and bound variables together; the head's come first.
    pub variables: usize,
    pub pure: Vec<Pure>,
    pub cells: Vec<Cell>,
    pub calls: Vec<Call>,
}

#[derive(Clone, Debug, PartialEq, Eq)]
pub struct RuleSet {
    /// Number of arguments of each predicate.
    pub arities: Vec<usize>,
    /// In the book's order, as values: there may be equal ones, and 0.
    pub constants: Vec<u32>,
    pub rules: Vec<Rule>,
}

#[derive(Clone, Debug, PartialEq, Eq)]
pub struct Record {
    pub address: u32,
    pub fields: Vec<u32>,
}

#[derive(Clone, Debug, PartialEq, Eq)]
pub struct Heap {
    pub records: Vec<Record>,
}

#[derive(Clone, Debug, PartialEq, Eq)]
pub struct Query {
    pub predicate: usize,
    pub values: Vec<u32>,
}

/// What is left once nothing in 1 to 9 was met.
#[derive(Clone, Debug, PartialEq, Eq)]
pub struct Problem {
    pub rules: RuleSet,
    pub heap: Heap,
    pub query: Query,
}

const MAX_PREDICATES: usize = 8;
const MAX_ARGUMENTS: usize = 4;
const MAX_CONSTANTS: usize = 8;
const MAX_RULES: usize = 16;
const MAX_VARIABLES: usize = 8;
const MAX_PURE: usize = 8;
const MAX_CELLS: usize = 4;
const MAX_CALLS: usize = 3;
const MAX_RECORDS: usize = 16;
const MAX_FIELDS: usize = 4;
const FIRST_CONSTANT_BYTE: usize = 128;
const NIL_BYTE: usize = 255;

/// What controllers of the current line write at the end of a chain.
const END_MARK: u32 = 0xFFFF_FFFF;

/// The value that a field, question value or constant has: the end mark is nil,
/// as 0 is. This is the only place that turns it; nothing read still has it.
fn value_of(number: u32) -> u32 {
    if number == END_MARK {
        0
    } else {
        number
    }
}

/// Bytes with a place in them. `ends` is the refusal for a missing byte,
/// the only thing in which the book's and the snapshot's reader differ.
struct Reader<'a> {
    bytes: &'a [u8],
    at: usize,
    ends: Refusal,
}

impl Reader<'_> {
    fn byte(&mut self) -> Result<usize, Refusal> {
        let byte = *self.bytes.get(self.at).ok_or(self.ends)?;
        self.at += 1;
        Ok(byte as usize)
    }

    /// A count is judged as soon as it is read, before what it announces.
    fn count(&mut self, low: usize, high: usize, beyond: Refusal) -> Result<usize, Refusal> {
        let count = self.byte()?;
        if count < low || count > high {
            return Err(beyond);
        }
        Ok(count)
    }

    /// A four-byte number as it stands, lowest byte first.
    fn number(&mut self) -> Result<u32, Refusal> {
        let mut number = 0;
        for shift in [0, 8, 16, 24] {
            number |= (self.byte()? as u32) << shift;
        }
        Ok(number)
    }

    /// A four-byte number that is a value, so not an address.
    fn value(&mut self) -> Result<u32, Refusal> {
        self.number().map(value_of)
    }

    fn at_end(&self) -> bool {
        self.at == self.bytes.len()
    }
}

/// The book alone: refusals 1 to 4.
pub fn read_rule_set(bytes: &[u8]) -> Result<RuleSet, Refusal> {
    let mut reader = Reader {
        bytes,
        at: 0,
        ends: Refusal::BookEnds,
    };
    let predicates = reader.count(1, MAX_PREDICATES, Refusal::BookCount)?;
    let mut arities = Vec::new();
    for _ in 0..predicates {
        arities.push(reader.count(0, MAX_ARGUMENTS, Refusal::BookCount)?);
    }
    let mut constants = Vec::new();
    for _ in 0..reader.count(0, MAX_CONSTANTS, Refusal::BookCount)? {
        constants.push(reader.value()?);
    }
    let count = reader.count(0, MAX_RULES, Refusal::BookCount)?;
    let mut rules = Vec::new();
    for _ in 0..count {
        rules.push(read_rule(&mut reader, &arities, &constants)?);
    }
    if !reader.at_end() {
        return Err(Refusal::BookTail);
    }
    Ok(RuleSet {
        arities,
        constants,
        rules,
    })
}

fn read_rule(reader: &mut Reader, arities: &[usize], constants: &[u32]) -> Result<Rule, Refusal> {
    let head = read_predicate(reader, arities)?;
    let bound = reader.byte()?;
    let variables = arities[head] + bound;
    if variables > MAX_VARIABLES {
        return Err(Refusal::BookCount);
    }
    let mut pure = Vec::new();
    for _ in 0..reader.count(0, MAX_PURE, Refusal::BookCount)? {
        let kind = match reader.byte()? {
            0 => Kind::Equal,
            1 => Kind::Unequal,
            _ => return Err(Refusal::BookName),
        };
        let left = read_term(reader, variables, constants)?;
        let right = read_term(reader, variables, constants)?;
        pure.push(Pure { kind, left, right });
    }
    let mut cells = Vec::new();
    for _ in 0..reader.count(0, MAX_CELLS, Refusal::BookCount)? {
        let address = match read_term(reader, variables, constants)? {
            Term::Variable(variable) => variable,
            Term::Nil | Term::Constant(_) => return Err(Refusal::BookName),
        };
        let mut fields = Vec::new();
        for _ in 0..reader.count(0, MAX_FIELDS, Refusal::BookCount)? {
            fields.push(read_term(reader, variables, constants)?);
        }
        cells.push(Cell { address, fields });
    }
    let mut calls = Vec::new();
    for _ in 0..reader.count(0, MAX_CALLS, Refusal::BookCount)? {
        let predicate = read_predicate(reader, arities)?;
        let mut arguments = Vec::new();
        for _ in 0..arities[predicate] {
            arguments.push(read_term(reader, variables, constants)?);
        }
        calls.push(Call {
            predicate,
            arguments,
        });
    }
    Ok(Rule {
        head,
        variables,
        pure,
        cells,
        calls,
    })
}

fn read_predicate(reader: &mut Reader, arities: &[usize]) -> Result<usize, Refusal> {
    let predicate = reader.byte()?;
    if predicate >= arities.len() {
        return Err(Refusal::BookName);
    }
    Ok(predicate)
}

fn read_term(reader: &mut Reader, variables: usize, constants: &[u32]) -> Result<Term, Refusal> {
    let byte = reader.byte()?;
    if byte == NIL_BYTE {
        return Ok(Term::Nil);
    }
    if byte < variables {
        return Ok(Term::Variable(byte));
    }
    // There are few variables, so none has a number where constants start. The
    // list is short too: it ends before nil's byte.
    let place = byte.checked_sub(FIRST_CONSTANT_BYTE);
    let constant = place.and_then(|place| constants.get(place));
    constant
        .map(|&value| Term::Constant(value))
        .ok_or(Refusal::BookName)
}

/// The snapshot alone: refusals 5 to 8.
pub fn read_heap(bytes: &[u8]) -> Result<Heap, Refusal> {
    let mut reader = Reader {
        bytes,
        at: 0,
        ends: Refusal::SnapshotEnds,
    };
    let count = reader.count(0, MAX_RECORDS, Refusal::SnapshotCount)?;
    let mut records: Vec<Record> = Vec::new();
    for _ in 0..count {
        let address = reader.number()?;
        // Nil is no address, however it is written. So 0 stands before the
        // first one, and the end mark is refused though it is above all others.
        let before = records.last().map_or(0, |record| record.address);
        if address <= before || address == END_MARK {
            return Err(Refusal::SnapshotAddress);
        }
        let mut fields = Vec::new();
        for _ in 0..reader.count(0, MAX_FIELDS, Refusal::SnapshotCount)? {
            fields.push(reader.value()?);
        }
        records.push(Record { address, fields });
    }
    if !reader.at_end() {
        return Err(Refusal::SnapshotTail);
    }
    Ok(Heap { records })
}

/// The question, which can only be judged with the rule set at hand.
pub fn read_query(bytes: &[u8], rules: &RuleSet) -> Result<Query, Refusal> {
    if bytes.len() < 2 {
        return Err(Refusal::Question);
    }
    let predicate = bytes[0] as usize;
    let count = bytes[1] as usize;
    if predicate >= rules.arities.len()
        || count != rules.arities[predicate]
        || bytes.len() != 2 + 4 * count
    {
        return Err(Refusal::Question);
    }
    let values = bytes[2..]
        .chunks(4)
        .map(|four| value_of(u32::from_le_bytes([four[0], four[1], four[2], four[3]])))
        .collect();
    Ok(Query { predicate, values })
}

/// All three, one after the other, so that the first fault is the answer.
pub fn read(book: &[u8], snapshot: &[u8], question: &[u8]) -> Result<Problem, Refusal> {
    let rules = read_rule_set(book)?;
    let heap = read_heap(snapshot)?;
    let query = read_query(question, &rules)?;
    Ok(Problem { rules, heap, query })
}
