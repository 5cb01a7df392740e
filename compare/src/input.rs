//! Books, pools and questions, and the bytes they are handed over as.

/// The term that stands for nil.
pub const NIL: u8 = 255;

/// The term that stands for the first constant.
pub const FIRST_CONSTANT: u8 = 128;

pub const MOST_CONSTANTS: usize = 8;
pub const MOST_PREDICATES: usize = 8;
pub const MOST_ARGUMENTS: usize = 4;
pub const MOST_RULES: usize = 16;
pub const MOST_VARIABLES: usize = 8;
pub const MOST_PURES: usize = 8;
pub const MOST_CELLS: usize = 4;
pub const MOST_CALLS: usize = 3;
pub const MOST_RECORDS: usize = 16;
pub const MOST_FIELDS: usize = 4;

/// A rule; every term is the byte that the book has for it.
#[derive(Clone, Default)]
pub struct Rule {
    pub head: u8,
    pub bound: u8,
    /// Kind (0 equal, 1 unequal) and two terms.
    pub pures: Vec<[u8; 3]>,
    /// Address variable and fields.
    pub cells: Vec<(u8, Vec<u8>)>,
    /// Predicate and arguments.
    pub calls: Vec<(u8, Vec<u8>)>,
}

impl Rule {
    pub fn new(head: u8, bound: u8) -> Rule {
        Rule {
            head,
            bound,
            ..Rule::default()
        }
    }

    pub fn equal(mut self, left: u8, right: u8) -> Rule {
        self.pures.push([0, left, right]);
        self
    }

    pub fn unequal(mut self, left: u8, right: u8) -> Rule {
        self.pures.push([1, left, right]);
        self
    }

    pub fn cell(mut self, address: u8, fields: &[u8]) -> Rule {
        self.cells.push((address, fields.to_vec()));
        self
    }

    pub fn call(mut self, predicate: u8, arguments: &[u8]) -> Rule {
        self.calls.push((predicate, arguments.to_vec()));
        self
    }
}

#[derive(Clone)]
pub struct Book {
    pub arities: Vec<u8>,
    pub constants: Vec<u32>,
    pub rules: Vec<Rule>,
}

impl Book {
    pub fn new(arities: &[u8], rules: Vec<Rule>) -> Book {
        Book {
            arities: arities.to_vec(),
            constants: Vec::new(),
            rules,
        }
    }

    pub fn with_constants(mut self, constants: &[u32]) -> Book {
        self.constants = constants.to_vec();
        self
    }

    pub fn bytes(&self) -> Vec<u8> {
        let mut bytes = vec![self.arities.len() as u8];
        bytes.extend(&self.arities);
        bytes.push(self.constants.len() as u8);
        bytes.extend(self.constants.iter().flat_map(|value| value.to_le_bytes()));
        bytes.push(self.rules.len() as u8);
        for rule in &self.rules {
            bytes.extend([rule.head, rule.bound, rule.pures.len() as u8]);
            bytes.extend(rule.pures.iter().flatten());
            bytes.push(rule.cells.len() as u8);
            for (address, fields) in &rule.cells {
                bytes.extend([*address, fields.len() as u8]);
                bytes.extend(fields);
            }
            bytes.push(rule.calls.len() as u8);
            for (predicate, arguments) in &rule.calls {
                bytes.push(*predicate);
                bytes.extend(arguments);
            }
        }
        bytes
    }
}

#[derive(Clone, Debug, PartialEq, Eq, PartialOrd, Ord)]
pub struct Record {
    pub address: u32,
    pub fields: Vec<u32>,
}

/// A pool. Its records may stand in any order here.
#[derive(Clone, Debug, Default)]
pub struct Heap {
    pub records: Vec<Record>,
}

impl Heap {
    pub fn with(mut self, address: u32, fields: &[u32]) -> Heap {
        self.records.push(Record {
            address,
            fields: fields.to_vec(),
        });
        self
    }

    /// The snapshot: records by address.
    pub fn bytes(&self) -> Vec<u8> {
        let mut records: Vec<&Record> = self.records.iter().collect();
        records.sort();
        let mut bytes = vec![records.len() as u8];
        for record in records {
            bytes.extend(record.address.to_le_bytes());
            bytes.push(record.fields.len() as u8);
            bytes.extend(record.fields.iter().flat_map(|field| field.to_le_bytes()));
        }
        bytes
    }

    /// Nil, every address and every field, each once.
    pub fn values(&self) -> Vec<u32> {
        let mut values = vec![0];
        for record in &self.records {
            values.push(record.address);
            values.extend(&record.fields);
        }
        values.sort();
        values.dedup();
        values
    }
}

#[derive(Clone, Debug)]
pub struct Query {
    pub predicate: u8,
    pub values: Vec<u32>,
}

impl Query {
    pub fn new(predicate: u8, values: &[u32]) -> Query {
        Query {
            predicate,
            values: values.to_vec(),
        }
    }

    pub fn bytes(&self) -> Vec<u8> {
        let mut bytes = vec![self.predicate, self.values.len() as u8];
        bytes.extend(self.values.iter().flat_map(|value| value.to_le_bytes()));
        bytes
    }
}

/// What both programs are given.
#[derive(Clone, Debug, Default, PartialEq, Eq)]
pub struct Input {
    pub book: Vec<u8>,
    pub snapshot: Vec<u8>,
    pub question: Vec<u8>,
}

impl Input {
    pub fn new(book: &Book, heap: &Heap, query: &Query) -> Input {
        Input {
            book: book.bytes(),
            snapshot: heap.bytes(),
            question: query.bytes(),
        }
    }

    pub fn sections(&self) -> [&Vec<u8>; 3] {
        [&self.book, &self.snapshot, &self.question]
    }

    pub fn sections_mut(&mut self) -> [&mut Vec<u8>; 3] {
        [&mut self.book, &mut self.snapshot, &mut self.question]
    }

    /// The three sections, each after its length, as the bench program reads them.
    pub fn bench_bytes(&self) -> Vec<u8> {
        let mut bytes = Vec::new();
        for section in self.sections() {
            bytes.extend((section.len() as u16).to_le_bytes());
            bytes.extend(section);
        }
        bytes
    }

    pub fn from_bench(bytes: &[u8]) -> Input {
        let [book, snapshot, question] = reference::api::bench_parts(bytes);
        Input {
            book: book.to_vec(),
            snapshot: snapshot.to_vec(),
            question: question.to_vec(),
        }
    }

    /// What the bench program answers: without a book, by the house's.
    pub fn of_program(bytes: &[u8]) -> Input {
        let mut input = Input::from_bench(bytes);
        if input.book.is_empty() {
            input.book = reference::api::HOUSE.to_vec();
        }
        input
    }
}

pub fn hex(bytes: &[u8]) -> String {
    bytes.iter().map(|byte| format!("{byte:02x}")).collect()
}

pub fn from_hex(text: &str) -> Option<Vec<u8>> {
    if !text.is_ascii() || !text.len().is_multiple_of(2) {
        return None;
    }
    (0..text.len())
        .step_by(2)
        .map(|at| u8::from_str_radix(&text[at..at + 2], 16).ok())
        .collect()
}
