//! Books that are plain by the way they are made, and one change to them.

use super::*;

/// A book in pieces, with terms as bytes.
#[derive(Clone, Debug)]
pub struct Draft {
    pub arities: Vec<u8>,
    pub constants: Vec<u32>,
    pub rules: Vec<RuleDraft>,
}

#[derive(Clone, Debug, Default)]
pub struct RuleDraft {
    pub head: u8,
    /// All variables, the head's among them.
    pub variables: u8,
    pub pure: Vec<[u8; 3]>,
    pub cells: Vec<(u8, Vec<u8>)>,
    pub calls: Vec<(u8, Vec<u8>)>,
}

impl Draft {
    /// The pieces of a rule set; of equal constants, they name the first one.
    pub fn of(set: &RuleSet) -> Draft {
        let term = |term: &Term| match term {
            Term::Nil => NIL,
            Term::Variable(variable) => *variable as u8,
            Term::Constant(value) => {
                let place = set.constants.iter().position(|other| other == value);
                C + place.expect("constant is listed") as u8
            }
        };
        let terms = |terms: &[Term]| -> Vec<u8> { terms.iter().map(term).collect() };
        let pieces = |rule: &Rule| {
            let pure = rule.pure.iter().map(|pure| {
                let kind = (pure.kind == Kind::Unequal) as u8;
                [kind, term(&pure.left), term(&pure.right)]
            });
            let cells = rule.cells.iter();
            let cells = cells.map(|cell| (cell.address as u8, terms(&cell.fields)));
            let calls = rule.calls.iter();
            let calls = calls.map(|call| (call.predicate as u8, terms(&call.arguments)));
            RuleDraft {
                head: rule.head as u8,
                variables: rule.variables as u8,
                pure: pure.collect(),
                cells: cells.collect(),
                calls: calls.collect(),
            }
        };
        Draft {
            arities: set.arities.iter().map(|&arity| arity as u8).collect(),
            constants: set.constants.clone(),
            rules: set.rules.iter().map(pieces).collect(),
        }
    }

    pub fn bytes(&self) -> Vec<u8> {
        let rules: Vec<Vec<u8>> = self.rules.iter().map(|rule| self.rule(rule)).collect();
        book_with(&self.arities, &self.constants, &rules)
    }

    fn rule(&self, one: &RuleDraft) -> Vec<u8> {
        fn slices(lists: &[(u8, Vec<u8>)]) -> Vec<(u8, &[u8])> {
            lists
                .iter()
                .map(|(first, rest)| (*first, &rest[..]))
                .collect()
        }
        let bound = one.variables - self.arities[one.head as usize];
        let (cells, calls) = (slices(&one.cells), slices(&one.calls));
        rule(one.head, bound, &one.pure, &cells, &calls)
    }

    /// The number that a term names, as it is read.
    fn number(&self, term: u8) -> Option<u32> {
        match term {
            NIL => Some(0),
            C.. => match self.constants[(term - C) as usize] {
                MARK => Some(0),
                number => Some(number),
            },
            _ => None,
        }
    }

    /// Every way to write a term.
    fn ways_to_write(&self, term: u8) -> Vec<u8> {
        let Some(number) = self.number(term) else {
            return vec![term];
        };
        let constants = C..C + self.constants.len() as u8;
        let same = |term: &u8| self.number(*term) == Some(number);
        constants.chain([NIL]).filter(same).collect()
    }
}

const CONSTANTS: [u32; 10] = [0, 0, 1, 3, 3, 7, 9, MOST, MARK, MARK];

impl Dice {
    fn shuffle<T>(&mut self, list: &mut [T]) {
        for end in (1..list.len()).rev() {
            list.swap(end, self.below(end + 1));
        }
    }

    /// A variable, a constant or nil.
    fn any_term(&mut self, draft: &Draft, variables: u8) -> u8 {
        let constants = draft.constants.len();
        match self.below(6) {
            0 | 1 if constants > 0 => C + self.below(constants) as u8,
            0 | 2 => NIL,
            _ if variables > 0 => self.below(variables as usize) as u8,
            _ => NIL,
        }
    }

    /// A plain book: the rules of each predicate split its arguments among
    /// them, every bound variable comes from something known before it, and
    /// only rules with a cell have calls.
    pub fn plain_draft(&mut self) -> Draft {
        let mut draft = Draft {
            arities: Vec::new(),
            constants: Vec::new(),
            rules: Vec::new(),
        };
        for _ in 0..self.between(1, 3) {
            draft.arities.push(self.pick(&[0, 1, 1, 2, 2, 3, 4]));
        }
        for _ in 0..self.between(0, 4) {
            draft.constants.push(self.pick(&CONSTANTS));
        }
        for head in 0..draft.arities.len() as u8 {
            for pure in self.leaves(&draft, head) {
                let rule = self.plain_rule(&draft, head, pure);
                draft.rules.push(rule);
            }
        }
        let mut rules = std::mem::take(&mut draft.rules);
        self.shuffle(&mut rules);
        draft.rules = rules;
        draft
    }

    /// Conditions on the arguments of which no two can be met together: in turn
    /// one list is split in two.
    fn leaves(&mut self, draft: &Draft, head: u8) -> Vec<Vec<[u8; 3]>> {
        let arity = draft.arities[head as usize];
        let mut leaves: Vec<Vec<[u8; 3]>> = vec![vec![]];
        for _ in 0..self.between(0, 3) {
            let leaf = self.below(leaves.len());
            let leaf = leaves.swap_remove(leaf);
            let (a, b, other) = (
                self.any_term(draft, arity),
                self.any_term(draft, arity),
                self.any_term(draft, 0),
            );
            // Two different numbers split as well as equal and unequal do.
            let number = draft.number(b);
            let different = number.is_some() && number != draft.number(other);
            let split = if different && self.below(4) > 0 {
                [[EQUAL, a, b], [EQUAL, a, other]]
            } else {
                [[EQUAL, a, b], [UNEQUAL, a, b]]
            };
            leaves.extend(split.map(|condition| [&leaf[..], &[condition]].concat()));
        }
        if self.below(8) == 0 {
            leaves.pop();
        }
        leaves
    }

    fn plain_rule(&mut self, draft: &Draft, head: u8, pure: Vec<[u8; 3]>) -> RuleDraft {
        let arity = draft.arities[head as usize];
        let mut rule = RuleDraft {
            head,
            variables: arity,
            pure,
            ..RuleDraft::default()
        };
        self.stretch(&mut rule);
        self.add_cells(draft, &mut rule);
        // Further conditions leave a plain rule plain.
        while rule.pure.len() < 8 && self.below(3) == 0 {
            let kind = self.pick(&[EQUAL, UNEQUAL, UNEQUAL]);
            let [a, b] = [(); 2].map(|_| self.any_term(draft, rule.variables));
            rule.pure.push([kind, a, b]);
        }
        if !rule.cells.is_empty() {
            for _ in 0..self.below(4) {
                let call = self.call(draft, rule.variables);
                rule.calls.push(call);
            }
        }
        self.disguise(draft, &mut rule);
        rule
    }

    /// Puts bound variables between the sides of conditions, which makes chains.
    fn stretch(&mut self, rule: &mut RuleDraft) {
        let often = self.below(4);
        for _ in 0..2 * often {
            if rule.pure.is_empty() || rule.pure.len() == 8 || rule.variables == 8 {
                return;
            }
            let at = self.below(rule.pure.len());
            let [kind, a, b] = rule.pure[at];
            let middle = rule.variables;
            rule.variables += 1;
            rule.pure[at] = [kind, middle, b];
            rule.pure.push([EQUAL, a, middle]);
        }
    }

    fn add_cells(&mut self, draft: &Draft, rule: &mut RuleDraft) {
        for _ in 0..self.pick(&[0, 1, 1, 2, 4]) {
            if rule.variables == 0 {
                return;
            }
            let address = self.below(rule.variables as usize) as u8;
            let mut fields = Vec::new();
            for _ in 0..self.below(5) {
                if rule.variables < 8 && self.below(3) > 0 {
                    fields.push(rule.variables);
                    rule.variables += 1;
                } else {
                    fields.push(self.any_term(draft, rule.variables));
                }
            }
            rule.cells.push((address, fields));
        }
    }

    fn call(&mut self, draft: &Draft, variables: u8) -> (u8, Vec<u8>) {
        let predicate = self.below(draft.arities.len());
        let arguments = 0..draft.arities[predicate];
        let arguments = arguments.map(|_| self.any_term(draft, variables));
        (predicate as u8, arguments.collect())
    }

    /// Other names for the bound variables, other ways to write numbers, another
    /// order, and sides turned.
    fn disguise(&mut self, draft: &Draft, rule: &mut RuleDraft) {
        let arity = draft.arities[rule.head as usize] as usize;
        let mut names: Vec<u8> = (0..rule.variables).collect();
        self.shuffle(&mut names[arity..]);
        let mut rename = |term: &mut u8| match names.get(*term as usize) {
            Some(&name) => *term = name,
            None => *term = self.pick(&draft.ways_to_write(*term)),
        };
        for pure in &mut rule.pure {
            pure[1..].iter_mut().for_each(&mut rename);
        }
        for (address, fields) in &mut rule.cells {
            rename(address);
            fields.iter_mut().for_each(&mut rename);
        }
        for (_, arguments) in &mut rule.calls {
            arguments.iter_mut().for_each(&mut rename);
        }
        for pure in &mut rule.pure {
            if self.below(2) == 0 {
                pure.swap(1, 2);
            }
        }
        self.shuffle(&mut rule.pure);
        self.shuffle(&mut rule.cells);
    }
}

/// What is changed in one place.
#[derive(Clone, Copy, Debug, PartialEq, Eq)]
pub enum Change {
    DropCondition,
    DropConditions,
    EqualToUnequal,
    UnequalToEqual,
    /// An equality between a term and itself, so what went through it is cut.
    CutChain,
    OtherTerm,
    AddVariable,
    /// In an unequal condition or, with a cell, in a call.
    AddVariableInUse,
    RemoveCell,
    RemoveCells,
    OtherAddress,
    OtherField,
    AddCall,
    ConstantLikeAnother,
    ConstantUnlikeOthers,
    ConstantZero,
    ConstantMark,
    DoubleRule,
}

pub const CHANGES: [Change; 18] = [
    Change::DropCondition,
    Change::DropConditions,
    Change::EqualToUnequal,
    Change::UnequalToEqual,
    Change::CutChain,
    Change::OtherTerm,
    Change::AddVariable,
    Change::AddVariableInUse,
    Change::RemoveCell,
    Change::RemoveCells,
    Change::OtherAddress,
    Change::OtherField,
    Change::AddCall,
    Change::ConstantLikeAnother,
    Change::ConstantUnlikeOthers,
    Change::ConstantZero,
    Change::ConstantMark,
    Change::DoubleRule,
];

impl Dice {
    /// Changes the draft; the rule it was, or nothing if there is no place for
    /// it. For constants the rule means nothing.
    pub fn change(&mut self, draft: &mut Draft, change: Change) -> Option<usize> {
        if draft.rules.is_empty() {
            return None;
        }
        let number = self.below(draft.rules.len());
        let before = draft.clone();
        let rule = &mut draft.rules[number];
        let variables = rule.variables;
        let of_kind = |kind: Option<u8>| -> Vec<usize> {
            let fits = |at: &usize| kind.is_none_or(|kind| rule.pure[*at][0] == kind);
            (0..rule.pure.len()).filter(fits).collect()
        };
        let (all, equal, unequal) = (of_kind(None), of_kind(Some(EQUAL)), of_kind(Some(UNEQUAL)));
        let mut one_of = |places: &[usize]| (!places.is_empty()).then(|| self.pick(places));
        match change {
            Change::DropCondition => drop(rule.pure.remove(one_of(&all)?)),
            Change::DropConditions => rule.pure.truncate(one_of(&all)?),
            Change::EqualToUnequal => rule.pure[one_of(&equal)?][0] = UNEQUAL,
            Change::UnequalToEqual => rule.pure[one_of(&unequal)?][0] = EQUAL,
            Change::CutChain => {
                let pure = &mut rule.pure[one_of(&equal)?];
                pure[1] = pure[2];
            }
            Change::OtherTerm => {
                let at = one_of(&all)?;
                let side = self.between(1, 2);
                rule.pure[at][side] = self.any_term(&before, variables);
            }
            Change::AddVariable | Change::AddVariableInUse if variables == 8 => return None,
            Change::AddVariable => rule.variables += 1,
            Change::AddVariableInUse => {
                rule.variables += 1;
                match rule.calls.last_mut() {
                    Some((_, arguments)) if !arguments.is_empty() => arguments[0] = variables,
                    _ if rule.pure.len() == 8 => return None,
                    _ => rule.pure.push([UNEQUAL, variables, NIL]),
                }
            }
            Change::RemoveCell | Change::RemoveCells | Change::OtherAddress
                if rule.cells.is_empty() =>
            {
                return None
            }
            Change::RemoveCell => drop(rule.cells.remove(self.below(rule.cells.len()))),
            Change::RemoveCells => rule.cells.clear(),
            Change::OtherAddress => {
                let at = self.below(rule.cells.len());
                rule.cells[at].0 = self.below(variables as usize) as u8;
            }
            Change::OtherField => {
                let fields = rule.cells.iter_mut().flat_map(|(_, fields)| fields);
                let mut fields: Vec<&mut u8> = fields.collect();
                if fields.is_empty() {
                    return None;
                }
                let at = self.below(fields.len());
                *fields[at] = self.any_term(&before, variables);
            }
            Change::AddCall if rule.calls.len() == 3 => return None,
            Change::AddCall => rule.calls.push(self.call(&before, variables)),
            Change::ConstantLikeAnother
            | Change::ConstantUnlikeOthers
            | Change::ConstantZero
            | Change::ConstantMark => self.change_constant(draft, change)?,
            Change::DoubleRule => draft.rules.push(before.rules[number].clone()),
        }
        Some(number)
    }

    fn change_constant(&mut self, draft: &mut Draft, change: Change) -> Option<()> {
        if draft.constants.is_empty() {
            return None;
        }
        let at = self.below(draft.constants.len());
        draft.constants[at] = match change {
            Change::ConstantLikeAnother => self.pick(&draft.constants.clone()),
            Change::ConstantUnlikeOthers => 77,
            Change::ConstantZero => 0,
            _ => MARK,
        };
        Some(())
    }
}
