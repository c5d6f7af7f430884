//! Terms, atoms, rules and queries as words.

/// A term: a variable below 32, or 2^24 and the number of an object.
pub type Term = u32;

pub const OBJECT: Term = 1 << 24;

pub fn is_variable(term: Term) -> bool {
    term < 32
}

/// An atom: kind 1 bit, 1 zero bit, number 12, two terms of 25.
#[derive(Clone, Copy, PartialEq, Eq, Debug, Default)]
pub struct Atom(pub u64);

impl Atom {
    pub fn concept(number: u32, term: Term) -> Atom {
        Atom((number as u64) << 50 | (term as u64) << 25)
    }

    pub fn role(number: u32, first: Term, second: Term) -> Atom {
        Atom(1 << 63 | (number as u64) << 50 | (first as u64) << 25 | second as u64)
    }

    pub fn is_role(self) -> bool {
        self.0 >> 63 == 1
    }

    pub fn number(self) -> u32 {
        (self.0 >> 50 & 0xfff) as u32
    }

    /// Kind and number.
    pub fn predicate(self) -> u64 {
        self.0 >> 50
    }

    pub fn first(self) -> Term {
        (self.0 >> 25 & 0x1ff_ffff) as Term
    }

    /// The second term of a role atom.
    pub fn second(self) -> Term {
        (self.0 & 0x1ff_ffff) as Term
    }

    pub fn terms(self) -> impl Iterator<Item = Term> {
        std::iter::once(self.first()).chain(self.is_role().then(|| self.second()))
    }

    pub fn has(self, term: Term) -> bool {
        self.first() == term || (self.is_role() && self.second() == term)
    }
}

/// Answer terms and atoms.
#[derive(Clone, Copy, PartialEq, Eq, Debug)]
pub struct Query {
    terms: usize,
    answers: [Term; 4],
    size: usize,
    atoms: [Atom; 8],
}

impl Query {
    pub fn new(answers: &[Term], atoms: &[Atom]) -> Query {
        let mut query = Query {
            terms: answers.len(),
            answers: [0; 4],
            size: 0,
            atoms: [Atom(0); 8],
        };
        query.answers[..answers.len()].copy_from_slice(answers);
        for &atom in atoms {
            query.add(atom);
        }
        query
    }

    /// From the row of a member as read.
    pub fn from_row(row: &[u64; 16]) -> Query {
        Query {
            terms: row[1] as usize,
            answers: std::array::from_fn(|i| row[2 + i] as Term),
            size: row[6] as usize,
            atoms: std::array::from_fn(|i| Atom(row[8 + i])),
        }
    }

    pub fn answers(&self) -> &[Term] {
        &self.answers[..self.terms]
    }

    pub fn atoms(&self) -> &[Atom] {
        &self.atoms[..self.size]
    }

    /// One atom more, unless it stands there already.
    pub fn add(&mut self, atom: Atom) {
        if !self.atoms().contains(&atom) {
            self.atoms[self.size] = atom;
            self.size += 1;
        }
    }

    /// The same answer terms with no atoms.
    pub fn emptied(&self) -> Query {
        Query { size: 0, ..*self }
    }

    /// Terms replaced in atoms and answer terms alike, equal atoms kept once.
    pub fn map(&self, mut to: impl FnMut(Term) -> Term) -> Query {
        let mut made = self.emptied();
        for answer in &mut made.answers[..self.terms] {
            *answer = to(*answer);
        }
        for &atom in self.atoms() {
            let first = to(atom.first());
            made.add(match atom.is_role() {
                true => Atom::role(atom.number(), first, to(atom.second())),
                false => Atom::concept(atom.number(), first),
            });
        }
        made
    }

    /// The set of the variables that stand in it.
    pub fn variables(&self) -> u32 {
        let answers = self.answers().iter().copied();
        let terms = self.atoms().iter().flat_map(|atom| atom.terms());
        answers
            .chain(terms)
            .filter(|&term| is_variable(term))
            .fold(0, |set, variable| set | 1 << variable)
    }
}

/// A rule of 32 bits, as read; or a record, of which two may be one rule as written.
#[derive(Clone, Copy, PartialEq, Eq, Debug)]
pub struct Rule(pub u32);

impl Rule {
    pub fn kind(self) -> u32 {
        self.0 >> 28
    }

    pub fn left_form(self) -> u32 {
        self.0 >> 26 & 3
    }

    pub fn left(self) -> u32 {
        self.0 >> 14 & 0xfff
    }

    pub fn right_form(self) -> u32 {
        self.0 >> 12 & 3
    }

    pub fn right(self) -> u32 {
        self.0 & 0xfff
    }
}
