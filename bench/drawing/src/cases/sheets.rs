//! What the sheets are made of, and how they are packed.

#[derive(Clone, Copy, PartialEq, Debug)]
pub enum Term {
    Variable(u64),
    Object(u64),
}

#[derive(Clone, Copy, PartialEq, Debug)]
pub enum Atom {
    Concept(u64, Term),
    Role(u64, Term, Term),
}

#[derive(Clone, Debug)]
pub struct Query {
    pub answers: Vec<Term>,
    pub atoms: Vec<Atom>,
}

/// A fact: whether it is a role's, its number, its objects (the second is 0 for a concept). Ordered as on the sheet.
pub type Fact = (bool, u64, u64, u64);

/// A rule as its four bytes say it.
#[derive(Clone, Copy)]
pub struct Rule(u64);

impl Rule {
    /// One concept is below the other.
    pub fn concept(lower: u64, upper: u64) -> Rule {
        Rule(1 << 28 | lower << 14 | upper)
    }

    /// Whatever has the concept has the role to something.
    pub fn some(concept: u64, role: u64) -> Rule {
        Rule(1 << 28 | concept << 14 | 1 << 12 | role)
    }

    /// Whatever has the concept is what something has the role to.
    pub fn some_to(concept: u64, role: u64) -> Rule {
        Rule(1 << 28 | concept << 14 | 2 << 12 | role)
    }

    /// One role is below the other.
    pub fn role(lower: u64, upper: u64) -> Rule {
        Rule(2 << 28 | lower << 14 | upper)
    }

    /// One role with its places exchanged is below the other.
    pub fn exchanged(lower: u64, upper: u64) -> Rule {
        Rule(2 << 28 | lower << 14 | 1 << 12 | upper)
    }

    /// The role holds in both directions.
    pub fn both_ways(role: u64) -> Rule {
        Rule::exchanged(role, role)
    }
}

pub fn var(v: usize) -> Term {
    Term::Variable(v as u64)
}

/// The low `bytes` bytes of a number, the most significant first.
fn put(sheet: &mut Vec<u8>, number: u64, bytes: usize) {
    sheet.extend(&number.to_be_bytes()[8 - bytes..]);
}

fn term_bits(term: Term) -> u64 {
    match term {
        Term::Variable(v) => v,
        Term::Object(object) => 1 << 16 | object,
    }
}

pub fn question_sheet(query: &Query) -> Vec<u8> {
    let mut sheet = Vec::new();
    let counts = query.answers.len() << 4 | query.atoms.len();
    put(&mut sheet, counts as u64, 1);
    for &term in &query.answers {
        put(&mut sheet, term_bits(term), 3);
    }
    for &atom in &query.atoms {
        let bits = match atom {
            Atom::Concept(number, t) => number << 34 | term_bits(t) << 17,
            Atom::Role(number, t, u) => 1 << 47 | number << 34 | term_bits(t) << 17 | term_bits(u),
        };
        put(&mut sheet, bits, 6);
    }
    sheet
}

pub fn rule_sheet(rules: &[Rule]) -> Vec<u8> {
    let mut sheet = Vec::new();
    for rule in rules {
        put(&mut sheet, rule.0, 4);
    }
    sheet
}

pub fn fact_sheet(facts: &[Fact]) -> Vec<u8> {
    let mut sheet = Vec::new();
    for &(role, number, first, second) in facts {
        let bits = (role as u64) << 47 | number << 32 | first << 16 | second;
        put(&mut sheet, bits, 6);
    }
    sheet
}

fn number(bytes: &[u8]) -> u64 {
    bytes.iter().fold(0, |n, &byte| n << 8 | byte as u64)
}

fn term(bits: u64) -> Term {
    match bits >> 16 & 1 {
        1 => Term::Object(bits & 0xffff),
        _ => Term::Variable(bits & 0xffff),
    }
}

fn atom(bits: u64) -> Atom {
    let name = bits >> 34 & 0xfff;
    match bits >> 47 {
        1 => Atom::Role(name, term(bits >> 17), term(bits)),
        _ => Atom::Concept(name, term(bits >> 17)),
    }
}

/// The questions of a union's members.
pub fn members(union: &[u8]) -> Vec<Query> {
    let (mut members, mut rest) = (Vec::new(), &union[2..]);
    while !rest.is_empty() {
        let (terms, size) = ((rest[4] >> 4) as usize, (rest[4] & 15) as usize);
        let (answers, after) = rest[5..].split_at(3 * terms);
        let (atoms, after) = after.split_at(6 * size);
        members.push(Query {
            answers: answers.chunks(3).map(|record| term(number(record))).collect(),
            atoms: atoms.chunks(6).map(|record| atom(number(record))).collect(),
        });
        rest = after;
    }
    members
}
