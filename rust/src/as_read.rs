//! Rules and questions as read, for words about them: the higher of two partners has become the lower, and a pair of records is three
//! rules. A sheet that is not laid out as docs/FORMAT.md has it is none here; what is sound is for the library to say.
use crate::limits::FIRST_HELPER;

#[derive(Clone, Copy)]
pub enum Term {
    Variable(u16),
    Object(u16),
}

#[derive(Clone, Copy)]
pub enum Atom {
    Concept(u16, Term),
    Role(u16, Term, Term),
}

pub struct Question {
    pub terms: Vec<Term>,
    pub atoms: Vec<Atom>,
}

/// Forms 0, 1 and 2: a concept, "has the role to something", "something has the role to it".
#[derive(Clone, Copy)]
pub enum Description {
    Concept(u16),
    To(u16),
    From(u16),
}

#[derive(Clone, Copy)]
pub enum Rule {
    /// Kind 1: each bearer of the first description bears the second.
    Bears(Description, Description),
    /// Kind 2: the left role implies the right one, arguments exchanged or not.
    Implies { left: u16, right: u16, exchanged: bool },
}

/// Kinds 3 and 4, one rule: each bearer of the left side has the role to something that bears the filler, or from something that does.
#[derive(Clone, Copy)]
pub struct Pair {
    pub left: Description,
    pub role: u16,
    pub to: bool,
    pub filler: u16,
}

/// A rule as read. If it is one of the three of a pair, that pair, and which of the three, counted from 0.
#[derive(Clone, Copy)]
pub struct Indexed {
    pub rule: Rule,
    pub of: Option<(Pair, usize)>,
}

pub struct Rules {
    pub indexed: Vec<Indexed>,
    /// The lowest helper in use; one above all roles if there is no pair.
    pub helpers: u16,
}

impl Default for Rules {
    fn default() -> Rules {
        Rules {
            indexed: Vec::new(),
            helpers: FIRST_HELPER + 1,
        }
    }
}

/// Bytes as one number, the high byte first.
fn number(bytes: &[u8]) -> u64 {
    bytes.iter().fold(0, |number, &byte| number << 8 | u64::from(byte))
}

/// The lower of two partners, and whether the arguments change places.
fn lower(role: u16) -> (u16, bool) {
    match role {
        1 | 3 | 5 | 7 => (role - 1, true),
        _ => (role, false),
    }
}

/// The term in the lowest 17 bits.
fn term(bits: u64) -> Term {
    let number = bits as u16;
    match bits >> 16 & 1 {
        0 => Term::Variable(number),
        _ => Term::Object(number),
    }
}

fn atom(bytes: &[u8]) -> Atom {
    let bits = number(bytes);
    let name = (bits >> 34 & 0xfff) as u16;
    let (first, second) = (term(bits >> 17), term(bits));
    match (bits >> 47, lower(name)) {
        (0, _) => Atom::Concept(name, first),
        (_, (role, false)) => Atom::Role(role, first, second),
        (_, (role, true)) => Atom::Role(role, second, first),
    }
}

/// The question of a sheet that is as long as its counts say.
pub fn question(sheet: &[u8]) -> Option<Question> {
    let (&counts, rest) = sheet.split_first()?;
    let (terms, atoms) = (3 * usize::from(counts >> 4), 6 * usize::from(counts & 15));
    if rest.len() != terms + atoms {
        return None;
    }
    let (terms, atoms) = rest.split_at(terms);
    Some(Question {
        terms: terms.chunks_exact(3).map(|bytes| term(number(bytes))).collect(),
        atoms: atoms.chunks_exact(6).map(atom).collect(),
    })
}

/// A record's fields; a side is a form and a number.
struct Record {
    kind: u32,
    left: (u32, u16),
    right: (u32, u16),
}

fn record(bytes: &[u8]) -> Record {
    let bits = number(bytes) as u32;
    let side = |at: u32| (bits >> (at + 12) & 3, (bits >> at & 0xfff) as u16);
    Record {
        kind: bits >> 28,
        left: side(14),
        right: side(0),
    }
}

fn description((form, number): (u32, u16)) -> Option<Description> {
    let (role, exchanged) = lower(number);
    match (form, exchanged) {
        (0, _) => Some(Description::Concept(number)),
        (1, false) | (2, true) => Some(Description::To(role)),
        (2, false) | (1, true) => Some(Description::From(role)),
        _ => None,
    }
}

fn implies(record: &Record) -> Rule {
    let (left, left_exchanged) = lower(record.left.1);
    let (right, right_exchanged) = lower(record.right.1);
    let exchanged = (record.right.0 == 1) ^ left_exchanged ^ right_exchanged;
    Rule::Implies { left, right, exchanged }
}

/// The three rules that a pair is read as, over this helper.
fn three(pair: Pair, helper: u16) -> [Rule; 3] {
    let (near, far) = match pair.to {
        true => (Description::To(helper), Description::From(helper)),
        false => (Description::From(helper), Description::To(helper)),
    };
    let same_way = Rule::Implies {
        left: helper,
        right: pair.role,
        exchanged: false,
    };
    let filled = Rule::Bears(far, Description::Concept(pair.filler));
    [Rule::Bears(pair.left, near), same_way, filled]
}

impl Rules {
    fn push(&mut self, rule: Rule) {
        self.indexed.push(Indexed { rule, of: None });
    }

    fn push_pair(&mut self, kind_3: &Record, kind_4: &Record) -> Option<()> {
        let (role, to) = match description(kind_3.right)? {
            Description::To(role) => (role, true),
            Description::From(role) => (role, false),
            Description::Concept(_) => return None,
        };
        let pair = Pair {
            left: description(kind_3.left)?,
            role,
            to,
            filler: kind_4.left.1,
        };
        self.helpers = self.helpers.checked_sub(1)?;
        for (place, rule) in three(pair, self.helpers).into_iter().enumerate() {
            let of = Some((pair, place));
            self.indexed.push(Indexed { rule, of });
        }
        Some(())
    }
}

/// The rules of a sheet in the order of their indices.
pub fn rules(sheet: &[u8]) -> Option<Rules> {
    let mut rules = Rules::default();
    let mut records = sheet.chunks_exact(4).map(record);
    while let Some(next) = records.next() {
        match next.kind {
            1 => rules.push(Rule::Bears(description(next.left)?, description(next.right)?)),
            2 => rules.push(implies(&next)),
            3 => {
                let after = records.next().filter(|after| after.kind == 4)?;
                rules.push_pair(&next, &after)?;
            }
            _ => return None,
        }
    }
    Some(rules)
}
