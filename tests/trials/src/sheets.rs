//! The packed sheets, read bit by bit, and the reciprocal names; rule_sheet.rs has the rules. What a function here returns is the sheet
//! *as read*: the higher of two partners has become the lower, with its arguments exchanged. An `Err` holds the number of the refusal.

#[derive(Clone, Copy, PartialEq, Eq, PartialOrd, Ord, Hash, Debug)]
pub enum Term {
    Variable(u8),
    Object(u16),
}

/// A concept or a role over anything: terms in a question, objects in a fact, things in a round.
#[derive(Clone, Copy, PartialEq, Eq, PartialOrd, Ord, Hash, Debug)]
pub enum Atom<T> {
    Concept(u16, T),
    Role(u16, T, T),
}

impl<T: Copy> Atom<T> {
    /// The terms in their order: one of a concept, two of a role.
    pub fn terms(self) -> impl Iterator<Item = T> {
        let (first, second) = match self {
            Atom::Concept(_, t) => (t, None),
            Atom::Role(_, t, u) => (t, Some(u)),
        };
        std::iter::once(first).chain(second)
    }

    pub fn map<U>(self, mut f: impl FnMut(T) -> U) -> Atom<U> {
        match self {
            Atom::Concept(a, t) => Atom::Concept(a, f(t)),
            Atom::Role(p, t, u) => {
                let first = f(t);
                Atom::Role(p, first, f(u))
            }
        }
    }
}

#[derive(Clone, PartialEq, Eq, Hash, Debug)]
pub struct Question {
    pub answers: Vec<Term>,
    pub atoms: Vec<Atom<Term>>,
}

/// Forms 0, 1 and 2: a concept name, "has the role to something", "something has the role to it".
#[derive(Clone, Copy, PartialEq, Eq, Debug)]
pub enum Description {
    Concept(u16),
    To(u16),
    From(u16),
}

/// A rule as read.
#[derive(Clone, Copy, PartialEq, Eq, Debug)]
pub enum Rule {
    /// Kind 1: each bearer of the left description bears the right one.
    Bears(Description, Description),
    /// Kind 2: the left role implies the right role, arguments exchanged or not.
    Implies { left: u16, right: u16, exchanged: bool },
}

#[derive(Clone, Copy, PartialEq, Eq, Debug)]
pub struct Step {
    pub kind: u8,
    pub parent: u16,
    pub atom: u8,
    pub other: u16,
}

#[derive(Clone, Debug)]
pub struct Member {
    pub step: Step,
    pub question: Question,
    /// Where in the union sheet its question stands, in bytes.
    pub start: usize,
    pub length: usize,
}

pub type Fact = Atom<u16>;

pub const MOST_MEMBERS: usize = 512;
const PARTNERS: [u16; 16] = [1, 0, 3, 2, 5, 4, 7, 6, 8, 9, 10, 11, 12, 13, 14, 15];

/// A role's lower name, and whether its arguments change places on the way there.
pub fn lower(role: u16) -> (u16, bool) {
    match PARTNERS.get(role as usize) {
        Some(&partner) if partner < role => (partner, true),
        _ => (role, false),
    }
}

fn role_atom<T>(number: u16, first: T, second: T) -> Atom<T> {
    match lower(number) {
        (role, false) => Atom::Role(role, first, second),
        (role, true) => Atom::Role(role, second, first),
    }
}

/// Bytes taken as bits, the most significant first.
pub struct Bits<'a> {
    bytes: &'a [u8],
    at: usize,
}

impl<'a> Bits<'a> {
    pub fn new(bytes: &'a [u8]) -> Self {
        Bits { bytes, at: 0 }
    }

    /// The next `many` bits as a number; none if the bytes end early.
    pub fn take(&mut self, many: usize) -> Option<u32> {
        let mut number = 0;
        for _ in 0..many {
            let byte = self.bytes.get(self.at / 8)?;
            number = number * 2 + u32::from(byte >> (7 - self.at % 8) & 1);
            self.at += 1;
        }
        Some(number)
    }

    /// The next `many` bits, which must all be zero.
    fn zeros(&mut self, many: usize) -> Option<()> {
        (self.take(many)? == 0).then_some(())
    }

    pub fn ended(&self) -> bool {
        self.at == self.bytes.len() * 8
    }
}

/// The description of this form; none if there is none.
pub fn description(form: u32, number: u16) -> Option<Description> {
    match form {
        0 => Some(Description::Concept(number)),
        1 | 2 => {
            let (role, exchanged) = lower(number);
            let to = (form == 1) != exchanged;
            Some(if to {
                Description::To(role)
            } else {
                Description::From(role)
            })
        }
        _ => None,
    }
}

fn term(bits: &mut Bits) -> Option<Term> {
    let is_object = bits.take(1)? == 1;
    let number = bits.take(16)? as u16;
    match is_object {
        true => Some(Term::Object(number)),
        false => (number <= 31).then_some(Term::Variable(number as u8)),
    }
}

fn atom(bits: &mut Bits) -> Option<Atom<Term>> {
    let is_role = bits.take(1)? == 1;
    bits.zeros(1)?;
    let number = bits.take(12)? as u16;
    let first = term(bits)?;
    if is_role {
        let second = term(bits)?;
        Some(role_atom(number, first, second))
    } else {
        bits.zeros(17)?;
        Some(Atom::Concept(number, first))
    }
}

/// A question from here on; none if it meets 3 for another reason than bytes that run on.
fn question_from(bits: &mut Bits) -> Option<Question> {
    let terms = bits.take(4)?;
    let atoms = bits.take(4)?;
    if terms > 4 || !(1..=8).contains(&atoms) {
        return None;
    }
    let mut question = Question {
        answers: Vec::new(),
        atoms: Vec::new(),
    };
    for _ in 0..terms {
        bits.zeros(7)?;
        question.answers.push(term(bits)?);
    }
    for _ in 0..atoms {
        question.atoms.push(atom(bits)?);
    }
    Some(question)
}

/// Refusal 4's condition.
fn answer_stands_nowhere(question: &Question) -> bool {
    question.answers.iter().any(|answer| {
        matches!(answer, Term::Variable(_)) && !question.atoms.iter().any(|atom| atom.terms().any(|t| t == *answer))
    })
}

/// Refusal 5's condition.
fn atom_twice(question: &Question) -> bool {
    let atoms = &question.atoms;
    (0..atoms.len()).any(|i| atoms[..i].contains(&atoms[i]))
}

/// A question sheet that does not meet 3.
fn whole_question(bytes: &[u8]) -> Option<Question> {
    let mut bits = Bits::new(bytes);
    question_from(&mut bits).filter(|_| bits.ended())
}

/// Whether 4 and 5 hold both, of which 4 is given.
pub fn meets_4_and_5(bytes: &[u8]) -> bool {
    whole_question(bytes).is_some_and(|question| answer_stands_nowhere(&question) && atom_twice(&question))
}

/// Refusals 3, 4 and 5.
pub fn question(bytes: &[u8]) -> Result<Question, u32> {
    let question = whole_question(bytes).ok_or(3u32)?;
    if answer_stands_nowhere(&question) {
        return Err(4);
    }
    if atom_twice(&question) {
        return Err(5);
    }
    Ok(question)
}

fn member(bits: &mut Bits) -> Option<Member> {
    let step = Step {
        kind: bits.take(2)? as u8,
        parent: bits.take(10)? as u16,
        atom: bits.take(4)? as u8,
        other: bits.take(16)? as u16,
    };
    let start = bits.at / 8;
    let question = question_from(bits)?;
    let length = bits.at / 8 - start;
    if answer_stands_nowhere(&question) || atom_twice(&question) {
        return None;
    }
    Some(Member {
        step,
        question,
        start,
        length,
    })
}

fn members(bytes: &[u8], terms: Option<usize>) -> Option<Vec<Member>> {
    let mut bits = Bits::new(bytes);
    let count = bits.take(16)? as usize;
    if !(1..=MOST_MEMBERS).contains(&count) {
        return None;
    }
    let mut members: Vec<Member> = Vec::new();
    for _ in 0..count {
        members.push(member(&mut bits)?);
    }
    let terms = terms.unwrap_or(members[0].question.answers.len());
    let fit = members.iter().all(|m| m.question.answers.len() == terms);
    (fit && bits.ended()).then_some(members)
}

/// Refusal 6, beside a question of so many answer terms.
pub fn union(bytes: &[u8], terms: usize) -> Result<Vec<Member>, u32> {
    members(bytes, Some(terms)).ok_or(6)
}

/// Where member m's question stands in a union sheet, start and length in bytes; none if the sheet meets 6 on its own, or if
/// there is no member m.
pub fn shown(bytes: &[u8], m: usize) -> Option<(usize, usize)> {
    let members = members(bytes, None)?;
    members.get(m).map(|member| (member.start, member.length))
}

fn fact(bits: &mut Bits) -> Option<Fact> {
    let is_role = bits.take(1)? == 1;
    bits.zeros(3)?;
    let number = bits.take(12)? as u16;
    let first = bits.take(16)? as u16;
    if is_role {
        let second = bits.take(16)? as u16;
        Some(role_atom(number, first, second))
    } else {
        bits.zeros(16)?;
        Some(Atom::Concept(number, first))
    }
}

/// Refusals 12 and 13.
pub fn facts(bytes: &[u8]) -> Result<Vec<Fact>, u32> {
    if bytes.len() % 6 != 0 || bytes.len() > 60_000 {
        return Err(12);
    }
    let mut bits = Bits::new(bytes);
    let mut facts = Vec::new();
    while !bits.ended() {
        facts.push(fact(&mut bits).ok_or(13u32)?);
    }
    Ok(facts)
}
