//! Packing sheets, the counterpart of reading. Where a role has a partner, chance decides which of the two is written, but for a union
//! as the register writes it.

use crate::chance::Chance;
use crate::refusals::Sheets;
use crate::rule_sheet::{as_read, Record, Written};
use crate::sheets::{Atom, Description, Fact, Question, Rule, Step, Term};

/// Four sheets before they are packed.
#[derive(Clone, Debug)]
pub struct Draft {
    pub rules: Vec<Written>,
    pub question: Question,
    pub members: Vec<(Step, Question)>,
    pub facts: Vec<Fact>,
}

#[derive(Default)]
struct Packer {
    bytes: Vec<u8>,
    bits: usize,
}

impl Packer {
    fn put(&mut self, many: usize, number: u32) {
        for bit in (0..many).rev() {
            if self.bits % 8 == 0 {
                self.bytes.push(0);
            }
            let last = self.bytes.last_mut().expect("a byte was just begun");
            *last |= ((number >> bit & 1) as u8) << (7 - self.bits % 8);
            self.bits += 1;
        }
    }

    fn term(&mut self, term: Term) {
        match term {
            Term::Variable(x) => self.put(17, u32::from(x)),
            Term::Object(a) => self.put(17, 0x10000 + u32::from(a)),
        }
    }
}

/// A role as it is written, and whether its arguments change places.
fn spelled(role: u16, chance: &mut Chance) -> (u16, bool) {
    match role {
        0 | 2 | 4 | 6 if chance.one_in(2) => (role + 1, true),
        _ => (role, false),
    }
}

fn described(description: Description, chance: &mut Chance) -> (u32, u16) {
    let (form, role) = match description {
        Description::Concept(a) => return (0, a),
        Description::To(p) => (1, p),
        Description::From(p) => (2, p),
    };
    let (role, exchanged) = spelled(role, chance);
    (if exchanged { 3 - form } else { form }, role)
}

/// A record of this kind, with form and number of either side.
pub fn record(kind: u32, (left_form, left): (u32, u16), (right_form, right): (u32, u16)) -> Record {
    Record {
        kind,
        left_form,
        left,
        right_form,
        right,
    }
}

/// The one or two records of a rule as written.
pub fn records_of(rule: Written, chance: &mut Chance) -> Vec<Record> {
    match rule {
        Written::Plain(Rule::Bears(left, right)) => vec![record(1, described(left, chance), described(right, chance))],
        Written::Plain(Rule::Implies { left, right, exchanged }) => {
            let (left, left_flips) = spelled(left, chance);
            let (right, right_flips) = spelled(right, chance);
            let form = u32::from(exchanged ^ left_flips ^ right_flips);
            vec![record(2, (0, left), (form, right))]
        }
        Written::Qualified { left, right, filler } => {
            let role = record(3, described(left, chance), described(right, chance));
            vec![role, record(4, (0, filler), (0, 0))]
        }
    }
}

pub fn records(records: &[Record]) -> Vec<u8> {
    let mut packer = Packer::default();
    for record in records {
        packer.put(4, record.kind);
        packer.put(2, record.left_form);
        packer.put(12, u32::from(record.left));
        packer.put(2, record.right_form);
        packer.put(12, u32::from(record.right));
    }
    packer.bytes
}

pub fn rules(rules: &[Written], chance: &mut Chance) -> Vec<u8> {
    let all = Vec::from_iter(rules.iter().flat_map(|&rule| records_of(rule, chance)));
    records(&all)
}

/// A question, its roles written as `spell` says.
fn put_question(packer: &mut Packer, question: &Question, spell: &mut dyn FnMut(u16) -> (u16, bool)) {
    packer.put(4, question.answers.len() as u32);
    packer.put(4, question.atoms.len() as u32);
    for &answer in &question.answers {
        packer.put(7, 0);
        packer.term(answer);
    }
    for &atom in &question.atoms {
        match atom {
            Atom::Concept(a, t) => {
                packer.put(2, 0);
                packer.put(12, u32::from(a));
                packer.term(t);
                packer.put(17, 0);
            }
            Atom::Role(p, t, u) => {
                let (role, exchanged) = spell(p);
                let (first, second) = if exchanged { (u, t) } else { (t, u) };
                packer.put(2, 2);
                packer.put(12, u32::from(role));
                packer.term(first);
                packer.term(second);
            }
        }
    }
}

pub fn question(question: &Question, chance: &mut Chance) -> Vec<u8> {
    let mut packer = Packer::default();
    put_question(&mut packer, question, &mut |role| spelled(role, chance));
    packer.bytes
}

pub fn union(members: &[(Step, Question)], chance: &mut Chance) -> Vec<u8> {
    union_spelled(members, &mut |role| spelled(role, chance))
}

/// A union with roles as read: of two partners the lower.
pub fn union_as_read(members: &[(Step, Question)]) -> Vec<u8> {
    union_spelled(members, &mut |role| (role, false))
}

fn union_spelled(members: &[(Step, Question)], spell: &mut dyn FnMut(u16) -> (u16, bool)) -> Vec<u8> {
    let mut packer = Packer::default();
    packer.put(16, members.len() as u32);
    for (step, question) in members {
        packer.put(2, u32::from(step.kind));
        packer.put(10, u32::from(step.parent));
        packer.put(4, u32::from(step.atom));
        packer.put(16, u32::from(step.other));
        put_question(&mut packer, question, spell);
    }
    packer.bytes
}

pub fn facts(facts: &[Fact], chance: &mut Chance) -> Vec<u8> {
    let mut packer = Packer::default();
    for &fact in facts {
        match fact {
            Atom::Concept(a, t) => {
                packer.put(4, 0);
                packer.put(12, u32::from(a));
                packer.put(16, u32::from(t));
                packer.put(16, 0);
            }
            Atom::Role(p, t, u) => {
                let (role, exchanged) = spelled(p, chance);
                let (first, second) = if exchanged { (u, t) } else { (t, u) };
                packer.put(4, 8);
                packer.put(12, u32::from(role));
                packer.put(16, u32::from(first));
                packer.put(16, u32::from(second));
            }
        }
    }
    packer.bytes
}

impl Draft {
    /// The rules as read, which steps and their indices go by.
    pub fn rules_as_read(&self) -> Vec<Rule> {
        as_read(&self.rules)
    }

    pub fn sheets(&self, chance: &mut Chance) -> Sheets {
        Sheets {
            rules: rules(&self.rules, chance),
            question: question(&self.question, chance),
            union: union(&self.members, chance),
            facts: facts(&self.facts, chance),
        }
    }
}
