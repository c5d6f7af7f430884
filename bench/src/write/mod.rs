//! Writing a union in plain Rust, with the proved library's algorithm: members in index order, a result compared with the members so far
//! only where two keys agree. Steps, keys and comparison are the plain check's.
mod compare;
mod measure;

use crate::check::reading::{clashes, read_question, read_rules};
use crate::check::steps::{merge_step, names, rule_step};
use crate::check::unions::packed;
use crate::check::words::{Query, Rule};
use crate::check::{alike_to_one, key_of, Counts, Member};
use crate::{MOST_MEMBERS, PARTNERS};

/// The longest union, in bytes.
pub const LONGEST: usize = 33_282;

/// What writing gives beside the sheet: the refusal's number, 0 for none, the count of members and the union's length.
#[repr(C)]
#[derive(Clone, Copy, PartialEq, Eq, Debug)]
pub struct Written {
    pub number: u32,
    pub count: u64,
    pub length: u64,
}

/// A union while it is written.
struct Writer<'a> {
    rules: &'a [Rule],
    members: Vec<Member>,
    keys: Vec<u64>,
}

impl Writer<'_> {
    /// Appends what a step leads to, unless it is alike to a member; 15 if there is no place left.
    fn offer(
        &mut self,
        step: usize,
        result: Option<Query>,
        counts: &mut Counts,
    ) -> Result<(), u32> {
        let Some(query) = result else {
            return Ok(());
        };
        counts.results += 1;
        let key = key_of(&query);
        if alike_to_one(&query, key, &self.members, &self.keys, counts) {
            return Ok(());
        }
        if self.members.len() == MOST_MEMBERS {
            return Err(15);
        }
        self.members.push(Member {
            step: step as u32,
            query,
        });
        self.keys.push(key);
        Ok(())
    }

    /// Every step from one member: atoms in order with rules in order, then pairs by the earlier and then the later.
    fn steps_from(&mut self, parent: usize, counts: &mut Counts) -> Result<(), u32> {
        let query = self.members[parent].query;
        let size = query.atoms().len();
        for i in 0..size {
            for (k, &rule) in self.rules.iter().enumerate() {
                // a rule for another predicate makes nothing, and one that stands earlier needs no second try
                if names(rule, query.atoms()[i]) && !self.rules[..k].contains(&rule) {
                    let step = 1 << 30 | parent << 20 | i << 16 | k;
                    self.offer(step, rule_step(&query, i, rule), counts)?;
                }
            }
        }
        for i in 0..size {
            for j in i + 1..size {
                let step = 2 << 30 | parent << 20 | i << 16 | j;
                self.offer(step, merge_step(&query, i, j), counts)?;
            }
        }
        Ok(())
    }
}

/// The members of the union, or the first refusal of 1, 2, 17, 3 to 5, 18 and 15.
fn members(records: &[u8], question: &[u8], counts: &mut Counts) -> Result<Vec<Member>, u32> {
    let rules = read_rules(records, &PARTNERS)?;
    let query = read_question(question, &PARTNERS)?;
    if clashes(records, &query) {
        return Err(18);
    }
    let mut writer = Writer {
        rules: &rules,
        members: Vec::with_capacity(MOST_MEMBERS),
        keys: Vec::with_capacity(MOST_MEMBERS),
    };
    writer.members.push(Member { step: 0, query });
    writer.keys.push(key_of(&query));
    let mut taken = 0;
    while taken < writer.members.len() {
        writer.steps_from(taken, counts)?;
        taken += 1;
    }
    Ok(writer.members)
}

/// The bytes of a union.
fn bytes(members: &[Member]) -> Vec<u8> {
    let mut union = (members.len() as u16).to_be_bytes().to_vec();
    for member in members {
        union.extend(member.step.to_be_bytes());
        union.extend(packed(&member.query));
    }
    union
}

/// Writes the union into the sheet, zeros after it, or zeros only on a refusal: 1, 2, 17, 3 to 5, 18, 15, 16.
#[inline(never)]
pub fn write(rules: &[u8], question: &[u8], sheet: &mut [u8], counts: &mut Counts) -> Written {
    sheet.fill(0);
    let refused = |number| Written {
        number,
        count: 0,
        length: 0,
    };
    let members = match members(rules, question, counts) {
        Ok(members) => members,
        Err(number) => return refused(number),
    };
    let union = bytes(&members);
    match sheet.get_mut(..union.len()) {
        None => refused(16),
        Some(part) => {
            part.copy_from_slice(&union);
            Written {
                number: 0,
                count: members.len() as u64,
                length: union.len() as u64,
            }
        }
    }
}

/// Compares what both write, on so many random rules and questions and some damaged ones, and then times them.
pub fn run(sheets: usize) {
    compare::run(sheets);
    measure::run();
}
