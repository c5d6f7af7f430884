//! Writing a union (T-02 of the change requests): members in index order; for each, atoms in order with rules in order, then pairs of
//! atoms by the earlier and then the later one; a result alike to no member so far is appended at once, written as its step leaves it.

use crate::alike::Classes;
use crate::helpers::no_clash;
use crate::rewrite::{steps, QUESTION_ITSELF};
use crate::rule_sheet::{self, RuleSheet};
use crate::sheets::{self, Question, Rule, Step, MOST_MEMBERS};
use crate::write;

/// The question and the unlike questions that steps lead to, in the order of writing, each with its step; only the first `most` of them
/// where there are more.
pub fn reached(question: &Question, rules: &[Rule], most: usize) -> Vec<(Step, Question)> {
    let mut members = vec![(QUESTION_ITSELF, question.clone())];
    let mut classes = Classes::default();
    classes.put(0, question.clone());
    let mut taken = 0;
    while taken < members.len() {
        // `steps` has the atoms with the rules of each, and then the pairs
        for (step, result) in steps(taken, &members[taken].1, rules, true) {
            if classes.find(&result).is_none() {
                if members.len() == most {
                    return members;
                }
                classes.put(members.len(), result.clone());
                members.push((step, result));
            }
        }
        taken += 1;
    }
    members
}

/// What writing gives: number, count of members, length of the union, and all bytes of the lent sheet.
#[derive(Clone, Debug, PartialEq, Eq)]
pub struct Outcome {
    pub number: u32,
    pub count: u64,
    pub length: u64,
    pub sheet: Vec<u8>,
}

/// A refusal leaves zeros in all that was lent.
pub fn refused(number: u32, lent: usize) -> Outcome {
    Outcome {
        number,
        count: 0,
        length: 0,
        sheet: vec![0; lent],
    }
}

/// A union that can be written.
pub struct Union {
    pub rules: RuleSheet,
    pub members: Vec<(Step, Question)>,
    pub bytes: Vec<u8>,
}

/// Whether there are more unlike questions than a union may have: refusal 15's condition.
pub fn too_many(question: &Question, rules: &[Rule]) -> bool {
    reached(question, rules, MOST_MEMBERS + 1).len() > MOST_MEMBERS
}

/// Refusals 1 to 5 and 17, then 18 and 15, or the union. With 15 comes whether there are 513 unlike questions and no more.
pub fn union(rules: &[u8], question: &[u8]) -> Result<Union, (u32, bool)> {
    let alone = |number| (number, false);
    let rules = rule_sheet::rules(rules).map_err(alone)?;
    let question = sheets::question(question).map_err(alone)?;
    no_clash(&rules.written, &question, &[]).map_err(alone)?;
    // one more than are looked at shows whether 513 are all
    let members = reached(&question, &rules.read, MOST_MEMBERS + 2);
    if members.len() > MOST_MEMBERS {
        return Err((15, members.len() == MOST_MEMBERS + 1));
    }
    let bytes = write::union_as_read(&members);
    Ok(Union { rules, members, bytes })
}

impl Union {
    /// Refusal 16, or the union and zeros after it, in a sheet of this length.
    pub fn outcome(&self, lent: usize) -> Outcome {
        if lent < self.bytes.len() {
            return refused(16, lent);
        }
        let mut sheet = self.bytes.clone();
        sheet.resize(lent, 0);
        Outcome {
            number: 0,
            count: self.members.len() as u64,
            length: self.bytes.len() as u64,
            sheet,
        }
    }

    /// Whether some member is reached by no rules without a merge.
    pub fn needs_merge(&self) -> bool {
        let merged = |(step, _): &(Step, Question)| step.kind == 2;
        self.members.iter().any(merged) && self.unmerged() < self.members.len()
    }

    /// How many unlike questions rules alone lead to.
    fn unmerged(&self) -> usize {
        let by_rules = crate::rewrite::plain_closure(&self.members[0].1, &self.rules.read, false, MOST_MEMBERS);
        by_rules.map_or(usize::MAX, |members| members.len())
    }
}
