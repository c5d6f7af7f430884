//! Each answer with the rules behind it (T-06 of the change requests): the lowest member that yields the tuple from the facts alone, the
//! steps from there back to member 0, and with each step the smallest renaming (T-05) from its result to its member.

use crate::chase::Held;
use crate::helpers::no_clash;
use crate::lost_tags;
use crate::refusals::{closed_union, refused, Accepted, Outcome, Sheets};
use crate::renamings::{smallest, Targets};
use crate::rewrite;
use crate::sheets::{self, Fact, Question, Step};
use std::cell::OnceCell;
use std::collections::BTreeSet;

/// Bytes that a step takes in the list.
pub const PLACE: usize = 40;

/// A place of the list: a member, its step as written beside it, and the renaming from the step's result to the member.
#[derive(Clone, Copy, PartialEq, Eq, Debug)]
pub struct Place {
    pub member: u16,
    pub step: Step,
    pub targets: Targets,
}

impl Place {
    /// Member, kind, parent, atom, other, and 32 targets, the high byte first.
    pub fn packed(&self) -> Vec<u8> {
        let Step {
            kind,
            parent,
            atom,
            other,
        } = self.step;
        let [m, p, o] = [self.member, parent, other].map(u16::to_be_bytes);
        let head = [m[0], m[1], kind, p[0], p[1], atom, o[0], o[1]];
        [&head[..], &self.targets[..]].concat()
    }
}

/// Sheets that explaining refuses, if at all, for the tuple or the list, and what each member yields.
pub struct Ground {
    pub accepted: Accepted,
    pub facts: Vec<Fact>,
    /// By member, the tuples that it yields from the facts alone, those with a lost tag among them.
    pub yields: Vec<BTreeSet<Vec<u16>>>,
    /// By member, what is known of the renamings from its step's result.
    renamings: Vec<OnceCell<(Targets, usize)>>,
}

/// Refusals 1 to 13 and 17, and then what is read.
fn read(sheets: &Sheets) -> Result<(Accepted, Vec<Fact>), u32> {
    Ok((closed_union(sheets)?, sheets::facts(&sheets.facts)?))
}

/// The same, and what the members yield; 18 is not looked at yet.
pub fn ground_but_for_18(sheets: &Sheets) -> Result<Ground, u32> {
    let (accepted, facts) = read(sheets)?;
    let held = Held::facts(&facts);
    let members = accepted.members.iter();
    let yields = members.map(|member| held.tuples(&member.question)).collect();
    Ok(Ground::new(accepted, facts, yields))
}

/// The refusals of drawing but for 14, which has no place here.
pub fn ground(sheets: &Sheets) -> Result<Ground, u32> {
    let ground = ground_but_for_18(sheets)?;
    let Accepted { rules, question, .. } = &ground.accepted;
    no_clash(&rules.written, question, &ground.facts)?;
    Ok(ground)
}

/// The ground of dense sheets that are known to be accepted, by joins; none if more than `most` partial matches have to be kept.
pub fn dense_ground(sheets: &Sheets, most: usize) -> Option<Ground> {
    let (accepted, facts) = read(sheets).ok()?;
    let held = Held::facts(&facts);
    let members = accepted.members.iter();
    let yields = members
        .map(|member| held.joined(&member.question, most))
        .collect::<Option<_>>()?;
    Some(Ground::new(accepted, facts, yields))
}

/// A tuple as in the answer list.
pub fn packed_tuple(tuple: &[u16]) -> Vec<u8> {
    tuple.iter().flat_map(|object| object.to_be_bytes()).collect()
}

/// The objects that these bytes are; a last byte without another is left out.
pub fn objects(bytes: &[u8]) -> Vec<u16> {
    let object = |pair: &[u8]| u16::from_be_bytes([pair[0], pair[1]]);
    bytes.chunks_exact(2).map(object).collect()
}

impl Ground {
    fn new(accepted: Accepted, facts: Vec<Fact>, yields: Vec<BTreeSet<Vec<u16>>>) -> Ground {
        Ground {
            renamings: vec![OnceCell::new(); yields.len()],
            accepted,
            facts,
            yields,
        }
    }

    /// Bytes that a tuple must have.
    pub fn tuple_length(&self) -> usize {
        2 * self.accepted.question.answers.len()
    }

    /// The lowest member that yields the tuple, a lost tag or not.
    pub fn lowest(&self, tuple: &[u16]) -> Option<usize> {
        self.yields.iter().position(|tuples| tuples.contains(tuple))
    }

    /// The lowest member that yields the tuple that these bytes are, if they are an answer.
    pub fn explaining(&self, bytes: &[u8]) -> Option<usize> {
        let tuple = objects(bytes);
        let is_tuple = bytes.len() == self.tuple_length() && !lost_tags::holds_one(tuple.iter().copied());
        self.lowest(&tuple).filter(|_| is_tuple)
    }

    /// What the step beside this member, which is not member 0, makes of its parent as that stands in the sheet.
    pub fn result(&self, member: usize) -> Question {
        let Accepted { rules, members, .. } = &self.accepted;
        let step = members[member].step;
        let parent = &members[step.parent as usize].question;
        rewrite::result(step, parent, &rules.read).expect("the union does not meet 8")
    }

    /// The smallest renaming from the step's result to this member, and how many there are.
    pub fn renaming(&self, member: usize) -> (Targets, usize) {
        *self.renamings[member].get_or_init(|| {
            let (found, many) = smallest(&self.result(member), &self.accepted.members[member].question);
            (found.expect("the union does not meet 9"), many)
        })
    }

    /// The steps from this member back to the one whose parent is member 0.
    pub fn way(&self, mut member: usize) -> Vec<Place> {
        let mut way = Vec::new();
        while member > 0 {
            let step = self.accepted.members[member].step;
            way.push(Place {
                member: member as u16,
                step,
                targets: self.renaming(member).0,
            });
            member = step.parent as usize;
        }
        way
    }

    /// Number, count and all bytes of a list of this length: refusals 19 and 20, or the steps and zeros after them.
    pub fn outcome(&self, tuple: &[u8], length: usize) -> Outcome {
        let Some(member) = self.explaining(tuple) else {
            return refused(19, length);
        };
        let way = self.way(member);
        if length < PLACE * way.len() {
            return refused(20, length);
        }
        let mut list = Vec::from_iter(way.iter().flat_map(Place::packed));
        list.resize(length, 0);
        Outcome {
            number: 0,
            count: way.len() as u64,
            list,
        }
    }
}

/// What the call gives.
pub fn explained(sheets: &Sheets, tuple: &[u8], length: usize) -> Outcome {
    match ground(sheets) {
        Err(number) => refused(number, length),
        Ok(ground) => ground.outcome(tuple, length),
    }
}
