//! Explaining with one fault after another, for tests. A member that a merge made is never the lowest that yields, so a search that passes
//! over merged members cannot be seen; a way back that leaves merges out can.

use trials::alike::alike;
use trials::chase::Held;
use trials::explain::{ground_but_for_18, objects, Ground, Place, PLACE};
use trials::lost_tags;
use trials::refusals::Sheets;
use trials::rename_kinds::turned;
use trials::renamings::{by_maps, smallest, Targets, NO_TARGET};
use trials::rewrite::{self, QUESTION_ITSELF};
use trials::sheets::{self, Question, Term};

#[derive(Clone, Copy, PartialEq, Eq, Debug)]
pub enum Fault {
    // another member is taken
    SecondThatYields,
    HighestThatYields,
    YieldsByRules,
    LostTagsHelpNoMatch,
    // another way back
    ParentOneTooEarly,
    ParentOneTooLate,
    MemberByMember,
    ParentFoundAnew,
    FromMember0Forward,
    Member0TakesAPlace,
    MergesTakeNoPlace,
    LastStepLost,
    // another renaming
    RenamingOfTheParentsStep,
    RenamingFromTheParent,
    RenamingBack,
    RenamingTurnedRound,
    LargestRenaming,
    ResultOfTheResultBefore,
    FreshVariableHighest,
    MergeKeepsTheHigher,
    NoTargetIsZero,
    // other bytes
    LowByteFirst,
    UnusedPlacesHold32,
    UnusedPlacesLeft,
    PartOfAPlaceLeft,
    // another refusal
    LengthNotJudged,
    LongerTupleTaken,
    LowByteOfObjectsFirst,
    LostTagExplained,
    EmptyTupleAlwaysExplained,
    TwentyBefore19,
    NineteenBefore18,
    NineteenBefore13,
    NineteenBeforeAll,
    RoomForAPartIsEnough,
    RoomForOneMoreAskedFor,
    // after a refusal
    RefusalLeavesBytes,
    RefusalLeavesSteps,
    RefusalHasCount,
}

pub const FAULTS: [Fault; 39] = [
    Fault::SecondThatYields,
    Fault::HighestThatYields,
    Fault::YieldsByRules,
    Fault::LostTagsHelpNoMatch,
    Fault::ParentOneTooEarly,
    Fault::ParentOneTooLate,
    Fault::MemberByMember,
    Fault::ParentFoundAnew,
    Fault::FromMember0Forward,
    Fault::Member0TakesAPlace,
    Fault::MergesTakeNoPlace,
    Fault::LastStepLost,
    Fault::RenamingOfTheParentsStep,
    Fault::RenamingFromTheParent,
    Fault::RenamingBack,
    Fault::RenamingTurnedRound,
    Fault::LargestRenaming,
    Fault::ResultOfTheResultBefore,
    Fault::FreshVariableHighest,
    Fault::MergeKeepsTheHigher,
    Fault::NoTargetIsZero,
    Fault::LowByteFirst,
    Fault::UnusedPlacesHold32,
    Fault::UnusedPlacesLeft,
    Fault::PartOfAPlaceLeft,
    Fault::LengthNotJudged,
    Fault::LongerTupleTaken,
    Fault::LowByteOfObjectsFirst,
    Fault::LostTagExplained,
    Fault::EmptyTupleAlwaysExplained,
    Fault::TwentyBefore19,
    Fault::NineteenBefore18,
    Fault::NineteenBefore13,
    Fault::NineteenBeforeAll,
    Fault::RoomForAPartIsEnough,
    Fault::RoomForOneMoreAskedFor,
    Fault::RefusalLeavesBytes,
    Fault::RefusalLeavesSteps,
    Fault::RefusalHasCount,
];

/// A case, and the fault that explaining has, if any.
pub struct Faulty<'a> {
    pub sheets: &'a Sheets,
    pub ground: Result<&'a Ground, u32>,
    pub fault: Option<Fault>,
}

/// The question with its variables numbered from above.
fn mirrored(question: &Question) -> Question {
    let mirror = |term: Term| match term {
        Term::Variable(x) => Term::Variable(31 - x),
        object => object,
    };
    Question {
        answers: question.answers.iter().copied().map(mirror).collect(),
        atoms: question.atoms.iter().map(|atom| atom.map(mirror)).collect(),
    }
}

/// The tuples that the question yields by matches without a lost tag.
fn yields_unlost(ground: &Ground, question: &Question, tuple: &[u16]) -> bool {
    let held = Held::facts(&ground.facts);
    held.tuples_avoiding(question, lost_tags::is_lost).contains(tuple)
}

impl Faulty<'_> {
    fn has(&self, fault: Fault) -> bool {
        self.fault == Some(fault)
    }

    /// The number that is given whatever the list, but for 19 of sheets that are accepted.
    fn refusal(&self, tuple: &[u8]) -> Option<u32> {
        let number = self.ground.as_ref().err().copied()?;
        let question = sheets::question(&self.sheets.question);
        let other_length = question.is_ok_and(|question| tuple.len() != 2 * question.answers.len());
        let is_19 = match self.fault {
            Some(Fault::NineteenBefore18) if number == 18 => {
                let ground = ground_but_for_18(self.sheets);
                ground.is_ok_and(|ground| ground.explaining(tuple).is_none())
            }
            Some(Fault::NineteenBefore13) if number == 13 => other_length,
            Some(Fault::NineteenBeforeAll) => tuple.len() % 2 == 1 || tuple.len() > 8,
            _ => false,
        };
        Some(if is_19 { 19 } else { number })
    }

    /// The tuple that is looked for; none if it is refused for its length or a lost tag.
    fn tuple(&self, ground: &Ground, bytes: &[u8]) -> Option<Vec<u16>> {
        let right = ground.tuple_length();
        let mut bytes = bytes.to_vec();
        if self.has(Fault::LengthNotJudged) || self.has(Fault::LongerTupleTaken) && bytes.len() > right {
            bytes.resize(right, 0);
        }
        let mut tuple = objects(&bytes);
        if self.has(Fault::LowByteOfObjectsFirst) {
            tuple = tuple.into_iter().map(u16::swap_bytes).collect();
        }
        let lost = lost_tags::holds_one(tuple.iter().copied()) && !self.has(Fault::LostTagExplained);
        (bytes.len() == right && !lost).then_some(tuple)
    }

    fn member(&self, ground: &Ground, bytes: &[u8]) -> Option<usize> {
        let tuple = self.tuple(ground, bytes)?;
        let members = &ground.accepted.members;
        let yields = |&m: &usize| match self.fault {
            Some(Fault::LostTagsHelpNoMatch) => yields_unlost(ground, &members[m].question, &tuple),
            _ => ground.yields[m].contains(&tuple),
        };
        let all = Vec::from_iter((0..members.len()).filter(yields));
        match self.fault {
            Some(Fault::SecondThatYields) => all.get(1).or(all.first()).copied(),
            Some(Fault::HighestThatYields) => all.last().copied(),
            Some(Fault::YieldsByRules) => all.first().map(|_| 0),
            Some(Fault::EmptyTupleAlwaysExplained) if tuple.is_empty() => all.first().copied().or(Some(0)),
            _ => all.first().copied(),
        }
    }

    /// The question of this member as the steps leave it, if they apply one after the other.
    fn undressed(&self, ground: &Ground, member: usize) -> Option<Question> {
        let (members, rules) = (&ground.accepted.members, &ground.accepted.rules.read);
        match member {
            0 => Some(members[0].question.clone()),
            _ => {
                let step = members[member].step;
                rewrite::result(step, &self.undressed(ground, step.parent as usize)?, rules)
            }
        }
    }

    /// What the step of this member leads to, named as the fault has it.
    fn result(&self, ground: &Ground, member: usize) -> Question {
        let (members, rules) = (&ground.accepted.members, &ground.accepted.rules.read);
        let step = members[member].step;
        let parent = &members[step.parent as usize].question;
        let from_above = match self.fault {
            Some(Fault::FreshVariableHighest) => step.kind == 1,
            Some(Fault::MergeKeepsTheHigher) => step.kind == 2,
            _ => false,
        };
        let other = match self.fault {
            Some(Fault::ResultOfTheResultBefore) => self.undressed(ground, member),
            _ if from_above => rewrite::result(step, &mirrored(parent), rules).map(|result| mirrored(&result)),
            _ => None,
        };
        other
            .filter(|other| alike(other, &members[member].question))
            .unwrap_or_else(|| ground.result(member))
    }

    fn targets(&self, ground: &Ground, member: usize) -> Targets {
        let own = &ground.accepted.members[member].question;
        let parent = ground.accepted.members[member].step.parent as usize;
        let result = self.result(ground, member);
        let usual = smallest(&result, own).0;
        let targets = match self.fault {
            Some(Fault::RenamingOfTheParentsStep) if parent > 0 => Some(ground.renaming(parent).0),
            Some(Fault::RenamingFromTheParent) => smallest(&ground.accepted.members[parent].question, own).0,
            Some(Fault::RenamingBack) => smallest(own, &result).0,
            Some(Fault::RenamingTurnedRound) => usual.map(|targets| turned(&targets)),
            Some(Fault::LargestRenaming) => by_maps(&result, own).and_then(|all| all.into_iter().max()),
            Some(Fault::NoTargetIsZero) => usual.map(|all| all.map(|y| if y == NO_TARGET { 0 } else { y })),
            _ => usual,
        };
        targets.unwrap_or([NO_TARGET; 32])
    }

    /// The member that the way goes back to.
    fn parent(&self, ground: &Ground, member: usize) -> usize {
        let members = &ground.accepted.members;
        let leads_here = |&lower: &usize| {
            let steps = rewrite::steps(lower, &members[lower].question, &ground.accepted.rules.read, true);
            steps.iter().any(|(_, result)| alike(result, &members[member].question))
        };
        let written = members[member].step.parent as usize;
        match self.fault {
            Some(Fault::MemberByMember) => member - 1,
            Some(Fault::ParentFoundAnew) => (0..written).find(leads_here).unwrap_or(written),
            _ => written,
        }
    }

    fn place(&self, ground: &Ground, member: usize) -> Place {
        let mut step = ground.accepted.members[member].step;
        match self.fault {
            Some(Fault::ParentOneTooEarly) => step.parent = step.parent.saturating_sub(1),
            Some(Fault::ParentOneTooLate) => step.parent += 1,
            Some(Fault::ParentFoundAnew) => step.parent = self.parent(ground, member) as u16,
            _ => {}
        }
        Place {
            member: member as u16,
            step,
            targets: self.targets(ground, member),
        }
    }

    fn way(&self, ground: &Ground, mut member: usize) -> Vec<Place> {
        let mut way = Vec::new();
        while member > 0 {
            if !self.has(Fault::MergesTakeNoPlace) || ground.accepted.members[member].step.kind != 2 {
                way.push(self.place(ground, member));
            }
            member = self.parent(ground, member);
        }
        match self.fault {
            Some(Fault::FromMember0Forward) => way.reverse(),
            Some(Fault::LastStepLost) => drop(way.pop()),
            Some(Fault::Member0TakesAPlace) => way.push(Place {
                member: 0,
                step: QUESTION_ITSELF,
                targets: [NO_TARGET; 32],
            }),
            _ => {}
        }
        way
    }

    fn packed(&self, place: &Place) -> Vec<u8> {
        let mut bytes = place.packed();
        if self.has(Fault::LowByteFirst) {
            [0, 3, 6].into_iter().for_each(|at| bytes.swap(at, at + 1));
        }
        bytes
    }

    /// The places as far as there is room for them, and what the fault leaves after them.
    fn fill(&self, way: &[Place], list: &mut [u8]) {
        let bytes = Vec::from_iter(way.iter().flat_map(|place| self.packed(place)));
        let end = bytes.len().min(list.len());
        list[..end].copy_from_slice(&bytes[..end]);
        let whole = list.len() / PLACE * PLACE;
        match self.fault {
            Some(Fault::UnusedPlacesLeft) => {}
            Some(Fault::PartOfAPlaceLeft) => list[end..whole.max(end)].fill(0),
            _ => list[end..].fill(0),
        }
        if self.has(Fault::UnusedPlacesHold32) {
            let unused = list[end..].chunks_exact_mut(PLACE);
            unused.for_each(|place| place[8..].fill(NO_TARGET));
        }
    }

    fn refused(&self, number: u32, way: &[Place], list: &mut [u8]) -> (u32, u64) {
        match self.fault {
            Some(Fault::RefusalLeavesBytes) => {}
            Some(Fault::RefusalLeavesSteps) => self.fill(way, list),
            _ => list.fill(0),
        }
        let count = if self.has(Fault::RefusalHasCount) { way.len() } else { 0 };
        (number, count as u64)
    }

    /// What the call gives with this fault.
    pub fn explain(&self, tuple: &[u8], list: &mut [u8]) -> (u32, u64) {
        let ground = match (self.refusal(tuple), &self.ground) {
            (None, Ok(ground)) => ground,
            (number, _) => return self.refused(number.unwrap_or(0), &[], list),
        };
        let Some(member) = self.member(ground, tuple) else {
            let no_room = self.has(Fault::TwentyBefore19) && list.len() < PLACE;
            return self.refused(if no_room { 20 } else { 19 }, &[], list);
        };
        let way = self.way(ground, member);
        let needed = match self.fault {
            Some(Fault::RoomForAPartIsEnough) => (PLACE * way.len()).saturating_sub(PLACE - 1),
            Some(Fault::RoomForOneMoreAskedFor) => PLACE * way.len() + 1,
            _ => PLACE * way.len(),
        };
        if list.len() < needed {
            return self.refused(20, &way, list);
        }
        self.fill(&way, list);
        (0, way.len() as u64)
    }
}
