//! What kind of case a dense one is, by the second implementation alone: above all, whether a search must meet more keys than it can
//! remember.

use crate::chase::{Held, Thing};
use crate::dense::{Case, EDGES, MOST_ROWS, SIZES};
use crate::dense_questions::Outline;
use crate::helpers::Helpers;
use crate::join::{asked_for, variables, Row};
use crate::lost_tags;
use crate::sheets::{Atom, Question, Step, Term};
use crate::write::Draft;
use std::collections::BTreeSet;

/// The most variables that a key has.
const MOST_IN_KEY: usize = 4;

/// A question in the facts, its atoms parted into those done and those left.
struct Depths<'a> {
    held: &'a Held,
    question: &'a Question,
    /// How many keys of a depth are remembered.
    entries: usize,
    /// Whether the question has no match at all.
    dead: bool,
}

impl Depths<'_> {
    /// The atoms of this set, and the others.
    fn parted(&self, done: usize) -> (Vec<Atom<Term>>, Vec<Atom<Term>>) {
        let atoms = self.question.atoms.iter().enumerate();
        let (done, left): (Vec<_>, Vec<_>) = atoms.partition(|(i, _)| done >> i & 1 == 1);
        let atoms = |list: Vec<(usize, &Atom<Term>)>| list.into_iter().map(|(_, atom)| *atom).collect();
        (atoms(done), atoms(left))
    }

    /// Whether a search surely notes more keys than it has entries for, once these atoms are done. By one sort of key, the things of the
    /// variables that stand both in atoms done and in atoms left, it notes that there is no match; by the other, which has those of the
    /// answer variables too, that all is listed. A key of all variables done tells nothing and is not noted, nor is a long one. This is
    /// said only where every partial match is looked at: while an answer term is open, or if there is no match at all. A lost tag for an
    /// answer variable ends the search before.
    fn too_many_keys(&self, done: usize) -> Option<bool> {
        let (done, left) = self.parted(done);
        let (own, asked) = (variables(&done), asked_for(self.question));
        let shared = &own & &variables(&left);
        let wanted = &shared | &(&asked & &own);
        let is_noted = |key: &BTreeSet<u8>| key.len() <= MOST_IN_KEY && key.len() < own.len();
        if asked.is_subset(&own) && !self.dead || !is_noted(&shared) {
            return None;
        }
        let lost = |thing: Thing| self.held.object(thing).is_some_and(lost_tags::is_lost);
        let goes_on = |row: &Row| wanted.iter().zip(row).all(|(x, &t)| !asked.contains(x) || !lost(t));
        let rows = |atoms: &[Atom<Term>]| {
            let rows = self.held.rows(atoms, &wanted, MOST_ROWS)?;
            Some(BTreeSet::from_iter(rows.into_iter().filter(goes_on)))
        };
        let all = rows(&done).filter(|all| all.len() > self.entries)?;
        let matched = if self.dead {
            BTreeSet::new()
        } else {
            rows(&self.question.atoms)?
        };
        let key = |row: &Row| {
            let shown = wanted.iter().zip(row).filter(|(x, _)| shared.contains(x));
            Row::from_iter(shown.map(|(_, &thing)| thing))
        };
        let dead = BTreeSet::from_iter(all.difference(&matched).map(key));
        let listed = if is_noted(&wanted) { matched.len() } else { 0 };
        Some(dead.len() + listed > self.entries)
    }

    /// The atoms that may come next, as sets with those done: they have the fewest variables that are open, and of these, if there are
    /// such, some that is not.
    fn next(&self, done: usize) -> Vec<usize> {
        let atoms = &self.question.atoms;
        let bound = variables(&self.parted(done).0);
        let rank = |i: usize| {
            let own = variables(&atoms[i..=i]);
            let open = own.difference(&bound).count();
            (open, open == own.len() && open > 0)
        };
        let left = Vec::from_iter((0..atoms.len()).filter(|i| done >> i & 1 == 0));
        let best = left.iter().map(|&i| rank(i)).min();
        let next = left.into_iter().filter(|&i| Some(rank(i)) == best);
        next.map(|i| done | 1 << i).collect()
    }

    /// Whether all atoms can be done, from these on, in an order in which no depth has too many keys.
    fn can_avoid(&self, done: usize, seen: &mut BTreeSet<usize>) -> bool {
        done + 1 == 1 << self.question.atoms.len()
            || self
                .next(done)
                .into_iter()
                .any(|more| seen.insert(more) && self.too_many_keys(more) != Some(true) && self.can_avoid(more, seen))
    }
}

/// Whether a search that remembers so many keys of a depth has to forget some, in whatever order it takes the atoms, as long as it goes
/// on with what has fewest open variables, and from there.
pub fn forgets(held: &Held, question: &Question, entries: usize) -> bool {
    let Some(matches) = held.rows(&question.atoms, &BTreeSet::new(), MOST_ROWS) else {
        return false;
    };
    let depths = Depths {
        held,
        question,
        entries,
        dead: matches.is_empty(),
    };
    let ends_at_once = lost_tags::holds_one(literals(&question.answers)) || has_no_fact(held, question);
    !ends_at_once && !depths.can_avoid(0, &mut BTreeSet::new())
}

/// Whether some atom's predicate has no fact.
fn has_no_fact(held: &Held, question: &Question) -> bool {
    let no_fact = |atom: &Atom<Term>| held.fitting(atom.map(|_| None)).is_empty();
    question.atoms.iter().any(no_fact)
}

/// The objects among some terms.
fn literals(terms: &[Term]) -> impl Iterator<Item = u16> + '_ {
    terms.iter().filter_map(|term| match term {
        Term::Object(object) => Some(*object),
        Term::Variable(_) => None,
    })
}

/// What a case is and has.
pub struct Kinds {
    /// Its place in `SIZES`.
    pub size: usize,
    pub forgets: bool,
    /// Its place in `EDGES`, if it has as many facts.
    pub edge: Option<usize>,
    /// How many atoms are around, if it has a ring.
    pub ring: Option<usize>,
    /// How many answer terms.
    pub terms: usize,
    /// How many members after the first bring an answer that no member before them has.
    pub bringing: u64,
    /// For each line of `KINDS`.
    pub has: [bool; KINDS.len()],
    /// What the members find in the facts; the rounds must give the same.
    pub by_members: BTreeSet<Vec<u16>>,
}

/// What is counted of cases, and how often it must be met.
pub const KINDS: [(&str, u64); 17] = [
    ("with one variable twice in an atom", 120),
    ("with an object at the first place of an atom alone", 90),
    ("with an object at the second place of an atom alone", 90),
    ("with objects at both places of an atom", 100),
    ("with a lost tag in an atom", 50),
    ("with one variable twice among the answer terms", 150),
    ("with an object among the answer terms", 50),
    ("with a lost tag among the answer terms", 25),
    ("with an atom that has no fact", 100),
    ("where every atom has a fact and the question has no match", 300),
    ("where the question has no answer and a later member has one", 75),
    ("where a member has no answer and one that a rule makes of it has", 100),
    ("with members by a rule and members by a merge", 500),
    ("with a tuple left out for a lost tag", 200),
    (
        "with a tuple left out that differs from an answer in lost tags alone",
        150,
    ),
    ("with fifty answers or more", 120),
    ("with a member that uses a helper", 100),
];

/// Whether some role atom has objects at these of its places and variables at the others.
fn has_objects_at(question: &Question, first: bool, second: bool) -> bool {
    let is_object = |t: Term| matches!(t, Term::Object(_));
    question.atoms.iter().any(|atom| match *atom {
        Atom::Role(_, t, u) => (is_object(t), is_object(u)) == (first, second),
        Atom::Concept(..) => false,
    })
}

fn has_variable_twice(terms: &[Term]) -> bool {
    let is_again = |i: usize| matches!(terms[i], Term::Variable(_)) && terms[..i].contains(&terms[i]);
    (0..terms.len()).any(is_again)
}

/// Whether the first tuple is the second but for lost tags.
fn differ_in_lost_tags(one: &[u16], other: &[u16]) -> bool {
    one.iter().zip(other).all(|(&a, &b)| a == b || lost_tags::is_lost(a))
}

/// What the members find in the facts, with nothing for those that a merge made: their parents find it. None if that takes too much.
fn found_by_members(held: &Held, case: &Case) -> Option<Vec<BTreeSet<Vec<u16>>>> {
    let members = case.draft.members.iter();
    members
        .map(|(step, question)| match step.kind {
            2 => Some(BTreeSet::new()),
            _ => held.answers_joined(question, MOST_ROWS),
        })
        .collect()
}

/// Whether a member that a rule made has an answer and its parent, which no merge made, has none.
fn comes_alive(case: &Case, found: &[BTreeSet<Vec<u16>>]) -> bool {
    let members = &case.draft.members;
    members.iter().zip(found).any(|((step, _), own)| {
        let parent = step.parent as usize;
        step.kind == 1 && members[parent].0.kind != 2 && !own.is_empty() && found[parent].is_empty()
    })
}

/// The length of the ring that the question was to have, if every two variables next to each other still stand in an atom.
fn ring(case: &Case) -> Option<usize> {
    let Outline::Ring(around) = case.outline else {
        return None;
    };
    let joined = |x: usize| {
        let pair = BTreeSet::from([x as u8, ((x + 1) % around) as u8]);
        let atoms = &case.draft.question.atoms;
        (0..atoms.len()).any(|i| variables(&atoms[i..=i]) == pair)
    };
    (0..around).all(joined).then_some(around)
}

impl Kinds {
    /// What the case is and has; none if that takes too much to find out.
    pub fn of(case: &Case) -> Option<Kinds> {
        let Draft { question, facts, .. } = &case.draft;
        let held = Held::facts(facts);
        let size = SIZES.iter().position(|size| size.facts.contains(&facts.len()))?;
        let found = found_by_members(&held, case)?;
        let mut by_members = BTreeSet::new();
        let mut bringing = 0;
        for (i, own) in found.iter().enumerate() {
            bringing += u64::from(i > 0 && !own.is_subset(&by_members));
            by_members.extend(own.iter().cloned());
        }
        Some(Kinds {
            size,
            forgets: forgets(&held, question, SIZES[size].entries),
            edge: EDGES.iter().position(|&edge| edge == facts.len()),
            ring: ring(case),
            terms: question.answers.len(),
            bringing,
            has: has(&held, case, &found)?,
            by_members,
        })
    }
}

/// Which lines of `KINDS` hold.
fn has(held: &Held, case: &Case, found: &[BTreeSet<Vec<u16>>]) -> Option<[bool; KINDS.len()]> {
    let Draft {
        rules,
        question,
        members,
        ..
    } = &case.draft;
    let helpers = Helpers::of(rules);
    let uses_helper = |(_, question): &(Step, Question)| helpers.stand_in(&question.atoms);
    let Question { answers, atoms } = question;
    let in_atoms: Vec<Term> = atoms.iter().flat_map(|atom| atom.terms()).collect();
    let matches = held.rows(atoms, &BTreeSet::new(), MOST_ROWS)?;
    let by = |kind: u8| members.iter().any(|(step, _)| step.kind == kind);
    let near = |one: &Vec<u16>| case.answers.iter().any(|other| differ_in_lost_tags(one, other));
    Some([
        atoms
            .iter()
            .any(|atom| has_variable_twice(&Vec::from_iter(atom.terms()))),
        has_objects_at(question, true, false),
        has_objects_at(question, false, true),
        has_objects_at(question, true, true),
        lost_tags::holds_one(literals(&in_atoms)),
        has_variable_twice(answers),
        literals(answers).next().is_some(),
        lost_tags::holds_one(literals(answers)),
        has_no_fact(held, question),
        matches.is_empty() && !has_no_fact(held, question),
        found[0].is_empty() && !case.answers.is_empty(),
        comes_alive(case, found),
        by(1) && by(2),
        !case.left_out.is_empty(),
        case.left_out.iter().any(near),
        case.answers.len() >= 50,
        members.iter().any(uses_helper),
    ])
}
