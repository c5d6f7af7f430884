//! The rounds, played out. With matches.rs this is the second reader: it knows no union. It goes by the rules as written: a kind 3 with
//! its kind 4 gives each bearer one unnamed thing that has both role and filler, in one round, and no helper ever stands in a round.
//!
//! A chase may never end, so it is played out to a fixed depth only. Depth of a thing: 0 for an object, one more than its bearer's
//! for an unnamed thing. With `makers` rules that make unnamed things, qualified ones among them, and a question of k atoms, depth
//! makers + k + 1 is enough:
//!
//! - Every rule has one atom on its left. What is held of the unnamed thing n = (r, c), alone or with things below it, follows from
//!   what rule r made of c and n: the role of the two and, if r is qualified, the filler of n. Both are fixed by r. So what lies below n
//!   looks the same for every bearer c: it depends on r alone.
//! - A connected part of the question whose match touches an object reaches at most k things further down.
//! - A connected part whose match touches no object lies below one highest thing n = (r, c), and at most k further down. The
//!   same match is found below any other thing that r made. The highest thing that r made stands at depth at most `makers`, for
//!   on the way down to it no rule occurs twice (between two of one rule, the way could be cut short).
//! - An atom over things of depth at most d follows by way of things of depth at most d + 1: going down to a child, what comes
//!   back to its bearer is an atom that holds both. Such an atom follows from the child's role by kind 2 alone; from its filler, which
//!   holds the child only, nothing comes back. So one level more makes the levels above it complete.
//!
//! The number of rounds to that depth is fixed too. An atom comes from a fact by a chain of conclusions, and in a shortest chain
//! no state is met twice while it stays with one thing: at most 2 states a rule before the rule that makes the next thing down,
//! and at most 2 a rule between the two. (A state is a predicate and the thing's place in it; a rule's conclusion has one predicate.) A
//! qualified rule concludes a second one, its filler, but only of the next thing down: a chain that takes it is there at once and has
//! nothing between the two, so it adds no state to either part. So 4 x rules + 2 rounds a level are enough; after that nothing new may
//! come up to that depth, which is asserted.

use crate::rule_sheet::Written;
use crate::sheets::{Atom, Description, Fact, Rule};
use std::collections::{HashMap, HashSet};
use std::hash::Hash;

/// An object or an unnamed thing, by its place in the list of those met.
pub type Thing = u32;

#[derive(Clone, Copy, PartialEq, Eq, Hash)]
enum Origin {
    Object(u16),
    Unnamed { rule: usize, bearer: Thing },
}

/// What is held in a round, with ways to look it up.
#[derive(Default)]
pub struct Held {
    origins: Vec<(Origin, usize)>,
    things: HashMap<Origin, Thing>,
    atoms: HashSet<Atom<Thing>>,
    bearers: HashMap<u16, Vec<Thing>>,
    pairs: HashMap<u16, Vec<(Thing, Thing)>>,
    seconds: HashMap<(u16, Thing), Vec<Thing>>,
    firsts: HashMap<(u16, Thing), Vec<Thing>>,
}

fn makes_unnamed(rule: &Written) -> bool {
    let role = |right: Description| matches!(right, Description::To(_) | Description::From(_));
    match *rule {
        Written::Plain(rule) => matches!(rule, Rule::Bears(_, right) if role(right)),
        Written::Qualified { .. } => true,
    }
}

/// How many rules make unnamed things.
fn makers(rules: &[Written]) -> usize {
    rules.iter().filter(|rule| makes_unnamed(rule)).count()
}

/// The thing of the atom that bears the description by it.
fn bearer(left: Description, atom: Atom<Thing>) -> Option<Thing> {
    match (left, atom) {
        (Description::Concept(a), Atom::Concept(b, t)) if a == b => Some(t),
        (Description::To(p), Atom::Role(q, t, _)) if p == q => Some(t),
        (Description::From(p), Atom::Role(q, _, t)) if p == q => Some(t),
        _ => None,
    }
}

impl Held {
    fn thing(&mut self, origin: Origin, depth: usize) -> Thing {
        let next = self.origins.len() as Thing;
        let thing = *self.things.entry(origin).or_insert(next);
        if thing == next {
            self.origins.push((origin, depth));
        }
        thing
    }

    /// Whether the atom is new.
    fn add(&mut self, atom: Atom<Thing>) -> bool {
        let new = self.atoms.insert(atom);
        if new {
            match atom {
                Atom::Concept(a, t) => self.bearers.entry(a).or_default().push(t),
                Atom::Role(p, t, u) => {
                    self.pairs.entry(p).or_default().push((t, u));
                    self.seconds.entry((p, t)).or_default().push(u);
                    self.firsts.entry((p, u)).or_default().push(t);
                }
            }
        }
        new
    }

    /// Round 0.
    pub fn facts(facts: &[Fact]) -> Held {
        let mut held = Held::default();
        for fact in facts {
            let atom = fact.map(|object| held.thing(Origin::Object(object), 0));
            held.add(atom);
        }
        held
    }

    /// The unnamed thing that the rule at this index gives the bearer of its left side in the atom, and the role that the two have. None
    /// if the thing would be deeper than `deepest`.
    fn made(
        &mut self,
        rule: usize,
        (left, right): (Description, Description),
        atom: Atom<Thing>,
        deepest: usize,
    ) -> Option<(Thing, Atom<Thing>)> {
        let bearer = bearer(left, atom)?;
        let depth = self.origins[bearer as usize].1 + 1;
        if depth > deepest {
            return None;
        }
        let unnamed = self.thing(Origin::Unnamed { rule, bearer }, depth);
        let role = match right {
            Description::To(p) => Atom::Role(p, bearer, unnamed),
            Description::From(p) => Atom::Role(p, unnamed, bearer),
            Description::Concept(_) => unreachable!("a concept takes no unnamed thing"),
        };
        Some((unnamed, role))
    }

    /// What the rule at this index concludes from an atom: one atom, or role and filler of one unnamed thing. The index is that among
    /// rules as written; it stands for the index of the first of the three as read, since no two rules have that in common.
    fn conclusions(
        &mut self,
        index: usize,
        rule: Written,
        atom: Atom<Thing>,
        deepest: usize,
    ) -> [Option<Atom<Thing>>; 2] {
        match (rule, atom) {
            (Written::Plain(Rule::Implies { left, right, exchanged }), Atom::Role(p, t, u)) if p == left => {
                let (first, second) = if exchanged { (u, t) } else { (t, u) };
                [Some(Atom::Role(right, first, second)), None]
            }
            (Written::Plain(Rule::Implies { .. }), _) => [None, None],
            (Written::Plain(Rule::Bears(left, Description::Concept(a))), _) => {
                [bearer(left, atom).map(|bearer| Atom::Concept(a, bearer)), None]
            }
            (Written::Plain(Rule::Bears(left, right)), _) => {
                let made = self.made(index, (left, right), atom, deepest);
                [made.map(|(_, role)| role), None]
            }
            (Written::Qualified { left, right, filler }, _) => {
                let made = self.made(index, (left, right), atom, deepest);
                [
                    made.map(|(_, role)| role),
                    made.map(|(unnamed, _)| Atom::Concept(filler, unnamed)),
                ]
            }
        }
    }

    /// The rounds from the facts under the rules, as far as a question of so many atoms can tell. None if that takes more than
    /// `most` things.
    pub fn rounds(rules: &[Written], facts: &[Fact], atoms: usize, most: usize) -> Option<Held> {
        let deepest = makers(rules) + atoms + 1;
        let rounds = (4 * rules.len() + 2) * (deepest + 2);
        let mut held = Held::facts(facts);
        let mut last: Vec<Atom<Thing>> = held.atoms.iter().copied().collect();
        last.sort();
        for _ in 0..rounds {
            let mut new = Vec::new();
            for &atom in &last {
                for (index, &rule) in rules.iter().enumerate() {
                    for conclusion in held.conclusions(index, rule, atom, deepest).into_iter().flatten() {
                        if held.add(conclusion) {
                            new.push(conclusion);
                        }
                    }
                }
                if held.origins.len() > most {
                    return None;
                }
            }
            last = new;
            if last.is_empty() {
                break;
            }
        }
        assert!(last.is_empty(), "the rounds go on beyond their bound");
        Some(held)
    }

    /// Whether these rounds never end. An unnamed thing deeper than there are makers has one rule twice above it, and what
    /// lies below the upper lies below the lower again, for ever; a chase without such a thing has an end. Qualified rules are makers.
    pub fn never_end(&self, rules: &[Written]) -> bool {
        self.origins.iter().any(|&(_, depth)| depth > makers(rules))
    }

    /// The object that a thing is, if it is one.
    pub fn object(&self, thing: Thing) -> Option<u16> {
        match self.origins[thing as usize].0 {
            Origin::Object(object) => Some(object),
            Origin::Unnamed { .. } => None,
        }
    }

    /// The thing that an object is, if anything is held of it.
    pub fn thing_of(&self, object: u16) -> Option<Thing> {
        self.things.get(&Origin::Object(object)).copied()
    }

    /// All that is held and has this predicate and, where they are given, these things.
    pub fn fitting(&self, atom: Atom<Option<Thing>>) -> Vec<Atom<Thing>> {
        let only = |atom: Atom<Thing>| Vec::from_iter(self.atoms.get(&atom).copied());
        match atom {
            Atom::Concept(a, Some(t)) => only(Atom::Concept(a, t)),
            Atom::Concept(a, None) => of(&self.bearers, &a, |&t| Atom::Concept(a, t)),
            Atom::Role(p, Some(t), Some(u)) => only(Atom::Role(p, t, u)),
            Atom::Role(p, Some(t), None) => of(&self.seconds, &(p, t), |&u| Atom::Role(p, t, u)),
            Atom::Role(p, None, Some(u)) => of(&self.firsts, &(p, u), |&t| Atom::Role(p, t, u)),
            Atom::Role(p, None, None) => of(&self.pairs, &p, |&(t, u)| Atom::Role(p, t, u)),
        }
    }
}

/// What stands in a list under this key, made into atoms.
fn of<K: Eq + Hash, V>(lists: &HashMap<K, Vec<V>>, key: &K, atom: impl Fn(&V) -> Atom<Thing>) -> Vec<Atom<Thing>> {
    lists.get(key).into_iter().flatten().map(atom).collect()
}
