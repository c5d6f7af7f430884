//! Sheets on which a search that remembers little must forget: dense relations, and chains, stars, trees, rings, cliques and products over
//! them, with dead ends at the end and in the middle; unions in which a later member finds what an earlier one does not. What is expected
//! comes from the rounds, by joins.

use crate::chance::Chance;
use crate::chase::Held;
use crate::dense_questions::{plain, question, Outline};
use crate::dense_relations::{names, rules, Shape, SHAPES};
use crate::helpers::clashes;
use crate::lost_tags;
use crate::make;
use crate::rewrite;
use crate::rule_sheet::as_read;
use crate::sheets::{Atom, Fact, Question, Rule, Step};
use crate::write::Draft;
use std::collections::BTreeSet;
use std::ops::RangeInclusive;

/// Sizes of fact sheets, and how many keys of a depth a search remembers for each: it has larger tables for more facts.
pub struct Size {
    pub facts: RangeInclusive<usize>,
    pub entries: usize,
    most_members: usize,
}

pub const SIZES: [Size; 3] = [
    Size {
        facts: 20..=64,
        entries: 8,
        most_members: 120,
    },
    Size {
        facts: 65..=1_024,
        entries: 128,
        most_members: 60,
    },
    Size {
        facts: 1_025..=10_000,
        entries: 1_024,
        most_members: 24,
    },
];

/// Where one size ends and another begins.
pub const EDGES: [usize; 5] = [64, 65, 1_024, 1_025, 10_000];

/// Partial matches that are kept together at most; cases that need more are made anew.
pub const MOST_ROWS: usize = 8_000;
const MOST_THINGS: usize = 12_000;

/// Drafts that are tried before a case is given up.
const TRIES: usize = 200;

/// A draft of sheets that are accepted, the answers by the rounds, and the tuples left out for a lost tag.
pub struct Case {
    pub draft: Draft,
    pub outline: Outline,
    pub answers: BTreeSet<Vec<u16>>,
    pub left_out: BTreeSet<Vec<u16>>,
}

/// The union of a question: members as the steps leave them, so that they have most variables in common, or in any dress.
fn union(question: &Question, rules: &[Rule], most: usize, chance: &mut Chance) -> Option<Vec<(Step, Question)>> {
    if chance.one_in(3) {
        return make::union(question, rules, most, chance);
    }
    let mut pick = |many: usize| chance.below(many);
    rewrite::closure(question, rules, true, most, &mut pick, &mut |q| q)
}

/// What the cases have in turn.
struct Turn {
    size: &'static Size,
    outline: Outline,
    shape: Shape,
    /// Whether the question is of its outline alone.
    plain: bool,
}

impl Turn {
    fn new(turn: u64) -> Turn {
        let turn = turn as usize;
        let size = &SIZES[[0, 0, 1, 0, 1, 0, 0, 1, 0, 2][turn % 10]];
        let outline = match Outline::in_turn(turn) {
            // over the largest relations, long rings would take too long here, and few cases but chains have enough keys
            _ if size.entries > 1_000 && turn / 10 % 2 == 0 => Outline::Chain,
            Outline::Ring(around) if size.entries > 1_000 => Outline::Ring(3 + around % 3),
            outline => outline,
        };
        Turn {
            size,
            outline,
            shape: SHAPES[turn / 7 % SHAPES.len()],
            plain: turn / 20 % 2 == 0,
        }
    }

    /// Facts that a sheet has about, and at most: most of the larger ones are still small.
    fn facts(&self, chance: &mut Chance) -> (usize, usize) {
        let (least, most) = (*self.size.facts.start(), (*self.size.facts.end()).min(1_800));
        let usual = if most == 1_024 && !chance.one_in(8) { 400 } else { most };
        (chance.from(least + (usual - least) / 3, usual), most)
    }

    /// The facts made more or fewer, at times, so that they are as many as sheets of the size have at most or at least.
    fn to_an_edge(&self, facts: &mut Vec<Fact>, chance: &mut Chance) {
        if !chance.one_in(6) {
            return;
        }
        let own = EDGES.iter().copied().filter(|edge| self.size.facts.contains(edge));
        let edge = chance.of(&Vec::from_iter(own));
        facts.truncate(edge);
        for i in (0..).take(edge - facts.len()) {
            facts.push(match i % 2 {
                0 => Atom::Concept(3_000, i),
                _ => Atom::Role(3_000, i, i / 3),
            });
        }
        chance.shuffle(facts);
    }

    /// Sheets that are accepted; none if chance gives too many members, another size, or a role that is a helper.
    fn draft(&self, chance: &mut Chance) -> Option<Draft> {
        let (wanted, most) = self.facts(chance);
        let (many, dense) = self.shape.objects_and_roles(wanted, chance);
        let names = names(many, dense, chance);
        let mut facts = names.facts(self.shape, most, chance);
        self.to_an_edge(&mut facts, chance);
        let most_atoms = if most > 1_024 { 4 } else { 7 };
        let question = match self.plain {
            true => plain(&names, self.outline, most_atoms, chance),
            false => question(&names, self.outline, most_atoms, chance),
        };
        // the largest keep to plain rules: few of them have enough keys, and with longer unions fewer would
        let pairs = self.size.entries < 1_000;
        let rules = rules(&names, &question, pairs, chance);
        let members = union(&question, &as_read(&rules), self.size.most_members, chance)?;
        let is_sound = clashes(&rules, Some(&question), Some(&facts)).is_empty();
        (is_sound && self.size.facts.contains(&facts.len())).then_some(Draft {
            rules,
            question,
            members,
            facts,
        })
    }
}

/// The case of this turn: size, outline and shape come in turn, all else by chance.
pub fn case(seed: u64, turn: u64) -> Option<Case> {
    let chance = &mut Chance::new(seed.wrapping_mul(1_000_033).wrapping_add(turn));
    let turn = Turn::new(turn);
    (0..TRIES).find_map(|_| {
        let draft = turn.draft(chance)?;
        let atoms = draft.question.atoms.len();
        let held = Held::rounds(&draft.rules, &draft.facts, atoms, MOST_THINGS)?;
        let (answers, left_out) = lost_tags::parted(held.joined(&draft.question, MOST_ROWS)?);
        Some(Case {
            draft,
            outline: turn.outline,
            answers,
            left_out,
        })
    })
}
