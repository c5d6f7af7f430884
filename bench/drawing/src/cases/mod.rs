//! The sheets to draw from: rules, a question, the union that is written for them, facts, and a list of some length.
pub mod all;
pub mod bad;
pub mod explain;
pub mod full;
pub mod growth;
pub mod relations;
pub mod sheets;

use sheets::{fact_sheet, question_sheet, rule_sheet, Fact, Query, Rule};
use std::collections::BTreeSet;

/// The largest fact sheet has so many facts, the largest union so many members.
pub const MOST_FACTS: usize = 10_000;

/// Lengths of lists; the program's is the shortest.
pub const SHORT: usize = 16 << 10;
pub const MIDDLE: usize = 128 << 10;
pub const LONG: usize = 4 << 20;

/// One line of a table.
pub struct Case {
    pub name: String,
    pub rules: Vec<u8>,
    pub question: Vec<u8>,
    pub union: Vec<u8>,
    pub facts: Vec<u8>,
    /// the length of the lent list
    pub list: usize,
    /// the same for SQL
    pub members: Vec<Query>,
    pub entries: Vec<Fact>,
}

/// Numbers that look drawn at random and are the same in each run.
#[derive(Clone)]
pub struct Draw(u64);

impl Draw {
    pub fn new() -> Draw {
        Draw(0x9e37_79b9_7f4a_7c15)
    }

    /// Others for each seed.
    #[cfg(feature = "climb")]
    pub fn seeded(seed: u64) -> Draw {
        let mut draw = Draw((0x9e37_79b9_7f4a_7c15 ^ seed.wrapping_mul(0xbf58_476d_1ce4_e5b9)).max(1));
        for _ in 0..8 {
            draw.below(2);
        }
        draw
    }

    pub fn below(&mut self, bound: u64) -> u64 {
        self.0 ^= self.0 << 13;
        self.0 ^= self.0 >> 7;
        self.0 ^= self.0 << 17;
        (self.0 >> 11) % bound
    }

    pub fn shuffle<T>(&mut self, items: &mut [T]) {
        for i in (1..items.len()).rev() {
            items.swap(i, self.below(i as u64 + 1) as usize);
        }
    }
}

/// The order of facts on the sheet.
#[derive(Clone, Copy, PartialEq)]
pub enum Order {
    Rising,
    Drawn,
    Falling,
}

impl Order {
    pub fn said(self) -> &'static str {
        match self {
            Order::Rising => "rising",
            Order::Drawn => "random",
            Order::Falling => "falling",
        }
    }

    /// The facts in this order, each once.
    pub fn of(self, facts: Vec<Fact>, draw: &mut Draw) -> Vec<Fact> {
        let set: BTreeSet<Fact> = facts.into_iter().collect();
        let mut facts: Vec<Fact> = set.into_iter().collect();
        match self {
            Order::Rising => {}
            Order::Drawn => draw.shuffle(&mut facts),
            Order::Falling => facts.reverse(),
        }
        facts
    }
}

/// Facts of other names added until the sheet is full.
pub fn filled(facts: Vec<Fact>, draw: &mut Draw) -> Vec<Fact> {
    let mut set: BTreeSet<Fact> = facts.into_iter().collect();
    assert!(set.len() <= MOST_FACTS);
    while set.len() < MOST_FACTS {
        let role = draw.below(2) == 1;
        let second = if role { draw.below(65536) } else { 0 };
        set.insert((role, 3000 + draw.below(50), draw.below(65536), second));
    }
    set.into_iter().collect()
}

/// A case with the union that is written for rules and question; the facts as they are given. `None` if there are more than 512 members.
pub fn written(name: &str, rules: &[Rule], query: &Query, facts: Vec<Fact>, list: usize) -> Option<Case> {
    let (rules, question) = (rule_sheet(rules), question_sheet(query));
    let union = takwishan::write(&rules, &question).ok()?;
    Some(Case {
        name: name.to_string(),
        rules,
        question,
        members: sheets::members(&union),
        union,
        facts: fact_sheet(&facts),
        list,
        entries: facts,
    })
}

/// The same of a full fact sheet, its facts in this order.
pub fn full_sheet_in(order: Order, name: &str, rules: &[Rule], query: &Query, facts: Vec<Fact>, list: usize) -> Case {
    let mut draw = Draw::new();
    let facts = filled(facts, &mut draw);
    let facts = order.of(facts, &mut draw);
    let case = written(name, rules, query, facts, list);
    case.unwrap_or_else(|| panic!("{name}: more than 512 members"))
}

/// The same, in a drawn order.
pub fn full_sheet(name: &str, rules: &[Rule], query: &Query, facts: Vec<Fact>, list: usize) -> Case {
    full_sheet_in(Order::Drawn, name, rules, query, facts, list)
}
