//! Bad sheets: sound ones, within 01's limits, made so that the search has much to do. The last ones were found by hill climbing over
//! questions, rules and relations.
mod acyclic;
mod cyclic;

use super::sheets::{Fact, Query, Rule};
use super::{full_sheet, Case, MIDDLE};

/// A role of all relations here, and others.
const P: u64 = 20;
const Q: u64 = 21;
const R: u64 = 22;

const NO_RULES: &[Rule] = &[];

/// A line's group: how long it may take depends on it.
#[derive(Clone, Copy, PartialEq)]
pub enum Group {
    Acyclic,
    Cyclic,
}

/// A line of the table.
pub struct Bad {
    pub group: Group,
    pub case: Case,
}

/// The lines so far.
struct Lines(Vec<Bad>);

impl Lines {
    fn add(&mut self, group: Group, case: Case) {
        self.0.push(Bad { group, case });
    }

    fn acyclic(&mut self, name: &str, rules: &[Rule], query: Query, facts: Vec<Fact>) {
        self.add(Group::Acyclic, full_sheet(name, rules, &query, facts, MIDDLE));
    }

    fn cyclic(&mut self, name: &str, rules: &[Rule], query: Query, facts: Vec<Fact>) {
        self.add(Group::Cyclic, full_sheet(name, rules, &query, facts, MIDDLE));
    }
}

pub fn lines() -> Vec<Bad> {
    let mut lines = Lines(Vec::new());
    acyclic::add(&mut lines);
    cyclic::add(&mut lines);
    lines.0
}
