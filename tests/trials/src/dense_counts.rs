//! Dense cases compared with the library and counted.

use crate::tally::Tally;
use trials::chance::Chance;
use trials::dense::{case, Case, EDGES, SIZES};
use trials::dense_kinds::{Kinds, KINDS};
use trials::library;
use trials::refusals::{listed, Sheets};

/// The least counts without which a run fails: of cases of each size, of those that make a search of that size forget, and of those of
/// exactly as many facts as a size begins or ends with; of rings of each length; of each number of answer terms; and of others.
const LEAST_OF_SIZE: [u64; 3] = [750, 375, 125];
const LEAST_FORGETTING: [u64; 3] = [70, 20, 8];
const LEAST_AT_EDGE: u64 = 6;
const LEAST_RINGS: u64 = 35;
const LEAST_TERMS: u64 = 100;
const LEAST_BRINGING: u64 = 300;
const LEAST_14: u64 = 400;

/// In one of so many cases tuples are explained too.
const ONE_EXPLAINED_IN: u64 = 3;

/// How often each was met.
#[derive(Default)]
pub struct DenseCounts {
    sizes: [u64; SIZES.len()],
    forgetting: [u64; SIZES.len()],
    edges: [u64; EDGES.len()],
    /// By the number of atoms around, from 3 to 8.
    rings: [u64; 6],
    terms: [u64; 5],
    has: [u64; KINDS.len()],
    bringing: u64,
    met_14: u64,
    pub not_given: u64,
    /// Cases whose kinds take too much to find out.
    pub not_judged: u64,
}

/// Lengths of lists: just enough, one byte and one tuple short, much too short, and long.
fn lengths(case: &Case, chance: &mut Chance) -> Vec<usize> {
    let tuple = 2 * case.draft.question.answers.len();
    let needed = tuple * case.answers.len();
    let mut lengths = vec![
        needed,
        needed.saturating_sub(1),
        needed.saturating_sub(tuple),
        chance.of(&[0, 1, tuple, needed / 2]).min(needed),
        needed + chance.from(1, 300),
    ];
    lengths.sort();
    lengths.dedup();
    lengths
}

impl Tally {
    /// The dense case of this turn.
    pub fn compare_dense(&mut self, seed: u64, turn: u64) {
        let name = format!("dense case {turn}");
        let Some(case) = case(seed, turn) else {
            self.dense.not_given += 1;
            return;
        };
        match Kinds::of(&case) {
            None => self.dense.not_judged += 1,
            Some(kinds) => {
                self.dense.count(&kinds);
                if kinds.by_members != case.answers {
                    let told = |tuples| format!("{tuples:?}");
                    let (expected, got) = (told(&case.answers), told(&kinds.by_members));
                    let sheets = case.draft.sheets(&mut Chance::new(turn));
                    self.differ(&name, &sheets, "the two readers here", &expected, &got);
                }
            }
        }
        self.compare_dense_by(library::answer, &name, &case, &mut Chance::new(turn));
        if turn % ONE_EXPLAINED_IN == 0 {
            let chance = &mut Chance::new(turn);
            self.explain_dense(&name, &case.draft.sheets(chance), chance);
        }
    }

    /// What is drawn for a case by the library or what stands for it, with lists of several lengths.
    fn compare_dense_by(
        &mut self,
        answer: impl Fn(&Sheets, &mut [u8]) -> (u32, u64),
        name: &str,
        case: &Case,
        chance: &mut Chance,
    ) {
        let sheets = case.draft.sheets(chance);
        let lengths = lengths(case, chance);
        let outcomes = Vec::from_iter(lengths.into_iter().map(|length| listed(&case.answers, length)));
        self.dense.met_14 += u64::from(outcomes.iter().any(|outcome| outcome.number == 14));
        for outcome in outcomes {
            self.compare_answer_by(&answer, name, &sheets, &outcome, chance);
        }
    }
}

impl DenseCounts {
    fn count(&mut self, kinds: &Kinds) {
        self.sizes[kinds.size] += 1;
        self.forgetting[kinds.size] += u64::from(kinds.forgets);
        self.terms[kinds.terms] += 1;
        self.bringing += kinds.bringing;
        if let Some(edge) = kinds.edge {
            self.edges[edge] += 1;
        }
        if let Some(around) = kinds.ring {
            self.rings[around - 3] += 1;
        }
        for (count, has) in self.has.iter_mut().zip(kinds.has) {
            *count += u64::from(has);
        }
    }

    /// The counts by the number of facts, with what they must be at least.
    fn counts_by_facts(&self) -> Vec<(String, u64, u64)> {
        let mut all = Vec::new();
        let mut count = |what: String, got, least| all.push((format!("dense cases of {what}"), got, least));
        for (i, size) in SIZES.iter().enumerate() {
            let facts = format!("{} to {} facts", size.facts.start(), size.facts.end());
            let forgetting = format!("{facts} with more than {} keys at a depth in any order", size.entries);
            count(facts, self.sizes[i], LEAST_OF_SIZE[i]);
            count(forgetting, self.forgetting[i], LEAST_FORGETTING[i]);
        }
        for (edge, got) in EDGES.iter().zip(self.edges) {
            count(format!("exactly {edge} facts"), got, LEAST_AT_EDGE);
        }
        all
    }

    /// The counts with what they must be at least; of rings and of answer terms, the count of what was met least.
    pub fn counts(&self) -> Vec<(String, u64, u64)> {
        let mut all = self.counts_by_facts();
        let mut count = |what: &str, got, least| all.push((what.to_string(), got, least));
        let least = |counts: &[u64]| counts.iter().copied().min().unwrap_or(0);
        let (rings, terms) = (least(&self.rings), least(&self.terms));
        count(
            "dense cases with a ring, of each length from 3 to 8",
            rings,
            LEAST_RINGS,
        );
        count("dense cases of each number of answer terms", terms, LEAST_TERMS);
        for ((what, enough), got) in KINDS.iter().zip(self.has) {
            count(&format!("dense cases {what}"), got, *enough);
        }
        count(
            "members of dense cases that bring an answer of their own",
            self.bringing,
            LEAST_BRINGING,
        );
        count("dense cases that met 14", self.met_14, LEAST_14);
        all
    }
}

#[cfg(test)]
mod tests {
    use super::*;
    use crate::memo_search::{drawn, Fault, FAULTS};
    use crate::SEED;
    use std::sync::OnceLock;
    use trials::refusals::check;

    /// Each fault must be found among so many cases, the first of the run.
    const FIRST: u64 = 600;
    const FEWER: usize = 300;

    /// These cases, which are made once for all tests.
    fn first_cases() -> &'static [Case] {
        static CASES: OnceLock<Vec<Case>> = OnceLock::new();
        CASES.get_or_init(|| (0..FIRST).map(|turn| case(SEED, turn).expect("a case")).collect())
    }

    /// Differences that are met in a case if a search with this fault stands for the library.
    fn differences(case: &Case, turn: usize, fault: Option<Fault>) -> usize {
        let by_search = |_: &Sheets, list: &mut [u8]| {
            let (outcome, _) = drawn(&case.draft, list.len(), fault);
            list.copy_from_slice(&outcome.list);
            (outcome.number, outcome.count)
        };
        let mut tally = Tally::default();
        tally.compare_dense_by(by_search, "a search", case, &mut Chance::new(turn as u64));
        tally.differences
    }

    #[test]
    fn every_fault_of_a_search_that_remembers_is_found() {
        for (turn, case) in first_cases().iter().enumerate() {
            assert_eq!(differences(case, turn, None), 0, "turn {turn}");
        }
        for fault in FAULTS {
            let mut cases = first_cases().iter().enumerate();
            let found = cases.find(|(turn, case)| differences(case, *turn, Some(fault)) > 0);
            let (turn, _) = found.unwrap_or_else(|| panic!("{fault:?} is not found"));
            println!("{fault:?}: found in dense case {turn}");
        }
    }

    #[test]
    fn where_a_case_counts_for_it_a_search_forgets() {
        let mut counts = [0; SIZES.len()];
        for case in &first_cases()[..FEWER] {
            if let Some(kinds) = Kinds::of(case).filter(|kinds| kinds.forgets) {
                let (_, forgotten) = drawn(&case.draft, 1 << 20, None);
                assert!(forgotten > 0, "{:?}", case.draft);
                counts[kinds.size] += 1;
            }
        }
        assert!(counts.iter().all(|&many| many > 0), "{counts:?}");
    }

    #[test]
    fn dense_cases_are_accepted() {
        let chance = &mut Chance::new(1);
        for case in &first_cases()[..FEWER] {
            assert!(check(&case.draft.sheets(chance)).is_ok(), "{:?}", case.draft);
        }
    }

    #[test]
    fn what_was_not_met_is_not_enough() {
        for (what, got, least) in DenseCounts::default().counts() {
            assert!(got < least && least >= 5, "{what}");
        }
    }
}
