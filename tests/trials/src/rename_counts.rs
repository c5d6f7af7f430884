//! Renamings compared with the library's and counted.

use crate::tally::{add, hex, Tally};
use trials::alike::alike;
use trials::join::variables;
use trials::library;
use trials::rename_cases::{pair, Pair};
use trials::rename_kinds::{is_twice_as_written, of_alike, of_unlike, KINDS_OF_ALIKE, KINDS_OF_UNLIKE};
use trials::renamings::{by_atoms, by_maps, read, Outcome, Targets, MOST_TRIED};
use trials::sheets::{self, Question};

/// The least counts without which a run fails: of each number of variables and of answer terms in pairs with a renaming; of each number
/// that a sheet meets; of each order of numbers; and of atoms twice that only reading shows.
const LEAST_OF_VARIABLES: u64 = 50;
const LEAST_OF_TERMS: u64 = 100;
const LEAST_MET: u64 = 50;
const LEAST_OF_ORDER: u64 = 50;
const LEAST_AS_READ: u64 = 50;

/// A later number of the first sheet comes before an earlier one of the second.
const ORDERS: [(u32, u32); 3] = [(4, 3), (5, 3), (5, 4)];

/// How often each was met. Kinds are counted of pairs for which every map was tried.
#[derive(Default)]
pub struct RenameCounts {
    of_alike: [u64; KINDS_OF_ALIKE.len()],
    of_unlike: [u64; KINDS_OF_UNLIKE.len()],
    variables: [u64; MOST_TRIED + 1],
    terms: [u64; 5],
    /// Of the first sheet, and of the second where the first is sound: 3, 4, 5.
    met: [[u64; 3]; 2],
    orders: [u64; ORDERS.len()],
    /// Of the first sheet and of the second: 4 where 5 holds too, and 5 for an atom that does not stand there twice as written.
    four_and_five: [u64; 2],
    as_read: [u64; 2],
    /// Pairs of more variables, with a renaming and without.
    pub larger: [u64; 2],
}

/// A renaming for a reader.
fn told(outcome: &Outcome) -> String {
    let Outcome { number, found, targets } = outcome;
    format!("number {number}, found {found}, targets {targets:?}")
}

impl Tally {
    fn differ_in_pair(&mut self, name: &str, pair: &Pair, what: &str, expected: &Outcome, got: &Outcome) {
        self.differences += 1;
        println!(
            "DIFFERENCE in {name}, {what}: expected {}, got {}",
            told(expected),
            told(got)
        );
        println!("  first  {}", hex(&pair.first));
        println!("  second {}", hex(&pair.second));
    }

    /// The pair of this turn.
    pub fn compare_rename(&mut self, seed: u64, turn: u64) {
        let (name, pair) = (format!("pair of questions {turn}"), pair(seed, turn));
        let expected = match read(&pair.first, &pair.second) {
            Err(number) => {
                self.renames.count_refused(&pair);
                Outcome::refused(number)
            }
            Ok(questions) => self.judge_sound(&name, &pair, &questions),
        };
        self.compare_rename_by(library::rename, &name, &pair, &expected);
    }

    /// What two sound questions give, which both ways of finding it out must do.
    fn judge_sound(&mut self, name: &str, pair: &Pair, questions: &(Question, Question)) -> Outcome {
        let (first, second) = questions;
        let (by_atoms, many) = by_atoms(first, second);
        let Some(fitting) = by_maps(first, second) else {
            self.renames.larger[usize::from(by_atoms.is_none())] += 1;
            return Outcome::of(by_atoms);
        };
        let smallest = fitting.iter().min().copied();
        let agree = (smallest, fitting.len()) == (by_atoms, many) && smallest.is_some() == alike(first, second);
        let (expected, other) = (Outcome::of(smallest), Outcome::of(by_atoms));
        if !agree {
            self.differ_in_pair(name, pair, "the ways to rename here", &expected, &other);
        }
        self.renames.count_sound(pair, questions, &fitting);
        expected
    }

    /// Number, flag and every place, by the library or what stands for it.
    fn compare_rename_by(
        &mut self,
        rename: impl Fn(&[u8], &[u8]) -> Outcome,
        name: &str,
        pair: &Pair,
        expected: &Outcome,
    ) {
        let got = rename(&pair.first, &pair.second);
        self.calls += 1;
        if got != *expected {
            self.differ_in_pair(name, pair, "rename", expected, &got);
        }
    }
}

impl RenameCounts {
    fn count_refused(&mut self, pair: &Pair) {
        let sheets = [&pair.first, &pair.second];
        let numbers = sheets.map(|sheet| sheets::question(sheet).err().unwrap_or(0));
        let decides = usize::from(numbers[0] == 0);
        let (sheet, number) = (sheets[decides], numbers[decides]);
        self.met[decides][number as usize - 3] += 1;
        for (count, (first, second)) in self.orders.iter_mut().zip(ORDERS) {
            *count += u64::from(numbers == [first, second]);
        }
        self.four_and_five[decides] += u64::from(sheets::meets_4_and_5(sheet));
        self.as_read[decides] += u64::from(number == 5 && !is_twice_as_written(sheet));
    }

    fn count_sound(&mut self, pair: &Pair, questions: &(Question, Question), fitting: &[Targets]) {
        if fitting.is_empty() {
            add(&mut self.of_unlike, &of_unlike(questions));
            return;
        }
        add(&mut self.of_alike, &of_alike(pair, questions, fitting));
        self.variables[variables(&questions.0.atoms).len()] += 1;
        self.terms[questions.0.answers.len()] += 1;
    }

    /// The counts of refusals with what they must be at least.
    fn counts_of_refused(&self) -> Vec<(String, u64, u64)> {
        let mut all = Vec::new();
        let mut count = |what: String, got, least| all.push((format!("renaming met {what}"), got, least));
        for (i, sheet) in ["the first sheet", "the second sheet, the first being sound"]
            .iter()
            .enumerate()
        {
            for (number, got) in (3..).zip(self.met[i]) {
                count(format!("{number} by {sheet}"), got, LEAST_MET);
            }
            let (both, as_read) = (self.four_and_five[i], self.as_read[i]);
            count(format!("4 by {sheet}, where 5 holds too"), both, LEAST_OF_ORDER);
            count(
                format!("5 by {sheet}, with no atom twice as written"),
                as_read,
                LEAST_AS_READ,
            );
        }
        for ((first, second), got) in ORDERS.into_iter().zip(self.orders) {
            let what = format!("{first} by the first sheet where the second meets {second}");
            count(what, got, LEAST_OF_ORDER);
        }
        all
    }

    /// The counts with what they must be at least; of variables and of answer terms, the count of what was met least.
    pub fn counts(&self) -> Vec<(String, u64, u64)> {
        let mut all = self.counts_of_refused();
        let mut count = |what: String, got, least| all.push((what, got, least));
        let least = |counts: &[u64]| counts.iter().copied().min().unwrap_or(0);
        let (variables, terms) = (least(&self.variables[1..]), least(&self.terms));
        for ((what, least), got) in KINDS_OF_ALIKE.into_iter().zip(self.of_alike) {
            count(format!("pairs with a renaming, {what}"), got, least);
        }
        for ((what, least), got) in KINDS_OF_UNLIKE.into_iter().zip(self.of_unlike) {
            count(format!("pairs without a renaming, {what}"), got, least);
        }
        count(
            format!("pairs with a renaming, of each number of variables from 1 to {MOST_TRIED}"),
            variables,
            LEAST_OF_VARIABLES,
        );
        let what = "pairs with a renaming, of each number of answer terms";
        count(what.to_string(), terms, LEAST_OF_TERMS);
        all
    }
}

#[cfg(test)]
mod tests {
    use super::*;
    use crate::rename_faults::{renamed, Fault, FAULTS};
    use crate::SEED;
    use trials::renamings::{most_variables, rename};

    /// Each fault must be found among so many pairs, the first of the run.
    const FIRST: u64 = 1_200;

    /// Those of them that are refused or have few enough variables.
    fn first_pairs() -> Vec<Pair> {
        let few = |pair: &Pair| {
            let read = read(&pair.first, &pair.second);
            read.map_or(true, |(first, second)| most_variables(&first, &second) <= MOST_TRIED)
        };
        (0..FIRST).map(|turn| pair(SEED, turn)).filter(few).collect()
    }

    /// Differences that are met if a search with this fault stands for the library.
    fn differences(pair: &Pair, fault: Option<Fault>) -> usize {
        let expected = rename(&pair.first, &pair.second);
        let by_search = |first: &[u8], second: &[u8]| renamed(first, second, fault);
        let mut tally = Tally::default();
        tally.compare_rename_by(by_search, "a search", pair, &expected);
        tally.differences
    }

    #[test]
    fn every_fault_of_a_search_for_the_smallest_is_found() {
        let pairs = first_pairs();
        for pair in &pairs {
            assert_eq!(differences(pair, None), 0, "{pair:?}");
        }
        for fault in FAULTS {
            let found = pairs.iter().position(|pair| differences(pair, Some(fault)) > 0);
            let at = found.unwrap_or_else(|| panic!("{fault:?} is not found"));
            println!("{fault:?}: found in pair {at}");
        }
    }

    #[test]
    fn maps_and_atoms_give_the_same() {
        let mut tally = Tally::default();
        for pair in first_pairs() {
            if let Ok(questions) = read(&pair.first, &pair.second) {
                tally.judge_sound("a pair", &pair, &questions);
            }
        }
        assert_eq!(tally.differences, 0);
    }

    #[test]
    fn what_was_not_met_is_not_enough() {
        for (what, got, least) in RenameCounts::default().counts() {
            assert!(got < least && least >= 5, "{what}");
        }
    }
}
