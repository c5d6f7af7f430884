//! Near misses, and needed facts at every place, compared with the library and counted.

use crate::tally::Tally;
use std::collections::BTreeMap;
use trials::chance::Chance;
use trials::library;
use trials::near_misses::{near_miss, placed, Case, Spot, Way};
use trials::refusals::{listed, Sheets};
use trials::scan::{Fault, FAULTS};

/// The least counts without which a run fails: of near misses by each bit, of needed facts in each spot and with each length.
const LEAST_IN_PLACE: u64 = 8;
const LEAST_BESIDE: u64 = 5;
const LEAST_SPOT: u64 = 15;
const LEAST_FULL: u64 = 6;
const LEAST_TWINS: u64 = 100;

/// One in so many needed facts is on a full sheet.
const ONE_FULL_IN: u64 = 32;

const WAYS: [(Way, &str, u64); 2] = [
    (Way::InPlace, "in place of", LEAST_IN_PLACE),
    (Way::Beside, "beside", LEAST_BESIDE),
];

/// How often each was met.
#[derive(Default)]
pub struct NearCounts {
    shown: BTreeMap<(Way, Fault), u64>,
    spots: BTreeMap<Spot, u64>,
    /// On full sheets, by what the length leaves, divided by 8.
    full: [u64; 8],
    /// Needed facts next to another of the same predicate.
    twins: u64,
    pub not_given: u64,
}

/// Every fault with every way.
fn wishes() -> impl Iterator<Item = (Way, Fault)> {
    Fault::all().flat_map(|fault| WAYS.map(|(way, _, _)| (way, fault)))
}

/// The last eight places and the first one, with every length modulo 8.
fn spots() -> impl Iterator<Item = Spot> {
    let places = (0..8).map(Some).chain([None]);
    places.flat_map(|from_end| (0..8).map(move |rest| Spot { from_end, rest }))
}

fn in_turn<T>(all: impl Iterator<Item = T>, turn: u64) -> T {
    let mut all = Vec::from_iter(all);
    all.swap_remove(turn as usize % all.len())
}

impl Tally {
    /// One near miss, and one needed fact at a place.
    pub fn compare_near(&mut self, name: &str, turn: u64, chance: &mut Chance) {
        let (way, fault) = in_turn(wishes(), turn);
        match near_miss(way, fault, chance) {
            None => self.near.not_given += 1,
            Some(case) => {
                *self.near.shown.entry((way, fault)).or_default() += 1;
                self.compare_case(library::answer, &format!("{name}, near miss"), &case, chance);
            }
        }
        let full = turn % ONE_FULL_IN == 0;
        let spot = in_turn(spots(), if full { turn / ONE_FULL_IN } else { turn });
        match placed(spot, full, chance) {
            None => self.near.not_given += 1,
            Some((case, twin)) => {
                self.near.count_placed(spot, full, twin);
                self.compare_case(library::answer, &format!("{name}, needed fact"), &case, chance);
            }
        }
    }

    /// What is drawn for a case by the library or what stands for it, with a list that is just long enough or longer.
    fn compare_case(
        &mut self,
        answer: impl Fn(&Sheets, &mut [u8]) -> (u32, u64),
        name: &str,
        case: &Case,
        chance: &mut Chance,
    ) {
        let needed = 2 * case.draft.question.answers.len() * case.answers.len();
        let length = needed + chance.of(&[0, 0, 1, 17]);
        let sheets = case.draft.sheets(chance);
        self.compare_answer_by(answer, name, &sheets, &listed(&case.answers, length), chance);
    }
}

/// The least of the counts, 0 for what was never met.
fn least<K: Ord>(counts: &BTreeMap<K, u64>, keys: impl Iterator<Item = K>) -> u64 {
    keys.map(|key| counts.get(&key).copied().unwrap_or(0))
        .min()
        .unwrap_or(0)
}

impl NearCounts {
    fn count_placed(&mut self, spot: Spot, full: bool, twin: bool) {
        match full {
            true => self.full[spot.rest] += 1,
            false => *self.spots.entry(spot).or_default() += 1,
        }
        self.twins += u64::from(twin);
    }

    /// The counts with what they must be at least; of bits and places, the count of the one that was met least.
    pub fn counts(&self) -> Vec<(String, u64, u64)> {
        let mut all = Vec::new();
        for (way, told, enough) in WAYS {
            all.extend(FAULTS.iter().enumerate().map(|(sort, faults)| {
                let bits = faults.bits.clone().map(|bit| (way, Fault { sort, bit }));
                let what = format!("near misses {told} a needed fact, by each bit of {}", faults.what);
                (what, least(&self.shown, bits), enough)
            }));
        }
        let mut count = |what: &str, got, least| all.push((what.to_string(), got, least));
        count(
            "needed facts at each of the last eight places and the first, for each length modulo 8",
            least(&self.spots, spots()),
            LEAST_SPOT,
        );
        count(
            "needed facts there on sheets of each length from 9,993 to 10,000",
            self.full.into_iter().min().unwrap_or(0),
            LEAST_FULL,
        );
        count(
            "needed facts next to one of the same predicate",
            self.twins,
            LEAST_TWINS,
        );
        all
    }
}

#[cfg(test)]
mod tests {
    use super::*;
    use trials::refusals::check;
    use trials::{scan, sheets};

    /// Differences that are met if a scan with this fault, or one that passes over the fact at this place, stands for the library.
    fn differences(case: &Case, fault: Option<Fault>, passed_over: Option<usize>) -> usize {
        let by_scan = |sheets: &Sheets, list: &mut [u8]| {
            let members = check(sheets).ok().expect("an accepted union").members;
            let mut facts = sheets::facts(&sheets.facts).expect("sound facts");
            passed_over.map(|at| facts.remove(at));
            let found = scan::answers(&facts, members.iter().map(|member| &member.question), fault);
            let outcome = listed(&found, list.len());
            list.copy_from_slice(&outcome.list);
            (outcome.number, outcome.count)
        };
        let mut tally = Tally::default();
        tally.compare_case(by_scan, "a scan", case, &mut Chance::new(1));
        tally.differences
    }

    #[test]
    fn a_fault_about_any_bit_is_found() {
        let chance = &mut Chance::new(1);
        for (way, fault) in wishes() {
            let case = (0..100)
                .find_map(|_| near_miss(way, fault, chance))
                .expect("a near miss");
            assert_eq!(differences(&case, None, None), 0, "{way:?}, {fault:?}");
            assert_eq!(differences(&case, Some(fault), None), 1, "{way:?}, {fault:?}");
        }
    }

    #[test]
    fn a_needed_fact_that_is_passed_over_is_found() {
        let chance = &mut Chance::new(2);
        for spot in spots() {
            let (case, _) = (0..100).find_map(|_| placed(spot, false, chance)).expect("a place");
            let length = case.draft.facts.len();
            assert_eq!(length % 8, spot.rest, "{spot:?}");
            let at = spot.from_end.map_or(0, |from_end| length - 1 - from_end);
            assert_eq!(differences(&case, None, None), 0, "{spot:?}");
            assert_eq!(differences(&case, None, Some(at)), 1, "{spot:?}");
        }
    }

    #[test]
    fn what_was_not_met_is_not_enough() {
        for (what, got, least) in NearCounts::default().counts() {
            assert!(got < least && least >= 5, "{what}");
        }
    }
}
