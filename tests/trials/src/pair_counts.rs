//! What was met of 17 and 18, by call, cause and order, and of accepted cases with pairs.

use crate::tally::Tally;
use trials::causes::{self, CAUSES_OF_17, CAUSES_OF_18};
use trials::helpers::{clashes, Place};
use trials::pair_kinds::{self, KINDS};
use trials::refusals::{self, Drawn, Sheets};
use trials::{rule_sheet, sheets, unions};

/// The least counts without which a run fails: of each of the two numbers in each call, of each cause alone, and of each order.
const LEAST_MET: u64 = 100;
const LEAST_OF_CAUSE: u64 = 20;
const LEAST_OF_ORDER: u64 = 20;
const LEAST_18_BEFORE_15: u64 = 5;

/// The calls that have both numbers.
#[derive(Clone, Copy, PartialEq, Eq, Debug)]
pub enum Call {
    Checking,
    Drawing,
    Writing,
}

const CALLS: [(Call, &str); 3] = [
    (Call::Checking, "checking"),
    (Call::Drawing, "drawing"),
    (Call::Writing, "writing"),
];

/// The call gives the first number where the second holds too.
const ORDERS: [(Call, u32, u32, u64); 14] = [
    (Call::Checking, 2, 17, LEAST_OF_ORDER),
    (Call::Checking, 17, 3, LEAST_OF_ORDER),
    (Call::Checking, 5, 18, LEAST_OF_ORDER),
    (Call::Checking, 11, 18, LEAST_OF_ORDER),
    (Call::Drawing, 2, 17, LEAST_OF_ORDER),
    (Call::Drawing, 17, 3, LEAST_OF_ORDER),
    (Call::Drawing, 11, 18, LEAST_OF_ORDER),
    (Call::Drawing, 12, 18, LEAST_OF_ORDER),
    (Call::Drawing, 13, 18, LEAST_OF_ORDER),
    (Call::Drawing, 18, 14, LEAST_OF_ORDER),
    (Call::Writing, 2, 17, LEAST_OF_ORDER),
    (Call::Writing, 17, 3, LEAST_OF_ORDER),
    (Call::Writing, 5, 18, LEAST_OF_ORDER),
    (Call::Writing, 18, 15, LEAST_18_BEFORE_15),
];

/// How often each was met.
#[derive(Default)]
pub struct PairCounts {
    /// By call: 17, and 18.
    met: [[u64; 2]; CALLS.len()],
    /// By call, where the cause stands alone.
    of_17: [[u64; CAUSES_OF_17.len()]; CALLS.len()],
    of_18: [[u64; CAUSES_OF_18.len()]; CALLS.len()],
    orders: [u64; ORDERS.len()],
    has: [u64; KINDS.len()],
}

impl Call {
    /// The case's sheets that the call takes.
    fn own(self, sheets: &Sheets) -> Sheets {
        let mut own = sheets.clone();
        if self != Call::Drawing {
            own.facts.clear();
        }
        if self == Call::Writing {
            own.union.clear();
        }
        own
    }

    /// All numbers whose conditions hold of these sheets, the call's own, in the order in which they decide.
    fn conditions(self, own: &Sheets) -> Vec<u32> {
        let mut all = refusals::conditions(own);
        // writing takes no union, so there is none to be refused
        all.retain(|&number| self != Call::Writing || number != 6);
        if all.first() == Some(&18) {
            all.extend(match self {
                Call::Checking => None,
                Call::Drawing => refusals::finds_a_tuple(own).then_some(14),
                Call::Writing => too_many(own).then_some(15),
            });
        }
        all
    }
}

/// 15's condition.
fn too_many(own: &Sheets) -> bool {
    let read = (rule_sheet::rules(&own.rules), sheets::question(&own.question));
    matches!(read, (Ok(rules), Ok(question)) if unions::too_many(&question, &rules.read))
}

/// The places of 18 in the call's sheets.
fn places(own: &Sheets) -> Vec<Place> {
    let (question, facts) = (sheets::question(&own.question), sheets::facts(&own.facts));
    let rules = rule_sheet::rules(&own.rules).map_or(vec![], |rules| rules.written);
    clashes(&rules, question.as_ref().ok(), facts.as_deref().ok())
}

/// Whether there is a kind 3 or a kind 4.
fn has_pairs(rules: &[u8]) -> bool {
    let of_pair = |record: &rule_sheet::Record| matches!(record.kind, 3 | 4);
    rule_sheet::records(rules).is_some_and(|records| records.iter().any(of_pair))
}

impl Tally {
    /// A refusal by a call, if it has to do with pairs: its cause, and what it comes before. The conditions, each looked at for itself,
    /// must give the same number.
    pub fn count_pairs(&mut self, name: &str, sheets: &Sheets, call: Call, number: u32) {
        if number == 0 || !has_pairs(&sheets.rules) {
            return;
        }
        let own = call.own(sheets);
        let conditions = call.conditions(&own);
        // 15 may stand alone: it is no condition of the sheets by themselves
        if number != 15 && conditions.first() != Some(&number) {
            let (what, told) = (format!("the conditions here of {call:?}"), format!("{conditions:?}"));
            self.differ(name, sheets, &what, &number.to_string(), &told);
        }
        let causes = match number {
            17 => causes::of_17(&own.rules),
            18 => causes::of_18(&places(&own)),
            _ => vec![],
        };
        if matches!(number, 17 | 18) && causes.is_empty() {
            self.differ(name, sheets, &format!("the causes here of {call:?}"), "one", "none");
        }
        self.pairs.count_refused(call, number, &causes, &conditions);
    }
}

impl PairCounts {
    fn count_refused(&mut self, call: Call, number: u32, causes: &[usize], conditions: &[u32]) {
        let at = call as usize;
        match number {
            17 => self.met[at][0] += 1,
            18 => self.met[at][1] += 1,
            _ => (),
        }
        match (number, causes) {
            (17, [alone]) => self.of_17[at][*alone] += 1,
            (18, [alone]) => self.of_18[at][*alone] += 1,
            _ => (),
        }
        for (count, (in_call, first, other, _)) in self.orders.iter_mut().zip(ORDERS) {
            let is_so = in_call == call && first == number && conditions.contains(&other);
            *count += u64::from(is_so);
        }
    }

    pub fn count_accepted(&mut self, sheets: &Sheets, drawn: &Drawn, most: usize) {
        for (count, has) in self.has.iter_mut().zip(pair_kinds::of(sheets, drawn, most)) {
            *count += u64::from(has);
        }
    }

    /// The counts with what they must be at least; of a cause, the count of the call that met it least.
    pub fn counts(&self) -> Vec<(String, u64, u64)> {
        let mut all = Vec::new();
        let mut count = |what: String, got: u64, least: u64| all.push((what, got, least));
        for (call, told) in CALLS {
            for (number, got) in [17, 18].into_iter().zip(self.met[call as usize]) {
                count(format!("{told} met {number}"), got, LEAST_MET);
            }
        }
        for (i, (_, told)) in CAUSES_OF_17.iter().enumerate() {
            let met = self.of_17.iter().map(|of_17| of_17[i]).min();
            let what = format!("17 in each call for nothing but {told}");
            count(what, met.unwrap_or(0), LEAST_OF_CAUSE);
        }
        for (i, (place, told)) in CAUSES_OF_18.iter().enumerate() {
            // drawing alone takes facts
            let has_it = |call: Call| *place != Place::Fact || call == Call::Drawing;
            let calls = CALLS.iter().filter(|(call, _)| has_it(*call));
            let met = calls.map(|(call, _)| self.of_18[*call as usize][i]).min();
            let what = format!("18 in each call for nothing but a helper {told}");
            count(what, met.unwrap_or(0), LEAST_OF_CAUSE);
        }
        for ((call, first, other, least), got) in ORDERS.into_iter().zip(self.orders) {
            count(
                format!("{} met {first} where {other} holds too", CALLS[call as usize].1),
                got,
                least,
            );
        }
        for ((what, least), got) in KINDS.into_iter().zip(self.has) {
            count(format!("accepted, {what}"), got, least);
        }
        all
    }
}

#[cfg(test)]
mod tests {
    use super::*;

    #[test]
    fn what_was_not_met_is_not_enough() {
        for (what, got, least) in PairCounts::default().counts() {
            assert!(got < least && least >= 5, "{what}");
        }
    }
}
