//! Explanations compared with the library's, followed from member 0 forward, and counted.

use crate::lent::Lent;
use crate::tally::{add, hex, Tally};
use trials::chance::Chance;
use trials::dense::MOST_ROWS;
use trials::explain::{dense_ground, ground, Ground, PLACE};
use trials::explain_asks::{asks, few_asks};
use trials::explain_cases;
use trials::explain_kinds::{hidden, of_19, of_explained, KINDS, KINDS_OF_19};
use trials::library;
use trials::refusals::{refused, Outcome, Sheets, ORDER};
use trials::replay::Replay;

/// The least counts without which a run fails: of 19 and of 20, of lists around the edge, and of each number before 19 or 20.
const LEAST_MET: u64 = 100;
const LEAST_AT_EDGE: u64 = 100;
const LEAST_OF_ORDER: u64 = 50;

/// Lists at the edge of room for one step or more.
const EDGES: [&str; 4] = [
    "with room for the steps and no byte more",
    "with a byte more",
    "with a place and a part of one more",
    "with a byte less, which meets 20",
];

/// Calls beside dense cases.
const DENSE: [(&str, u64); 2] = [
    ("explanations with a step", 100),
    ("19 for a tuple of the right length", 100),
];

/// How often each was met; kinds are counted once for each tuple of a case.
#[derive(Default)]
pub struct ExplainCounts {
    /// 19, and 20.
    met: [u64; 2],
    kinds: [u64; KINDS.len()],
    of_19: [u64; KINDS_OF_19.len()],
    edges: [u64; EDGES.len()],
    /// By the number's place in `ORDER`: where 19 holds too, and where 20 does, which is judged beside 18 alone.
    before_19: [u64; ORDER.len()],
    before_20: u64,
    /// Beside dense cases.
    dense: [u64; DENSE.len()],
    /// Explanations, and those whose rules were not seen to suffice since the rounds take too many things.
    pub explanations: u64,
    pub not_judged: u64,
    pub most_steps: usize,
}

/// One call: the sheets, the tuple, and what it must give.
struct Call<'a> {
    name: &'a str,
    sheets: &'a Sheets,
    tuple: &'a [u8],
    expected: &'a Outcome,
}

fn told(outcome: &Outcome) -> String {
    let Outcome { number, count, list } = outcome;
    format!("number {number}, count {count}, steps {}", hex(list))
}

impl Tally {
    fn differ_in_explaining(&mut self, call: &Call, expected: &str, got: &str) {
        let what = format!("explain {}, list of {}", hex(call.tuple), call.expected.list.len());
        self.differ(call.name, call.sheets, &what, expected, got);
    }

    /// Number, count and all bytes of a list that was full of other bytes, and nothing written beside it; by the library or what stands
    /// for it. What it gave is handed back.
    fn compare_explained_by(
        &mut self,
        explain: impl Fn(&Sheets, &[u8], &mut [u8]) -> (u32, u64),
        call: &Call,
        chance: &mut Chance,
    ) -> Outcome {
        let mut lent = Lent::new(call.expected.list.len(), chance);
        let (number, count) = explain(call.sheets, call.tuple, lent.part());
        self.calls += 1;
        let got = Outcome {
            number,
            count,
            list: lent.part().to_vec(),
        };
        if got != *call.expected {
            self.differ_in_explaining(call, &told(call.expected), &told(&got));
        }
        if !lent.beside_kept() {
            self.differ_in_explaining(call, "nothing written beside it", "other bytes");
        }
        got
    }

    /// The list that was handed back, followed from member 0 forward.
    fn follow(&mut self, replay: &mut Replay, call: &Call, got: &Outcome) {
        match replay.follow(call.tuple, got.count, &got.list) {
            Err(wrong) => self.differ_in_explaining(call, "steps that lead to the tuple", &wrong),
            Ok(judged) => self.explains.not_judged += u64::from(!judged),
        }
    }

    /// Everything of explaining beside sheets that are accepted.
    fn compare_sound(&mut self, name: &str, sheets: &Sheets, ground: Ground, chance: &mut Chance) {
        let mut replay = Replay::new(&ground);
        for ask in asks(sheets, Ok(&ground), chance) {
            self.explains.count_tuple(&ground, &ask.tuple, &ask.lengths);
            for length in ask.lengths {
                let call = Call {
                    name,
                    sheets,
                    tuple: &ask.tuple,
                    expected: &ground.outcome(&ask.tuple, length),
                };
                self.explains.count_call(&ground, &call);
                let got = self.compare_explained_by(library::explain, &call, chance);
                if got.number == 0 {
                    self.follow(&mut replay, &call, &got);
                }
            }
        }
    }

    /// Everything of explaining for one case's sheets.
    pub fn compare_explain(&mut self, name: &str, sheets: &Sheets, chance: &mut Chance) {
        let number = match ground(sheets) {
            Ok(ground) => return self.compare_sound(name, sheets, ground, chance),
            Err(number) => number,
        };
        for ask in asks(sheets, Err(number), chance) {
            for length in ask.lengths {
                let call = Call {
                    name,
                    sheets,
                    tuple: &ask.tuple,
                    expected: &refused(number, length),
                };
                self.explains.count_refused(&call);
                self.compare_explained_by(library::explain, &call, chance);
            }
        }
    }

    /// Some explanations beside a dense case. They are not followed: going from match to match would take too long here.
    pub fn explain_dense(&mut self, name: &str, sheets: &Sheets, chance: &mut Chance) {
        let Some(ground) = dense_ground(sheets, MOST_ROWS) else {
            return;
        };
        for ask in few_asks(&ground, chance) {
            let call = Call {
                name,
                sheets,
                tuple: &ask.tuple,
                expected: &ground.outcome(&ask.tuple, ask.lengths[0]),
            };
            self.explains.count_dense(&ground, &call);
            self.compare_explained_by(library::explain, &call, chance);
        }
    }

    /// The case of this turn that is made for explaining.
    pub fn compare_deep(&mut self, seed: u64, turn: u64) {
        let sheets = explain_cases::sheets(seed, turn);
        let chance = &mut Chance::new(seed ^ turn);
        self.compare_explain(&format!("explanation {turn}"), &sheets, chance);
    }
}

impl ExplainCounts {
    fn count_tuple(&mut self, ground: &Ground, tuple: &[u8], lengths: &[usize]) {
        let Some(member) = ground.explaining(tuple) else {
            add(&mut self.of_19, &of_19(ground, tuple, lengths[0]));
            return;
        };
        let steps = ground.way(member).len();
        self.explanations += 1;
        self.most_steps = self.most_steps.max(steps);
        add(&mut self.kinds, &of_explained(ground, member, tuple));
    }

    fn count_call(&mut self, ground: &Ground, call: &Call) {
        let Outcome { number, list, .. } = call.expected;
        self.met[0] += u64::from(*number == 19);
        self.met[1] += u64::from(*number == 20);
        let steps = ground
            .explaining(call.tuple)
            .map_or(0, |member| ground.way(member).len());
        let needed = PLACE * steps;
        let edges = [needed, needed + 1, needed + PLACE + 1, needed.saturating_sub(1)];
        let is_at = edges.map(|length| steps > 0 && list.len() == length);
        add(&mut self.edges, &is_at);
    }

    fn count_dense(&mut self, ground: &Ground, call: &Call) {
        let Outcome { number, count, .. } = *call.expected;
        let right = call.tuple.len() == ground.tuple_length();
        add(&mut self.dense, &[number == 0 && count > 0, number == 19 && right]);
    }

    fn count_refused(&mut self, call: &Call) {
        let Outcome { number, list, .. } = call.expected;
        let [is_19, is_20] = hidden(call.sheets, *number, call.tuple, list.len());
        for (count, other) in self.before_19.iter_mut().zip(ORDER) {
            *count += u64::from(is_19 && *number == other);
        }
        self.before_20 += u64::from(is_20);
    }

    /// The counts with what they must be at least.
    pub fn counts(&self) -> Vec<(String, u64, u64)> {
        let mut all = Vec::new();
        let mut count = |what: String, got: u64, least: u64| all.push((what, got, least));
        for (number, got) in (19..).zip(self.met) {
            count(format!("explaining met {number}"), got, LEAST_MET);
        }
        for ((what, least), got) in KINDS.into_iter().zip(self.kinds) {
            count(format!("explanations {what}"), got, least);
        }
        for ((what, least), got) in KINDS_OF_19.into_iter().zip(self.of_19) {
            count(format!("19 for a tuple {what}"), got, least);
        }
        for (what, got) in EDGES.into_iter().zip(self.edges) {
            count(format!("lists for explanations, {what}"), got, LEAST_AT_EDGE);
        }
        for ((what, least), got) in DENSE.into_iter().zip(self.dense) {
            count(format!("beside dense cases, {what}"), got, least);
        }
        for (number, got) in ORDER.into_iter().zip(self.before_19) {
            count(
                format!("explaining met {number} where 19 holds too"),
                got,
                LEAST_OF_ORDER,
            );
        }
        let what = "explaining met 18 where 20 holds too";
        count(what.to_string(), self.before_20, LEAST_OF_ORDER);
        all
    }
}

#[cfg(test)]
mod tests {
    use super::*;
    use crate::explain_faults::{Fault, Faulty, FAULTS};
    use crate::SEED;
    use trials::explain_asks::Ask;

    /// Each fault must be found among so many cases, the first that are made for explaining.
    const FIRST: u64 = 400;

    struct Case {
        sheets: Sheets,
        ground: Result<Ground, u32>,
        asks: Vec<Ask>,
    }

    fn case(turn: u64) -> Case {
        let sheets = explain_cases::sheets(SEED, turn);
        let ground = ground(&sheets);
        let known = ground.as_ref().map_err(|number| *number);
        let asks = asks(&sheets, known, &mut Chance::new(SEED ^ turn));
        Case { sheets, ground, asks }
    }

    /// Whether there is a difference if explaining with this fault stands for the library.
    fn is_found(case: &Case, fault: Option<Fault>) -> bool {
        let ground = case.ground.as_ref().map_err(|number| *number);
        let faulty = Faulty {
            sheets: &case.sheets,
            ground,
            fault,
        };
        let mut tally = Tally::default();
        let each = case.asks.iter();
        let calls = each.flat_map(|ask| ask.lengths.iter().map(|&length| (&ask.tuple[..], length)));
        for (tuple, length) in calls {
            let expected = match ground {
                Err(number) => refused(number, length),
                Ok(ground) => ground.outcome(tuple, length),
            };
            let call = Call {
                name: "a fault",
                sheets: &case.sheets,
                tuple,
                expected: &expected,
            };
            let by_fault = |_: &Sheets, tuple: &[u8], list: &mut [u8]| faulty.explain(tuple, list);
            tally.compare_explained_by(by_fault, &call, &mut Chance::new(length as u64));
        }
        tally.differences > 0
    }

    /// Whether a list that is given with this fault cannot be followed.
    fn is_not_followed(case: &Case, fault: Fault) -> bool {
        let Ok(ground) = &case.ground else {
            return false;
        };
        let faulty = Faulty {
            sheets: &case.sheets,
            ground: Ok(ground),
            fault: Some(fault),
        };
        let mut replay = Replay::new(ground);
        let mut is_wrong = |ask: &Ask| {
            let mut list = vec![7; ask.lengths.iter().copied().max().unwrap_or(0)];
            let (number, count) = faulty.explain(&ask.tuple, &mut list);
            number == 0 && ask.tuple.len() == ground.tuple_length() && replay.follow(&ask.tuple, count, &list).is_err()
        };
        case.asks.iter().any(&mut is_wrong)
    }

    #[test]
    fn most_faults_are_found_by_following_alone() {
        // those before this one are about the list itself; but the other of two renamings can be followed as well, and so can the same
        // list, which is given if no other member yields the tuple without a lost tag
        let end = FAULTS.iter().position(|&fault| fault == Fault::PartOfAPlaceLeft);
        let of_lists = FAULTS.iter().take(end.unwrap_or(0)).copied();
        let seen = of_lists.filter(|fault| !matches!(fault, Fault::LostTagsHelpNoMatch | Fault::LargestRenaming));
        let cases = Vec::from_iter((0..FIRST).map(case));
        for fault in seen {
            let found = cases.iter().any(|case| is_not_followed(case, fault));
            assert!(found, "{fault:?} can be followed");
        }
    }

    #[test]
    fn every_fault_of_explaining_is_found() {
        let cases = Vec::from_iter((0..FIRST).map(case));
        for (turn, case) in cases.iter().enumerate() {
            assert!(!is_found(case, None), "{turn}");
        }
        for fault in FAULTS {
            let found = cases.iter().position(|case| is_found(case, Some(fault)));
            let at = found.unwrap_or_else(|| panic!("{fault:?} is not found"));
            println!("{fault:?}: found in case {at}");
        }
    }

    #[test]
    fn what_was_not_met_is_not_enough() {
        for (what, got, least) in ExplainCounts::default().counts() {
            assert!(got < least && least >= 5, "{what}");
        }
    }
}
