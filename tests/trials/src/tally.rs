//! Calls the library and compares what it does with what the second implementation expects; counts what kinds of cases were met.
//! Writing, pairs and helpers, near misses, dense cases, renamings and explanations have files of their own.

use crate::dense_counts::DenseCounts;
use crate::explain_counts::ExplainCounts;
use crate::lent::Lent;
use crate::near_counts::NearCounts;
use crate::pair_counts::{Call, PairCounts};
use crate::rename_counts::RenameCounts;
use crate::writing::Writings;
use trials::chance::Chance;
use trials::refusals::{self, check, draw, Drawn, Outcome, Sheets};
use trials::renamings::MOST_TRIED;
use trials::{library, rewrite, sheets};

/// Cases whose rounds take more things than this are set aside.
const MOST_THINGS: usize = 6_000;

#[derive(Default)]
pub struct Tally {
    pub cases: u64,
    pub calls: u64,
    set_aside: u64,
    accepted: u64,
    met: [u64; 19],
    /// How often this number decided while a later condition held too.
    hid: [u64; 19],
    beyond_member_0: u64,
    never_end: u64,
    need_merge: u64,
    left_out: u64,
    room_for_answers_only: u64,
    need_lost_tag: u64,
    most_members: usize,
    most_answers: usize,
    pub writings: Writings,
    pub pairs: PairCounts,
    pub near: NearCounts,
    pub dense: DenseCounts,
    pub renames: RenameCounts,
    pub explains: ExplainCounts,
    pub differences: usize,
}

pub fn hex(bytes: &[u8]) -> String {
    bytes.iter().map(|byte| format!("{byte:02x}")).collect()
}

/// Adds one to each count for which it is so.
pub fn add<const N: usize>(counts: &mut [u64; N], is_so: &[bool; N]) {
    for (count, &is_so) in counts.iter_mut().zip(is_so) {
        *count += u64::from(is_so);
    }
}

impl Tally {
    /// A difference, loudly, with the sheets.
    pub fn differ(&mut self, name: &str, sheets: &Sheets, what: &str, expected: &str, got: &str) {
        self.differences += 1;
        println!("DIFFERENCE in {name}, {what}: expected {expected}, got {got}");
        println!("  rules    {}", hex(&sheets.rules));
        println!("  question {}", hex(&sheets.question));
        println!("  union    {}", hex(&sheets.union));
        println!("  facts    {}", hex(&sheets.facts));
    }

    /// The number of checking, which is handed back as it must be.
    pub fn compare_check(&mut self, name: &str, sheets: &Sheets) -> u32 {
        let expected = check(sheets).err().unwrap_or(0);
        let got = library::check(sheets);
        self.calls += 1;
        if got != expected {
            self.differ(name, sheets, "check", &expected.to_string(), &got.to_string());
        }
        expected
    }

    /// Number, count and all bytes of a list that was full of other bytes, and nothing written beside it.
    pub fn compare_answer(&mut self, name: &str, sheets: &Sheets, expected: &Outcome, chance: &mut Chance) {
        self.compare_answer_by(library::answer, name, sheets, expected, chance);
    }

    /// The same of whatever stands for the library.
    pub fn compare_answer_by(
        &mut self,
        answer: impl Fn(&Sheets, &mut [u8]) -> (u32, u64),
        name: &str,
        sheets: &Sheets,
        expected: &Outcome,
        chance: &mut Chance,
    ) {
        let length = expected.list.len();
        let mut lent = Lent::new(length, chance);
        let (number, count) = answer(sheets, lent.part());
        self.calls += 1;
        let what = format!("answer, list of {length}");
        let got = Outcome {
            number,
            count,
            list: lent.part().to_vec(),
        };
        if got != *expected {
            let told = |o: &Outcome| format!("number {}, count {}, list {}", o.number, o.count, hex(&o.list));
            self.differ(name, sheets, &what, &told(expected), &told(&got));
        }
        if !lent.beside_kept() {
            self.differ(name, sheets, &what, "nothing written beside it", "other bytes");
        }
    }

    /// The part shown of every member, and of some that do not exist.
    pub fn compare_members(&mut self, name: &str, sheets: &Sheets, chance: &mut Chance) {
        let count = sheets
            .union
            .iter()
            .take(2)
            .fold(0, |n, &byte| n * 256 + usize::from(byte));
        let mut asked: Vec<usize> = (0..count.min(12) + 2).collect();
        asked.extend([count.saturating_sub(1), count, count + 1, chance.below(count + 1)]);
        asked.extend([511, 512, 65_535, 65_536, 1 << 32, usize::MAX]);
        for m in asked {
            let expected = sheets::shown(&sheets.union, m);
            let (start, length) = library::member(&sheets.union, m);
            self.calls += 1;
            let got = (length != 0).then_some((start, length));
            if got != expected {
                self.differ(
                    name,
                    sheets,
                    &format!("member {m}"),
                    &format!("{expected:?}"),
                    &format!("{got:?}"),
                );
            }
        }
    }

    /// What kind of case an accepted one is, by the second implementation alone.
    fn count_kinds(&mut self, name: &str, sheets: &Sheets, drawn: &Drawn) {
        let accepted = &drawn.accepted;
        self.accepted += 1;
        self.most_members = self.most_members.max(accepted.members.len());
        self.most_answers = self.most_answers.max(drawn.answers.len());
        self.never_end += u64::from(drawn.never_ends);
        self.left_out += u64::from(!drawn.left_out.is_empty());
        self.need_lost_tag += u64::from(drawn.needs_lost_tag());
        self.pairs.count_accepted(sheets, drawn, MOST_THINGS);
        let by_union = drawn.from_facts(accepted.members.iter().map(|member| &member.question));
        if by_union != drawn.answers {
            let told = |tuples| format!("{tuples:?}");
            self.differ(
                name,
                sheets,
                "the two readers here",
                &told(&drawn.answers),
                &told(&by_union),
            );
        }
        let by_member_0 = drawn.from_facts(std::iter::once(&accepted.question));
        self.beyond_member_0 += u64::from(by_member_0 != drawn.answers);
        if accepted.members.iter().any(|member| member.step.kind == 2) {
            if let Some(unmerged) = rewrite::plain_closure(&accepted.question, &accepted.rules.read, false, 2_000) {
                let found = drawn.from_facts(unmerged.iter().map(|(_, question)| question));
                self.need_merge += u64::from(found != drawn.answers);
            }
        }
    }

    fn count_refused(&mut self, name: &str, sheets: &Sheets, checked: u32, number: u32) {
        self.met[number as usize] += 1;
        self.count_pairs(name, sheets, Call::Checking, checked);
        self.count_pairs(name, sheets, Call::Drawing, number);
        let conditions = refusals::conditions(sheets);
        self.hid[number as usize] += u64::from(conditions.len() > 1);
        if conditions.first() != Some(&number) {
            self.differ(
                name,
                sheets,
                "the conditions here",
                &number.to_string(),
                &format!("{conditions:?}"),
            );
        }
    }

    /// Everything of checking, showing and drawing for one case's sheets; handed back is whether drawing refuses them.
    pub fn compare(&mut self, name: &str, sheets: &Sheets, chance: &mut Chance) -> bool {
        self.cases += 1;
        let checked = self.compare_check(name, sheets);
        self.compare_members(name, sheets, chance);
        match draw(sheets, MOST_THINGS) {
            Err(number) => {
                self.count_refused(name, sheets, checked, number);
                for length in [0, 1, chance.from(2, 40)] {
                    self.compare_answer(name, sheets, &refusals::refused(number, length), chance);
                }
                return true;
            }
            Ok(None) => self.set_aside += 1,
            Ok(Some(drawn)) => {
                self.count_kinds(name, sheets, &drawn);
                let outcomes: Vec<Outcome> = lengths(&drawn, chance).into_iter().map(|n| drawn.outcome(n)).collect();
                self.met[14] += u64::from(outcomes.iter().any(|outcome| outcome.number == 14));
                self.met[0] += 1;
                let all = drawn.needed() + drawn.tuple() * drawn.left_out.len();
                let tight = |one: &Outcome| one.number == 0 && one.count > 0 && one.list.len() < all;
                self.room_for_answers_only += u64::from(outcomes.iter().any(tight));
                for outcome in outcomes {
                    self.compare_answer(name, sheets, &outcome, chance);
                }
            }
        }
        false
    }

    /// What is told beside the counts.
    fn tell_asides(&self) {
        println!(
            "trials of check, answer, member, write, rename and explain: {} cases, {} calls, {} set aside",
            self.cases, self.calls, self.set_aside
        );
        println!(
            "accepted {}, the largest union {} members, the longest list {} answers",
            self.accepted, self.most_members, self.most_answers
        );
        println!(
            "unions written and drawn with from no facts: {}",
            self.writings.no_facts
        );
        println!(
            "near misses and needed facts that chance did not give: {}",
            self.near.not_given
        );
        println!(
            "dense cases that chance did not give: {}, whose kinds took too much to find out: {}",
            self.dense.not_given, self.dense.not_judged
        );
        let [renamed, unlike] = self.renames.larger;
        println!("pairs of more than {MOST_TRIED} variables with a renaming: {renamed}, without one: {unlike}");
        let ExplainCounts {
            explanations,
            most_steps,
            not_judged,
            ..
        } = self.explains;
        println!(
            "explanations: {explanations}, the longest {most_steps} steps; lists whose rules' rounds take too many things: {not_judged}"
        );
    }

    /// The counts of checking and drawing with what they must be at least.
    fn counts(&self) -> Vec<(String, u64, u64)> {
        let met = (1..=14).chain([17, 18]).map(|number| {
            let what = format!("met {number}, {} times before a later one", self.hid[number]);
            (what, self.met[number], 50)
        });
        let mut all = Vec::from_iter(met);
        let mut count = |what: &str, got, least| all.push((format!("accepted, with {what}"), got, least));
        count("an answer that member 0 alone does not find", self.beyond_member_0, 500);
        count("rounds that never end", self.never_end, 200);
        count(
            "an answer that no member reached without a merge finds",
            self.need_merge,
            100,
        );
        count("a tuple left out for a lost tag", self.left_out, 300);
        count(
            "answers and a list that has no room for the tuples left out too",
            self.room_for_answers_only,
            100,
        );
        count(
            "an answer every match of which uses a lost tag",
            self.need_lost_tag,
            100,
        );
        all
    }

    /// All counts, and whether they are enough.
    pub fn told(&self) -> bool {
        self.tell_asides();
        let counts = [
            self.counts(),
            self.writings.counts(),
            self.pairs.counts(),
            self.near.counts(),
            self.dense.counts(),
            self.renames.counts(),
            self.explains.counts(),
        ];
        let mut enough = true;
        for (what, got, least) in counts.concat() {
            println!("{what}: {got} (at least {least})");
            enough &= got >= least;
        }
        println!("differences: {}", self.differences);
        enough && self.differences == 0
    }
}

/// Lengths of lists around the edge, multiples of a tuple and others.
fn lengths(drawn: &Drawn, chance: &mut Chance) -> Vec<usize> {
    let needed = drawn.needed();
    let tuple = drawn.tuple();
    let mut lengths = vec![
        0,
        needed,
        needed + 1,
        needed + tuple,
        needed + tuple + 1,
        needed + chance.from(2, 300),
    ];
    lengths.extend([
        1,
        2,
        tuple.saturating_sub(1),
        needed.saturating_sub(1),
        needed.saturating_sub(tuple),
        needed / 2,
    ]);
    lengths.push(chance.from(0, needed + 8));
    if chance.one_in(16) {
        lengths.push(16_384);
    }
    lengths.sort();
    lengths.dedup();
    lengths
}
