//! Unions that the library writes, compared with those of the second implementation, and used: the library checks them and draws with
//! them, and what it draws is compared with the rounds.

use crate::lent::Lent;
use crate::pair_counts::Call;
use crate::tally::Tally;
use trials::chance::Chance;
use trials::helpers::Helpers;
use trials::refusals::{by_rounds, listed, Sheets};
use trials::sheets::{self, Fact, MOST_MEMBERS};
use trials::unions::{self, Outcome, Union};
use trials::{library, make, write};

/// The longest union, in bytes.
const LONGEST: usize = 33_282;

/// Facts whose rounds take more things than this are too many.
const MOST_THINGS: usize = 2_000;

/// The least counts without which a run fails.
const LEAST_MET: u64 = 50;
const LEAST_15_EMPTY: u64 = 10;
const LEAST_512: u64 = 5;
const LEAST_513: u64 = 5;
const LEAST_MERGED: u64 = 100;
const LEAST_ANSWERED: u64 = 1_000;

/// What kinds of cases were met.
#[derive(Default)]
pub struct Writings {
    met: [u64; 19],
    /// 15 with an empty sheet, which is shorter than any union.
    empty_15: u64,
    exactly_512: u64,
    exactly_513: u64,
    need_merge: u64,
    /// Unions with which an answer is drawn.
    answered: u64,
    /// Unions with which nothing can be drawn: there are no facts, or the rounds of any take too many things.
    pub no_facts: u64,
}

/// An outcome for a reader.
fn told(outcome: &Outcome) -> String {
    let sheet: String = outcome.sheet.iter().map(|byte| format!("{byte:02x}")).collect();
    let Outcome {
        number, count, length, ..
    } = outcome;
    format!("number {number}, count {count}, length {length}, sheet {sheet}")
}

impl Tally {
    /// Number, count, length and all bytes of a sheet that was full of other bytes, and nothing written beside it.
    fn compare_written(&mut self, name: &str, sheets: &Sheets, expected: &Outcome, chance: &mut Chance) {
        let lent_length = expected.sheet.len();
        let mut lent = Lent::new(lent_length, chance);
        let (number, count, length) = library::write(&sheets.rules, &sheets.question, lent.part());
        self.calls += 1;
        let what = format!("write, sheet of {lent_length}");
        let got = Outcome {
            number,
            count,
            length,
            sheet: lent.part().to_vec(),
        };
        if got != *expected {
            self.differ(name, sheets, &what, &told(expected), &told(&got));
        }
        if !lent.beside_kept() {
            self.differ(name, sheets, &what, "nothing written beside it", "other bytes");
        }
    }

    /// The union is checked and drawn with: 0, and the answers of the rounds. The facts are the case's if they are sound, and fewer of
    /// them where the rounds take too many things.
    fn compare_use(&mut self, name: &str, sheets: &Sheets, union: &Union, chance: &mut Chance) {
        let question = &union.members[0].1;
        let rules = &union.rules.written;
        let helpers = Helpers::of(rules);
        let sound = sheets::facts(&sheets.facts)
            .ok()
            .filter(|facts| !helpers.stand_in(facts));
        let facts = sound.unwrap_or_else(|| some_facts(union, helpers, chance));
        let (facts, answers) = [facts.len(), 1, 0]
            .into_iter()
            .map(|many| &facts[..many.min(facts.len())])
            .find_map(|few| Some((few, by_rounds(rules, question, few, MOST_THINGS)?)))
            .expect("rounds without facts take no things");
        let sheets = Sheets {
            rules: sheets.rules.clone(),
            question: sheets.question.clone(),
            union: union.bytes.clone(),
            facts: write::facts(facts, chance),
        };
        let checked = library::check(&sheets);
        self.calls += 1;
        if checked != 0 {
            self.differ(name, &sheets, "check of the union written", "0", &checked.to_string());
        }
        self.writings.no_facts += u64::from(facts.is_empty());
        self.writings.answered += u64::from(!answers.is_empty());
        let needed = 2 * question.answers.len() * answers.len();
        let length = needed + chance.of(&[0, 0, 1, 17]);
        self.compare_answer(name, &sheets, &listed(&answers, length), chance);
    }

    /// Everything of writing for one case's rules and question.
    pub fn compare_write(&mut self, name: &str, sheets: &Sheets, chance: &mut Chance) {
        let writings = &mut self.writings;
        match unions::union(&sheets.rules, &sheets.question) {
            Err((number, exactly_513)) => {
                writings.met[number as usize] += 1;
                writings.empty_15 += u64::from(number == 15);
                writings.exactly_513 += u64::from(exactly_513);
                self.count_pairs(name, sheets, Call::Writing, number);
                let long = chance.one_in(8).then_some(LONGEST);
                for lent in [0, 1, chance.from(2, 40)].into_iter().chain(long) {
                    self.compare_written(name, sheets, &unions::refused(number, lent), chance);
                }
            }
            Ok(union) => {
                writings.exactly_512 += u64::from(union.members.len() == MOST_MEMBERS);
                writings.need_merge += u64::from(union.needs_merge());
                for lent in lengths(union.bytes.len(), chance) {
                    let outcome = union.outcome(lent);
                    self.writings.met[outcome.number as usize] += 1;
                    self.compare_written(name, sheets, &outcome, chance);
                }
                self.compare_use(name, sheets, &union, chance);
            }
        }
    }
}

impl Writings {
    /// The counts with what they must be at least.
    pub fn counts(&self) -> Vec<(String, u64, u64)> {
        let mut all: Vec<(String, u64, u64)> = [1, 2, 3, 4, 5, 15, 16]
            .map(|number| (format!("writing met {number}"), self.met[number], LEAST_MET))
            .to_vec();
        let mut count = |what: &str, got, least| all.push((what.to_string(), got, least));
        count("writing met 15 with an empty sheet", self.empty_15, LEAST_15_EMPTY);
        count("unions of exactly 512 members written", self.exactly_512, LEAST_512);
        count("exactly 513 unlike questions", self.exactly_513, LEAST_513);
        count(
            "unions written with a member that needs a merge",
            self.need_merge,
            LEAST_MERGED,
        );
        count("unions written that draw an answer", self.answered, LEAST_ANSWERED);
        all
    }
}

/// Lengths of sheets around the edge, and others.
fn lengths(length: usize, chance: &mut Chance) -> Vec<usize> {
    let mut lengths = vec![0, 1, length - 1, length, length + 1, length + chance.from(2, 300)];
    lengths.push(chance.below(length));
    if chance.one_in(8) {
        lengths.push(LONGEST);
    }
    lengths.sort();
    lengths.dedup();
    lengths
}

/// Facts that two members match; of a member that uses a helper, those that need none.
fn some_facts(union: &Union, helpers: Helpers, chance: &mut Chance) -> Vec<Fact> {
    let objects = [3, 5, 8, 65_023, 65_535];
    let mut facts = Vec::new();
    for _ in 0..2 {
        let (_, question) = &union.members[chance.below(union.members.len())];
        facts.extend(make::matched_by(question, &objects, chance));
    }
    facts.retain(|&fact| !helpers.stand_in(&[fact]));
    facts
}
