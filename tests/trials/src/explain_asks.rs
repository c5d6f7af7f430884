//! What is asked of one case: answers and tuples that are none, and for each the lengths of lists that are lent.

use crate::chance::Chance;
use crate::explain::{ground_but_for_18, packed_tuple, Ground, PLACE};
use crate::lost_tags::{self, LOST};
use crate::refusals::Sheets;
use crate::sheets;
use std::collections::BTreeSet;

/// A case with no more answers than this is small, and all of them are asked for; of others, so many.
const MOST_ANSWERS: usize = 12;
/// Tuples left out for a lost tag that are asked for at most.
const MOST_LEFT_OUT: usize = 3;
/// Tuples that are asked of a dense case by chance.
const MOST_ASKS: usize = 5;
/// Longer than any list of steps, which are 511 at most.
const LONG: usize = 512 * PLACE;

/// A tuple as it is handed over, and the lengths of the lists lent for its steps.
#[derive(Clone, Debug)]
pub struct Ask {
    pub tuple: Vec<u8>,
    pub lengths: Vec<usize>,
}

/// The tuples that some member yields: the answers, and those with a lost tag.
fn yielded(ground: &Ground, chance: &mut Chance) -> (Vec<Vec<u16>>, Vec<Vec<u16>>) {
    let all = BTreeSet::from_iter(ground.yields.iter().flatten().cloned());
    let (answers, left_out) = lost_tags::parted(all);
    let mut both = [answers, left_out].map(Vec::from_iter);
    both.iter_mut().for_each(|tuples| chance.shuffle(tuples));
    let [mut answers, left_out] = both;
    answers.truncate(MOST_ANSWERS);
    (answers, left_out)
}

/// Lengths around what so many steps need: just enough, a byte or a place less, nothing, more by a byte, by places, by a part of one.
fn around(steps: usize, chance: &mut Chance) -> Vec<usize> {
    let needed = PLACE * steps;
    let more = [1, PLACE - 1, PLACE, PLACE + 1, 3 * PLACE + 17].map(|more| needed + more);
    let less = [1, PLACE].map(|less| needed.saturating_sub(less));
    let mut all = [&[needed, 0][..], &more, &less].concat();
    all.extend(chance.one_in(16).then_some(LONG));
    all.sort();
    all.dedup();
    all
}

/// Just enough, and one more by chance.
fn few(steps: usize, chance: &mut Chance) -> Vec<usize> {
    let (all, needed) = (around(steps, chance), PLACE * steps);
    let other = chance.of(&all);
    Vec::from_iter([needed].into_iter().chain((other != needed).then_some(other)))
}

/// One length, with room for no step or for some.
fn any_length(chance: &mut Chance) -> usize {
    chance.of(&[0, 0, 1, 39, 40, 41, 80, 100, 240])
}

/// Tuples of other lengths: a byte or an object more or less, twice as long, empty.
fn other_lengths(tuple: &[u8], chance: &mut Chance) -> Vec<Vec<u8>> {
    let byte = chance.of(&[0, tuple.last().copied().unwrap_or(7)]);
    let mut all = vec![
        [tuple, &[byte]].concat(),
        [tuple, &[0, 5]].concat(),
        [tuple, tuple].concat(),
        vec![],
    ];
    for less in [1, 2] {
        all.push(tuple[..tuple.len().saturating_sub(less)].to_vec());
    }
    if chance.one_in(16) {
        // so many bytes more that a length kept in fewer bits would be right
        let far = chance.of(&[256, 65_536]);
        all.push([tuple, &vec![0; far]].concat());
    }
    all
}

/// The tuple with another object somewhere, with its objects in another order, or with the bytes of one exchanged.
fn other_objects(tuple: &[u16], objects: &[u16], chance: &mut Chance) -> Vec<Vec<u16>> {
    let at = chance.below(tuple.len());
    let with = |object: u16| {
        let mut other = tuple.to_vec();
        other[at] = object;
        other
    };
    let mut turned = tuple.to_vec();
    turned.reverse();
    let near = tuple[at] ^ 1 << chance.below(16);
    let lost = chance.from(usize::from(*LOST.start()), usize::from(*LOST.end())) as u16;
    let others = [chance.of(objects), tuple[at].swap_bytes(), near, lost].map(with);
    [&others[..], &[turned]].concat()
}

/// Answers with lists around the edge, the first with all of these.
fn of_answers(ground: &Ground, answers: &[Vec<u16>], chance: &mut Chance) -> Vec<Ask> {
    let mut asks = Vec::new();
    for answer in answers {
        let tuple = packed_tuple(answer);
        let steps = ground.explaining(&tuple).map_or(0, |member| ground.way(member).len());
        let lengths = match asks.is_empty() {
            true => around(steps, chance),
            false => few(steps, chance),
        };
        asks.push(Ask { tuple, lengths });
    }
    asks
}

/// Tuples that are no answers, or hardly ever: made of this one, and some of those left out for a lost tag.
fn others(ground: &Ground, some: &[u16], left_out: &[Vec<u16>], objects: &[u16], chance: &mut Chance) -> Vec<Vec<u8>> {
    let mut tuples = left_out[..left_out.len().min(MOST_LEFT_OUT)].to_vec();
    if ground.tuple_length() > 0 {
        tuples.extend(other_objects(some, objects, chance));
    }
    let packed = tuples.iter().map(|tuple| packed_tuple(tuple));
    packed.chain(other_lengths(&packed_tuple(some), chance)).collect()
}

/// What is asked beside sheets that are accepted, each tuple once.
fn of_sound(ground: &Ground, chance: &mut Chance) -> Vec<Ask> {
    let (answers, left_out) = yielded(ground, chance);
    let mut asks = of_answers(ground, &answers, chance);
    let objects = Vec::from_iter(ground.facts.iter().flat_map(|fact| fact.terms()).chain([0, 9]));
    let terms = ground.accepted.question.answers.len();
    let some = answers.first().cloned();
    let some = some.unwrap_or_else(|| (0..terms).map(|_| chance.of(&objects)).collect());
    for tuple in others(ground, &some, &left_out, &objects, chance) {
        if !asks.iter().any(|ask| ask.tuple == tuple) {
            let lengths = vec![any_length(chance)];
            asks.push(Ask { tuple, lengths });
        }
    }
    asks
}

/// The answer, if there is one, of which the lowest member that yields it is highest.
fn latest(ground: &Ground) -> Option<Vec<u16>> {
    let (mut seen, mut latest) = (BTreeSet::new(), None);
    for tuple in ground.yields.iter().flatten() {
        if seen.insert(tuple) && !lost_tags::holds_one(tuple.iter().copied()) {
            latest = Some(tuple.clone());
        }
    }
    latest
}

/// What is asked of a dense case: the answer that has most members before it, and a few others, with one list each.
pub fn few_asks(ground: &Ground, chance: &mut Chance) -> Vec<Ask> {
    let mut asks = of_sound(ground, chance);
    chance.shuffle(&mut asks);
    asks.truncate(MOST_ASKS);
    asks.iter_mut().for_each(|ask| ask.lengths.truncate(1));
    let latest = latest(ground).map(|tuple| Ask {
        tuple: packed_tuple(&tuple),
        lengths: vec![LONG],
    });
    asks.into_iter().chain(latest).collect()
}

/// What is asked beside sheets that are refused: a tuple that no question could have, one that has the right length, as far as that can be
/// known, and one that would be explained if a helper stood nowhere.
fn of_refused(sheets: &Sheets, number: u32, chance: &mut Chance) -> Vec<Ask> {
    let terms = sheets::question(&sheets.question).map_or(1, |question| question.answers.len());
    let mut tuples = vec![vec![5; chance.of(&[1, 3, 7, 10])], vec![0; 2 * terms]];
    if number == 18 {
        if let Ok(ground) = ground_but_for_18(sheets) {
            let (answers, _) = yielded(&ground, chance);
            tuples.extend(answers.iter().take(1).map(|tuple| packed_tuple(tuple)));
        }
    }
    let ask = |tuple| Ask {
        tuple,
        lengths: vec![any_length(chance)],
    };
    tuples.into_iter().map(ask).collect()
}

/// What is asked of a case.
pub fn asks(sheets: &Sheets, ground: Result<&Ground, u32>, chance: &mut Chance) -> Vec<Ask> {
    match ground {
        Err(number) => of_refused(sheets, number, chance),
        Ok(ground) => of_sound(ground, chance),
    }
}
