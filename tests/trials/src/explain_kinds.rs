//! What kind of explanation one is, and of a tuple that is refused: how a slip about it would show.

use crate::alike::alike;
use crate::chase::Held;
use crate::explain::{ground_but_for_18, objects, Ground, Place, PLACE};
use crate::lost_tags;
use crate::refusals::Sheets;
use crate::rename_kinds::turned;
use crate::renamings::{Targets, NO_TARGET};
use crate::rewrite;
use crate::rule_sheet::places_as_written;
use crate::sheets;

/// What is counted of explanations, and how often it must be met. That a merge made the lowest member that yields is not among them: a
/// merge's parent stands before it and yields all that it yields, so merges stand in the middle of a way only.
pub const KINDS: [(&str, u64); 16] = [
    ("without a step", 100),
    ("of three or more steps", 200),
    ("of three or more steps, a merge among them", 50),
    ("of three or more steps, a rule of a pair among them", 50),
    ("of three or more steps, a merge and a rule of a pair among them", 20),
    ("of a member above 0, while a higher one yields the tuple too", 100),
    ("with a step whose parent is not the member before it", 100),
    ("with a step that a lower member than its parent leads to as well", 100),
    ("with a renaming that is not the identity", 100),
    ("with a step that two renamings fit", 100),
    ("with a renaming that is another list the other way round", 100),
    ("of a question without answer terms, with a step", 50),
    ("of a tuple with an object above 255, with a step", 50),
    ("of a tuple that needs a lost tag in the match, with a step", 20),
    ("with a member and a rule above 255", 5),
    ("of 511 steps", 5),
];

/// The same of tuples that meet 19.
pub const KINDS_OF_19: [(&str, u64); 10] = [
    ("a byte too short", 50),
    ("a byte too long", 50),
    ("empty, where there are answer terms", 50),
    ("twice as long", 50),
    ("not empty, where there are no answer terms", 50),
    ("empty, where there are no answer terms", 50),
    ("yielded but for a lost tag", 50),
    ("of the right length, without a lost tag, and yielded by no member", 50),
    ("too long, and begun by an answer whose steps have no room", 50),
    ("yielded but for a lost tag, by steps that have no room", 50),
];

fn is_identity(targets: &Targets) -> bool {
    (0u8..).zip(targets).all(|(x, &y)| y == x || y == NO_TARGET)
}

/// Whether a step from a member below the parent leads to a question alike to this member too.
fn has_lower_parent(ground: &Ground, place: &Place) -> bool {
    let members = &ground.accepted.members;
    let leads_there = |lower: usize| {
        let steps = rewrite::steps(lower, &members[lower].question, &ground.accepted.rules.read, true);
        let own = &members[place.member as usize].question;
        steps.iter().any(|(_, result)| alike(result, own))
    };
    // steps from many members would take long, and a few show it
    (0..usize::from(place.step.parent).min(4)).any(leads_there)
}

/// Whether no match of the member without a lost tag yields the tuple.
fn needs_lost_tag(ground: &Ground, member: usize, tuple: &[u16]) -> bool {
    let held = Held::facts(&ground.facts);
    let question = &ground.accepted.members[member].question;
    !held.tuples_avoiding(question, lost_tags::is_lost).contains(tuple)
}

/// Which lines of `KINDS` hold of the explanation by this member.
pub fn of_explained(ground: &Ground, member: usize, tuple: &[u8]) -> [bool; KINDS.len()] {
    let (way, tuple) = (ground.way(member), objects(tuple));
    let rules = &ground.accepted.rules;
    let places = places_as_written(&rules.written);
    let is_rule = |place: &Place| place.step.kind == 1;
    let of_pair = |place: &Place| is_rule(place) && rules.written[places[place.step.other as usize]].is_qualified();
    let some = |is_so: &dyn Fn(&Place) -> bool| way.iter().any(is_so);
    let (three, steps) = (way.len() >= 3, !way.is_empty());
    let (merge, pair) = (some(&|place| place.step.kind == 2), some(&of_pair));
    let higher = ground.yields[member + 1..].iter().any(|tuples| tuples.contains(&tuple));
    [
        !steps,
        three,
        three && merge,
        three && pair,
        three && merge && pair,
        member > 0 && higher,
        some(&|place| place.step.parent + 1 != place.member),
        way.len() < 20 && some(&|place| has_lower_parent(ground, place)),
        some(&|place| !is_identity(&place.targets)),
        some(&|place| ground.renaming(place.member as usize).1 > 1),
        some(&|place| turned(&place.targets) != place.targets),
        steps && tuple.is_empty(),
        steps && tuple.iter().any(|&object| object > 255),
        steps && needs_lost_tag(ground, member, &tuple),
        some(&|place| place.member > 255 && is_rule(place) && place.step.other > 255),
        way.len() == 511,
    ]
}

/// Which lines of `KINDS_OF_19` hold of a tuple that meets it, beside a list of this length.
pub fn of_19(ground: &Ground, tuple: &[u8], length: usize) -> [bool; KINDS_OF_19.len()] {
    let (right, given) = (ground.tuple_length(), tuple.len());
    let yielding = |bytes: &[u8]| ground.lowest(&objects(bytes)).filter(|_| bytes.len() == right);
    let no_room = |member: usize| length < PLACE * ground.way(member).len();
    let lost = lost_tags::holds_one(objects(tuple));
    let begun_by = tuple.get(..right).and_then(|bytes| ground.explaining(bytes));
    [
        given + 1 == right,
        given == right + 1,
        given == 0 && right > 0,
        right > 0 && given == 2 * right,
        given > 0 && right == 0,
        given == 0 && right == 0,
        lost && yielding(tuple).is_some(),
        given == right && right > 0 && !lost && yielding(tuple).is_none(),
        given > right && begun_by.is_some_and(no_room),
        lost && yielding(tuple).is_some_and(no_room),
    ]
}

/// Whether 19 and 20 hold of a tuple and a list of this length beside sheets that are refused with this number, as far as that can be
/// judged: 19 by the length alone, and beside 18 by what the members yield.
pub fn hidden(sheets: &Sheets, number: u32, tuple: &[u8], length: usize) -> [bool; 2] {
    let given = tuple.len();
    let fits_none = given % 2 == 1 || given > 8;
    let other = sheets::question(&sheets.question).is_ok_and(|question| given != 2 * question.answers.len());
    if number != 18 {
        return [fits_none || other, false];
    }
    let ground = ground_but_for_18(sheets).expect("18 comes last");
    match ground.explaining(tuple) {
        None => [true, false],
        Some(member) => [false, length < PLACE * ground.way(member).len()],
    }
}
