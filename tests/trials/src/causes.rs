//! What 17 and 18 come from, by name, to count how often each is met alone: a library that passed over it would give another number.
//! What is expected never comes from here, but where 17 or 18 is expected there must be a cause.

use crate::helpers::Place;
use crate::rule_sheet::{records, Record, MOST_RULES};

/// What makes a sheet meet 17.
#[derive(Clone, Copy, PartialEq, Eq, Debug)]
pub enum Malformed {
    LastIs3,
    OtherAfter3,
    ThirdAfter3,
    FirstIs4,
    OtherBefore4,
    FourthBefore4,
    LeftFormOf3,
    ConceptRightOf3,
    RightFormOf3,
    LeftFormOf4,
    RightFormOf4,
    RightNumberOf4,
    Exactly513,
    Over513,
}

pub const CAUSES_OF_17: [(Malformed, &str); 14] = [
    (Malformed::LastIs3, "a kind 3 that is the last record"),
    (Malformed::OtherAfter3, "a kind 3 before a kind 1 or 2"),
    (Malformed::ThirdAfter3, "a kind 3 before a kind 3"),
    (Malformed::FirstIs4, "a kind 4 that is the first record"),
    (Malformed::OtherBefore4, "a kind 4 after a kind 1 or 2"),
    (Malformed::FourthBefore4, "a kind 4 after a kind 4"),
    (Malformed::LeftFormOf3, "a kind 3 of left form 3"),
    (Malformed::ConceptRightOf3, "a kind 3 of right form 0"),
    (Malformed::RightFormOf3, "a kind 3 of right form 3"),
    (Malformed::LeftFormOf4, "a kind 4 of a left form that is not 0"),
    (Malformed::RightFormOf4, "a kind 4 of a right form that is not 0"),
    (Malformed::RightNumberOf4, "a kind 4 of a right number that is not 0"),
    (Malformed::Exactly513, "exactly 513 rules as read"),
    (Malformed::Over513, "more than 513 rules as read"),
];

pub const CAUSES_OF_18: [(Place, &str); 10] = [
    (Place::LeftOf1, "left of a kind 1"),
    (Place::RightOf1, "right of a kind 1"),
    (Place::LeftOf2, "left of a kind 2"),
    (Place::RightOf2, "right of a kind 2"),
    (Place::LeftOf3, "left of a kind 3"),
    (Place::OwnRoleOf3, "as the role of its own kind 3"),
    (Place::EarlierRoleOf3, "as the role of a kind 3 after its own"),
    (Place::LaterRoleOf3, "as the role of a kind 3 before its own"),
    (Place::Question, "in the question"),
    (Place::Fact, "in a fact"),
];

/// Whether a record, beside those before and after it, is such a cause.
fn is_cause(cause: Malformed, before: Option<&Record>, record: &Record, after: Option<&Record>) -> bool {
    let beside = |other: Option<&Record>, kinds: &[u32]| other.is_some_and(|other| kinds.contains(&other.kind));
    match (record.kind, cause) {
        (3, Malformed::LastIs3) => after.is_none(),
        (3, Malformed::OtherAfter3) => beside(after, &[1, 2]),
        (3, Malformed::ThirdAfter3) => beside(after, &[3]),
        (4, Malformed::FirstIs4) => before.is_none(),
        (4, Malformed::OtherBefore4) => beside(before, &[1, 2]),
        (4, Malformed::FourthBefore4) => beside(before, &[4]),
        (3, Malformed::LeftFormOf3) => record.left_form == 3,
        (3, Malformed::ConceptRightOf3) => record.right_form == 0,
        (3, Malformed::RightFormOf3) => record.right_form == 3,
        (4, Malformed::LeftFormOf4) => record.left_form != 0,
        (4, Malformed::RightFormOf4) => record.right_form != 0,
        (4, Malformed::RightNumberOf4) => record.right != 0,
        _ => false,
    }
}

/// The places in `CAUSES_OF_17` of what holds of a sheet that meets neither 1 nor 2. Rules as read are counted where every pair is sound.
pub fn of_17(rules: &[u8]) -> Vec<usize> {
    let records = records(rules).unwrap_or_default();
    let at = |i: usize| records.get(i);
    let holds = |cause: Malformed| {
        let here = |(i, record)| is_cause(cause, at(usize::wrapping_sub(i, 1)), record, at(i + 1));
        records.iter().enumerate().any(here)
    };
    let all = CAUSES_OF_17.iter().enumerate();
    let found = Vec::from_iter(all.filter(|(_, (cause, _))| holds(*cause)).map(|(i, _)| i));
    let read = records.iter().map(|record| match record.kind {
        3 => 3,
        4 => 0,
        _ => 1,
    });
    let too_many = match read.sum::<usize>() {
        ..=MOST_RULES => None,
        513 => Some(Malformed::Exactly513),
        _ => Some(Malformed::Over513),
    };
    match too_many {
        Some(too_many) if found.is_empty() => Vec::from_iter(place_of(too_many)),
        _ => found,
    }
}

fn place_of(cause: Malformed) -> Option<usize> {
    CAUSES_OF_17.iter().position(|(other, _)| *other == cause)
}

/// The places in `CAUSES_OF_18` of these.
pub fn of_18(places: &[Place]) -> Vec<usize> {
    let place = |place: &Place| CAUSES_OF_18.iter().position(|(other, _)| other == place);
    places.iter().filter_map(place).collect()
}
