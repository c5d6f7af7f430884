//! Lost tags (T-01 of the change requests): gear without a tag is entered under 65,024 to 65,535. Such an object may help a match and
//! may never be in an answer.

use std::collections::BTreeSet;
use std::ops::RangeInclusive;

pub const LOST: RangeInclusive<u16> = 65_024..=65_535;

pub fn is_lost(object: u16) -> bool {
    LOST.contains(&object)
}

pub fn holds_one(objects: impl IntoIterator<Item = u16>) -> bool {
    objects.into_iter().any(is_lost)
}

/// The answers among the tuples that are found, and the tuples that are left out.
pub fn parted(tuples: BTreeSet<Vec<u16>>) -> (BTreeSet<Vec<u16>>, BTreeSet<Vec<u16>>) {
    tuples.into_iter().partition(|tuple| !holds_one(tuple.iter().copied()))
}
