//! The limits of the sheets, beyond which one is refused; the objects that are in no answer; the first helper role; what a renaming has
//! in place of a target; and the room that an explanation takes.

/// The longest rule sheet: 512 records of 4 bytes.
pub const MOST_RULE_BYTES: usize = 2_048;
/// The longest question: 1 byte, 4 answer terms of 3 bytes, 8 atoms of 6 bytes.
pub const MOST_QUESTION_BYTES: usize = 61;
/// The longest union: 2 bytes, and 512 members of 4 bytes and a question. A lent sheet of so many bytes has room for every union.
pub const MOST_UNION_BYTES: usize = 33_282;
/// The longest fact sheet: 10,000 facts of 6 bytes.
pub const MOST_FACT_BYTES: usize = 60_000;

/// The most rules of a sheet as read: a kind 3 and its kind 4 count as three.
pub const MOST_RULES: usize = 512;
/// The most answer terms of a question.
pub const MOST_TERMS: usize = 4;
/// The most atoms of a question.
pub const MOST_ATOMS: usize = 8;
/// The highest number of a variable.
pub const MOST_VARIABLE: u16 = 31;
/// The highest number of an object.
pub const MOST_OBJECT: u16 = 65_535;
/// The most members of a union.
pub const MOST_MEMBERS: usize = 512;
/// The most facts of a sheet.
pub const MOST_FACTS: usize = 10_000;
/// The bytes of an object in an answer list, high byte first.
pub const OBJECT_BYTES: usize = 2;

/// Lost tags: gear without a tag is entered under these objects. They may help a match and are in no answer.
pub const LOST_TAGS: std::ops::RangeInclusive<u16> = 65_024..=65_535;

/// The helper role of a sheet's first kind 3 with its kind 4; the next has the number below, and so on down. Members of a union may use
/// helpers; as a role of a written rule, the question or a fact one is refused ([`Refusal::HelperAsRole`](crate::Refusal::HelperAsRole)).
pub const FIRST_HELPER: u16 = 4_095;

/// What a renaming has in place of a target: no variable has this number.
pub const NO_TARGET: u8 = 32;

/// The bytes of a step of an explanation.
pub const STEP_BYTES: usize = 40;
/// The most steps of an explanation: a member's parent is an earlier member, and member 0 takes no place.
pub const MOST_STEPS: usize = 511;
/// The longest explanation. So many lent bytes have room for every one.
pub const MOST_EXPLANATION_BYTES: usize = 20_440;
