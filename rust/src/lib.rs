//! Takwishan for Rust: a union of conjunctive queries written for rules and question, or checked against them, answers drawn with it from
//! facts, an answer explained by the rules behind it, a member of a union shown, and two questions compared.
//!
//! The work is done by a proved library (`make lib`); this crate only hands slices over, and puts an explanation into words. Every sheet of
//! every length and content is answered: nothing panics or blocks, and only [`write()`], [`explain()`] and [`in_words`] allocate. A call
//! needs less than one megabyte of stack.
//!
//! Card K1 of document 01: each concept 1 is driven by something; who is driven?
//!
//! ```
//! let rules = [0x10, 0x00, 0x60, 0x00];
//! let question = [0x11, 0x00, 0x00, 0x00, 0x80, 0x00, 0x00, 0x02, 0x00, 0x00];
//! let union = [
//!     0x00, 0x02, // two members
//!     0x00, 0x00, 0x00, 0x00, // no step: the question itself
//!     0x11, 0x00, 0x00, 0x00, 0x80, 0x00, 0x00, 0x02, 0x00, 0x00,
//!     0x40, 0x00, 0x00, 0x00, // rule 0 on atom 0 of member 0
//!     0x11, 0x00, 0x00, 0x00, 0x00, 0x04, 0x00, 0x00, 0x00, 0x00,
//! ];
//! let facts = [0x00, 0x01, 0x00, 0x07, 0x00, 0x00, 0x80, 0x01, 0x00, 0x09, 0x00, 0x03];
//!
//! let mut list = [0; 16];
//! let count = takwishan::answer(&rules, &question, &union, &facts, &mut list)?;
//! let driven: Vec<u16> = list[..2 * count].chunks_exact(2).map(|o| u16::from_be_bytes([o[0], o[1]])).collect();
//! assert_eq!(driven, [7, 9]);
//! # Ok::<(), takwishan::Refusal>(())
//! ```
//!
//! A rule sheet has records of kinds 1 to 4. A kind 3 and the kind 4 after it are one rule, such as "each pump has a motor that is a
//! drive": each bearer of the left side has the role to something that bears the filler, a concept, or the other way round. The two are
//! read as three rules over a helper role ([`limits::FIRST_HELPER`]), and rule indices in a union count rules as read. docs/FORMAT.md has
//! the bytes.
#![warn(missing_docs)]

mod as_read;
mod explain;
pub mod limits;
mod linked;
mod refusal;
mod words;

pub use explain::{explain, explain_into, explain_outcome, Step};
pub use linked::{Answers, Explained, RenameOutcome, WriteOutcome};
pub use refusal::Refusal;
pub use words::{in_words, in_words_by, Names, Numbers};

/// The version of wrapper, header and library; CHANGELOG.md says what changed.
pub const VERSION: &str = env!("CARGO_PKG_VERSION");

/// Checks a union against rules and question: the first refusal of 1, 2, 17, 3 to 11 and 18 that applies, in this order, or `Ok` where the
/// union is accepted. There are no facts here: where only a fact has a helper for its role this is `Ok`, and [`answer`] gives 18.
pub fn check(rules: &[u8], question: &[u8], union: &[u8]) -> Result<(), Refusal> {
    given(linked::check(rules, question, union))
}

/// Draws the answers of an accepted union from facts into the list, and returns how many there are.
///
/// The list then holds that many tuples, each with as many objects as the question has answer terms, two bytes an object with the high byte
/// first, ascending, each once; the bytes after them are zero. They are exactly the tuples that facts and rules bear out and that hold no
/// lost tag ([`limits::LOST_TAGS`]): an object without a tag may help a match, but a tuple with one is neither listed nor counted, and
/// takes no room. A question without answer terms has 0 answers or 1, and writes no bytes.
///
/// On a refusal the whole list is zeros. It is the first of 1, 2, 17, 3 to 13, 18 and 14 that applies, in this order.
pub fn answer(rules: &[u8], question: &[u8], union: &[u8], facts: &[u8], list: &mut [u8]) -> Result<usize, Refusal> {
    let drawn = outcome(rules, question, union, facts, list);
    given(drawn.number)?;
    Ok(usize::try_from(drawn.count).expect("the answers lie in the list, or it is the empty tuple alone"))
}

/// The same as the library gives it: the number, 0 or the refusal's, and the count, 0 on a refusal.
pub fn outcome(rules: &[u8], question: &[u8], union: &[u8], facts: &[u8], list: &mut [u8]) -> Answers {
    linked::answer(rules, question, union, facts, list)
}

/// Writes the union of rules and question, and returns its bytes: a sheet for [`check`] and [`answer`].
///
/// Members are taken in index order; for each, atoms in order with rules in order, then pairs of atoms by the earlier and then the later
/// one; a result alike to no member so far is appended, with its step and as the step leaves it. Roles are written as they are read: of two
/// partners the lower. The bytes are fixed by this, and the union is one that is accepted. It is refused with the first of 1, 2, 17, 3 to
/// 5, 18 and 15 that applies, in this order; never with 16, since there is room for every union.
///
/// ```
/// let rules = [0x10, 0x00, 0x60, 0x00]; // each concept 1 is driven by something
/// let question = [0x11, 0x00, 0x00, 0x00, 0x80, 0x00, 0x00, 0x02, 0x00, 0x00]; // who is driven?
/// let union = takwishan::write(&rules, &question)?;
/// takwishan::check(&rules, &question, &union)?;
///
/// let facts = [0x00, 0x01, 0x00, 0x07, 0x00, 0x00]; // 7 is a concept 1
/// let mut list = [0; 2];
/// assert_eq!(takwishan::answer(&rules, &question, &union, &facts, &mut list)?, 1);
/// assert_eq!(list, [0, 7]);
/// # Ok::<(), takwishan::Refusal>(())
/// ```
pub fn write(rules: &[u8], question: &[u8]) -> Result<Vec<u8>, Refusal> {
    let mut sheet = vec![0; limits::MOST_UNION_BYTES];
    let written = write_into(rules, question, &mut sheet)?;
    sheet.truncate(written.length);
    sheet.shrink_to_fit();
    Ok(sheet)
}

/// What was written into a lent sheet.
#[derive(Clone, Copy, Debug, PartialEq, Eq)]
pub struct Written {
    /// How many members the union has, 1 to 512.
    pub count: usize,
    /// How many bytes of the sheet it takes, from the first; those after it are zero, and no part of the union.
    pub length: usize,
}

/// The same into a lent sheet, of any length: [`limits::MOST_UNION_BYTES`] are enough for every union.
///
/// The first `length` bytes of the sheet are the union, the bytes after them are zero. On a refusal the whole sheet is zeros. It is the
/// first of 1, 2, 17, 3 to 5, 18, 15 and 16 that applies, in this order: 15 before 16 whatever the sheet's length.
///
/// ```
/// let rules = [0x10, 0x00, 0x60, 0x00];
/// let question = [0x11, 0x00, 0x00, 0x00, 0x80, 0x00, 0x00, 0x02, 0x00, 0x00];
/// let mut sheet = [0; takwishan::limits::MOST_UNION_BYTES];
/// let written = takwishan::write_into(&rules, &question, &mut sheet)?;
/// assert_eq!((written.count, written.length), (2, 30));
/// takwishan::check(&rules, &question, &sheet[..written.length])?;
/// # Ok::<(), takwishan::Refusal>(())
/// ```
pub fn write_into(rules: &[u8], question: &[u8], sheet: &mut [u8]) -> Result<Written, Refusal> {
    let written = write_outcome(rules, question, sheet);
    given(written.number)?;
    let size = |number| usize::try_from(number).expect("the union lies in the sheet");
    Ok(Written {
        count: size(written.count),
        length: size(written.length),
    })
}

/// The same as the library gives it: the number, 0 or the refusal's, and count and length, 0 on a refusal.
pub fn write_outcome(rules: &[u8], question: &[u8], sheet: &mut [u8]) -> WriteOutcome {
    linked::write(rules, question, sheet)
}

/// The part of a union sheet that holds the question of member `m`, counted from 0. It is empty if the sheet meets 6 on its own (term
/// counts being compared with member 0's) or has no such member.
pub fn member(union: &[u8], m: usize) -> &[u8] {
    let part = linked::member(union, m);
    &union[part.start..part.start + part.length]
}

/// Compares two questions: whether they are alike, and by which names. Gives the renaming from the first to the second, or `None` if there
/// is none.
///
/// A renaming gives each variable of the first question a variable of the second, no two the same one, so that the answer terms become the
/// second's in their order, and the atoms become its atoms in whatever order; objects stay what they are. Both are compared as read: driven
/// by(x,y) is drives(y,x). Place `v` has the variable that `v` goes to, or [`limits::NO_TARGET`] if `v` does not stand in the first
/// question. Of several renamings it is the one whose list of targets, taken by rising variable, is smallest.
///
/// It is refused with the first of 3, 4 and 5 that applies to the first sheet, else with the first of them that applies to the second: 5
/// of the first comes before 3 of the second.
///
/// ```
/// use takwishan::limits::NO_TARGET;
///
/// let question = [0x11, 0x00, 0x00, 0x00, 0x80, 0x00, 0x00, 0x02, 0x00, 0x00]; // v0 of drives(v1,v0)
/// let asked_otherwise = [0x11, 0x00, 0x00, 0x05, 0x80, 0x04, 0x00, 0x0a, 0x00, 0x02]; // v5 of driven by(v5,v2)
/// let targets = takwishan::rename(&question, &asked_otherwise)?.expect("they are alike");
/// assert_eq!(targets[..2], [5, 2]);
/// assert_eq!(targets[2..], [NO_TARGET; 30]);
///
/// let concept_1 = [0x11, 0x00, 0x00, 0x00, 0x00, 0x04, 0x00, 0x00, 0x00, 0x00];
/// assert_eq!(takwishan::rename(&question, &concept_1)?, None);
/// # Ok::<(), takwishan::Refusal>(())
/// ```
pub fn rename(first: &[u8], second: &[u8]) -> Result<Option<[u8; 32]>, Refusal> {
    let compared = rename_outcome(first, second);
    given(compared.number)?;
    Ok((compared.found != 0).then_some(compared.targets))
}

/// The same as the library gives it: the number, 0 or the refusal's; 1 if there is a renaming, else 0; and the targets, in every place
/// [`limits::NO_TARGET`] if there is none, and on a refusal.
pub fn rename_outcome(first: &[u8], second: &[u8]) -> RenameOutcome {
    linked::rename(first, second)
}

/// A number of the library as a result.
fn given(number: u32) -> Result<(), Refusal> {
    match number {
        0 => Ok(()),
        n => Err(Refusal::from_number(n).expect("the library gives no number above 20")),
    }
}
