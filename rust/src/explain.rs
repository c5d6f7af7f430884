//! An answer explained: the steps by which the rules lead from the question to a member that yields it.
use crate::limits::{MOST_EXPLANATION_BYTES, STEP_BYTES};
use crate::{given, linked, Explained, Refusal};

/// A step of an explanation: member, kind, parent, atom and other as the union has them, and the renaming from what the step makes of the
/// parent to the member as it stands.
#[derive(Clone, Copy, Debug, PartialEq, Eq)]
pub struct Step {
    /// The member that the step leads to, 1 to 511.
    pub member: u16,
    /// 1 if a rule is used on an atom, 2 if two atoms are merged.
    pub kind: u8,
    /// The member that the step starts from.
    pub parent: u16,
    /// The parent's atom, counted from 0.
    pub atom: u8,
    /// The rule, counted from 0 among the rules as read, or the later atom that is merged with the first.
    pub other: u16,
    /// Where each variable of the step's result goes, or [`NO_TARGET`](crate::limits::NO_TARGET) if the result has no such variable. The
    /// result is named as [`write()`](crate::write()) names it: a merge keeps the lower variable, and a fresh variable is the lowest that
    /// stands nowhere in the parent.
    pub targets: [u8; 32],
}

impl Step {
    /// The step in a place that [`explain_into`] filled.
    ///
    /// ```
    /// let mut place = [32; takwishan::limits::STEP_BYTES];
    /// place[..8].copy_from_slice(&[0x00, 0x02, 0x01, 0x00, 0x01, 0x00, 0x00, 0x05]);
    /// let step = takwishan::Step::from_bytes(&place);
    /// assert_eq!((step.member, step.kind, step.parent, step.atom, step.other), (2, 1, 1, 0, 5));
    /// assert_eq!(step.targets, [32; 32]);
    /// ```
    pub fn from_bytes(place: &[u8; STEP_BYTES]) -> Step {
        let pair = |at: usize| u16::from_be_bytes([place[at], place[at + 1]]);
        let mut targets = [0; 32];
        targets.copy_from_slice(&place[8..]);
        Step {
            member: pair(0),
            kind: place[2],
            parent: pair(3),
            atom: place[5],
            other: pair(6),
            targets,
        }
    }
}

/// Explains an answer: which rules put the tuple on the list. The tuple is packed as in the list of [`answer`](crate::answer()), two bytes
/// an object with the high byte first; for a question without answer terms it is empty.
///
/// The first step leads to the lowest member that yields the tuple from the facts alone, the next to that one's parent, and so on back to
/// the member whose parent is 0. There is no step where member 0, the question itself, yields it. Taken from the last to the first, each
/// step applied to the member before it, its result renamed and its atoms put in the member's order, they lead from the question to the
/// member that yields the tuple: the rules that they name are enough for it. [`in_words`](crate::in_words) says that in words.
///
/// It is refused with the first of 1, 2, 17, 3 to 13, 18 and 19 that applies, in this order; never with 20, since there is room for every
/// explanation.
///
/// ```
/// use takwishan::{explain, limits::NO_TARGET, Refusal};
///
/// let rules = [0x10, 0x00, 0x60, 0x00]; // each concept 1 is driven by something
/// let question = [0x11, 0x00, 0x00, 0x00, 0x80, 0x00, 0x00, 0x02, 0x00, 0x00]; // who is driven?
/// let union = takwishan::write(&rules, &question)?;
/// let facts = [0x00, 0x01, 0x00, 0x07, 0x00, 0x00, 0x80, 0x01, 0x00, 0x09, 0x00, 0x03]; // 7 is a concept 1, 9 is driven by 3
///
/// let steps = explain(&rules, &question, &union, &facts, &[0, 7])?;
/// assert_eq!(steps.len(), 1);
/// assert_eq!((steps[0].member, steps[0].kind, steps[0].parent, steps[0].atom, steps[0].other), (1, 1, 0, 0, 0));
/// assert_eq!(steps[0].targets[..2], [0, NO_TARGET]); // x is still variable 0, and y is gone
///
/// assert_eq!(explain(&rules, &question, &union, &facts, &[0, 9])?, []); // by the facts alone
/// assert_eq!(explain(&rules, &question, &union, &facts, &[0, 3]), Err(Refusal::NoAnswer));
/// # Ok::<(), Refusal>(())
/// ```
pub fn explain(rules: &[u8], question: &[u8], union: &[u8], facts: &[u8], tuple: &[u8]) -> Result<Vec<Step>, Refusal> {
    let mut places = vec![0; MOST_EXPLANATION_BYTES];
    let count = explain_into(rules, question, union, facts, tuple, &mut places)?;
    let place = |bytes: &[u8]| Step::from_bytes(bytes.try_into().expect("a place has so many bytes"));
    Ok(places.chunks_exact(STEP_BYTES).take(count).map(place).collect())
}

/// The same into lent bytes, of any length, and returns how many steps there are: [`MOST_EXPLANATION_BYTES`] are enough for every
/// explanation.
///
/// A step takes [`STEP_BYTES`] bytes, its fields in their order, each number with its high byte first; [`Step::from_bytes`] reads them. The
/// bytes after the steps are zero. On a refusal all bytes are. It is the first of 1, 2, 17, 3 to 13, 18, 19 and 20 that applies, in this
/// order.
///
/// ```
/// use takwishan::{explain_into, limits::STEP_BYTES, Refusal};
///
/// let rules = [0x10, 0x00, 0x60, 0x00];
/// let question = [0x11, 0x00, 0x00, 0x00, 0x80, 0x00, 0x00, 0x02, 0x00, 0x00];
/// let union = takwishan::write(&rules, &question)?;
/// let facts = [0x00, 0x01, 0x00, 0x07, 0x00, 0x00];
/// let mut steps = [0xff; STEP_BYTES];
/// assert_eq!(explain_into(&rules, &question, &union, &facts, &[0, 7], &mut steps)?, 1);
/// assert_eq!(steps[..10], [0, 1, 1, 0, 0, 0, 0, 0, 0, 32]);
///
/// let short = explain_into(&rules, &question, &union, &facts, &[0, 7], &mut steps[1..]);
/// assert_eq!(short, Err(Refusal::StepsTooShort));
/// assert_eq!(steps[1..], [0; STEP_BYTES - 1]);
/// # Ok::<(), Refusal>(())
/// ```
pub fn explain_into(
    rules: &[u8],
    question: &[u8],
    union: &[u8],
    facts: &[u8],
    tuple: &[u8],
    steps: &mut [u8],
) -> Result<usize, Refusal> {
    let explained = explain_outcome(rules, question, union, facts, tuple, steps);
    given(explained.number)?;
    Ok(usize::try_from(explained.count).expect("there are at most 511 steps"))
}

/// The same as the library gives it: the number, 0 or the refusal's, and the count of steps, 0 on a refusal.
///
/// ```
/// let nothing = takwishan::explain_outcome(&[], &[], &[], &[], &[], &mut []);
/// assert_eq!((nothing.number, nothing.count), (3, 0)); // an empty question has a wrong length
/// ```
pub fn explain_outcome(
    rules: &[u8],
    question: &[u8],
    union: &[u8],
    facts: &[u8],
    tuple: &[u8],
    steps: &mut [u8],
) -> Explained {
    linked::explain(rules, question, union, facts, tuple, steps)
}
