//! What the desk turns back: document 01's list, and what document 02 adds to it.
use std::fmt;

/// The list in one place: a case, its number and the sentence of 01 or 02.
macro_rules! refusals {
    ($($case:ident = $number:literal: $sentence:literal,)*) => {
        /// Why a call was refused. The first entry whose condition holds decides, for the earlier ones not holding. Checking a union uses
        /// 1 to 11 and then 18, drawing answers 1 to 13, then 18 and 14, explaining one 1 to 13, then 18, 19 and 20, writing a union 1 to
        /// 5, then 18, 15 and 16; 17 comes after 2. Comparing two questions uses 3 to 5 for the first sheet and then 3 to 5 for the second.
        #[derive(Clone, Copy, Debug, PartialEq, Eq, PartialOrd, Ord, Hash)]
        pub enum Refusal {
            $(#[doc = concat!(stringify!($number), ": ", $sentence)] $case = $number,)*
        }

        impl Refusal {
            /// Every refusal, in the order of their numbers.
            pub const ALL: &'static [Refusal] = &[$(Refusal::$case,)*];

            /// The sentence of 01 or 02.
            pub fn sentence(self) -> &'static str {
                match self {
                    $(Refusal::$case => $sentence,)*
                }
            }
        }
    };
}

refusals! {
    RuleSheetLength = 1: "The rule sheet's length is no multiple of 4 or exceeds 2,048 bytes.",
    NoSuchRule = 2: "A rule has a kind or form not named above.",
    QuestionMalformed = 3: "The question has a count out of range, a set bit that must be zero, a variable above 31, or a wrong length.",
    AnswerVariableNowhere = 4: "An answer variable stands in no atom of the question.",
    AtomTwice = 5: "The question, as read, has one atom twice.",
    UnionMalformed = 6: "The union's count is out of range, its bytes end early or run on, a member would meet 3, 4 or 5, \
        or a member's answer-term count differs from the question's.",
    FirstMemberNotQuestion = 7: "Member 0 has a nonzero step, or answer terms or atoms that differ from the question's in their order.",
    StepDoesNotApply = 8: "A later member's step has kind 0 or 3, a parent not earlier, an index that doesn't exist, or doesn't apply.",
    StepGivesAnother = 9: "A step's result isn't alike to its member.",
    MembersAlike = 10: "Two members are alike.",
    UnionOpen = 11: "A step from some member leads to no question alike to a member.",
    FactSheetLength = 12: "The fact sheet's length is no multiple of 6 or exceeds 60,000 bytes.",
    FactMalformed = 13: "A fact has a set bit that must be zero.",
    ListTooShort = 14: "The answer list is shorter than 2 × terms × answers bytes.",
    TooManyQuestions = 15: "More than 512 unlike questions.",
    SheetTooShort = 16: "The lent sheet is shorter than the union.",
    PairMalformed = 17: "A kind 3 without its kind 4, a kind 4 by itself, a form or zero field in either that isn't as said, \
        or over 512 rules as read.",
    HelperAsRole = 18: "A helper number as a role in a written rule, the question or a fact.",
    NoAnswer = 19: "The tuple is no answer or has the wrong length.",
    StepsTooShort = 20: "The list of steps is too short.",
}

impl Refusal {
    /// Its number on the list, 1 to 20.
    pub fn number(self) -> u32 {
        self as u32
    }

    /// The refusal with that number.
    pub fn from_number(number: u32) -> Option<Refusal> {
        let index = usize::try_from(number).ok()?.checked_sub(1)?;
        Refusal::ALL.get(index).copied()
    }
}

impl fmt::Display for Refusal {
    fn fmt(&self, out: &mut fmt::Formatter<'_>) -> fmt::Result {
        write!(out, "refused {}: {}", self.number(), self.sentence())
    }
}

impl std::error::Error for Refusal {}

#[cfg(test)]
mod tests {
    use super::Refusal;

    #[test]
    fn numbers_go_both_ways() {
        for (i, refusal) in Refusal::ALL.iter().enumerate() {
            assert_eq!(refusal.number() as usize, i + 1);
            assert_eq!(Refusal::from_number(refusal.number()), Some(*refusal));
        }
        assert_eq!(Refusal::from_number(0), None);
        assert_eq!(Refusal::from_number(21), None);
    }

    #[test]
    fn says_number_and_sentence() {
        assert_eq!(Refusal::MembersAlike.to_string(), "refused 10: Two members are alike.");
    }
}
