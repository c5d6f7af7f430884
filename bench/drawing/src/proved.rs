//! The proved library, through its wrapper.
use crate::cases::Case;
use crate::Drawn;

/// What is called of a proved library, this one or an earlier one.
pub struct Library {
    /// Number and count that drawing returns; the list is written.
    pub answer: fn(&Case, &mut [u8]) -> Drawn,
    /// The number that checking returns.
    pub check: fn(&Case) -> u32,
}

pub const LIBRARY: Library = Library { answer, check };

fn check(case: &Case) -> u32 {
    let checked = takwishan::check(&case.rules, &case.question, &case.union);
    checked.err().map_or(0, takwishan::Refusal::number)
}

fn answer(case: &Case, list: &mut [u8]) -> Drawn {
    takwishan::outcome(&case.rules, &case.question, &case.union, &case.facts, list).into()
}

/// Number and count that explaining returns; the steps are written.
pub fn explain(case: &Case, tuple: &[u8], steps: &mut [u8]) -> Drawn {
    let Case {
        rules,
        question,
        union,
        facts,
        ..
    } = case;
    let explained = takwishan::explain_outcome(rules, question, union, facts, tuple, steps);
    Drawn {
        number: explained.number,
        count: explained.count as usize,
    }
}
