//! An earlier library, if the build was given one (`build.rs`), through this tree's wrapper.
use crate::proved::Library;

#[cfg(not(before))]
pub const LIBRARY: Option<Library> = None;

#[cfg(before)]
pub const LIBRARY: Option<Library> = Some(Library {
    answer: calls::answer,
    check: calls::check,
});

/// The wrapper's calls, by the earlier library's new names; not all are used.
#[cfg(before)]
#[allow(dead_code)]
mod linked {
    include!(concat!(env!("OUT_DIR"), "/linked.rs"));
}

#[cfg(before)]
mod calls {
    use super::linked;
    use crate::cases::Case;
    use crate::Drawn;

    pub fn check(case: &Case) -> u32 {
        linked::check(&case.rules, &case.question, &case.union)
    }

    pub fn answer(case: &Case, list: &mut [u8]) -> Drawn {
        let linked::Answers { number, count } =
            linked::answer(&case.rules, &case.question, &case.union, &case.facts, list);
        Drawn {
            number,
            count: count as usize,
        }
    }
}
