//! The proved library's functions. All unsafe code is here.

/// What drawing gives beside the list.
#[repr(C)]
#[derive(Clone, Copy, Debug, PartialEq, Eq)]
pub struct Answers {
    /// 0, or the number of the refusal.
    pub number: u32,
    /// How many answers the list has; 0 on a refusal.
    pub count: u64,
}

/// What writing gives beside the sheet.
#[repr(C)]
#[derive(Clone, Copy, Debug, PartialEq, Eq)]
pub struct WriteOutcome {
    /// 0, or the number of the refusal.
    pub number: u32,
    /// How many members the union has; 0 on a refusal.
    pub count: u64,
    /// How many bytes of the sheet the union takes; 0 on a refusal.
    pub length: u64,
}

/// What explaining gives beside the steps.
#[repr(C)]
#[derive(Clone, Copy, Debug, PartialEq, Eq)]
pub struct Explained {
    /// 0, or the number of the refusal.
    pub number: u32,
    /// How many steps there are; 0 on a refusal, and where the question itself yields the tuple.
    pub count: u64,
}

/// Where a part of a sheet begins, and how many bytes it has.
#[repr(C)]
pub struct Part {
    pub start: usize,
    pub length: usize,
}

/// What comparing two questions gives.
#[repr(C)]
#[derive(Clone, Copy, Debug, PartialEq, Eq)]
pub struct RenameOutcome {
    /// 0, or the number of the refusal.
    pub number: u32,
    /// 1 if there is a renaming; 0 if there is none, and on a refusal.
    pub found: u32,
    /// Where variable 0, 1, .., 31 of the first question goes, or [`NO_TARGET`](crate::limits::NO_TARGET).
    pub targets: [u8; 32],
}

extern "C" {
    fn takwishan_check(
        rules: *const u8,
        rules_length: usize,
        question: *const u8,
        question_length: usize,
        union: *const u8,
        union_length: usize,
    ) -> u32;

    fn takwishan_answer(
        rules: *const u8,
        rules_length: usize,
        question: *const u8,
        question_length: usize,
        union: *const u8,
        union_length: usize,
        facts: *const u8,
        facts_length: usize,
        list: *mut u8,
        list_length: usize,
    ) -> Answers;

    fn takwishan_explain(
        rules: *const u8,
        rules_length: usize,
        question: *const u8,
        question_length: usize,
        union: *const u8,
        union_length: usize,
        facts: *const u8,
        facts_length: usize,
        tuple: *const u8,
        tuple_length: usize,
        steps: *mut u8,
        steps_length: usize,
    ) -> Explained;

    fn takwishan_write(
        rules: *const u8,
        rules_length: usize,
        question: *const u8,
        question_length: usize,
        sheet: *mut u8,
        sheet_length: usize,
    ) -> WriteOutcome;

    fn takwishan_member(union: *const u8, union_length: usize, member: usize) -> Part;

    fn takwishan_rename(
        first: *const u8,
        first_length: usize,
        second: *const u8,
        second_length: usize,
    ) -> RenameOutcome;
}

pub fn check(rules: &[u8], question: &[u8], union: &[u8]) -> u32 {
    // Safety: each pointer is that of a slice of the length beside it, and the function only reads them.
    unsafe {
        takwishan_check(
            rules.as_ptr(),
            rules.len(),
            question.as_ptr(),
            question.len(),
            union.as_ptr(),
            union.len(),
        )
    }
}

pub fn answer(rules: &[u8], question: &[u8], union: &[u8], facts: &[u8], list: &mut [u8]) -> Answers {
    // Safety: each pointer is that of a slice of the length beside it. The function writes only the list, which is borrowed for itself
    // alone.
    unsafe {
        takwishan_answer(
            rules.as_ptr(),
            rules.len(),
            question.as_ptr(),
            question.len(),
            union.as_ptr(),
            union.len(),
            facts.as_ptr(),
            facts.len(),
            list.as_mut_ptr(),
            list.len(),
        )
    }
}

pub fn explain(rules: &[u8], question: &[u8], union: &[u8], facts: &[u8], tuple: &[u8], steps: &mut [u8]) -> Explained {
    // Safety: each pointer is that of a slice of the length beside it. The function writes only the steps, which are borrowed for
    // themselves alone.
    unsafe {
        takwishan_explain(
            rules.as_ptr(),
            rules.len(),
            question.as_ptr(),
            question.len(),
            union.as_ptr(),
            union.len(),
            facts.as_ptr(),
            facts.len(),
            tuple.as_ptr(),
            tuple.len(),
            steps.as_mut_ptr(),
            steps.len(),
        )
    }
}

pub fn write(rules: &[u8], question: &[u8], sheet: &mut [u8]) -> WriteOutcome {
    // Safety: each pointer is that of a slice of the length beside it. The function writes only the sheet, which is borrowed for itself
    // alone.
    unsafe {
        takwishan_write(
            rules.as_ptr(),
            rules.len(),
            question.as_ptr(),
            question.len(),
            sheet.as_mut_ptr(),
            sheet.len(),
        )
    }
}

pub fn member(union: &[u8], m: usize) -> Part {
    // Safety: the pointer is that of a slice of the length beside it, and the function only reads it.
    unsafe { takwishan_member(union.as_ptr(), union.len(), m) }
}

pub fn rename(first: &[u8], second: &[u8]) -> RenameOutcome {
    // Safety: each pointer is that of a slice of the length beside it, and the function only reads them.
    unsafe { takwishan_rename(first.as_ptr(), first.len(), second.as_ptr(), second.len()) }
}
