//! The proved readers, check, writer and comparison, as the static libraries have them, each in a safe function that tests what its
//! contract requires.
use crate::{rename::Renaming, write::Written, Read, MOST_FACTS, MOST_MEMBERS, ROW};

extern "C" {
    fn takwishan_bench_facts(
        sheet: *const u8,
        sheet_len: usize,
        partners: *const u16,
        partners_len: usize,
        table: *mut u64,
        table_len: usize,
    ) -> u64;

    fn takwishan_bench_union(
        sheet: *const u8,
        sheet_len: usize,
        partners: *const u16,
        partners_len: usize,
        arity: usize,
        table: *mut u64,
        table_len: usize,
    ) -> u64;

    fn takwishan_check(
        rules: *const u8,
        rules_len: usize,
        question: *const u8,
        question_len: usize,
        union: *const u8,
        union_len: usize,
    ) -> u32;

    fn takwishan_write(
        rules: *const u8,
        rules_len: usize,
        question: *const u8,
        question_len: usize,
        sheet: *mut u8,
        sheet_len: usize,
    ) -> Written;

    fn takwishan_rename(
        first: *const u8,
        first_length: usize,
        second: *const u8,
        second_length: usize,
    ) -> Renaming;
}

/// The smallest renaming that carries the first question to the second. It requires nothing.
pub fn rename(first: &[u8], second: &[u8]) -> Renaming {
    unsafe { takwishan_rename(first.as_ptr(), first.len(), second.as_ptr(), second.len()) }
}

/// Writes the union of rules and question into the sheet. It requires nothing.
pub fn write(rules: &[u8], question: &[u8], sheet: &mut [u8]) -> Written {
    unsafe {
        takwishan_write(
            rules.as_ptr(),
            rules.len(),
            question.as_ptr(),
            question.len(),
            sheet.as_mut_ptr(),
            sheet.len(),
        )
    }
}

/// The number of the first refusal of 1, 2, 17, 3 to 11 and 18 that applies, 0 where the union is accepted. It requires nothing.
pub fn check(rules: &[u8], question: &[u8], union: &[u8]) -> u32 {
    unsafe {
        takwishan_check(
            rules.as_ptr(),
            rules.len(),
            question.as_ptr(),
            question.len(),
            union.as_ptr(),
            union.len(),
        )
    }
}

/// The number and the count of the word that the library gives for both.
fn unpacked(word: u64) -> Read {
    Read {
        number: (word / 65536) as u32,
        count: (word % 65536) as usize,
    }
}

pub fn read_facts(sheet: &[u8], partners: &[u16], table: &mut [u64]) -> Read {
    assert!(MOST_FACTS <= table.len());
    unpacked(unsafe {
        takwishan_bench_facts(
            sheet.as_ptr(),
            sheet.len(),
            partners.as_ptr(),
            partners.len(),
            table.as_mut_ptr(),
            table.len(),
        )
    })
}

pub fn read_union(sheet: &[u8], partners: &[u16], arity: usize, table: &mut [u64]) -> Read {
    assert!(ROW * MOST_MEMBERS <= table.len());
    unpacked(unsafe {
        takwishan_bench_union(
            sheet.as_ptr(),
            sheet.len(),
            partners.as_ptr(),
            partners.len(),
            arity,
            table.as_mut_ptr(),
            table.len(),
        )
    })
}
