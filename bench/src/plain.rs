//! The same readers in plain Rust, written from 01 and not from the proved ones. Each goes through its sheet once, and writes what
//! it reads as it goes. They are kept out of line, since the proved ones stand behind a call.
use crate::{Read, MOST_FACTS, MOST_MEMBERS, ROW};

/// The bytes of a fact and of an atom, and of an answer term.
const RECORD: usize = 6;
const ANSWER: usize = 3;

fn refused(number: u32) -> Read {
    Read { number, count: 0 }
}

/// The lower of a role and its partner, and whether that is the partner, so that the arguments are exchanged.
pub fn as_read(role: u16, partners: &[u16]) -> (u16, bool) {
    match partners.get(role as usize) {
        Some(&partner) if partner < role => (partner, true),
        _ => (role, false),
    }
}

/// A fact's word: kind 1 bit, 3 zero bits, number 12, two objects of 24; None for a set bit that must be zero.
fn fact(record: &[u8], partners: &[u16]) -> Option<u64> {
    let head = u16::from_be_bytes([record[0], record[1]]);
    let mut first = u16::from_be_bytes([record[2], record[3]]);
    let mut second = u16::from_be_bytes([record[4], record[5]]);
    let mut number = head & 0xfff;
    let is_role = head >> 15 == 1;
    if head & 0x7000 != 0 || (!is_role && second != 0) {
        return None;
    }
    if is_role {
        let (lower, exchanged) = as_read(number, partners);
        if exchanged {
            (number, first, second) = (lower, second, first);
        }
    }
    Some((is_role as u64) << 63 | (number as u64) << 48 | (first as u64) << 24 | second as u64)
}

#[inline(never)]
pub fn read_facts(sheet: &[u8], partners: &[u16], table: &mut [u64]) -> Read {
    if !sheet.len().is_multiple_of(RECORD) || sheet.len() > RECORD * MOST_FACTS {
        return refused(12);
    }
    for (record, word) in sheet.chunks_exact(RECORD).zip(table.iter_mut()) {
        match fact(record, partners) {
            Some(read) => *word = read,
            None => return refused(13),
        }
    }
    Read {
        number: 0,
        count: sheet.len() / RECORD,
    }
}

/// A term's word, from its 17 bits: object 1 bit, number 24; None for a variable above 31.
fn term(bits: u32) -> Option<u64> {
    let (object, number) = (bits >> 16, bits & 0xffff);
    if object == 0 && number > 31 {
        return None;
    }
    Some((object as u64) << 24 | number as u64)
}

/// An answer term's word: 7 zero bits before the term.
fn answer(record: &[u8]) -> Option<u64> {
    let bits = u32::from_be_bytes([0, record[0], record[1], record[2]]);
    if bits >> 17 != 0 {
        return None;
    }
    term(bits)
}

/// An atom's word: kind 1 bit, 1 zero bit, number 12, two terms of 25.
fn atom(record: &[u8], partners: &[u16]) -> Option<u64> {
    let head = u16::from_be_bytes([record[0], record[1]]);
    let tail = u32::from_be_bytes([record[2], record[3], record[4], record[5]]);
    let number = head >> 2 & 0xfff;
    let mut first = term(((head & 3) as u32) << 15 | tail >> 17)?;
    if head & 0x4000 != 0 {
        return None;
    }
    if head >> 15 == 0 {
        return match tail & 0x1ffff {
            0 => Some((number as u64) << 50 | first << 25),
            _ => None,
        };
    }
    let mut second = term(tail & 0x1ffff)?;
    let (number, exchanged) = as_read(number, partners);
    if exchanged {
        (first, second) = (second, first);
    }
    Some(1 << 63 | (number as u64) << 50 | first << 25 | second)
}

/// Whether the term stands in the atom.
fn stands(term: u64, atom: u64) -> bool {
    atom >> 25 & 0x1ff_ffff == term || (atom >> 63 == 1 && atom & 0x1ff_ffff == term)
}

/// Whether 4 is not met: every answer variable stands in an atom.
pub fn covered(answers: &[u64], atoms: &[u64]) -> bool {
    let covered = |&term: &u64| term >> 24 == 1 || atoms.iter().any(|&atom| stands(term, atom));
    answers.iter().all(covered)
}

/// Whether 5 is met: an atom is there twice.
pub fn repeated(atoms: &[u64]) -> bool {
    (1..atoms.len()).any(|k| atoms[..k].contains(&atoms[k]))
}

/// Reads a question into a member's row, and gives the rest of the sheet; None if the question meets 3.
pub fn records<'a>(sheet: &'a [u8], partners: &[u16], row: &mut [u64; ROW]) -> Option<&'a [u8]> {
    let (&counts, sheet) = sheet.split_first()?;
    let (terms, size) = ((counts >> 4) as usize, (counts & 15) as usize);
    if terms > 4 || !(1..=8).contains(&size) {
        return None;
    }
    let (answers, sheet) = sheet.split_at_checked(ANSWER * terms)?;
    let (atoms, sheet) = sheet.split_at_checked(RECORD * size)?;
    row[1] = terms as u64;
    row[6] = size as u64;
    for (record, word) in answers.chunks_exact(ANSWER).zip(&mut row[2..6]) {
        *word = answer(record)?;
    }
    for (record, word) in atoms.chunks_exact(RECORD).zip(&mut row[8..]) {
        *word = atom(record, partners)?;
    }
    Some(sheet)
}

/// Reads the sheet's next member into its row, and gives the rest of the sheet; None if the member is refused.
fn member<'a>(
    sheet: &'a [u8],
    partners: &[u16],
    arity: usize,
    row: &mut [u64; ROW],
) -> Option<&'a [u8]> {
    let (step, sheet) = sheet.split_first_chunk()?;
    *row = [0; ROW];
    row[0] = u32::from_be_bytes(*step) as u64;
    let sheet = records(sheet, partners, row)?;
    let (terms, size) = (row[1] as usize, row[6] as usize);
    let (answers, atoms) = (&row[2..2 + terms], &row[8..8 + size]);
    (terms == arity && covered(answers, atoms) && !repeated(atoms)).then_some(sheet)
}

/// The union's member count, if it isn't refused.
fn union(sheet: &[u8], partners: &[u16], arity: usize, table: &mut [u64]) -> Option<usize> {
    let (count, mut rest) = sheet.split_first_chunk()?;
    let count = u16::from_be_bytes(*count) as usize;
    if !(1..=MOST_MEMBERS).contains(&count) {
        return None;
    }
    for row in table.as_chunks_mut().0.iter_mut().take(count) {
        rest = member(rest, partners, arity, row)?;
    }
    rest.is_empty().then_some(count)
}

#[inline(never)]
pub fn read_union(sheet: &[u8], partners: &[u16], arity: usize, table: &mut [u64]) -> Read {
    match union(sheet, partners, arity, table) {
        Some(count) => Read { number: 0, count },
        None => refused(6),
    }
}
