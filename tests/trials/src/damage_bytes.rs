//! Damage to packed sheets: lengths, counts, bits that must be zero, and anything anywhere.

use crate::chance::Chance;
use crate::damage_pairs;
use crate::refusals::Sheets;
use crate::sheets;

fn set(bytes: &mut [u8], bit: usize) {
    if let Some(byte) = bytes.get_mut(bit / 8) {
        *byte |= 0x80 >> (bit % 8);
    }
}

fn field(bytes: &mut [u8], from: usize, many: usize, value: usize) {
    for i in 0..many {
        let bit = from + i;
        if let Some(byte) = bytes.get_mut(bit / 8) {
            let mask = 0x80 >> (bit % 8);
            *byte = if value >> (many - 1 - i) & 1 == 1 {
                *byte | mask
            } else {
                *byte & !mask
            };
        }
    }
}

fn is_set(bytes: &[u8], bit: usize) -> bool {
    bytes.get(bit / 8).is_some_and(|byte| byte >> (7 - bit % 8) & 1 == 1)
}

fn longer(bytes: &mut Vec<u8>, most: usize, chance: &mut Chance) {
    for _ in 0..chance.from(1, most) {
        let byte = if chance.one_in(2) { 0 } else { chance.below(256) as u8 };
        bytes.push(byte);
    }
}

fn shorter(bytes: &mut Vec<u8>, most: usize, chance: &mut Chance) {
    let left = bytes.len().saturating_sub(chance.from(1, most));
    bytes.truncate(left);
}

/// Records of this size repeated until there are more bytes than `limit`.
fn over(bytes: &mut Vec<u8>, size: usize, limit: usize, chance: &mut Chance) {
    if bytes.len() < size {
        bytes.resize(size, 0);
    }
    let records = bytes.len() / size;
    while bytes.len() <= limit {
        let at = chance.below(records) * size;
        bytes.extend_from_within(at..at + size);
    }
    if chance.one_in(4) {
        let end = limit + chance.from(1, size);
        bytes.truncate(end);
    }
}

fn rule_length(bytes: &mut Vec<u8>, chance: &mut Chance) {
    match chance.below(3) {
        0 => longer(bytes, 3, chance),
        1 if !bytes.is_empty() => shorter(bytes, 3, chance),
        _ => over(bytes, 4, 2048, chance),
    }
}

fn rule_form(bytes: &mut Vec<u8>, chance: &mut Chance) {
    if bytes.is_empty() {
        bytes.extend([0x10, 0, 0, 1]);
    }
    let at = chance
        .below(bytes.len() / 4 + 1)
        .min((bytes.len() / 4).saturating_sub(1))
        * 32;
    match chance.below(4) {
        // kinds 3 and 4 are no matter of 2
        0 => field(bytes, at, 4, chance.of(&[0, 5, 6, 7, 8, 9, 10, 11, 12, 13, 14, 15])),
        1 => field(bytes, at + chance.of(&[4, 18]), 2, 3),
        2 => {
            field(bytes, at, 4, 2);
            field(bytes, at + 4, 2, chance.from(1, 3));
        }
        _ => {
            field(bytes, at, 4, 2);
            field(bytes, at + 4, 2, 0);
            field(bytes, at + 18, 2, chance.from(2, 3));
        }
    }
}

/// A bit of a variable's number that is too high; often that of 32.
fn high_bit(chance: &mut Chance) -> usize {
    if chance.one_in(2) {
        10
    } else {
        chance.below(11)
    }
}

/// Aims at 3 within the bytes of a question.
fn question_bits(bytes: &mut [u8], chance: &mut Chance) {
    let Some(&first) = bytes.first() else {
        return;
    };
    let (terms, atoms) = ((first >> 4) as usize, (first & 15) as usize);
    let answer = 8 + 24 * chance.below(terms.max(1));
    let atom = 8 + 24 * terms + 48 * chance.below(atoms.max(1));
    match chance.below(7) {
        0 => field(bytes, 0, 4, chance.from(5, 15)),
        1 => field(bytes, 4, 4, chance.of(&[0, 9, 10, 11, 12, 13, 14, 15])),
        2 if terms > 0 => set(bytes, answer + chance.below(7)),
        3 if terms > 0 && !is_set(bytes, answer + 7) => set(bytes, answer + 8 + high_bit(chance)),
        4 => set(bytes, atom + 1),
        5 if !is_set(bytes, atom) => set(bytes, atom + 31 + chance.below(17)),
        _ => {
            let term = if is_set(bytes, atom) && chance.one_in(2) {
                atom + 31
            } else {
                atom + 14
            };
            if !is_set(bytes, term) {
                set(bytes, term + 1 + high_bit(chance));
            }
        }
    }
}

pub fn question_sheet(bytes: &mut Vec<u8>, chance: &mut Chance) {
    match chance.below(6) {
        0 => longer(bytes, 7, chance),
        1 => shorter(bytes, 7, chance),
        2 if chance.one_in(3) => bytes.clear(),
        _ => question_bits(bytes, chance),
    }
}

fn union_sheet(bytes: &mut Vec<u8>, chance: &mut Chance) {
    if bytes.len() < 2 {
        return;
    }
    let count = usize::from(bytes[0]) * 256 + usize::from(bytes[1]);
    match chance.below(8) {
        0 => field(bytes, 0, 16, chance.of(&[0, 513, 514, 1024, 65535])),
        1 => field(bytes, 0, 16, count + 1),
        2 => field(bytes, 0, 16, count.saturating_sub(1)),
        3 => longer(bytes, 12, chance),
        4 => shorter(bytes, 12, chance),
        5 => {
            let left = chance.below(bytes.len().min(4));
            bytes.truncate(left);
        }
        _ => {
            if let Some((start, length)) = sheets::shown(bytes, chance.below(count.max(1))) {
                question_bits(&mut bytes[start..start + length], chance);
            }
        }
    }
}

fn fact_length(bytes: &mut Vec<u8>, chance: &mut Chance) {
    match chance.below(8) {
        0 => over(bytes, 6, 60_000, chance),
        1..=3 if !bytes.is_empty() => shorter(bytes, 5, chance),
        _ => longer(bytes, 5, chance),
    }
}

fn fact_bits(bytes: &mut Vec<u8>, chance: &mut Chance) {
    if bytes.len() < 6 {
        *bytes = vec![0, 1, 0, 7, 0, 0];
    }
    let at = chance.below(bytes.len() / 6) * 48;
    if chance.one_in(2) || is_set(bytes, at) {
        set(bytes, at + 1 + chance.below(3));
    } else {
        set(bytes, at + 32 + chance.below(16));
    }
}

/// One bit turned over, one byte replaced, one byte taken out or put in, somewhere.
fn anywhere(sheets: &mut Sheets, chance: &mut Chance) {
    let sheet = match chance.below(6) {
        0 => &mut sheets.rules,
        1 => &mut sheets.question,
        2 => &mut sheets.facts,
        _ => &mut sheets.union,
    };
    let byte = chance.below(256) as u8;
    if sheet.is_empty() {
        return sheet.push(byte);
    }
    let at = chance.below(sheet.len());
    match chance.below(8) {
        0 => drop(sheet.remove(at)),
        1 => sheet.insert(at, byte),
        2 => sheet[at] = byte,
        _ => sheet[at] ^= 1 << chance.below(8),
    }
}

/// Changes packed sheets.
pub fn bytes(aim: u32, sheets: &mut Sheets, chance: &mut Chance) {
    match aim {
        1 => rule_length(&mut sheets.rules, chance),
        2 => rule_form(&mut sheets.rules, chance),
        3 => question_sheet(&mut sheets.question, chance),
        6 => union_sheet(&mut sheets.union, chance),
        12 => fact_length(&mut sheets.facts, chance),
        13 => fact_bits(&mut sheets.facts, chance),
        17 => damage_pairs::spoil(&mut sheets.rules, chance),
        _ => anywhere(sheets, chance),
    }
}
