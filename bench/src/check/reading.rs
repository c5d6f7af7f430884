//! How rules and questions are read from the sheets.
use super::unions::{concept_rule, role_rule};
use super::words::{Query, Rule};
use crate::plain;

/// The most rules of a sheet as read, and the helper of its first pair.
const MOST_RULES: usize = 512;
pub const FIRST_HELPER: u32 = 4095;

impl Rule {
    fn sound(self) -> bool {
        match self.kind() {
            1 => self.left_form() < 3 && self.right_form() < 3,
            2 => self.left_form() == 0 && self.right_form() < 2,
            3 => self.left_form() < 3 && matches!(self.right_form(), 1 | 2),
            4 => self.left_form() == 0 && self.right_form() == 0 && self.right() == 0,
            _ => false,
        }
    }

    /// Whether 17 judges it, and not 2.
    fn paired(self) -> bool {
        matches!(self.kind(), 3 | 4)
    }

    /// The roles that stand in it.
    fn roles(self) -> impl Iterator<Item = u32> {
        let sides = [
            (self.left_form(), self.left()),
            (self.right_form(), self.right()),
        ];
        let is_role = move |&(form, _): &(u32, u32)| self.kind() == 2 || form != 0;
        sides.into_iter().filter(is_role).map(|(_, role)| role)
    }

    /// The three rules that this kind 3, as read, is with its filler and helper.
    fn with_filler(self, filler: u32, helper: u32) -> [Rule; 3] {
        let form = self.right_form();
        [
            concept_rule((self.left_form(), self.left()), (form, helper)),
            role_rule(helper, self.right(), false),
            concept_rule((3 - form, helper), (0, filler)),
        ]
    }

    /// Reciprocal names read.
    fn as_read(self, partners: &[u16]) -> Rule {
        let lower = |role: u32| plain::as_read(role as u16, partners);
        let (mut left_form, mut left) = (self.left_form(), self.left());
        let (mut right_form, mut right) = (self.right_form(), self.right());
        if self.kind() != 2 {
            for (form, number) in [(&mut left_form, &mut left), (&mut right_form, &mut right)] {
                if *form != 0 {
                    let (low, exchanged) = lower(*number);
                    *number = low as u32;
                    *form = if exchanged { 3 - *form } else { *form };
                }
            }
        } else {
            for number in [&mut left, &mut right] {
                let (low, exchanged) = lower(*number);
                *number = low as u32;
                right_form ^= exchanged as u32;
            }
        }
        Rule(self.kind() << 28 | left_form << 26 | left << 14 | right_form << 12 | right)
    }
}

fn records(sheet: &[u8]) -> impl Iterator<Item = Rule> + '_ {
    let record = |bytes: &[u8; 4]| Rule(u32::from_be_bytes(*bytes));
    sheet.as_chunks().0.iter().map(record)
}

/// The rules of a sheet as read, or the number of its refusal: 1, 2 or 17.
pub fn read_rules(sheet: &[u8], partners: &[u16]) -> Result<Vec<Rule>, u32> {
    if !sheet.len().is_multiple_of(4) || sheet.len() > 2048 {
        return Err(1);
    }
    if !records(sheet).all(|record| record.paired() || record.sound()) {
        return Err(2);
    }
    let mut rules = Vec::with_capacity(MOST_RULES);
    let (mut left, mut helper) = (records(sheet), FIRST_HELPER);
    while let Some(record) = left.next() {
        if !record.paired() {
            rules.push(record.as_read(partners));
            continue;
        }
        let is_its_filler = |next: &Rule| record.kind() == 3 && next.kind() == 4;
        let filler = left.next().filter(is_its_filler).ok_or(17u32)?;
        if !record.sound() || !filler.sound() {
            return Err(17);
        }
        rules.extend(record.as_read(partners).with_filler(filler.left(), helper));
        helper -= 1;
    }
    if rules.len() > MOST_RULES {
        return Err(17);
    }
    Ok(rules)
}

/// Whether 18 is met in a sheet of rules, which has no refusal of its own, or in the question: a helper in use stands as a role.
pub fn clashes(sheet: &[u8], question: &Query) -> bool {
    let pairs = records(sheet).filter(|record| record.kind() == 3).count() as u32;
    let is_helper = |role: u32| role > FIRST_HELPER - pairs;
    let mut atoms = question.atoms().iter();
    records(sheet).any(|record| record.roles().any(is_helper))
        || atoms.any(|atom| atom.is_role() && is_helper(atom.number()))
}

/// The question of a sheet, or the number of its refusal.
pub fn read_question(sheet: &[u8], partners: &[u16]) -> Result<Query, u32> {
    let mut row = [0; 16];
    let rest = plain::records(sheet, partners, &mut row).ok_or(3u32)?;
    if !rest.is_empty() {
        return Err(3);
    }
    let query = Query::from_row(&row);
    let (terms, size) = (row[1] as usize, row[6] as usize);
    if !plain::covered(&row[2..2 + terms], &row[8..8 + size]) {
        return Err(4);
    }
    if plain::repeated(&row[8..8 + size]) {
        return Err(5);
    }
    Ok(query)
}
