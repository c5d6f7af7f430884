//! The rule sheet: its records, refusals 1, 2 and 17, the rules as written, and the rules as read. The two differ where a kind 3 with its
//! kind 4 stands (T-04 of the change requests): as written the two are one rule, as read they are three over a helper role.

use crate::sheets::{description, lower, Bits, Description, Rule};

/// The most rules as read.
pub const MOST_RULES: usize = 512;
const MOST_BYTES: usize = 2048;
const HIGHEST_ROLE: u16 = 4095;

/// The fields of a record as they stand.
#[derive(Clone, Copy, PartialEq, Eq, Debug)]
pub struct Record {
    pub kind: u32,
    pub left_form: u32,
    pub left: u16,
    pub right_form: u32,
    pub right: u16,
}

/// A rule as written, partners read.
#[derive(Clone, Copy, PartialEq, Eq, Debug)]
pub enum Written {
    Plain(Rule),
    /// A kind 3 and its kind 4: each bearer of the left description has the role of the right one, which is of form 1 or 2, to or from
    /// one thing that bears the filler.
    Qualified {
        left: Description,
        right: Description,
        filler: u16,
    },
}

/// A rule sheet that meets none of 1, 2 and 17.
#[derive(Clone, Debug)]
pub struct RuleSheet {
    pub written: Vec<Written>,
    /// What steps and the indices in unions go by.
    pub read: Vec<Rule>,
}

/// Rules of which none is qualified.
pub fn plain(rules: &[Rule]) -> Vec<Written> {
    rules.iter().copied().map(Written::Plain).collect()
}

/// The helper role of the pair at this place among the pairs of a sheet.
pub fn helper(pair: usize) -> u16 {
    HIGHEST_ROLE - pair as u16
}

/// How many rules of the sheet are pairs of records.
pub fn pairs(rules: &[Written]) -> usize {
    rules.iter().filter(|rule| rule.is_qualified()).count()
}

/// The three rules that a pair is read as. The helper has the direction of the role, and so it implies it without exchange.
fn three(left: Description, right: Description, filler: u16, helper: u16) -> [Rule; 3] {
    let (near, far, role) = match right {
        Description::To(role) => (Description::To(helper), Description::From(helper), role),
        Description::From(role) => (Description::From(helper), Description::To(helper), role),
        Description::Concept(_) => unreachable!("a pair's right side is a role"),
    };
    let implies = Rule::Implies {
        left: helper,
        right: role,
        exchanged: false,
    };
    [
        Rule::Bears(left, near),
        implies,
        Rule::Bears(far, Description::Concept(filler)),
    ]
}

/// The rules as read, helpers numbered from the highest role down in the order of the sheet.
pub fn as_read(written: &[Written]) -> Vec<Rule> {
    let mut helpers = (0..).map(helper);
    let mut read = Vec::new();
    for &rule in written {
        match rule {
            Written::Plain(rule) => read.push(rule),
            Written::Qualified { left, right, filler } => {
                let helper = helpers.next().expect("fewer pairs than roles");
                read.extend(three(left, right, filler, helper));
            }
        }
    }
    read
}

/// For each rule as read the place of the rule as written that it belongs to.
pub fn places_as_written(written: &[Written]) -> Vec<usize> {
    let of_one = |(place, rule): (usize, &Written)| vec![place; as_read(&[*rule]).len()];
    written.iter().enumerate().flat_map(of_one).collect()
}

impl Written {
    pub fn is_qualified(&self) -> bool {
        matches!(self, Written::Qualified { .. })
    }

    /// The same without the filler: the role alone.
    pub fn without_filler(self) -> Written {
        match self {
            Written::Qualified { left, right, .. } => Written::Plain(Rule::Bears(left, right)),
            plain => plain,
        }
    }
}

impl Record {
    fn read(bits: &mut Bits) -> Option<Record> {
        Some(Record {
            kind: bits.take(4)?,
            left_form: bits.take(2)?,
            left: bits.take(12)? as u16,
            right_form: bits.take(2)?,
            right: bits.take(12)? as u16,
        })
    }

    /// The rule of kind 1 or 2 that this is; none if it is none.
    fn plain(self) -> Option<Rule> {
        match (self.kind, self.left_form, self.right_form) {
            (1, _, _) => Some(Rule::Bears(
                description(self.left_form, self.left)?,
                description(self.right_form, self.right)?,
            )),
            (2, 0, 0 | 1) => {
                let (left, left_flips) = lower(self.left);
                let (right, right_flips) = lower(self.right);
                let exchanged = (self.right_form == 1) ^ left_flips ^ right_flips;
                Some(Rule::Implies { left, right, exchanged })
            }
            _ => None,
        }
    }

    /// The rule that this kind 3 and its kind 4 are; none if a form or a zero field is not as it must be.
    fn qualified(self, filler: Record) -> Option<Written> {
        let left = description(self.left_form, self.left)?;
        let right = description(self.right_form, self.right)?;
        let is_role = !matches!(right, Description::Concept(_));
        let zeros = (filler.left_form, filler.right_form, filler.right) == (0, 0, 0);
        (is_role && zeros).then_some(Written::Qualified {
            left,
            right,
            filler: filler.left,
        })
    }
}

/// The records, if the sheet does not meet 1.
pub fn records(bytes: &[u8]) -> Option<Vec<Record>> {
    if bytes.len() % 4 != 0 || bytes.len() > MOST_BYTES {
        return None;
    }
    let mut bits = Bits::new(bytes);
    let mut records = Vec::new();
    while !bits.ended() {
        records.push(Record::read(&mut bits)?);
    }
    Some(records)
}

/// The rules that the records are, one after the other; where there is none, the number that this meets.
fn taken(mut records: &[Record]) -> Vec<Result<Written, u32>> {
    let mut all = Vec::new();
    while let [first, others @ ..] = records {
        records = others;
        all.push(match (first.kind, others) {
            (3, [second, rest @ ..]) if second.kind == 4 => {
                records = rest;
                first.qualified(*second).ok_or(17)
            }
            (3 | 4, _) => Err(17),
            _ => first.plain().map(Written::Plain).ok_or(2),
        });
    }
    all
}

/// Which of 1, 2 and 17 hold, in the order in which they decide.
pub fn conditions(bytes: &[u8]) -> Vec<u32> {
    let Some(records) = records(bytes) else {
        return vec![1];
    };
    let taken = taken(&records);
    let read = |rule: &Result<Written, u32>| rule.map_or(1, |rule| as_read(&[rule]).len());
    let too_many = taken.iter().map(read).sum::<usize>() > MOST_RULES;
    let mut all = Vec::new();
    if taken.contains(&Err(2)) {
        all.push(2);
    }
    if taken.contains(&Err(17)) || too_many {
        all.push(17);
    }
    all
}

/// Refusals 1, 2 and 17. All other kinds are judged by 2 before kinds 3 and 4 are by 17, wherever they stand.
pub fn rules(bytes: &[u8]) -> Result<RuleSheet, u32> {
    if let Some(&number) = conditions(bytes).first() {
        return Err(number);
    }
    let records = records(bytes).ok_or(1u32)?;
    let written = taken(&records).into_iter().collect::<Result<Vec<_>, u32>>()?;
    Ok(RuleSheet {
        read: as_read(&written),
        written,
    })
}
