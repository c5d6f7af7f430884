//! Rules of two records (02's T-04) through the wrapper: "each pump has a motor that is a drive".
use takwishan::limits::{FIRST_HELPER, MOST_RULES};
use takwishan::{answer, check, write, Refusal};

const PUMP: u32 = 20;
const DRIVE: u32 = 21;
const HAS_PART: u32 = 5;

/// A record: kind, then form and number of the left and of the right side.
fn record(kind: u32, (left_form, left): (u32, u32), (right_form, right): (u32, u32)) -> [u8; 4] {
    (kind << 28 | left_form << 26 | left << 14 | right_form << 12 | right).to_be_bytes()
}

/// Each pump has for part something that is a drive.
fn pair() -> Vec<u8> {
    [record(3, (0, PUMP), (1, HAS_PART)), record(4, (0, DRIVE), (0, 0))].concat()
}

/// What has for part a drive: x of has part(x,y), drive(y).
const QUESTION: [u8; 16] = [0x12, 0, 0, 0, 0x80, 0x14, 0, 0, 0, 0x01, 0x00, 0x54, 0, 0x02, 0, 0];

/// 7 is a pump, of which no part is entered; 8 has for part 9, of which no drive is entered.
const FACTS: [u8; 12] = [0x00, 0x14, 0, 7, 0, 0, 0x80, 0x05, 0, 8, 0, 9];

/// The fact helper(7,9).
fn helper_fact() -> Vec<u8> {
    let number = (1u16 << 15 | FIRST_HELPER).to_be_bytes();
    [number, [0, 7], [0, 9]].concat()
}

/// The question x of helper(x,y). As read, a pump is what something has the helper to: no rule applies here, and the union is closed.
fn helper_question() -> Vec<u8> {
    let atom = 1u64 << 47 | u64::from(FIRST_HELPER) << 34 | 1;
    [&[0x11, 0, 0, 0], &atom.to_be_bytes()[2..]].concat()
}

/// The answers, with the union that is written.
fn drawn(rules: &[u8], facts: &[u8]) -> Result<Vec<u16>, Refusal> {
    let union = write(rules, &QUESTION)?;
    check(rules, &QUESTION, &union)?;
    let mut list = [0xff; 64];
    let count = answer(rules, &QUESTION, &union, facts, &mut list)?;
    let objects = list[..2 * count].chunks(2);
    Ok(objects.map(|o| u16::from_be_bytes([o[0], o[1]])).collect())
}

/// What writing, checking and drawing give; the union is the question alone.
fn refused(rules: &[u8], question: &[u8], facts: &[u8]) -> [Option<Refusal>; 3] {
    let union = [&[0, 1, 0, 0, 0, 0], question].concat();
    let drawn = answer(rules, question, &union, facts, &mut [0; 64]);
    [
        write(rules, question).err(),
        check(rules, question, &union).err(),
        drawn.err(),
    ]
}

#[test]
fn each_pump_has_a_motor_that_is_a_drive() {
    assert_eq!(drawn(&pair(), &FACTS), Ok(vec![7]));
    // without the filler each pump has some part, and nothing says that it is a drive
    let role_alone = record(1, (0, PUMP), (1, HAS_PART));
    assert_eq!(drawn(&role_alone, &FACTS), Ok(vec![]));
    assert_eq!(drawn(&[], &FACTS), Ok(vec![]));
}

#[test]
fn a_kind_without_the_other_is_17() {
    let pair = pair();
    for rules in [&pair[..4], &pair[4..], &[&pair[4..], &pair[..4]].concat()] {
        assert_eq!(refused(rules, &QUESTION, &FACTS), [Some(Refusal::PairMalformed); 3]);
    }
    // after 2, and before 3
    let no_kind = [&pair[..4], &[0; 4]].concat();
    assert_eq!(refused(&no_kind, &QUESTION, &FACTS), [Some(Refusal::NoSuchRule); 3]);
    assert_eq!(refused(&pair[..4], &[], &FACTS), [Some(Refusal::PairMalformed); 3]);
}

#[test]
fn over_512_rules_as_read_are_17() {
    let plain = |many: usize| record(1, (0, 1), (0, 2)).repeat(many);
    let rules = |pairs: usize, others: usize| [pair().repeat(pairs), plain(others)].concat();
    let ask = [&[0x11, 0, 0, 0][..], &[0, 0, 0, 0, 0, 0]].concat(); // concept 0 of x: no rule leads to it
    assert_eq!(3 * 170 + 2, MOST_RULES);
    assert_eq!(refused(&rules(170, 2), &ask, &FACTS), [None; 3]);
    assert_eq!(refused(&rules(170, 3), &ask, &FACTS), [Some(Refusal::PairMalformed); 3]);
    assert_eq!(refused(&rules(171, 0), &ask, &FACTS), [Some(Refusal::PairMalformed); 3]);
}

/// A helper in a rule, in the question, and in a fact, which only drawing reads.
#[test]
fn a_helper_as_a_role_is_18() {
    let clash = Some(Refusal::HelperAsRole);
    let ask = [0x11, 0, 0, 0, 0, 0, 0, 0, 0, 0]; // concept 0 of x
    let helper_rule = record(1, (1, u32::from(FIRST_HELPER)), (0, 1));
    assert_eq!(refused(&[&pair()[..], &helper_rule].concat(), &ask, &FACTS), [clash; 3]);
    assert_eq!(refused(&pair(), &helper_question(), &FACTS), [clash; 3]);
    assert_eq!(refused(&pair(), &ask, &helper_fact()), [None, None, clash]);
    // no pair, no helper
    assert_eq!(refused(&helper_rule, &helper_question(), &helper_fact()), [None; 3]);
}
