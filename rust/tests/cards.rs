//! The cards of tests/vectors, 01's K1 to K12 and those of 02's requests among them, through the wrapper.
use takwishan::{answer, check, member, outcome, Refusal};
use vectors::{case, Case};

/// What `check` and `answer` give for a refusal's number, or for 0.
fn given<T>(number: u32, accepted: T) -> Result<T, Refusal> {
    match number {
        0 => Ok(accepted),
        n => Err(Refusal::from_number(n).expect("a number of 01's list")),
    }
}

/// Draws into a list that was full of other bytes.
fn drawn(case: &Case, facts: &[u8], length: usize) -> (Result<usize, Refusal>, Vec<u8>) {
    let mut list = vec![0xff; length];
    let count = answer(&case.rules, &case.question, &case.union, facts, &mut list);
    (count, list)
}

#[test]
fn every_card() {
    for case in vectors::all() {
        let (number, count, list) = case.outcome();
        let name = &case.name;
        let checked = check(&case.rules, &case.question, &case.union);
        assert_eq!(checked, given(case.checked(), ()), "check {name}");
        let expected = given(number, count as usize);
        assert_eq!(drawn(&case, &case.facts, case.list), (expected, list), "answer {name}");
        let mut again = vec![0; case.list];
        let plain = outcome(&case.rules, &case.question, &case.union, &case.facts, &mut again);
        assert_eq!((plain.number, plain.count), (number, count), "outcome {name}");
    }
}

#[test]
fn nothing_is_written_beside_the_list() {
    let k1 = case("K1");
    let mut lent = [0xff; 4];
    let short = answer(&k1.rules, &k1.question, &k1.union, &k1.facts, &mut lent[..3]);
    assert_eq!(short, Err(Refusal::ListTooShort));
    assert_eq!(lent, [0, 0, 0, 0xff]);
}

#[test]
fn the_empty_tuple_needs_no_list() {
    let k5 = case("K5");
    assert_eq!(drawn(&k5, &k5.facts, 0), (Ok(1), vec![]));
    assert_eq!(drawn(&k5, &[], 0), (Ok(0), vec![]));
}

/// What is left out for a lost tag takes no room: 2 bytes are enough for 9 beside every object without a tag.
#[test]
fn lost_tags_are_left_out() {
    let k1 = case("K1");
    let mut facts = vec![0x80, 0x01, 0x00, 0x09, 0xff, 0xff]; // driven by: 9, 65535
    for tag in takwishan::limits::LOST_TAGS {
        facts.extend([0x00, 0x01]); // concept 1
        facts.extend(tag.to_be_bytes());
        facts.extend([0x00, 0x00]);
    }
    assert_eq!(drawn(&k1, &facts, 2), (Ok(1), vec![0, 9]));
    for handed_out in [takwishan::limits::LOST_TAGS.start() - 1, 0] {
        let mut facts = facts.clone();
        facts.extend([0x00, 0x01]);
        facts.extend(handed_out.to_be_bytes());
        facts.extend([0x00, 0x00]);
        assert_eq!(drawn(&k1, &facts, 2).0, Err(Refusal::ListTooShort));
        assert_eq!(drawn(&k1, &facts, 4).0, Ok(2));
    }
}

#[test]
fn members_are_parts_of_the_sheet() {
    let k1 = case("K1");
    let union = &k1.union[..];
    assert_eq!(member(union, 0), k1.question);
    assert_eq!(member(union, 0).as_ptr(), union[6..].as_ptr());
    assert_eq!(member(union, 1), &union[20..]);
    assert_eq!(member(union, 2), &[]);
    assert_eq!(member(union, usize::MAX), &[]);
    assert_eq!(member(&union[..29], 0), &[]);
    assert_eq!(member(&[], 0), &[]);
}

#[test]
fn empty_sheets_are_answered() {
    assert_eq!(check(&[], &[], &[]), Err(Refusal::QuestionMalformed));
    assert_eq!(check(&[], &case("K1").question, &[]), Err(Refusal::UnionMalformed));
}

/// The longest sheets of rules and facts, in a thread with less than a megabyte of stack.
#[test]
fn little_stack_is_enough() {
    let k1 = case("K1");
    let run = move || {
        let rules = k1.rules.repeat(512);
        let facts = k1.facts[6..].repeat(10_000);
        let mut list = [0xff; 2];
        let drawn = answer(&rules, &k1.question, &k1.union, &facts, &mut list);
        (drawn, list)
    };
    let thread = std::thread::Builder::new()
        .stack_size(1_000_000)
        .spawn(run)
        .expect("a thread");
    assert_eq!(thread.join().expect("no overflow"), (Ok(1), [0, 9]));
}

/// The example in the crate's documentation has K1's bytes.
#[test]
fn the_documented_example_is_k1() {
    let text = include_str!("../src/lib.rs");
    let written = |name: &str| {
        let start = text
            .find(&format!("let {name} = ["))
            .expect("the example names the sheet");
        let array = text[start..].split("];").next().expect("the sheet's end");
        array
            .lines()
            .flat_map(|line| line.trim_start_matches("//!").split("//").next())
            .flat_map(|line| line.split("0x").skip(1))
            .map(|digits| u8::from_str_radix(&digits[..2], 16).expect("two digits"))
            .collect::<Vec<u8>>()
    };
    let k1 = case("K1");
    let sheets = ["rules", "question", "union", "facts"].map(written);
    assert_eq!(sheets, [k1.rules, k1.question, k1.union, k1.facts]);
}
