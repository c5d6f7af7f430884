//! Unions that the register writes (02's T-02), through the wrapper.
use takwishan::limits::MOST_UNION_BYTES;
use takwishan::{answer, check, member, write, write_into, write_outcome, Refusal, Written};
use vectors::{case, Case};

/// Writes into a sheet that was full of other bytes.
fn written(rules: &[u8], question: &[u8], length: usize) -> (Result<Written, Refusal>, Vec<u8>) {
    let mut sheet = vec![0xff; length];
    let given = write_into(rules, question, &mut sheet);
    (given, sheet)
}

/// So many concepts below concept 0, and the question for concept 0: one member more than rules.
fn taxonomy(below: u16) -> (Vec<u8>, Vec<u8>) {
    let rule = |name: u16| (1 << 28 | u32::from(name) << 14).to_be_bytes();
    let rules = (1..=below).flat_map(rule).collect();
    let question = vec![0x11, 0, 0, 0, 0, 0, 0, 0, 0, 0];
    (rules, question)
}

#[test]
fn k1_is_written_as_it_is_stored() {
    let k1 = case("K1");
    assert_eq!(write(&k1.rules, &k1.question), Ok(k1.union.clone()));
    let size = Written { count: 2, length: 30 };
    assert_eq!(written(&k1.rules, &k1.question, 30), (Ok(size), k1.union));
}

/// The union of a case of T-02 is the one that is written for its rules and question; so is that of a case of T-04 that is accepted, but
/// for the one whose members have another order and dress.
#[test]
fn cases_of_t_02_and_t_04_are_written_as_they_are_stored() {
    let as_written = |case: &Case| {
        let accepted = case.outcome().0 == 0 && case.name != "T04-members";
        case.name.starts_with("T02-") || case.name.starts_with("T04-") && accepted
    };
    for case in vectors::all().into_iter().filter(as_written) {
        assert_eq!(write(&case.rules, &case.question), Ok(case.union), "{}", case.name);
    }
}

#[test]
fn bytes_after_the_union_are_zero() {
    let k1 = case("K1");
    for length in [31, 100, MOST_UNION_BYTES, MOST_UNION_BYTES + 1] {
        let (given, sheet) = written(&k1.rules, &k1.question, length);
        assert_eq!(given, Ok(Written { count: 2, length: 30 }));
        assert_eq!(sheet[..30], k1.union);
        assert_eq!(sheet[30..], vec![0; length - 30]);
    }
}

#[test]
fn a_sheet_one_byte_short_is_16() {
    let k1 = case("K1");
    for length in [0, 1, 29] {
        let refused = (Err(Refusal::SheetTooShort), vec![0; length]);
        assert_eq!(written(&k1.rules, &k1.question, length), refused);
    }
}

#[test]
fn nothing_is_written_beside_the_sheet() {
    let k1 = case("K1");
    let mut lent = [0xff; 40];
    assert!(write_into(&k1.rules, &k1.question, &mut lent[4..35]).is_ok());
    assert_eq!((&lent[..4], &lent[35..]), (&[0xff; 4][..], &[0xff; 5][..]));
    assert_eq!((&lent[4..34], lent[34]), (&k1.union[..], 0));
}

/// Rules and question are refused as they are elsewhere, and before 15 and 16.
#[test]
fn rules_and_question_are_judged_first() {
    let k1 = case("K1");
    let (many, _) = taxonomy(512);
    let nowhere = [0x11, 0x00, 0x00, 0x05, 0x80, 0x00, 0x00, 0x02, 0x00, 0x00];
    let refusals = [
        (&k1.rules[..3], &k1.question[..], Refusal::RuleSheetLength),
        (&[0xff; 4], &k1.question, Refusal::NoSuchRule),
        (&many, &[], Refusal::QuestionMalformed),
        (&many, &nowhere, Refusal::AnswerVariableNowhere),
        (&many, &case("K7").question, Refusal::AtomTwice),
    ];
    for (rules, question, refusal) in refusals {
        for length in [0, 1, 50] {
            assert_eq!(written(rules, question, length), (Err(refusal), vec![0; length]));
        }
        assert_eq!(write(rules, question), Err(refusal));
        let outcome = write_outcome(rules, question, &mut [0xff; 7]);
        let number = refusal.number();
        assert_eq!((outcome.number, outcome.count, outcome.length), (number, 0, 0));
    }
}

#[test]
fn no_more_than_512_members() {
    let (rules, question) = taxonomy(511);
    let union = write(&rules, &question).expect("512 members");
    assert_eq!(union.len(), 2 + 512 * 14);
    assert_eq!(union[..2], 512u16.to_be_bytes());
    assert_eq!(check(&rules, &question, &union), Ok(()));
    // members in the order of the rules: member 511 is concept 511 by rule 510
    assert_eq!(union[2 + 511 * 14..][..4], (1u32 << 30 | 510).to_be_bytes());
    assert_eq!(member(&union, 511)[4..], [0x07, 0xfc, 0, 0, 0, 0]);
    let (rules, question) = taxonomy(512);
    assert_eq!(write(&rules, &question), Err(Refusal::TooManyQuestions));
    // 15 comes before 16, whatever the length
    for length in [0, 1, MOST_UNION_BYTES] {
        let refused = (Err(Refusal::TooManyQuestions), vec![0; length]);
        assert_eq!(written(&rules, &question, length), refused);
    }
}

/// What is drawn with a union that was written: as with the card's own.
fn drawn(case: &Case, union: &[u8]) -> (Result<usize, Refusal>, Vec<u8>) {
    let mut list = vec![0xff; case.list];
    let count = answer(&case.rules, &case.question, union, &case.facts, &mut list);
    (count, list)
}

#[test]
fn cards_draw_the_same_with_the_union_written() {
    for case in vectors::all() {
        let name = &case.name;
        match write(&case.rules, &case.question) {
            Ok(union) => {
                assert_eq!(check(&case.rules, &case.question, &union), Ok(()), "check {name}");
                if case.checked() == 0 {
                    assert_eq!(drawn(&case, &union), drawn(&case, &case.union), "answer {name}");
                }
            }
            Err(refusal) => assert_eq!(refusal.number(), case.checked(), "write {name}"),
        }
    }
}

/// Eight atoms with 2, 2, .. and 4 names, and four answer terms: 512 members of 65 bytes.
fn longest() -> (Vec<u8>, Vec<u8>) {
    let rule = |(below, above): (u32, u32)| (1 << 28 | below << 14 | above).to_be_bytes();
    let names = (0..8).map(|a| (100 + a, a)).chain([(200, 7), (300, 7)]);
    let atom = |a: u64| (a << 34).to_be_bytes()[2..].to_vec();
    let mut question = vec![0x48];
    question.extend([0; 12]);
    question.extend((0..8).flat_map(atom));
    (names.flat_map(rule).collect(), question)
}

/// The longest union takes the whole of the longest sheet; it is written in a thread with half a megabyte of stack.
#[test]
fn the_longest_union_fits_and_little_stack_is_enough() {
    let run = || {
        let (rules, question) = longest();
        let union = write(&rules, &question)?;
        let short = written(&rules, &question, MOST_UNION_BYTES - 1).0;
        check(&rules, &question, &union).map(|_| (union.len(), short))
    };
    let thread = std::thread::Builder::new()
        .stack_size(512 * 1024)
        .spawn(run)
        .expect("a thread");
    let expected = (MOST_UNION_BYTES, Err(Refusal::SheetTooShort));
    assert_eq!(thread.join().expect("no overflow"), Ok(expected));
}
