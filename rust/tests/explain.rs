//! Answers explained (02's T-06) through the wrapper: the steps from the member that yields a tuple back to the question.
use takwishan::limits::{LOST_TAGS, MOST_EXPLANATION_BYTES, MOST_STEPS, NO_TARGET, STEP_BYTES};
use takwishan::{answer, check, explain, explain_into, explain_outcome, member, write, Explained, Refusal, Step};
use vectors::{case, Case};

/// A step, with these variables and their targets and no other.
fn step(member: u16, kind: u8, parent: u16, atom: u8, other: u16, pairs: &[(usize, u8)]) -> Step {
    let mut targets = [NO_TARGET; 32];
    for &(variable, target) in pairs {
        targets[variable] = target;
    }
    Step {
        member,
        kind,
        parent,
        atom,
        other,
        targets,
    }
}

/// Fields in their order, the high byte first.
fn packed(steps: &[Step]) -> Vec<u8> {
    let mut bytes = Vec::new();
    for step in steps {
        bytes.extend(step.member.to_be_bytes());
        bytes.push(step.kind);
        bytes.extend(step.parent.to_be_bytes());
        bytes.push(step.atom);
        bytes.extend(step.other.to_be_bytes());
        bytes.extend(step.targets);
    }
    bytes
}

/// A tuple as in the answer list.
fn tuple(objects: &[u16]) -> Vec<u8> {
    objects.iter().flat_map(|object| object.to_be_bytes()).collect()
}

fn steps_of(case: &Case, tuple: &[u8]) -> Result<Vec<Step>, Refusal> {
    explain(&case.rules, &case.question, &case.union, &case.facts, tuple)
}

/// Explains into so many bytes that were others.
fn explained(case: &Case, tuple: &[u8], length: usize) -> (Result<usize, Refusal>, Vec<u8>) {
    let mut bytes = vec![0xff; length];
    let given = explain_into(&case.rules, &case.question, &case.union, &case.facts, tuple, &mut bytes);
    (given, bytes)
}

/// The tuple has these steps behind it; all bytes of lists with and without more room; and what one byte less gives.
#[track_caller]
fn assert_steps(case: &Case, tuple: &[u8], steps: &[Step]) {
    assert_eq!(steps_of(case, tuple), Ok(steps.to_vec()));
    let bytes = packed(steps);
    for more in [0, 1, 39, 40, 41, 80, MOST_EXPLANATION_BYTES] {
        let mut expected = bytes.clone();
        expected.resize(bytes.len() + more, 0);
        let length = expected.len();
        assert_eq!(explained(case, tuple, length), (Ok(steps.len()), expected));
    }
    for length in [0, 1, 39, 40, bytes.len().saturating_sub(1)] {
        if length < bytes.len() {
            assert_refused(case, tuple, length, Refusal::StepsTooShort);
        }
    }
}

/// The call is refused, the count is 0, and all that was lent is zeros.
#[track_caller]
fn assert_refused(case: &Case, tuple: &[u8], length: usize, refusal: Refusal) {
    assert_eq!(explained(case, tuple, length), (Err(refusal), vec![0; length]));
    let mut bytes = vec![0xff; length];
    let (number, count) = (refusal.number(), 0);
    let outcome = explain_outcome(&case.rules, &case.question, &case.union, &case.facts, tuple, &mut bytes);
    assert_eq!((outcome, bytes), (Explained { number, count }, vec![0; length]));
}

/// The tuple is no answer, however much room there is for steps.
#[track_caller]
fn assert_no_answer(case: &Case, tuple: &[u8]) {
    for length in [0, 1, 39, 40, 100, MOST_EXPLANATION_BYTES] {
        assert_refused(case, tuple, length, Refusal::NoAnswer);
    }
    assert_eq!(steps_of(case, tuple), Err(Refusal::NoAnswer));
}

#[test]
fn k1() {
    let k1 = case("K1");
    assert_steps(&k1, &tuple(&[7]), &[step(1, 1, 0, 0, 0, &[(0, 0)])]);
    assert_steps(&k1, &tuple(&[9]), &[]);
    let bytes = explained(&k1, &tuple(&[7]), STEP_BYTES).1;
    assert_eq!(bytes[..8], [0x00, 0x01, 0x01, 0x00, 0x00, 0x00, 0x00, 0x00]);
    assert_eq!((bytes[8], &bytes[9..]), (0, &[32; 31][..]));
}

/// 3 drives and is not driven; 0x0709 is no object of the facts; the right bytes in a tuple of another length are none.
#[test]
fn what_is_no_answer_is_19() {
    let k1 = case("K1");
    for objects in [&[3][..], &[0], &[0x0709], &[0x0700], &[65_535], &[], &[7, 7], &[7, 9]] {
        assert_no_answer(&k1, &tuple(objects));
    }
    for bytes in [&[7][..], &[0], &[0, 7, 0], &[0, 0, 7], &[0, 9, 0, 9, 0]] {
        assert_no_answer(&k1, bytes);
    }
    assert_no_answer(&case("K12"), &tuple(&[7])); // no facts
    assert_no_answer(&case("K8"), &tuple(&[7])); // no rules
    assert_steps(&case("K8"), &tuple(&[9]), &[]);
}

/// An answer that has lost its tag is none; one that helps a match does.
#[test]
fn lost_tags() {
    let tags = case("T01-tags");
    for lost in [65_024, 65_025, 65_535] {
        assert_no_answer(&tags, &tuple(&[lost]));
    }
    assert_steps(&tags, &tuple(&[65_023]), &[step(1, 1, 0, 0, 0, &[(0, 0)])]);
    assert_steps(&tags, &tuple(&[9]), &[]);
    let pairs = case("T01-pairs");
    assert_steps(&pairs, &tuple(&[10, 65_023]), &[]);
    for lost in [[65_535, 10], [10, 65_024], [65_152, 65_152]] {
        assert_no_answer(&pairs, &tuple(&lost));
    }
    // a lost tag among the answer terms: no tuple is an answer
    for objects in [[7, 65_024], [9, 65_024], [7, 7]] {
        assert_no_answer(&case("T01-literal"), &tuple(&objects));
    }
    let mut every = case("K1");
    every.facts = LOST_TAGS
        .flat_map(|tag| [&[0x00, 0x01][..], &tag.to_be_bytes(), &[0, 0]].concat())
        .collect();
    for tag in LOST_TAGS {
        assert_eq!(steps_of(&every, &tuple(&[tag])), Err(Refusal::NoAnswer));
    }
}

/// Without answer terms the tuple has no bytes, and it is an answer or is not.
#[test]
fn no_answer_terms() {
    let mut k5 = case("K5");
    // member 3 has variable 3 where the step has 2; member 4's step is that of member 3 as it stands
    let steps = [
        step(5, 1, 4, 0, 0, &[(0, 0)]),
        step(4, 2, 3, 0, 1, &[(0, 0), (1, 1)]),
        step(3, 1, 1, 1, 1, &[(0, 0), (1, 1), (2, 3)]),
        step(1, 1, 0, 1, 0, &[(0, 0), (1, 1)]),
    ];
    assert_steps(&k5, &[], &steps);
    assert_steps(&case("T01-no-terms"), &[], &steps);
    for bytes in [&[0][..], &[0, 5], &[0, 0]] {
        assert_no_answer(&k5, bytes);
    }
    k5.facts.clear();
    assert_no_answer(&k5, &[]);
    // P(5,6): member 4 before member 5, and member 3 before it
    k5.facts = vec![0x80, 0x10, 0x00, 0x05, 0x00, 0x06];
    assert_steps(&k5, &[], &steps[2..]);
}

/// docs/FORMAT.md has the bytes of K5's steps.
#[test]
fn the_documented_steps_are_k5s() {
    let bytes = explained(&case("K5"), &[], 4 * STEP_BYTES).1;
    let hex = |bytes: &[u8]| Vec::from_iter(bytes.iter().map(|byte| format!("{byte:02x}"))).join(" ");
    for place in bytes.chunks(STEP_BYTES) {
        let line = format!("    {}   {} .. 20 ", hex(&place[..8]), hex(&place[8..13]));
        assert!(include_str!("../../docs/FORMAT.md").contains(&line), "{line}");
    }
}

/// Members in another order and dress than the register's: every step has a renaming of its own, and a merge changes the answer term.
#[test]
fn a_long_way_back_with_renamings_and_a_merge() {
    let members = case("T04-members");
    let steps = [
        step(9, 1, 8, 0, 0, &[(3, 3)]),
        step(8, 2, 7, 0, 1, &[(0, 0), (2, 3)]),
        step(7, 1, 6, 0, 2, &[(0, 0), (1, 2), (3, 3)]),
        step(6, 1, 5, 0, 3, &[(0, 0), (3, 3)]),
        step(5, 1, 4, 0, 4, &[(0, 0), (2, 2), (3, 3)]),
        step(4, 1, 0, 0, 1, &[(0, 3), (1, 0), (2, 2)]),
    ];
    assert_steps(&members, &tuple(&[5]), &steps);
    let steps = [
        step(2, 1, 1, 0, 3, &[(0, 0), (3, 3)]),
        step(1, 1, 0, 1, 4, &[(0, 3), (1, 0), (2, 2)]),
    ];
    assert_steps(&members, &tuple(&[6]), &steps);
    assert_no_answer(&members, &tuple(&[7]));
}

/// Of two renamings that fit the one with the smaller list: v1 and v2 are in the same place, and the member has 9 and 4 there.
#[test]
fn the_smallest_renaming() {
    // B(x) is A(x); x of P(x,y), P(x,z), A(x)
    let role = |first: u64, second: u64| 1 << 47 | 16 << 34 | first << 17 | second;
    let concept = |name: u64, term: u64| name << 34 | term << 17;
    let sheet = |head: &[u8], atoms: &[u64]| {
        let atoms = atoms.iter().flat_map(|atom| atom.to_be_bytes()[2..].to_vec());
        head.iter().copied().chain(atoms).collect::<Vec<u8>>()
    };
    let question = sheet(&[0x13, 0, 0, 0], &[role(0, 1), role(0, 2), concept(1, 0)]);
    let dressed = sheet(&[0x13, 0, 0, 7], &[concept(2, 7), role(7, 9), role(7, 4)]);
    let merged = sheet(&[0x12, 0, 0, 0], &[role(0, 1), concept(1, 0)]);
    let both = sheet(&[0x12, 0, 0, 0], &[role(0, 1), concept(2, 0)]);
    let mut case = case("K1");
    case.rules = vec![0x10, 0x00, 0x80, 0x01];
    case.union = [
        &[0, 4, 0, 0, 0, 0],
        &question[..],
        &[0x40, 0x02, 0, 0],
        &dressed,
        &[0x80, 0x00, 0, 1],
        &merged,
        &[0x40, 0x21, 0, 0],
        &both,
    ]
    .concat();
    case.question = question;
    case.facts = vec![0x80, 0x10, 0, 5, 0, 6, 0x00, 0x02, 0, 5, 0, 0];
    assert_eq!(check(&case.rules, &case.question, &case.union), Ok(()));
    let smallest = step(1, 1, 0, 2, 0, &[(0, 7), (1, 4), (2, 9)]);
    assert_steps(&case, &tuple(&[5]), &[smallest]);
}

/// Only the steps are written.
#[test]
fn nothing_is_written_beside_the_steps() {
    let k1 = case("K1");
    let mut lent = [0xff; 50];
    let count = explain_into(&k1.rules, &k1.question, &k1.union, &k1.facts, &[0, 7], &mut lent[4..45]);
    assert_eq!(count, Ok(1));
    assert_eq!((&lent[..4], &lent[45..]), (&[0xff; 4][..], &[0xff; 5][..]));
    assert_eq!((lent[5], lent[43], lent[44]), (1, 32, 0));
    let short = explain_into(&k1.rules, &k1.question, &k1.union, &k1.facts, &[0, 7], &mut lent[4..43]);
    assert_eq!(short, Err(Refusal::StepsTooShort));
    assert_eq!((lent[3], &lent[4..43], lent[43]), (0xff, &[0; 39][..], 32));
}

/// A case that drawing refuses is refused here with the same number, before 19 and 20; only 14 does not apply.
#[test]
fn refused_as_drawing_is_but_for_14() {
    for case in vectors::all() {
        match case.outcome().0 {
            0 | 14 => assert!(steps_of(&case, &[1; 7]) == Err(Refusal::NoAnswer), "{}", case.name),
            number => {
                let refusal = Refusal::from_number(number).expect("a refusal's number");
                for bytes in [&[][..], &[0, 7], &[1; 7]] {
                    for length in [0, 39, 40] {
                        assert_refused(&case, bytes, length, refusal);
                    }
                }
            }
        }
    }
    let k2 = case("K2-3-bytes");
    assert_eq!(
        answer(&k2.rules, &k2.question, &k2.union, &k2.facts, &mut [0; 3]),
        Err(Refusal::ListTooShort)
    );
    assert_steps(&k2, &tuple(&[7]), &[step(1, 1, 0, 0, 0, &[(0, 0)])]);
}

/// The answers of a question in the facts alone.
fn by_facts(question: &[u8], facts: &[u8]) -> Vec<u8> {
    let union = write(&[], question).expect("merges lead to fewer than 512");
    let mut list = vec![0; 16_384];
    let count = answer(&[], question, &union, facts, &mut list).expect("a sound question, and no rules");
    let terms = usize::from(question[0] >> 4);
    match terms {
        0 => vec![1; count],
        _ => list[..2 * terms * count].to_vec(),
    }
}

/// Whether the facts alone yield the tuple from the question.
fn yields(question: &[u8], facts: &[u8], tuple: &[u8]) -> bool {
    let listed = by_facts(question, facts);
    match tuple.len() {
        0 => !listed.is_empty(),
        width => listed.chunks(width).any(|other| other == tuple),
    }
}

/// The step of a member as the union has it.
fn in_union(union: &[u8], m: u16) -> (u8, u16, u8, u16) {
    let start = member(union, m.into()).as_ptr() as usize - union.as_ptr() as usize;
    let bits = u32::from_be_bytes(union[start - 4..start].try_into().expect("4 bytes"));
    let low = |bits: u32| (bits & 0xffff) as u16;
    (
        (bits >> 30) as u8,
        low(bits >> 20) & 0x3ff,
        (bits >> 16 & 0xf) as u8,
        low(bits),
    )
}

/// The steps start from the lowest member that yields the tuple, are the union's, and end at the question.
#[track_caller]
fn assert_way_back(union: &[u8], facts: &[u8], tuple: &[u8], steps: &[Step]) {
    let yielding = steps.first().map_or(0, |step| step.member);
    for m in 0..=yielding {
        assert_eq!(yields(member(union, m.into()), facts, tuple), m == yielding);
    }
    let mut at = yielding;
    for step in steps {
        assert_eq!(step.member, at);
        assert_eq!((step.kind, step.parent, step.atom, step.other), in_union(union, at));
        at = step.parent;
    }
    assert_eq!(at, 0);
}

/// The tuples on the case's list.
fn answers(case: &Case, union: &[u8]) -> Vec<Vec<u8>> {
    let mut list = vec![0; 16_384];
    let count = answer(&case.rules, &case.question, union, &case.facts, &mut list).expect("an accepted union");
    match usize::from(case.question[0] >> 4) {
        0 => vec![vec![]; count],
        terms => list.chunks(2 * terms).take(count).map(<[u8]>::to_vec).collect(),
    }
}

#[test]
fn every_answer_of_every_case() {
    for case in vectors::all() {
        if case.outcome().0 == 0 {
            for tuple in answers(&case, &case.union) {
                let steps = steps_of(&case, &tuple).expect("an answer");
                assert_way_back(&case.union, &case.facts, &tuple, &steps);
            }
        }
    }
}

/// The union that the register writes has members as their steps leave them: every variable of a member keeps its name.
#[test]
fn own_names_in_a_union_that_is_written() {
    for mut case in vectors::all().into_iter().filter(|case| case.outcome().0 == 0) {
        case.union = write(&case.rules, &case.question).expect("no case has too many");
        for tuple in answers(&case, &case.union) {
            let steps = steps_of(&case, &tuple).expect("an answer");
            assert_way_back(&case.union, &case.facts, &tuple, &steps);
            for step in steps {
                let own = takwishan::rename(
                    member(&case.union, step.member.into()),
                    member(&case.union, step.member.into()),
                );
                assert_eq!(own, Ok(Some(step.targets)), "{}", case.name);
            }
        }
    }
}

/// Each concept below the next: member i is concept i, by rule i - 1 on the member before.
fn chain() -> Case {
    let rule = |name: u32| (1 << 28 | name << 14 | (name - 1)).to_be_bytes();
    let mut chain = case("K1");
    chain.rules = (1..=511).flat_map(rule).collect();
    chain.question = vec![0x11, 0, 0, 0, 0, 0, 0, 0, 0, 0];
    chain.union = write(&chain.rules, &chain.question).expect("512 members");
    chain.facts = vec![0x01, 0xff, 0, 7, 0, 0];
    chain
}

/// The longest explanation takes all of the most bytes, in a thread with less than a megabyte of stack.
#[test]
fn the_longest_explanation_fits_and_little_stack_is_enough() {
    let run = || {
        let chain = chain();
        let expected: Vec<Step> = (1..=511)
            .rev()
            .map(|m| step(m, 1, m - 1, 0, m - 1, &[(0, 0)]))
            .collect();
        assert_eq!(expected.len(), MOST_STEPS);
        assert_eq!(packed(&expected).len(), MOST_EXPLANATION_BYTES);
        assert_steps(&chain, &tuple(&[7]), &expected);
        assert_no_answer(&chain, &tuple(&[8]));
    };
    let thread = std::thread::Builder::new().stack_size(1_000_000).spawn(run);
    thread.expect("a thread").join().expect("it has room");
}
