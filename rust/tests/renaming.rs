//! Two questions compared (02's T-05) through the wrapper: alike, and by which names.
use takwishan::limits::NO_TARGET;
use takwishan::{member, rename, rename_outcome, write, Refusal, RenameOutcome};
use vectors::case;

/// Roles without partners.
const P: u64 = 16;
const Q: u64 = 17;

/// The term of an object; a variable's term is its number.
fn object(number: u64) -> u64 {
    1 << 16 | number
}

fn concept(name: u64, term: u64) -> u64 {
    name << 34 | term << 17
}

fn role(name: u64, first: u64, second: u64) -> u64 {
    1 << 47 | name << 34 | first << 17 | second
}

/// The sheet with these answer terms and atoms.
fn question(answers: &[u64], atoms: &[u64]) -> Vec<u8> {
    let mut sheet = vec![(answers.len() << 4 | atoms.len()) as u8];
    sheet.extend(answers.iter().flat_map(|term| term.to_be_bytes()[5..].to_vec()));
    sheet.extend(atoms.iter().flat_map(|atom| atom.to_be_bytes()[2..].to_vec()));
    sheet
}

/// P round so many variables, from this one on.
fn ring(from: u64, many: u64) -> impl Iterator<Item = u64> {
    (0..many).map(move |i| role(P, from + i, from + (i + 1) % many))
}

/// The renaming with these variables and their targets, and no other.
fn targets(pairs: &[(usize, u8)]) -> [u8; 32] {
    let mut places = [NO_TARGET; 32];
    for &(variable, target) in pairs {
        places[variable] = target;
    }
    places
}

/// There is this renaming.
#[track_caller]
fn assert_alike(first: &[u8], second: &[u8], pairs: &[(usize, u8)]) {
    assert_eq!(rename(first, second), Ok(Some(targets(pairs))));
    let plain = RenameOutcome {
        number: 0,
        found: 1,
        targets: targets(pairs),
    };
    assert_eq!(rename_outcome(first, second), plain);
}

/// There is none, either way.
#[track_caller]
fn assert_unlike(one: &[u8], other: &[u8]) {
    for (first, second) in [(one, other), (other, one)] {
        assert_eq!(rename(first, second), Ok(None));
        let plain = RenameOutcome {
            number: 0,
            found: 0,
            targets: [NO_TARGET; 32],
        };
        assert_eq!(rename_outcome(first, second), plain);
    }
}

/// The call is refused, and every place is without a target.
#[track_caller]
fn assert_refused(first: &[u8], second: &[u8], refusal: Refusal) {
    assert_eq!(rename(first, second), Err(refusal));
    let plain = RenameOutcome {
        number: refusal.number(),
        found: 0,
        targets: [NO_TARGET; 32],
    };
    assert_eq!(rename_outcome(first, second), plain);
}

#[test]
fn from_the_first_to_the_second() {
    let first = question(&[0], &[role(P, 0, 1), role(Q, 1, 2)]);
    let second = question(&[7], &[role(P, 7, 0), role(Q, 0, 31)]);
    assert_alike(&first, &second, &[(0, 7), (1, 0), (2, 31)]);
    assert_alike(&second, &first, &[(7, 0), (0, 1), (31, 2)]);
    // round three places: there and back differ
    let turned = question(&[1, 2, 0], &[role(P, 1, 2), role(Q, 2, 0)]);
    let straight = question(&[0, 1, 2], &[role(P, 0, 1), role(Q, 1, 2)]);
    assert_alike(&straight, &turned, &[(0, 1), (1, 2), (2, 0)]);
    assert_alike(&turned, &straight, &[(0, 2), (1, 0), (2, 1)]);
}

/// A question is alike to itself by its own names: of its variables in any order the rising list is the smallest.
#[test]
fn a_question_and_itself() {
    let k1 = case("K1").question;
    assert_alike(&k1, &k1, &[(0, 0), (1, 1)]);
    let apart: Vec<u64> = (0..8).map(|i| role(P, 4 * i + 3, 4 * i)).collect();
    let own: Vec<(usize, u8)> = (0..8).flat_map(|i| [4 * i, 4 * i + 3]).map(|v| (v, v as u8)).collect();
    assert_alike(&question(&[], &apart), &question(&[], &apart), &own);
}

/// Eight atoms of one role with nothing in common have 8! renamings.
#[test]
fn of_several_the_smallest() {
    let first: Vec<u64> = (0..8).map(|i| role(P, i, 23 - i)).collect();
    let second: Vec<u64> = (0..8).map(|i| role(P, 24 - i, i)).collect();
    let mut expected: Vec<(usize, u8)> = (0..8).map(|i| (i, 17 + i as u8)).collect();
    expected.extend((0..8).map(|i| (23 - i, 7 - i as u8)));
    assert_alike(&question(&[], &first), &question(&[], &second), &expected);
}

/// The lowest source has the lowest target that any renaming gives it, and only then the next has its own.
#[test]
fn the_smallest_by_rising_source() {
    // 0 may go to 5 or 9, and 1 to the other
    let first = question(&[], &[role(P, 0, 2), role(P, 1, 2)]);
    let second = question(&[], &[role(P, 9, 4), role(P, 5, 4)]);
    assert_alike(&first, &second, &[(0, 5), (1, 9), (2, 4)]);
    // the lowest target, 3, is not for 0, which both atoms share
    let first = question(&[], &[role(P, 1, 0), role(P, 2, 0)]);
    let second = question(&[], &[role(P, 8, 6), role(P, 3, 6)]);
    assert_alike(&first, &second, &[(0, 6), (1, 3), (2, 8)]);
    // a ring of three, in which one target decides the others
    let first = question(&[], &[role(P, 0, 1), role(P, 1, 2), role(P, 2, 0)]);
    let second = question(&[], &[role(P, 5, 3), role(P, 3, 4), role(P, 4, 5)]);
    assert_alike(&first, &second, &[(0, 3), (1, 4), (2, 5)]);
    let against = question(&[], &[role(P, 3, 5), role(P, 5, 4), role(P, 4, 3)]);
    assert_alike(&first, &against, &[(0, 3), (1, 5), (2, 4)]);
    // an answer term leaves no choice
    let fixed = question(&[1], &[role(P, 1, 2), role(P, 0, 2)]);
    assert_alike(
        &fixed,
        &question(&[5], &[role(P, 9, 4), role(P, 5, 4)]),
        &[(0, 9), (1, 5), (2, 4)],
    );
    // 0 to 4 seem to fit variable 0 and lead nowhere: it is in the ring of three
    let first: Vec<u64> = ring(0, 3).chain(ring(3, 5)).collect();
    let second: Vec<u64> = ring(0, 5).chain(ring(5, 3)).collect();
    let by_length = [(0, 5), (1, 6), (2, 7), (3, 0), (4, 1), (5, 2), (6, 3), (7, 4)];
    assert_alike(&question(&[], &first), &question(&[], &second), &by_length);
}

#[test]
fn places_without_a_target_have_32() {
    let only_31 = question(&[31], &[concept(1, 31)]);
    assert_alike(&only_31, &question(&[0], &[concept(1, 0)]), &[(31, 0)]);
    // no variable at all: a renaming with nothing in it, which is not the same as none
    let none_stands = question(&[object(7)], &[concept(1, object(7))]);
    assert_alike(&none_stands, &none_stands, &[]);
    assert_unlike(&none_stands, &only_31);
}

#[test]
fn where_there_is_none() {
    let path = question(&[], &[role(P, 0, 1), role(P, 1, 2)]);
    let others: [&[u64]; 9] = [
        &[role(P, 0, 1), role(Q, 1, 2)],                // another role
        &[role(P, 0, 1), concept(P, 1)],                // a concept of its number
        &[role(P, 0, 1), role(P, 2, 1)],                // another direction
        &[role(P, 0, 1), role(P, 2, 3)],                // a variable more
        &[role(P, 0, 1), role(P, 1, 0)],                // a variable less
        &[role(P, 0, 1), role(P, 1, 1)],                // likewise
        &[role(P, 0, 1), role(P, 1, object(2))],        // an object
        &[role(P, 0, 1)],                               // an atom less
        &[role(P, 0, 1), role(P, 1, 2), role(P, 2, 0)], // an atom more
    ];
    for atoms in others {
        assert_unlike(&path, &question(&[], atoms));
    }
    assert_unlike(&path, &question(&[0], &[role(P, 0, 1), role(P, 1, 2)]));
    // alike in every count, and yet not: a ring of six, and two rings of three
    let six: Vec<u64> = ring(0, 6).collect();
    let twice_three: Vec<u64> = ring(0, 3).chain(ring(3, 3)).collect();
    assert_unlike(&question(&[], &six), &question(&[], &twice_three));
}

/// The example of docs/FORMAT.md: its lines of bytes, one paragraph after another, are two sheets and the renaming's first places.
#[test]
fn the_documented_example() {
    let text = include_str!("../../docs/FORMAT.md");
    let (_, section) = text.split_once("## A renaming").expect("the section");
    let (section, _) = section.split_once("\n## ").expect("the next one");
    let indented = section.split("\n\n").filter(|lines| lines.starts_with("    "));
    let bytes = |lines: &str| -> Vec<u8> {
        let records = lines.lines().map(|line| line.trim().split("  ").next().expect("bytes"));
        records
            .take_while(|record| !record.contains(".."))
            .flat_map(vectors::hex)
            .collect()
    };
    let sheets: Vec<Vec<u8>> = indented.map(bytes).collect();
    let [first, second, places] = &sheets[..] else {
        panic!("three paragraphs of bytes");
    };
    assert_eq!(places, &[4, 2, NO_TARGET, 9]);
    assert_alike(first, second, &[(0, 4), (1, 2), (3, 9)]);
    assert_alike(second, first, &[(2, 1), (4, 0), (9, 3)]);
}

#[test]
fn atoms_in_any_order() {
    let first = question(&[0], &[concept(3, 0), role(P, 0, 1), concept(4, 1)]);
    let second = question(&[2], &[concept(4, 6), concept(3, 2), role(P, 2, 6)]);
    assert_alike(&first, &second, &[(0, 2), (1, 6)]);
}

#[test]
fn answer_terms_in_their_order() {
    let atoms = [role(P, 0, 1), role(P, 1, 0)];
    assert_alike(
        &question(&[0, 1], &atoms),
        &question(&[0, 1], &atoms),
        &[(0, 0), (1, 1)],
    );
    assert_alike(
        &question(&[0, 1], &atoms),
        &question(&[1, 0], &atoms),
        &[(0, 1), (1, 0)],
    );
    assert_unlike(&question(&[0, 0], &atoms), &question(&[0, 1], &atoms));
    let one_way = [role(P, 0, 1)];
    assert_unlike(&question(&[0, 1], &one_way), &question(&[1, 0], &one_way));
    assert_unlike(&question(&[0], &one_way), &question(&[1], &one_way));
    assert_unlike(&question(&[object(5)], &one_way), &question(&[object(6)], &one_way));
}

#[test]
fn objects_stay() {
    let asks = |number: u64| question(&[0], &[role(P, 0, object(number))]);
    assert_alike(&asks(9), &asks(9), &[(0, 0)]);
    assert_unlike(&asks(9), &asks(10));
    // an object is not the variable of its number
    assert_unlike(&asks(1), &question(&[0], &[role(P, 0, 1)]));
    // 0 may not go to 5 here, though that is the lower
    let first = question(&[], &[role(P, 0, object(7)), role(P, 1, object(8))]);
    let second = question(&[], &[role(P, 6, object(7)), role(P, 5, object(8))]);
    assert_alike(&first, &second, &[(0, 6), (1, 5)]);
}

/// Partners are read first: drives(y,x) is driven by(x,y).
#[test]
fn reciprocal_names_are_read() {
    for lower in [0, 2, 4, 6] {
        let first = question(&[0], &[role(lower, 1, 0)]);
        assert_alike(&first, &question(&[5], &[role(lower + 1, 5, 2)]), &[(0, 5), (1, 2)]);
        assert_unlike(&first, &question(&[5], &[role(lower + 1, 2, 5)]));
    }
    // 8 and 9 are each its own partner
    assert_unlike(&question(&[0], &[role(8, 1, 0)]), &question(&[0], &[role(9, 0, 1)]));
    assert_unlike(&question(&[0], &[role(8, 1, 0)]), &question(&[0], &[role(8, 0, 1)]));
}

/// No two members of a union are alike.
#[test]
fn members_of_a_union() {
    let k5 = case("K5");
    let union = write(&k5.rules, &k5.question).expect("it is written");
    let count = usize::from(union[0]) << 8 | usize::from(union[1]);
    for i in 0..count {
        for j in 0..count {
            let given = rename(member(&union, i), member(&union, j)).expect("members are sound");
            assert_eq!(given.is_some(), i == j, "{i} and {j}");
        }
    }
}

/// Sheets that meet 3, 4 and, as read, 5.
fn refused() -> [(Vec<u8>, Refusal); 3] {
    let twice = [role(0, 0, 1), role(1, 1, 0)];
    [
        (question(&[0], &[concept(1, 32)]), Refusal::QuestionMalformed),
        (question(&[5], &[role(P, 0, 1)]), Refusal::AnswerVariableNowhere),
        (question(&[0], &twice), Refusal::AtomTwice),
    ]
}

/// The first sheet's refusals come before the second's, whatever their numbers: 5 of the first before 3 of the second.
#[test]
fn the_first_sheet_is_judged_first() {
    let sound = case("K1").question;
    for (sheet, refusal) in refused() {
        assert_refused(&sheet, &sound, refusal);
        assert_refused(&sound, &sheet, refusal);
        for (second, _) in refused() {
            assert_refused(&sheet, &second, refusal);
        }
    }
    // and within a sheet by number: 3 before 4 before 5
    let twice = [role(P, 0, 1), role(P, 0, 1)];
    let nowhere_and_twice = question(&[5], &twice);
    assert_refused(&nowhere_and_twice, &[], Refusal::AnswerVariableNowhere);
    assert_refused(&sound, &nowhere_and_twice, Refusal::AnswerVariableNowhere);
    assert_refused(
        &nowhere_and_twice[..nowhere_and_twice.len() - 1],
        &sound,
        Refusal::QuestionMalformed,
    );
}

#[test]
fn sheets_of_every_length_are_answered() {
    let sound = case("K1").question;
    assert_refused(&[], &[], Refusal::QuestionMalformed);
    for length in 0..sound.len() {
        assert_refused(&sound[..length], &sound, Refusal::QuestionMalformed);
        assert_refused(&sound, &sound[..length], Refusal::QuestionMalformed);
    }
    let long = [&sound[..], &[0; 100_000]].concat();
    assert_refused(&long, &sound, Refusal::QuestionMalformed);
    assert_refused(&sound, &long, Refusal::QuestionMalformed);
}
