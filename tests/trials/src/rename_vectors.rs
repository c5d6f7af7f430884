//! Tests of renamings in the second implementation, worked out by hand, and of the kinds of pairs.

use crate::cards::hex;
use crate::chance::Chance;
use crate::rename_cases::Pair;
use crate::rename_kinds::{key, of_alike, of_unlike, turned, KINDS_OF_ALIKE, KINDS_OF_UNLIKE};
use crate::renamings::{by_atoms, by_maps, rename, Outcome, Targets, NO_TARGET};
use crate::sheets::{Atom, Question, Term};
use crate::vectors::{question, A, B, P};
use crate::write;

/// These targets, and none at the other places.
pub fn list(targets: &[(u8, u8)]) -> Targets {
    let mut all = [NO_TARGET; 32];
    for &(source, target) in targets {
        all[source as usize] = target;
    }
    all
}

/// A question of one role and no answer terms, by the numbers of its variables.
fn joined(edges: &[(u8, u8)]) -> Question {
    let atom = |&(x, y): &(u8, u8)| Atom::Role(P, Term::Variable(x), Term::Variable(y));
    Question {
        answers: vec![],
        atoms: edges.iter().map(atom).collect(),
    }
}

fn pair(first: &Question, second: &Question) -> Pair {
    let chance = &mut Chance::new(1);
    Pair {
        first: write::question(first, chance),
        second: write::question(second, chance),
    }
}

/// The call gives this renaming or none, by maps and by atoms.
fn gives(first: &Question, second: &Question, expected: Option<&[(u8, u8)]>) {
    let expected = expected.map(list);
    let pair = pair(first, second);
    assert_eq!(rename(&pair.first, &pair.second), Outcome::of(expected));
    let fitting = by_maps(first, second).expect("few variables");
    assert_eq!((fitting.iter().min().copied(), fitting.len()), by_atoms(first, second));
}

#[test]
fn the_only_renaming() {
    let first = question("x", &[(P, "xv"), (A, "v")]);
    gives(&first, &question("z", &[(A, "w"), (P, "zw")]), Some(&[(0, 2), (31, 3)]));
    gives(&first, &first, Some(&[(0, 0), (31, 31)]));
    // from the first to the second
    let (one, other) = (question("", &[(P, "xy")]), question("", &[(P, "yz")]));
    gives(&one, &other, Some(&[(0, 1), (1, 2)]));
    gives(&other, &one, Some(&[(1, 0), (2, 1)]));
}

#[test]
fn the_smallest_of_several() {
    let apart = question("", &[(A, "v"), (A, "x"), (A, "z")]);
    let other = question("", &[(A, "w"), (A, "y"), (A, "x")]);
    gives(&apart, &other, Some(&[(0, 0), (2, 1), (31, 3)]));
    // 0 leads somewhere, so 7 is the lowest that it can go to; then 5 goes to 1 although 0 is lower
    let first = joined(&[(0, 5), (3, 4)]);
    let second = joined(&[(7, 1), (9, 0)]);
    gives(&first, &second, Some(&[(0, 7), (3, 9), (4, 0), (5, 1)]));
    // a ring of five: where 0 goes decides
    let ring = joined(&[(0, 1), (1, 2), (2, 3), (3, 4), (4, 0)]);
    let turned_ring = joined(&[(8, 6), (6, 9), (9, 5), (5, 7), (7, 8)]);
    let smallest = [(0, 5), (1, 7), (2, 8), (3, 6), (4, 9)];
    gives(&ring, &turned_ring, Some(&smallest));
}

#[test]
fn the_lowest_target_may_lead_nowhere() {
    // 0 and 2 stand in the same places, but only 2 leads to what is an A
    let first = question("", &[(P, "xy"), (P, "zw"), (A, "w")]);
    let second = question("", &[(P, "yv"), (P, "xz"), (A, "z")]);
    gives(&first, &second, Some(&[(0, 1), (1, 31), (2, 0), (3, 2)]));
}

#[test]
fn rings_of_three_are_no_ring_of_six() {
    let six = joined(&[(0, 1), (1, 2), (2, 3), (3, 4), (4, 5), (5, 0)]);
    let threes = joined(&[(0, 1), (1, 2), (2, 0), (3, 4), (4, 5), (5, 3)]);
    gives(&six, &threes, None);
    gives(&threes, &six, None);
    assert!(key(&six) == key(&threes));
    assert_eq!(by_maps(&six, &six).expect("few variables").len(), 6);
    assert_eq!(by_maps(&threes, &threes).expect("few variables").len(), 18);
}

#[test]
fn what_has_no_renaming() {
    let first = question("xy", &[(P, "xy"), (A, "x")]);
    for other in [
        question("yx", &[(P, "xy"), (A, "x")]),
        question("x", &[(P, "xy"), (A, "x")]),
        question("xx", &[(P, "xy"), (A, "x")]),
        question("x5", &[(P, "xy"), (A, "x")]),
        question("xy", &[(P, "yx"), (A, "x")]),
        question("xy", &[(P, "xy"), (A, "y")]),
        question("xy", &[(P, "xy"), (B, "x")]),
        question("xy", &[(P, "xy"), (P, "xx")]),
        question("xy", &[(P, "xy")]),
        question("xy", &[(P, "xy"), (A, "x"), (A, "z")]),
    ] {
        gives(&first, &other, None);
        gives(&other, &first, None);
    }
    // two variables for one, one for two
    let (one, two) = (question("", &[(A, "x"), (B, "x")]), question("", &[(A, "x"), (B, "y")]));
    gives(&one, &two, None);
    gives(&two, &one, None);
    assert!(of_unlike(&(two, one))[KINDS_OF_UNLIKE.len() - 1]);
}

#[test]
fn objects_stay() {
    let first = question("5x", &[(P, "5x"), (P, "x7")]);
    gives(&first, &question("5z", &[(P, "z7"), (P, "5z")]), Some(&[(0, 2)]));
    gives(&first, &question("7z", &[(P, "z7"), (P, "5z")]), None);
    gives(&first, &question("5z", &[(P, "z5"), (P, "7z")]), None);
    let no_variable = question("9", &[(P, "57")]);
    gives(&no_variable, &no_variable, Some(&[]));
    gives(&no_variable, &question("9", &[(P, "75")]), None);
}

#[test]
fn partners_are_read_first() {
    // drives(x,y), and z driven by w
    let drives = hex("01  80 00 00 00 00 01");
    let driven = hex("01  80 04 00 04 00 03");
    let expected = Outcome::of(Some(list(&[(0, 3), (1, 2)])));
    assert_eq!(rename(&drives, &driven), expected);
    let both = hex("02  80 00 00 00 00 01  80 04 00 00 00 01");
    assert_eq!(rename(&both, &both).found, 1);
    let twice = hex("02  80 00 00 00 00 01  80 04 00 02 00 00");
    assert_eq!(rename(&twice, &both), Outcome::refused(5));
}

#[test]
fn refusals_go_by_sheets() {
    let sound = hex("01  80 40 00 00 00 01");
    let damaged = [
        (3, hex("01  80 40 00 00 00")),
        (4, hex("11  00 00 02  80 40 00 00 00 01")),
        (5, hex("02  80 40 00 00 00 01  80 40 00 00 00 01")),
    ];
    for (number, first) in &damaged {
        let refused = Outcome {
            number: *number,
            found: 0,
            targets: [32; 32],
        };
        assert_eq!(rename(first, &sound), refused);
        assert_eq!(rename(&sound, first), refused);
        for (_, second) in &damaged {
            assert_eq!(rename(first, second), refused);
        }
    }
    // 4 before 5 in one sheet
    let both = hex("12  00 00 02  80 40 00 00 00 01  80 40 00 00 00 01");
    assert_eq!(rename(&both, &sound), Outcome::refused(4));
}

#[test]
fn many_variables_by_atoms() {
    let apart = joined(&Vec::from_iter((0..8).map(|x| (x, x + 16))));
    assert_eq!(by_maps(&apart, &apart), None);
    let (smallest, many) = by_atoms(&apart, &apart);
    assert_eq!(many, 40_320);
    let itself = Vec::from_iter((0..8).flat_map(|x| [(x, x), (x + 16, x + 16)]));
    assert_eq!(smallest, Some(list(&itself)));
    let ring = |from: u8, around: u8| (0..around).map(move |x| (from + x, from + (x + 1) % around));
    let (eight, fours) = (Vec::from_iter(ring(0, 8)), Vec::from_iter(ring(0, 4).chain(ring(4, 4))));
    assert_eq!(by_atoms(&joined(&eight), &joined(&fours)), (None, 0));
}

/// The kinds of a pair with a renaming.
fn kinds(first: &Question, second: &Question) -> [bool; KINDS_OF_ALIKE.len()] {
    let fitting = by_maps(first, second).expect("few variables");
    let questions = (first.clone(), second.clone());
    of_alike(&pair(first, second), &questions, &fitting)
}

#[test]
fn which_renaming_is_taken_shows() {
    // 0 goes to 4, so 1 cannot go to 0; on the way back 0 goes to 1, and so 5 to 0
    let first = joined(&[(0, 1), (2, 3)]);
    let second = joined(&[(4, 1), (5, 0)]);
    gives(&first, &second, Some(&[(0, 4), (1, 1), (2, 5), (3, 0)]));
    let [several, falling, way_back, other_list, greed, ..] = kinds(&first, &second);
    assert!(several && !falling && way_back && other_list && greed);
    // one ring: the lowest goes to the lowest either way, but falling 2 would go to 0
    let ring = joined(&[(0, 1), (1, 2), (2, 0)]);
    let [several, falling, way_back, other_list, greed, ..] = kinds(&ring, &ring);
    assert!(several && falling && !way_back && !other_list && !greed);
    // greed takes 1 for 1, which 0 does not lead to
    let other = joined(&[(0, 2), (2, 1), (1, 0)]);
    let [.., greed, _, _, _, _, _] = kinds(&ring, &other);
    assert!(greed);
    assert_eq!(turned(&list(&[(0, 3), (7, 1)])), list(&[(3, 0), (1, 7)]));
}
