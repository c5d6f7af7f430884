//! Tests of explaining in the second implementation, by explanations worked out by hand, and of following them.

use crate::cards::{cards, hex};
use crate::chance::Chance;
use crate::explain::{explained, ground, packed_tuple, Ground, Place, PLACE};
use crate::refusals::{refused, Outcome, Sheets};
use crate::rename_vectors::list;
use crate::replay::Replay;
use crate::rule_sheet::Written;
use crate::sheets::{Atom, Description, Fact, Question};
use crate::union_vectors::step;
use crate::vectors::{bears, question, A, B, P};
use crate::write;
use Description::{Concept, To};

/// A step: kind, parent, atom, other.
type Fields = (u8, u16, u8, u16);

fn card(name: &str) -> Sheets {
    cards()
        .into_iter()
        .find(|card| card.name == name)
        .expect("a card")
        .sheets
}

fn packed(rules: &[Written], members: &[(Fields, Question)], facts: &[Fact]) -> Sheets {
    let chance = &mut Chance::new(1);
    let members = Vec::from_iter(members.iter().map(|(s, q)| (step(*s), q.clone())));
    Sheets {
        rules: write::rules(rules, chance),
        question: write::question(&members[0].1, chance),
        union: write::union(&members, chance),
        facts: write::facts(facts, chance),
    }
}

fn place(member: u16, written: Fields, targets: &[(u8, u8)]) -> Place {
    Place {
        member,
        step: step(written),
        targets: list(targets),
    }
}

/// The steps of this tuple are these, in a list with room for them and a part of a place more, and can be followed.
fn gives(sheets: &Sheets, tuple: &[u16], way: &[Place]) {
    let mut bytes = Vec::from_iter(way.iter().flat_map(Place::packed));
    let (tuple, count) = (packed_tuple(tuple), way.len() as u64);
    bytes.extend([0; 17]);
    let expected = Outcome {
        number: 0,
        count,
        list: bytes.clone(),
    };
    assert_eq!(explained(sheets, &tuple, bytes.len()), expected);
    let ground = ground(sheets).ok().expect("accepted");
    assert_eq!(Replay::new(&ground).follow(&tuple, count, &bytes), Ok(true));
}

#[test]
fn card_1() {
    let sheets = card("K1");
    gives(&sheets, &[7], &[place(1, (1, 0, 0, 0), &[(0, 0)])]);
    gives(&sheets, &[9], &[]);
    let bytes = explained(&sheets, &[0, 7], 41).list;
    let no_targets = "20 ".repeat(31);
    assert_eq!(bytes, hex(&format!("00 01 01 00 00 00 00 00 00 {no_targets} 00")));
    for tuple in [&[0, 3][..], &[], &[0], &[7], &[0, 7, 0], &[0, 7, 0, 7], &[7, 0]] {
        assert_eq!(explained(&sheets, tuple, 0), refused(19, 0), "{tuple:?}");
    }
    assert_eq!(explained(&sheets, &[0, 7], 39), refused(20, 39));
    assert_eq!(explained(&sheets, &[0, 9], 0).number, 0);
}

#[test]
fn card_3_has_a_merge_on_the_way() {
    let sheets = card("K3");
    let tuples = ground(&sheets).ok().expect("accepted").yields;
    assert_eq!(tuples.iter().map(|tuples| tuples.len()).collect::<Vec<_>>(), [0, 0, 1]);
    let bytes = explained(&sheets, &[0, 5], 2 * PLACE).list;
    assert_eq!(bytes[..8], [0, 2, 1, 0, 1, 0, 0, 0]);
    assert_eq!(bytes[PLACE..PLACE + 8], [0, 1, 2, 0, 0, 0, 0, 1]);
}

/// Each A has a P that is a B; who has one? Written by the register, but for names and order.
fn qualified() -> Sheets {
    let pair = Written::Qualified {
        left: Concept(A),
        right: To(P),
        filler: B,
    };
    let helper = 4_095;
    let members = [
        ((0, 0, 0, 0), question("x", &[(P, "xy"), (B, "y")])),
        ((1, 0, 1, 2), question("y", &[(P, "yx"), (helper, "vx")])),
        ((1, 0, 0, 1), question("z", &[(B, "x"), (helper, "zx")])),
        ((1, 1, 0, 1), question("w", &[(helper, "xz"), (helper, "wz")])),
        ((2, 3, 0, 1), question("v", &[(helper, "vz")])),
        ((1, 4, 0, 0), question("y", &[(A, "y")])),
    ];
    packed(&[pair], &members, &[Atom::Concept(A, 5), Atom::Role(P, 5, 300)])
}

#[test]
fn a_pair_and_a_merge_by_other_names() {
    let way = [
        place(5, (1, 4, 0, 0), &[(31, 1)]),
        // x and w are 0 and 3, of which 0 stays
        place(4, (2, 3, 0, 1), &[(0, 31), (2, 2)]),
        place(3, (1, 1, 0, 1), &[(0, 2), (1, 3), (31, 0)]),
        // z is fresh
        place(1, (1, 0, 1, 2), &[(0, 1), (1, 0), (2, 31)]),
    ];
    gives(&qualified(), &[5], &way);
}

/// Two sons of one thing: either may be called by either name.
fn twins() -> Sheets {
    let members = [
        ((0, 0, 0, 0), question("", &[(P, "xy"), (P, "xz"), (A, "x")])),
        ((2, 0, 0, 1), question("", &[(P, "xy"), (A, "x")])),
        ((1, 0, 2, 0), question("", &[(B, "w"), (P, "wy"), (P, "wx")])),
        ((1, 1, 1, 0), question("", &[(P, "xy"), (B, "x")])),
    ];
    let facts = [Atom::Concept(B, 5), Atom::Role(P, 5, 65_535)];
    packed(&[bears(Concept(B), Concept(A))], &members, &facts)
}

#[test]
fn the_smallest_renaming_the_empty_tuple_and_a_lost_tag_that_helps() {
    // member 3 yields the empty tuple too
    gives(&twins(), &[], &[place(2, (1, 0, 2, 0), &[(0, 3), (1, 0), (2, 1)])]);
    assert_eq!(explained(&twins(), &[0, 5], 100), refused(19, 100));
    let mut without = twins();
    without.facts.truncate(6);
    assert_eq!(explained(&without, &[], 100), refused(19, 100));
}

#[test]
fn a_tuple_with_a_lost_tag_is_no_answer() {
    let members = [
        ((0, 0, 0, 0), question("x", &[(A, "x")])),
        ((1, 0, 0, 0), question("x", &[(B, "x")])),
    ];
    let facts = [65_023, 65_024, 65_535].map(|object| Atom::Concept(B, object));
    let sheets = packed(&[bears(Concept(B), Concept(A))], &members, &facts);
    gives(&sheets, &[65_023], &[place(1, (1, 0, 0, 0), &[(0, 0)])]);
    for object in [65_024, 65_535] {
        assert_eq!(explained(&sheets, &packed_tuple(&[object]), 0), refused(19, 0));
    }
}

#[test]
fn refusals_of_the_sheets_come_first() {
    let mut sheets = card("K1");
    sheets.facts.push(0);
    assert_eq!(explained(&sheets, &[], 5), refused(12, 5));
    let mut sheets = card("K1");
    sheets.facts[5] = 1;
    assert_eq!(explained(&sheets, &[0, 7], 0), refused(13, 0));
    assert_eq!(explained(&card("T04-18-fact"), &[1], 50), refused(18, 50));
    assert_eq!(explained(&card("K4"), &[0, 5], 80), refused(11, 80));
}

/// What following says of the list of `qualified` if this is done to it.
fn wrong(ground: &Ground, spoil: impl Fn(&mut Vec<u8>)) -> Result<bool, String> {
    let outcome = ground.outcome(&[0, 5], 5 * PLACE);
    let mut list = outcome.list;
    spoil(&mut list);
    Replay::new(ground).follow(&[0, 5], outcome.count, &list)
}

#[test]
fn a_list_that_is_wrong_is_not_followed() {
    let ground = ground(&qualified()).ok().expect("accepted");
    assert_eq!(wrong(&ground, |_| {}), Ok(true));
    for at in 0..5 * PLACE {
        let told = wrong(&ground, |list| list[at] ^= 1);
        assert!(told.is_err(), "byte {at}");
    }
    // the other of two renamings is one too: that it is not the smallest is seen by the bytes
    let ground = self::ground(&twins()).ok().expect("accepted");
    let mut list = ground.outcome(&[], PLACE).list;
    list.swap(9, 10);
    assert_eq!(Replay::new(&ground).follow(&[], 1, &list), Ok(true));
    // member 3 yields the empty tuple, but is not the lowest
    let way = Vec::from_iter(ground.way(3).iter().flat_map(Place::packed));
    let told = Replay::new(&ground).follow(&[], 2, &way);
    assert_eq!(told, Err("a member below 3 yields the tuple".to_string()));
}
