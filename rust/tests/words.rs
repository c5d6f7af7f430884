//! Explanations in words: each step's rule and atom, before and after.
use takwishan::limits::NO_TARGET;
use takwishan::{explain, in_words, in_words_by, write, Names, Step};
use vectors::{case, Case};

/// Why the tuple is an answer, without names.
#[track_caller]
fn words(case: &Case, tuple: &[u8]) -> String {
    let steps = explain(&case.rules, &case.question, &case.union, &case.facts, tuple).expect("an answer");
    in_words(&case.rules, &case.union, &steps)
}

#[test]
fn k1() {
    let k1 = case("K1");
    let text = "\
member 0: v0 of drives(v1, v0)
    rule 0 on drives(v1, v0): something drives each concept 1
member 1: v0 of concept 1(v0)
";
    assert_eq!(words(&k1, &[0, 7]), text);
    assert_eq!(words(&k1, &[0, 9]), "member 0: v0 of drives(v1, v0)\n");
}

/// No answer terms, a merge, and a renaming.
#[test]
fn k5() {
    let text = "\
member 0: role 16(v0, v1), role 16(v1, v2)
    rule 0 on role 16(v1, v2): each concept 1 has role 16 to something
member 1: role 16(v0, v1), concept 1(v1)
    rule 1 on concept 1(v1): whatever something has role 16 to is a concept 1
    renamed: v2 to v3
member 3: role 16(v0, v1), role 16(v3, v1)
    role 16(v0, v1) and role 16(v3, v1) merged
member 4: role 16(v0, v1)
    rule 0 on role 16(v0, v1): each concept 1 has role 16 to something
member 5: concept 1(v0)
";
    assert_eq!(words(&case("K5"), &[]), text);
}

/// Two pairs of records, six rules as read, and members with names of their own.
#[test]
fn pairs_and_their_helpers() {
    let text = "\
member 0: v0 of role 16(v0, v1), role 17(v1, v2)
    rule 4 on role 17(v1, v2): whatever has helper 4094 to a thing has role 17 to it
        the second of three rules for: each concept 6 has role 17 to something that is a concept 7
    renamed: v0 to v3, v1 to v0
member 1: v3 of helper 4094(v0, v2), role 16(v3, v0)
    rule 3 on helper 4094(v0, v2): each concept 6 has helper 4094 to something
        the first of three rules for: each concept 6 has role 17 to something that is a concept 7
member 2: v3 of concept 6(v0), role 16(v3, v0)
";
    assert_eq!(words(&case("T04-members"), &[0, 6]), text);
    let all = words(&case("T04-members"), &[0, 5]);
    assert!(all.contains("rule 2 on concept 6(v0): whatever something has helper 4095 to is a concept 6\n"));
    assert!(all.contains("the third of three rules for: each concept 1 has role 16 to something that is a concept 6\n"));
    let end = "\
    helper 4095(v2, v0) and helper 4095(v3, v0) merged
    renamed: v2 to v3
member 8: v3 of helper 4095(v3, v0)
    rule 0 on helper 4095(v3, v0): each concept 1 has helper 4095 to something
        the first of three rules for: each concept 1 has role 16 to something that is a concept 6
member 9: v3 of concept 1(v3)
";
    assert!(all.ends_with(end), "{all}");
}

/// Everything is said as it is read: "has part" is "is part of" the other way round.
#[test]
fn as_read() {
    let text = words(&case("T04-partner"), &[0, 5]);
    assert!(text.starts_with("member 0: v0 of is part of(v1, v0), concept 6(v1)\n"));
    assert!(text.contains("for: something that is a concept 6 is part of each concept 1\n"));
    assert!(text.contains("something has helper 4095 to each concept 1\n"));
    assert!(text.contains("whatever has helper 4095 to something is a concept 6\n"));
}

/// The sentence of the one rule of a sheet.
fn sentence(record: u32) -> String {
    let step = Step {
        member: 1,
        kind: 1,
        parent: 0,
        atom: 0,
        other: 0,
        targets: [NO_TARGET; 32],
    };
    let text = in_words(&record.to_be_bytes(), &case("K1").union, &[step]);
    let line = text.lines().nth(1).expect("the step's line");
    line.split_once(": ").expect("the rule").1.to_string()
}

fn record(kind: u32, (left_form, left): (u32, u32), (right_form, right): (u32, u32)) -> u32 {
    kind << 28 | left_form << 26 | left << 14 | right_form << 12 | right
}

#[test]
fn each_form_of_a_rule() {
    let bears = |left, right| sentence(record(1, left, right));
    assert_eq!(bears((0, 1), (0, 2)), "each concept 1 is a concept 2");
    assert_eq!(bears((0, 1), (1, 16)), "each concept 1 has role 16 to something");
    assert_eq!(bears((0, 1), (2, 16)), "something has role 16 to each concept 1");
    assert_eq!(
        bears((1, 16), (0, 2)),
        "whatever has role 16 to something is a concept 2"
    );
    assert_eq!(
        bears((2, 16), (0, 2)),
        "whatever something has role 16 to is a concept 2"
    );
    assert_eq!(bears((1, 2), (1, 6)), "whatever feeds something opens something");
    assert_eq!(bears((2, 2), (2, 6)), "something opens whatever something feeds");
    // the higher of two partners: driven by, fed by
    assert_eq!(bears((0, 1), (1, 1)), "something drives each concept 1");
    assert_eq!(bears((2, 3), (0, 1)), "whatever feeds something is a concept 1");
    let implies = |left, form, right| sentence(record(2, (0, left), (form, right)));
    assert_eq!(implies(6, 0, 0), "whatever opens a thing drives it");
    assert_eq!(implies(6, 1, 0), "whatever a thing opens drives it");
    assert_eq!(implies(7, 0, 0), "whatever a thing opens drives it");
    assert_eq!(implies(7, 1, 0), "whatever opens a thing drives it");
    assert_eq!(implies(7, 0, 1), "whatever opens a thing drives it");
    assert_eq!(implies(6, 1, 1), "whatever opens a thing drives it");
    assert_eq!(implies(16, 1, 17), "whatever a thing has role 16 to has role 17 to it");
}

/// The sample's names, and some more.
struct Gear;

impl Names for Gear {
    fn concept(&self, number: u16) -> Option<String> {
        let names = ["engine", "cabinet", "pump", "paddle", "crank", "drive"];
        names.get(usize::from(number)).map(|name| name.to_string())
    }

    fn role(&self, number: u16) -> Option<String> {
        match number {
            16.. => Some("turns".to_string()),
            _ => takwishan::Numbers.role(number),
        }
    }

    fn object(&self, number: u16) -> Option<String> {
        (number == 5).then(|| "the weir".to_string())
    }
}

#[test]
fn names_where_there_are_some() {
    let object = case("T02-object");
    let steps = [Step {
        member: 1,
        kind: 2,
        parent: 0,
        atom: 0,
        other: 1,
        targets: [NO_TARGET; 32],
    }];
    let text = "\
member 0: v0 of turns(v0, the weir), turns(v1, v1)
    turns(v0, the weir) and turns(v1, v1) merged
member 1: the weir of turns(the weir, the weir)
";
    assert_eq!(in_words_by(&object.rules, &object.union, &steps, &Gear), text);
    assert!(in_words(&object.rules, &object.union, &steps).contains("role 16(v0, object 5)"));
    // each pump is an engine
    let rules = record(1, (0, 2), (0, 0)).to_be_bytes();
    let question = [0x11, 0, 0, 0, 0, 0, 0, 0, 0, 0];
    let union = write(&rules, &question).expect("two members");
    let steps = explain(&rules, &question, &union, &[0, 2, 0, 7, 0, 0], &[0, 7]).expect("an answer");
    assert!(in_words_by(&rules, &union, &steps, &Gear).contains("each pump is an engine\n"));
    // a helper is no role, and has no name
    let pairs = case("T04-filler");
    let steps = explain(&pairs.rules, &pairs.question, &pairs.union, &pairs.facts, &[0, 5]).expect("an answer");
    let text = in_words_by(&pairs.rules, &pairs.union, &steps, &Gear);
    assert!(
        text.contains("whatever has helper 4095 to a thing turns it\n"),
        "{text}"
    );
}

/// sample/README.txt has the words for its pump 22.
#[test]
fn the_sample() {
    let rules = include_bytes!("../../sample/rules.bin");
    let question = include_bytes!("../../sample/question.bin");
    let union = include_bytes!("../../sample/union.bin");
    let facts = include_bytes!("../../sample/facts.bin");
    let steps = explain(rules, question, union, facts, &[0, 22]).expect("an answer");
    let lines = in_words_by(rules, union, &steps, &Gear);
    let indented: String = lines.lines().map(|line| format!("    {line}\n")).collect();
    let about = include_str!("../../sample/README.txt");
    assert!(about.contains(&indented), "{lines}");
    let place = |step: &Step| {
        let [member, parent, other] = [step.member, step.parent, step.other].map(u16::to_be_bytes);
        let fields = [&member[..], &[step.kind], &parent, &[step.atom], &other].concat();
        let hex = |bytes: &[u8]| {
            bytes
                .iter()
                .map(|byte| format!("{byte:02x}"))
                .collect::<Vec<_>>()
                .join(" ")
        };
        format!("    {}   {} ..", hex(&fields), hex(&step.targets[..4]))
    };
    for step in &steps {
        assert!(about.contains(&place(step)), "{}", place(step));
    }
}

/// Sheets and steps that do not belong together, or are none.
#[test]
fn what_cannot_be_read_is_said() {
    let k1 = case("K1");
    let step = |kind, atom, other| Step {
        member: 7,
        kind,
        parent: 0,
        atom,
        other,
        targets: [NO_TARGET; 32],
    };
    let said = |step: Step| in_words(&k1.rules, &k1.union, &[step]);
    let end = "member 7: not in the union\n";
    let start = "member 0: v0 of drives(v1, v0)\n";
    let expect = |line: &str| format!("{start}    {line}\n{end}");
    assert_eq!(
        said(step(1, 0, 9)),
        expect("rule 9 on drives(v1, v0): not on the sheet")
    );
    assert_eq!(
        said(step(1, 3, 0)),
        expect("rule 0 on atom 3 (not there): something drives each concept 1")
    );
    assert_eq!(
        said(step(2, 0, 700)),
        expect("drives(v1, v0) and atom 700 (not there) merged")
    );
    assert_eq!(said(step(3, 0, 0)), expect("a step of kind 3, which there is not"));
    assert_eq!(in_words(&k1.rules, &[], &[]), "member 0: not in the union\n");
}

/// Any bytes have some words.
#[test]
fn nothing_panics() {
    let mut state = 5u64;
    let mut chance = move || {
        state = state
            .wrapping_mul(6364136223846793005)
            .wrapping_add(1442695040888963407);
        (state >> 33) as u32
    };
    let union = case("T04-members").union;
    for _ in 0..2_000 {
        let length = chance() as usize % 40;
        let rules: Vec<u8> = (0..length)
            .flat_map(|_| ((chance() % 5) << 28 | chance() >> 4).to_be_bytes())
            .collect();
        let mut step = || Step {
            member: chance() as u16 % 16,
            kind: chance() as u8 % 4,
            parent: chance() as u16 % 16,
            atom: chance() as u8 % 4,
            other: chance() as u16 % 32,
            targets: [chance() as u8; 32],
        };
        let steps = [step(), step(), step()];
        assert!(in_words(&rules, &union, &steps).starts_with("member 0: v0 of "));
        assert!(in_words(&union, &rules, &steps).starts_with("member 0: not in the union\n"));
    }
    // more pairs than there are numbers for helpers
    let pairs = [record(3, (0, 1), (1, 16)), record(4, (0, 2), (0, 0))]
        .map(u32::to_be_bytes)
        .concat();
    let step = Step {
        member: 1,
        kind: 1,
        parent: 0,
        atom: 0,
        other: 0,
        targets: [NO_TARGET; 32],
    };
    assert!(in_words(&pairs.repeat(5_000), &union, &[step]).contains(": not on the sheet\n"));
}
