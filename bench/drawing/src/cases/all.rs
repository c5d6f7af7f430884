//! Many answers and few, from one member and from many, lists of several lengths, facts in several orders: what a register may ask.
use super::relations::{ask, chain, dense, layers, lower, names, role, spread, with_object};
use super::sheets::{var, Atom, Fact, Query, Rule};
use super::{full_sheet_in, Case, Draw, Order, LONG, MIDDLE, MOST_FACTS, SHORT};

/// Objects from here on, so many, are in no answer: gear without a tag.
const FIRST_LOST_TAG: u64 = 65_024;
const LOST_TAGS: u64 = 512;

/// The roles of a chain's atoms.
const ROLES: [u64; 8] = [20, 21, 22, 23, 24, 25, 26, 27];

/// A case of a full sheet, the facts in the order asked for.
fn case(name: &str, rules: &[Rule], query: Query, facts: Vec<Fact>, order: Order, list: usize) -> Case {
    full_sheet_in(order, name, rules, &query, facts, list)
}

/// Unions of 1, 50 and 512 members, questions of 1, 2, 4 and 8 atoms, many answers and few.
fn chains(cases: &mut Vec<Case>) {
    for atoms in [1, 2, 4, 8] {
        let width = if atoms == 1 { 10_000 } else { 1_000 };
        let roles = &ROLES[..atoms];
        for count in [1, 50, 512] {
            let mut draw = Draw::new();
            let first = [(20, count)];
            let facts = spread(layers(roles, width, &mut draw), &first, &mut draw);
            let both = ask(&[0, atoms], chain(roles));
            let name = "chain, both ends asked";
            cases.push(case(name, &names(&first), both, facts.clone(), Order::Drawn, MIDDLE));
            let few = with_object(ask(&[atoms], chain(roles)), 0, 17);
            let name = "chain from one object";
            cases.push(case(name, &names(&first), few, facts, Order::Drawn, SHORT));
        }
    }
}

/// Many answers of one atom: lists of several lengths, facts in several orders.
fn one_atom(cases: &mut Vec<Case>) {
    let lists = [
        (Order::Rising, MIDDLE),
        (Order::Drawn, SHORT),
        (Order::Drawn, MIDDLE),
        (Order::Drawn, LONG),
        (Order::Falling, MIDDLE),
    ];
    for (order, list) in lists {
        let mut draw = Draw::new();
        let facts = (0..MOST_FACTS as u64).map(|x| (true, 20, x, draw.below(FIRST_LOST_TAG)));
        let name = format!("every fact an answer, facts {}", order.said());
        let question = ask(&[0, 1], chain(&[20]));
        cases.push(case(&name, &[], question, facts.collect(), order, list));
    }
}

/// Pairs of pairs: many answers of four objects.
fn pairs(cases: &mut Vec<Case>) {
    let lists = [
        (Order::Rising, LONG),
        (Order::Drawn, LONG),
        (Order::Drawn, MIDDLE),
        (Order::Falling, LONG),
    ];
    for (order, list) in lists {
        let mut draw = Draw::new();
        let mut facts = Vec::new();
        for x in 0..200 {
            facts.push((true, 20, x, draw.below(FIRST_LOST_TAG)));
            facts.push((true, 21, 1000 + x, draw.below(FIRST_LOST_TAG)));
        }
        let question = ask(&[0, 1, 2, 3], vec![role(20, 0, 1), role(21, 2, 3)]);
        let name = format!("pairs of pairs, facts {}", order.said());
        cases.push(case(&name, &[], question, facts, order, list));
    }
}

/// No answer terms, with a match and without one; later atoms that have nothing to do with the answer.
fn settled(cases: &mut Vec<Case>) {
    for count in [1, 512] {
        let mut draw = Draw::new();
        let first = [(20, count)];
        let rules = names(&first);
        let mut facts = spread(layers(&ROLES[..4], 1_000, &mut draw), &first, &mut draw);
        let mut add = |name: &str, query: Query, facts: &[Fact]| {
            cases.push(case(name, &rules, query, facts.to_vec(), Order::Drawn, SHORT));
        };
        add("no answer terms, a match", ask(&[], chain(&ROLES[..4])), &facts);
        add("chain, first object asked", ask(&[0], chain(&ROLES[..4])), &facts);
        // the last layer's facts begin where none ends
        for fact in facts.iter_mut().filter(|fact| fact.1 == 23) {
            fact.2 += 20_000;
        }
        add("no answer terms, no match", ask(&[], chain(&ROLES[..4])), &facts);
        let atoms = vec![role(20, 0, 1), role(21, 2, 3), role(22, 3, 4), role(23, 5, 6)];
        add("later atoms apart from the answer", ask(&[0, 1], atoms), &facts);
    }
}

/// Two dense relations on 40 objects, and a concept that none of them has.
fn dead_ends(cases: &mut Vec<Case>) {
    let mut facts = dense(20, (0, 40), (100, 40));
    facts.extend(dense(21, (100, 40), (200, 40)));
    facts.extend((0..40).map(|x| (false, 22, 300 + x, 0)));
    let asked: [(&[usize], &str); 2] = [(&[], "no answer terms"), (&[0, 2], "both ends asked")];
    for (answers, said) in asked {
        for order in [Order::Rising, Order::Drawn] {
            let mut question = ask(answers, chain(&[20, 21]));
            question.atoms.push(Atom::Concept(22, var(2)));
            let name = format!("dead ends, dense, {said}, facts {}", order.said());
            cases.push(case(&name, &[], question, facts.clone(), order, SHORT));
        }
    }
}

/// Gear without a tag: in half of the facts of one atom; in half of the objects that a chain begins with.
fn lost_tags(cases: &mut Vec<Case>) {
    let mut draw = Draw::new();
    let mut second = |x: u64| match x % 2 {
        0 => draw.below(FIRST_LOST_TAG),
        _ => FIRST_LOST_TAG + draw.below(LOST_TAGS),
    };
    let facts = (0..MOST_FACTS as u64).map(|x| (true, 20, x, second(x))).collect();
    let question = ask(&[0, 1], chain(&[20]));
    let name = "every second fact without a tag";
    cases.push(case(name, &[], question, facts, Order::Drawn, MIDDLE));

    let mut facts = layers(&ROLES[..4], 1_000, &mut draw);
    for fact in facts.iter_mut().filter(|fact| fact.1 == 20 && fact.2 < LOST_TAGS) {
        fact.2 += FIRST_LOST_TAG;
    }
    let question = ask(&[0, 4], chain(&ROLES[..4]));
    let name = "chain, both ends asked, half of the first without a tag";
    cases.push(case(name, &[], question, facts, Order::Drawn, MIDDLE));
}

/// Concepts that are each in one member, or each in all of so many.
fn concepts(cases: &mut Vec<Case>) {
    let name = |k: u64| 100 + k;
    let question = ask(&[0], vec![Atom::Concept(name(0), var(0))]);
    let below = |count| -> Vec<Rule> { (1..count).map(|k| Rule::concept(name(k), name(0))).collect() };
    let mut draw = Draw::new();
    let facts = (0..10_000).map(|x| (false, name(draw.below(512)), x, 0)).collect();
    let said = "concepts, each in one member";
    cases.push(case(said, &below(512), question.clone(), facts, Order::Drawn, MIDDLE));
    let facts = (0..10_000).map(|x| (false, name(x / 200), x % 200, 0)).collect();
    let said = "concepts, each in all members";
    cases.push(case(said, &below(50), question, facts, Order::Drawn, SHORT));
}

/// Names below each of eight atoms; a role to itself.
fn others(cases: &mut Vec<Case>) {
    let mut draw = Draw::new();
    let counts: Vec<(u64, u64)> = ROLES.iter().map(|&r| (r, if r == 27 { 4 } else { 2 })).collect();
    let mut facts = layers(&ROLES, 1_000, &mut draw);
    for fact in facts.iter_mut().skip(1).step_by(2) {
        fact.1 = lower(fact.1, 1);
    }
    let question = with_object(ask(&[8], chain(&ROLES)), 0, 17);
    let name = "chain, names below each atom";
    cases.push(case(name, &names(&counts), question, facts, Order::Drawn, SHORT));

    let facts = (0..5_000)
        .flat_map(|x| [(true, 20, x, x), (true, 20, x, x + 1)])
        .collect();
    let question = ask(&[0], vec![role(20, 0, 0)]);
    cases.push(case("role to itself", &[], question, facts, Order::Drawn, MIDDLE));
}

pub fn cases() -> Vec<Case> {
    let mut cases = Vec::new();
    chains(&mut cases);
    one_atom(&mut cases);
    pairs(&mut cases);
    settled(&mut cases);
    dead_ends(&mut cases);
    lost_tags(&mut cases);
    concepts(&mut cases);
    others(&mut cases);
    cases
}
