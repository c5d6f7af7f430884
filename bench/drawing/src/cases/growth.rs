//! How time grows with the facts: chains of eight over names of their own, with matches and with a dead end at the last atom.
use super::relations::{ask, chain, dense, layers};
use super::sheets::Fact;
use super::{written, Case, Draw, Order, SHORT};

pub const COUNTS: [usize; 4] = [1_250, 2_500, 5_000, 10_000];

const ROLES: [u64; 8] = [20, 21, 22, 23, 24, 25, 26, 27];

/// The last role's facts begin where none ends.
fn cut_off(mut facts: Vec<Fact>) -> Vec<Fact> {
    for fact in facts.iter_mut().filter(|fact| fact.1 == 27) {
        fact.2 += 30_000;
    }
    facts
}

/// One fact to the next layer for each object.
fn sparse(count: usize) -> Vec<Fact> {
    layers(&ROLES, count as u64 / 8, &mut Draw::new())
}

/// Each object of a layer to each of the next: one over the square root of the facts' number are in a layer.
fn dense_layers(count: usize) -> Vec<Fact> {
    let side = (count as f64 / 8.0).sqrt() as u64;
    let layer = |k: u64| (1000 * k, side);
    let all = ROLES
        .iter()
        .zip(0..)
        .flat_map(|(&name, k)| dense(name, layer(k), layer(k + 1)));
    all.collect()
}

/// The columns of the table.
pub const KINDS: [&str; 5] = [
    "sparse",
    "sparse, dead end",
    "dense",
    "dense, dead end",
    "dense, both ends asked",
];

/// The case of this kind with about so many facts.
pub fn of(count: usize, kind: &str) -> Case {
    let sheet = if kind.starts_with("sparse") {
        sparse(count)
    } else {
        dense_layers(count)
    };
    let facts = if kind.ends_with("dead end") {
        cut_off(sheet)
    } else {
        sheet
    };
    let answers: &[usize] = if kind.starts_with("sparse") || kind.ends_with("asked") {
        &[0, 8]
    } else {
        &[0]
    };
    let facts = Order::Drawn.of(facts, &mut Draw::new());
    let name = format!("{kind}, {count}");
    written(&name, &[], &ask(answers, chain(&ROLES)), facts, SHORT).expect("one member")
}
