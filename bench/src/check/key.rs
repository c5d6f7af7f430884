//! The key that alike queries share: the same number as the proved library's, so that both pass over the same members.
use super::words::{is_variable, Atom, Query, Term};

fn scrambled(m: u64) -> u64 {
    m % 536870909 * (m % 536870879)
}

fn mixed(code: u64, x: u64, y: u64) -> u64 {
    scrambled(code * 47615012787481 + x % 2147483647 * 1678998313 + y % 2147483647 * 1560889471)
}

/// What is known of each variable.
#[derive(Default)]
pub struct Shapes([u64; 32]);

impl Shapes {
    /// A variable's shape, or the object itself.
    pub fn of(&self, term: Term) -> u64 {
        match is_variable(term) {
            true => self.0[term as usize],
            false => term as u64,
        }
    }

    fn give(&mut self, term: Term, more: u64) {
        if is_variable(term) {
            self.0[term as usize] += more;
        }
    }

    fn atom(&self, atom: Atom) -> u64 {
        let code = 4 * atom.number() as u64;
        let x = self.of(atom.first());
        if !atom.is_role() {
            return mixed(code + 2, x, 0);
        }
        let loops = (atom.first() == atom.second()) as u64;
        mixed(code + 3 + loops, x, self.of(atom.second()))
    }

    /// What the answer positions give.
    fn first(query: &Query) -> Shapes {
        let mut shapes = Shapes::default();
        for (i, &answer) in query.answers().iter().enumerate() {
            shapes.give(answer, mixed(4 * i as u64 + 1, 0, 0));
        }
        shapes
    }

    /// What the atoms give.
    fn next(&self, query: &Query) -> Shapes {
        let mut shapes = Shapes::default();
        for &atom in query.atoms() {
            let more = self.atom(atom);
            shapes.give(atom.first(), more);
            if atom.is_role() {
                shapes.give(atom.second(), scrambled(more));
            }
        }
        shapes
    }
}

/// What answer positions and two rounds of the atoms tell of each variable: variables that a renaming carries to each other share it.
pub fn shapes_of(query: &Query) -> Shapes {
    Shapes::first(query).next(query).next(query)
}

pub fn key_of(query: &Query) -> u64 {
    let shapes = shapes_of(query);
    let answer = |(i, &term): (usize, &Term)| mixed(4 * i as u64 + 1, shapes.of(term), 0);
    let answers: u64 = query.answers().iter().enumerate().map(answer).sum();
    let atoms: u64 = query.atoms().iter().map(|&atom| shapes.atom(atom)).sum();
    answers + atoms
}
