//! Comparison up to renaming. The smallest renaming is searched for: source variables rising, targets rising, with the proved search's
//! reasons to give up a branch. Where only yes or no is asked, a renaming is guessed first and tested once.
use super::key::{key_of, shapes_of, Shapes};
use super::words::{is_variable, Atom, Query, Term};
use std::cell::Cell;

/// Where each variable goes, 32 where it is not assigned, and the set of the targets taken.
#[derive(Clone, Copy)]
struct Partial {
    to: [u8; 32],
    taken: u32,
}

impl Partial {
    fn new() -> Partial {
        Partial {
            to: [32; 32],
            taken: 0,
        }
    }

    fn set(&mut self, v: u32, w: u32) {
        self.to[v as usize] = w as u8;
        self.taken |= 1 << w;
    }

    fn with(&self, v: u32, w: u32) -> Partial {
        let mut next = *self;
        next.set(v, w);
        next
    }

    /// Lets s go to t if both are variables, s has no target and t is not taken; leaves all as it is otherwise.
    fn take(&mut self, s: Term, t: Term) {
        if is_variable(s) && is_variable(t) && self.to[s as usize] == 32 && self.taken >> t & 1 == 0
        {
            self.set(s, t);
        }
    }

    /// Whether the term s may still become t.
    fn may_be(&self, s: Term, t: Term) -> bool {
        if !is_variable(s) || !is_variable(t) {
            return s == t;
        }
        match self.to[s as usize] {
            32 => self.taken >> t & 1 == 0,
            target => target as Term == t,
        }
    }

    fn may_atom(&self, a: Atom, b: Atom) -> bool {
        a.predicate() == b.predicate()
            && self.may_be(a.first(), b.first())
            && (!a.is_role() || self.may_be(a.second(), b.second()))
    }
}

/// The variables of the atoms for which the test holds.
fn variables_of(query: &Query, test: impl Fn(Atom) -> bool) -> u32 {
    let atoms = query.atoms().iter().filter(|&&atom| test(atom));
    atoms
        .flat_map(|atom| atom.terms())
        .filter(|&term| is_variable(term))
        .fold(0, |set, variable| set | 1 << variable)
}

/// The variables of the atoms that have v in them.
fn beside(query: &Query, v: u32) -> u32 {
    variables_of(query, |atom| atom.has(v))
}

/// How many variables the atoms with the predicate of a have.
fn spread(query: &Query, a: Atom) -> u32 {
    variables_of(query, |atom| atom.predicate() == a.predicate()).count_ones()
}

struct Search<'a> {
    p: &'a Query,
    q: &'a Query,
    sources: u32,
    targets: u32,
    tests: &'a Cell<u64>,
}

impl Search<'_> {
    /// Whether no answer term and no atom speaks against the partial renaming.
    fn promising(&self, m: &Partial) -> bool {
        self.tests.set(self.tests.get() + 1);
        let (p, q) = (self.p, self.q);
        p.answers().len() == q.answers().len()
            && p.answers()
                .iter()
                .zip(q.answers())
                .all(|(&s, &t)| m.may_be(s, t))
            && p.atoms()
                .iter()
                .all(|&a| q.atoms().iter().any(|&b| m.may_atom(a, b)))
            && q.atoms()
                .iter()
                .all(|&b| p.atoms().iter().any(|&a| m.may_atom(a, b)))
    }

    /// Whether v may go to w as far as w alone tells.
    fn offers(&self, v: u32, w: u32, m: &Partial) -> bool {
        (self.targets & !m.taken) >> w & 1 == 1
            && beside(self.p, v).count_ones() == beside(self.q, w).count_ones()
    }

    /// Whether v has a target left.
    fn has_target(&self, v: u32, m: &Partial) -> bool {
        (0..32).any(|w| self.offers(v, w, m) && self.promising(&m.with(v, w)))
    }

    /// Whether each variable from n on that is to be looked at has a target left.
    fn hopeful(&self, look: u32, n: u32, m: &Partial) -> bool {
        let look = look & self.sources;
        (n..32).all(|v| look >> v & 1 == 0 || self.has_target(v, m))
    }

    /// The smallest renaming that goes on from the partial one, in which the variables below v are assigned.
    fn complete(&self, v: u32, m: &Partial) -> Option<Partial> {
        if v == 32 {
            return Some(*m);
        }
        if self.sources >> v & 1 == 0 {
            return self.complete(v + 1, m);
        }
        (0..32).find_map(|w| {
            if !self.offers(v, w, m) {
                return None;
            }
            let next = m.with(v, w);
            let goes_on = self.promising(&next) && self.hopeful(beside(self.p, v), v + 1, &next);
            goes_on.then(|| self.complete(v + 1, &next)).flatten()
        })
    }

    /// Lets the variables of a go to those of the first atom that it may become and whose variables have the same shapes.
    fn guess_atom(&self, a: Atom, [ours, theirs]: &[Shapes; 2], m: &mut Partial) {
        let like = |s: Term, t: Term| ours.of(s) == theirs.of(t);
        let fits = |&&b: &&Atom| {
            m.may_atom(a, b)
                && like(a.first(), b.first())
                && (!a.is_role() || like(a.second(), b.second()))
        };
        if let Some(b) = self.q.atoms().iter().find(fits) {
            m.take(a.first(), b.first());
            if a.is_role() {
                m.take(a.second(), b.second());
            }
        }
    }

    /// Whether the guess by these shapes is a renaming: each atom in order goes to the first that fits, and all is tested once.
    fn guessed(&self, shapes: &[Shapes; 2]) -> bool {
        let mut m = Partial::new();
        for &a in self.p.atoms() {
            self.guess_atom(a, shapes, &mut m);
        }
        let has_target = |v: usize| self.sources >> v & 1 == 0 || m.to[v] < 32;
        (0..32).all(has_target) && self.promising(&m)
    }

    /// The smallest renaming.
    fn first(&self) -> Option<[u8; 32]> {
        let (p, q, m) = (self.p, self.q, Partial::new());
        let begins = self.promising(&m)
            && p.atoms().iter().all(|&a| spread(p, a) == spread(q, a))
            && self.hopeful(!0, 0, &m);
        begins.then(|| self.complete(0, &m)).flatten().map(|m| m.to)
    }

    /// The same. Queries with different keys have none.
    fn smallest(&self) -> Option<[u8; 32]> {
        let same = key_of(self.p) == key_of(self.q);
        same.then(|| self.first()).flatten()
    }

    fn new<'a>(p: &'a Query, q: &'a Query, tests: &'a Cell<u64>) -> Search<'a> {
        Search {
            p,
            q,
            sources: p.variables(),
            targets: q.variables(),
            tests,
        }
    }
}

/// The smallest one-to-one renaming that carries p to q: where each variable of p goes, 32 for the others. `tests` counts how often a
/// partial renaming is tested.
pub fn rename(p: &Query, q: &Query, tests: &Cell<u64>) -> Option<[u8; 32]> {
    Search::new(p, q, tests).smallest()
}

/// The same with no look at the keys, for queries that are alike.
#[allow(dead_code)] // bench/drawing's
pub fn rename_alike(p: &Query, q: &Query, tests: &Cell<u64>) -> Option<[u8; 32]> {
    Search::new(p, q, tests).first()
}

/// Whether a one-to-one renaming carries p to q: guessed by the atoms alone, else by the key's shapes too, else searched for.
pub fn alike(p: &Query, q: &Query, tests: &Cell<u64>) -> bool {
    let search = Search::new(p, q, tests);
    search.guessed(&Default::default())
        || search.guessed(&[shapes_of(p), shapes_of(q)])
        || search.smallest().is_some()
}
