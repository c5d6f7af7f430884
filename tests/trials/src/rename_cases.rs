//! Pairs of question sheets: a question and itself by other names, one that only seems so, another one, and damaged sheets on either side.

use crate::alike::alike;
use crate::chance::Chance;
use crate::damage;
use crate::damage_bytes;
use crate::join::variables;
use crate::rename_kinds::key;
use crate::rename_questions::{even, two_usual};
use crate::sheets::{Atom, Question, Term};
use crate::write;

/// Twists that are tried for one that leaves the key and no renaming.
const MOST_TWISTS: usize = 20;
/// Questions that are twisted for one that can be.
const MOST_TWINS: usize = 10;

/// In how many manners two questions belong together; see `questions`.
const MANNERS: u64 = 12;
/// What damage of either sheet may be aimed at; 0 is none.
const AIMS: [u32; 4] = [0, 3, 4, 5];

/// Two question sheets.
#[derive(Clone, Debug)]
pub struct Pair {
    pub first: Vec<u8>,
    pub second: Vec<u8>,
}

/// The same question with its variables renamed one to one, by any numbers, low ones or high ones, and its atoms in another order.
fn renamed(question: &Question, chance: &mut Chance) -> Question {
    let standing = Vec::from_iter(variables(&question.atoms));
    let most = standing.len().max(1);
    let mut pool = Vec::from_iter(match chance.below(4) {
        0 => 0..most as u8,
        1 => 32 - most as u8..32,
        _ => 0..32,
    });
    chance.shuffle(&mut pool);
    let target = |term: Term| match term {
        Term::Variable(x) => Term::Variable(standing.iter().position(|&y| y == x).map_or(x, |at| pool[at])),
        object => object,
    };
    let mut atoms = Vec::from_iter(question.atoms.iter().map(|atom| atom.map(target)));
    chance.shuffle(&mut atoms);
    Question {
        answers: question.answers.iter().copied().map(target).collect(),
        atoms,
    }
}

/// Two atoms exchange their last terms.
fn exchange_ends(atoms: &mut [Atom<Term>], chance: &mut Chance) {
    let (i, j) = (chance.below(atoms.len()), chance.below(atoms.len()));
    match (atoms[i], atoms[j]) {
        (Atom::Role(p, t, u), Atom::Role(q, v, w)) if i != j => {
            atoms[i] = Atom::Role(p, t, w);
            atoms[j] = Atom::Role(q, v, u);
        }
        (Atom::Concept(a, t), Atom::Concept(b, u)) if i != j => {
            atoms[i] = Atom::Concept(a, u);
            atoms[j] = Atom::Concept(b, t);
        }
        _ => {}
    }
}

/// The answer terms change their order, or one of them becomes another.
fn change_answers(question: &mut Question, chance: &mut Chance) {
    let standing = Vec::from_iter(variables(&question.atoms));
    if question.answers.is_empty() || standing.is_empty() || chance.one_in(2) {
        chance.shuffle(&mut question.answers);
    } else {
        let at = chance.below(question.answers.len());
        question.answers[at] = Term::Variable(chance.of(&standing));
    }
}

/// A change that may leave the key: of ends, of answer terms, or of an atom that is turned.
fn twist(question: &mut Question, chance: &mut Chance) {
    match chance.below(8) {
        0 | 1 => change_answers(question, chance),
        2 => {
            let at = chance.below(question.atoms.len());
            if let Atom::Role(p, t, u) = question.atoms[at] {
                question.atoms[at] = Atom::Role(p, u, t);
            }
        }
        _ => exchange_ends(&mut question.atoms, chance),
    }
}

fn has_atom_twice(question: &Question) -> bool {
    let atoms = &question.atoms;
    (1..atoms.len()).any(|i| atoms[..i].contains(&atoms[i]))
}

/// A question with the same key and no renaming, if some twists give one.
fn twisted(question: &Question, chance: &mut Chance) -> Option<Question> {
    (0..MOST_TWISTS).find_map(|_| {
        let mut other = question.clone();
        for _ in 0..chance.from(1, 3) {
            twist(&mut other, chance);
        }
        let fits = !has_atom_twice(&other) && key(&other) == key(question) && !alike(&other, question);
        fits.then_some(other)
    })
}

/// Two questions with the same key and no renaming, if chance gives them soon.
fn twins(large: bool, chance: &mut Chance) -> [Question; 2] {
    for _ in 0..MOST_TWINS {
        let question = even(large, chance);
        if let Some(other) = twisted(&question, chance) {
            return [question, other];
        }
    }
    [even(large, chance), even(large, chance)]
}

/// The question with another object for one of its objects, everywhere.
fn change_object(question: &mut Question, chance: &mut Chance) {
    let terms = question.atoms.iter().flat_map(|atom| atom.terms());
    let objects = Vec::from_iter(terms.filter(|t| matches!(t, Term::Object(_))));
    if objects.is_empty() {
        return;
    }
    let old = chance.of(&objects);
    let new = Term::Object(chance.of(&[0, 1, 9, 256, 65_535]));
    let put = |t: Term| if t == old { new } else { t };
    question.answers.iter_mut().for_each(|t| *t = put(*t));
    question.atoms.iter_mut().for_each(|atom| *atom = atom.map(put));
}

/// A question that differs in little.
fn nearly(question: &Question, chance: &mut Chance) -> Question {
    let mut other = question.clone();
    let is_object = |t| matches!(t, Term::Object(_));
    let has_object = other.atoms.iter().any(|atom| atom.terms().any(is_object));
    match chance.below(9) {
        0 | 1 if has_object => change_object(&mut other, chance),
        0..=2 if other.answers.len() > 1 => change_answers(&mut other, chance),
        3 if other.atoms.len() > 1 => drop(other.atoms.pop()),
        0..=6 => damage::rename_badly(&mut other, chance),
        _ => damage::change_place(&mut other, chance),
    }
    other
}

/// Two questions: the second is the first, one with the same key, nearly the first, or another one; both by names of their own.
fn questions(manner: u64, chance: &mut Chance) -> [Question; 2] {
    let twice = |question: Question| [question.clone(), question];
    let beside = |question: Question, chance: &mut Chance| match (nearly(&question, chance), chance.one_in(3)) {
        (near, true) => [near, question],
        (near, false) => [question, near],
    };
    let usual = two_usual(chance);
    let [first, second] = match manner {
        0..=3 => twice(even(false, chance)),
        4 | 5 => twins(false, chance),
        6 | 7 => beside(even(false, chance), chance),
        8 => twice(usual[0].clone()),
        9 => beside(usual[0].clone(), chance),
        10 => usual,
        _ if chance.one_in(2) => twice(even(true, chance)),
        _ => twins(true, chance),
    };
    [renamed(&first, chance), renamed(&second, chance)]
}

/// The sheet runs on by so many zeros that a length kept in fewer bits would be right.
fn run_on_far(bytes: &mut Vec<u8>, chance: &mut Chance) {
    let more = chance.of(&[256, 65_536]);
    bytes.resize(bytes.len() + more, 0);
}

/// A question's sheet, damaged so that it may meet this number: an answer variable stands nowhere (4), an atom stands twice (5), at times
/// both, or the bytes are no question (3), which at times would meet the others too.
fn wounded(aim: u32, question: &Question, chance: &mut Chance) -> Vec<u8> {
    let mut question = question.clone();
    let also = chance.one_in(3);
    if aim == 5 || also && aim != 0 {
        damage::repeat_atom(&mut question, chance);
    }
    if aim == 4 || also && aim == 3 {
        damage::lose_answer(&mut question, chance);
    }
    let mut bytes = write::question(&question, chance);
    match aim {
        3 if chance.one_in(16) => run_on_far(&mut bytes, chance),
        3 => damage_bytes::question_sheet(&mut bytes, chance),
        _ => {}
    }
    bytes
}

/// One bit turned over.
fn turn_a_bit(bytes: &mut [u8], chance: &mut Chance) {
    if !bytes.is_empty() {
        let at = chance.below(bytes.len());
        bytes[at] ^= 1 << chance.below(8);
    }
}

/// The pair of this turn; one in three is damaged.
pub fn pair(seed: u64, turn: u64) -> Pair {
    let chance = &mut Chance::new(seed.wrapping_mul(7_000_003).wrapping_add(turn));
    let [first, second] = questions(turn / 3 % MANNERS, chance);
    let is_damaged = turn % 3 == 2;
    let first_stays = !is_damaged || chance.one_in(3);
    let one = if first_stays { 0 } else { chance.of(&AIMS) };
    let other = if is_damaged { chance.of(&AIMS) } else { 0 };
    let mut pair = Pair {
        first: wounded(one, &first, chance),
        second: wounded(other, &second, chance),
    };
    if is_damaged && chance.one_in(4) {
        let sheet = if chance.one_in(2) {
            &mut pair.first
        } else {
            &mut pair.second
        };
        turn_a_bit(sheet, chance);
    }
    pair
}
