//! A search for the smallest renaming, source by source, that can be given one fault after another, for tests.

use trials::join::variables;
use trials::rename_kinds::{key, turned};
use trials::renamings::{Outcome, Targets, NO_TARGET};
use trials::sheets::{self, Atom, Question, Term};

#[derive(Clone, Copy, PartialEq, Eq, Debug)]
pub enum Fault {
    // another renaming is found
    TargetsFalling,
    SourcesFalling,
    SourcesAsTheyStand,
    SmallestWayBack,
    // the renaming is handed back otherwise
    OtherWayRound,
    NoTargetIsZero,
    NoTargetIsItself,
    AnswerTargetsOnly,
    Source31Lost,
    SomethingLeftWhereNone,
    // one is found where there is none, or none where there is one
    TwoSourcesToOneTarget,
    AnswersOnly,
    AnswersPassedOver,
    AnswersInAnyOrder,
    AtomsIntoAtoms,
    LastAtomPassedOver,
    TurnedAtomsFit,
    ObjectsPassedOver,
    NumbersPassedOver,
    ConceptsAreLoops,
    NoStepBack,
    KeyIsEnough,
    // the sheets are read otherwise
    PartnersNotRead,
    ArgumentsNotExchanged,
    // another refusal is given
    SecondSheetFirst,
    NumbersInTurn,
    FiveBeforeFour,
    TwiceAsWritten,
    RefusedWithZeros,
}

pub const FAULTS: [Fault; 29] = [
    Fault::TargetsFalling,
    Fault::SourcesFalling,
    Fault::SourcesAsTheyStand,
    Fault::SmallestWayBack,
    Fault::OtherWayRound,
    Fault::NoTargetIsZero,
    Fault::NoTargetIsItself,
    Fault::AnswerTargetsOnly,
    Fault::Source31Lost,
    Fault::SomethingLeftWhereNone,
    Fault::TwoSourcesToOneTarget,
    Fault::AnswersOnly,
    Fault::AnswersPassedOver,
    Fault::AnswersInAnyOrder,
    Fault::AtomsIntoAtoms,
    Fault::LastAtomPassedOver,
    Fault::TurnedAtomsFit,
    Fault::ObjectsPassedOver,
    Fault::NumbersPassedOver,
    Fault::ConceptsAreLoops,
    Fault::NoStepBack,
    Fault::KeyIsEnough,
    Fault::PartnersNotRead,
    Fault::ArgumentsNotExchanged,
    Fault::SecondSheetFirst,
    Fault::NumbersInTurn,
    Fault::FiveBeforeFour,
    Fault::TwiceAsWritten,
    Fault::RefusedWithZeros,
];

/// The sheet with other numbers for the higher of two partners; as it is if it is no whole question.
fn respelled(sheet: &[u8], number: impl Fn(u16) -> u16) -> Vec<u8> {
    let mut other = sheet.to_vec();
    if sheets::question(sheet) == Err(3) {
        return other;
    }
    let terms = usize::from(sheet[0] >> 4);
    for atom in other[1 + 3 * terms..].chunks_mut(6) {
        let head = u16::from_be_bytes([atom[0], atom[1]]);
        let (is_role, role, rest) = (head >> 15 == 1, head >> 2 & 0xfff, head & 3);
        if is_role && matches!(role, 1 | 3 | 5 | 7) {
            let head = 1 << 15 | number(role) << 2 | rest;
            atom[..2].copy_from_slice(&head.to_be_bytes());
        }
    }
    other
}

/// A number that no made sheet has, so that the role is read unchanged.
fn unread(sheet: &[u8]) -> Vec<u8> {
    respelled(sheet, |role| role + 3_500)
}

fn question(sheet: &[u8], fault: Option<Fault>) -> Result<Question, u32> {
    let usual = sheets::question(sheet);
    match (fault, &usual) {
        (Some(Fault::PartnersNotRead), _) => sheets::question(&unread(sheet)),
        (Some(Fault::ArgumentsNotExchanged), _) => sheets::question(&respelled(sheet, |role| role - 1)),
        (Some(Fault::TwiceAsWritten), Err(5)) => sheets::question(&unread(sheet)),
        (Some(Fault::FiveBeforeFour), Err(4)) if sheets::meets_4_and_5(sheet) => Err(5),
        _ => usual,
    }
}

fn read(first: &[u8], second: &[u8], fault: Option<Fault>) -> Result<(Question, Question), u32> {
    let [first, second] = [first, second].map(|sheet| question(sheet, fault));
    match (fault, &first, &second) {
        (Some(Fault::SecondSheetFirst), _, Err(number)) => Err(*number),
        (Some(Fault::NumbersInTurn), Err(one), Err(other)) => Err(*one.min(other)),
        _ => Ok((first?, second?)),
    }
}

/// The question as a fault sees it.
fn blurred(mut question: Question, fault: Option<Fault>) -> Question {
    let blur = |atom: &Atom<Term>| match (fault, *atom) {
        (Some(Fault::ConceptsAreLoops), Atom::Concept(a, t)) => Atom::Role(a, t, t),
        (Some(Fault::NumbersPassedOver), Atom::Concept(_, t)) => Atom::Concept(0, t),
        (Some(Fault::NumbersPassedOver), Atom::Role(_, t, u)) => Atom::Role(0, t, u),
        (Some(Fault::ObjectsPassedOver), atom) => atom.map(some_object),
        (_, atom) => atom,
    };
    question.atoms = question.atoms.iter().map(blur).collect();
    if fault == Some(Fault::ObjectsPassedOver) {
        question.answers = question.answers.into_iter().map(some_object).collect();
    }
    question
}

fn some_object(term: Term) -> Term {
    match term {
        Term::Object(_) => Term::Object(0),
        variable => variable,
    }
}

/// The term by its new name, if it has one yet.
fn carried(term: Term, map: &Targets) -> Option<Term> {
    match term {
        Term::Variable(x) if map[x as usize] == NO_TARGET => None,
        Term::Variable(x) => Some(Term::Variable(map[x as usize])),
        object => Some(object),
    }
}

fn carried_atom(atom: Atom<Term>, map: &Targets) -> Option<Atom<Term>> {
    match atom {
        Atom::Concept(a, t) => Some(Atom::Concept(a, carried(t, map)?)),
        Atom::Role(p, t, u) => Some(Atom::Role(p, carried(t, map)?, carried(u, map)?)),
    }
}

struct Search<'a> {
    first: &'a Question,
    second: &'a Question,
    targets: Vec<u8>,
    fault: Option<Fault>,
}

impl Search<'_> {
    fn has(&self, fault: Fault) -> bool {
        self.fault == Some(fault)
    }

    fn answers_fit(&self, map: &Targets) -> bool {
        let answers = &self.second.answers;
        let mut images = self.first.answers.iter().map(|&t| carried(t, map)).enumerate();
        self.has(Fault::AnswersPassedOver)
            || images.all(|(i, image)| match image {
                Some(image) if self.has(Fault::AnswersInAnyOrder) => answers.contains(&image),
                Some(image) => answers[i] == image,
                None => true,
            })
    }

    /// Whether every atom whose variables all have targets is carried to one of the second question.
    fn atoms_fit(&self, map: &Targets) -> bool {
        let mut atoms = &self.first.atoms[..];
        if self.has(Fault::LastAtomPassedOver) {
            atoms = &atoms[..atoms.len() - 1];
        }
        let fits = |image: Atom<Term>| match image {
            Atom::Role(p, t, u) if self.has(Fault::TurnedAtomsFit) => {
                self.second.atoms.contains(&image) || self.second.atoms.contains(&Atom::Role(p, u, t))
            }
            _ => self.second.atoms.contains(&image),
        };
        self.has(Fault::AnswersOnly) || atoms.iter().filter_map(|&atom| carried_atom(atom, map)).all(fits)
    }

    /// Whether every atom of the second question is reached.
    fn all_reached(&self, map: &Targets) -> bool {
        let images = Vec::from_iter(self.first.atoms.iter().map(|&atom| carried_atom(atom, map)));
        let asks_less = matches!(
            self.fault,
            Some(Fault::AtomsIntoAtoms | Fault::AnswersOnly | Fault::LastAtomPassedOver | Fault::TurnedAtomsFit)
        );
        asks_less || self.second.atoms.iter().all(|&atom| images.contains(&Some(atom)))
    }

    /// Gives the sources targets so that all fits; false if that cannot be.
    fn goes_on(&self, sources: &[u8], map: &mut Targets) -> bool {
        let Some((&source, others)) = sources.split_first() else {
            return self.answers_fit(map) && self.atoms_fit(map) && self.all_reached(map);
        };
        for &target in &self.targets {
            if map.contains(&target) && !self.has(Fault::TwoSourcesToOneTarget) {
                continue;
            }
            map[source as usize] = target;
            if self.answers_fit(map) && self.atoms_fit(map) {
                if self.goes_on(others, map) {
                    return true;
                }
                if self.has(Fault::NoStepBack) {
                    return false;
                }
            }
            map[source as usize] = NO_TARGET;
        }
        false
    }
}

/// The variables in the order in which the atoms have them.
fn as_they_stand(question: &Question) -> Vec<u8> {
    let mut order = Vec::new();
    for term in question.atoms.iter().flat_map(|atom| atom.terms()) {
        match term {
            Term::Variable(x) if !order.contains(&x) => order.push(x),
            _ => {}
        }
    }
    order
}

/// The renaming that is found first.
fn found(first: &Question, second: &Question, fault: Option<Fault>) -> Option<Targets> {
    let mut sources = Vec::from_iter(variables(&first.atoms));
    let mut targets = Vec::from_iter(variables(&second.atoms));
    match fault {
        Some(Fault::TargetsFalling) => targets.reverse(),
        Some(Fault::SourcesFalling) => sources.reverse(),
        Some(Fault::SourcesAsTheyStand) => sources = as_they_stand(first),
        _ => {}
    }
    let search = Search {
        first,
        second,
        targets,
        fault,
    };
    let mut map = [NO_TARGET; 32];
    let same_count = first.answers.len() == second.answers.len();
    (same_count && search.goes_on(&sources, &mut map)).then_some(map)
}

/// The variables one after the other, which is no renaming in general.
fn lined_up(first: &Question, second: &Question) -> Targets {
    let mut map = [NO_TARGET; 32];
    for (source, target) in variables(&first.atoms).into_iter().zip(variables(&second.atoms)) {
        map[source as usize] = target;
    }
    map
}

/// The renaming as it is handed back.
fn handed_back(map: Targets, first: &Question, fault: Option<Fault>) -> Targets {
    let each = |other: &dyn Fn(usize, u8) -> u8| {
        let mut list = map;
        (0..32).for_each(|x| list[x] = other(x, map[x]));
        list
    };
    let is_asked = |x: usize| first.answers.contains(&Term::Variable(x as u8));
    match fault {
        Some(Fault::OtherWayRound | Fault::SmallestWayBack) => turned(&map),
        Some(Fault::NoTargetIsZero) => each(&|_, y| if y == NO_TARGET { 0 } else { y }),
        Some(Fault::NoTargetIsItself) => each(&|x, y| if y == NO_TARGET { x as u8 } else { y }),
        Some(Fault::AnswerTargetsOnly) => each(&|x, y| if is_asked(x) { y } else { NO_TARGET }),
        Some(Fault::Source31Lost) => each(&|x, y| if x == 31 { NO_TARGET } else { y }),
        _ => map,
    }
}

/// What the call gives with this fault.
pub fn renamed(first: &[u8], second: &[u8], fault: Option<Fault>) -> Outcome {
    let (first, second) = match read(first, second, fault) {
        Ok((first, second)) => (blurred(first, fault), blurred(second, fault)),
        Err(number) if fault == Some(Fault::RefusedWithZeros) => {
            let targets = [0; 32];
            return Outcome {
                targets,
                ..Outcome::refused(number)
            };
        }
        Err(number) => return Outcome::refused(number),
    };
    let map = match fault {
        Some(Fault::SmallestWayBack) => found(&second, &first, fault),
        _ => found(&first, &second, fault),
    };
    match (map, fault) {
        (Some(map), _) => Outcome::of(Some(handed_back(map, &first, fault))),
        (None, Some(Fault::KeyIsEnough)) if key(&first) == key(&second) => Outcome::of(Some(lined_up(&first, &second))),
        (None, Some(Fault::SomethingLeftWhereNone)) => Outcome {
            targets: lined_up(&first, &second),
            ..Outcome::of(None)
        },
        _ => Outcome::of(None),
    }
}
