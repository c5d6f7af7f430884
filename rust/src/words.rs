//! An explanation in words: the question, and then each step's rule and atom with the member that it leads to.
use crate::as_read::{self, Atom, Description, Indexed, Pair, Question, Rule, Rules, Term};
use crate::limits::NO_TARGET;
use crate::{member, Step};

/// Names for [`in_words_by`]: the sheets have only numbers. What has no name is called by its number.
pub trait Names {
    /// A concept's name, a noun, as in "each pump" and "pump(v0)"; else it is "concept 2".
    fn concept(&self, _number: u16) -> Option<String> {
        None
    }

    /// A role's name, a verb, as in "something drives each pump" and "drives(v1, v0)"; else it is "role 16". Of two partners only the lower
    /// is asked for, and helpers are not. Without more these are document 01's: drives, feeds, is part of, opens.
    fn role(&self, number: u16) -> Option<String> {
        let name = match number {
            0 => "drives",
            2 => "feeds",
            4 => "is part of",
            6 => "opens",
            _ => return None,
        };
        Some(name.to_string())
    }

    /// An object's name, as in "drives(v1, pump station)"; else it is "object 7".
    fn object(&self, _number: u16) -> Option<String> {
        None
    }
}

/// Numbers for all but document 01's roles.
#[derive(Clone, Copy, Debug, Default)]
pub struct Numbers;

impl Names for Numbers {}

/// An explanation in words, from member 0 on, a line or more for each member and for each step between two.
///
/// A member's line has its answer terms and its atoms, as read; v0 is variable 0. A step's line has the rule and the atom that it is used
/// on, or the two atoms that are merged, and then which variables have another name in the member after. A rule that is one of three which
/// stand for a pair of records says so; what it calls a helper is the role that links the three. These are the words for steps that
/// [`explain`](crate::explain()) gave for the same rules and union. Of other sheets and steps it says what cannot be read.
///
/// ```
/// let rules = [0x10, 0x00, 0x60, 0x00];
/// let question = [0x11, 0x00, 0x00, 0x00, 0x80, 0x00, 0x00, 0x02, 0x00, 0x00];
/// let union = takwishan::write(&rules, &question)?;
/// let facts = [0x00, 0x01, 0x00, 0x07, 0x00, 0x00];
/// let steps = takwishan::explain(&rules, &question, &union, &facts, &[0, 7])?;
/// let text = "\
/// member 0: v0 of drives(v1, v0)
///     rule 0 on drives(v1, v0): something drives each concept 1
/// member 1: v0 of concept 1(v0)
/// ";
/// assert_eq!(takwishan::in_words(&rules, &union, &steps), text);
/// # Ok::<(), takwishan::Refusal>(())
/// ```
pub fn in_words(rules: &[u8], union: &[u8], steps: &[Step]) -> String {
    in_words_by(rules, union, steps, &Numbers)
}

/// The same with names for concepts, roles and objects.
///
/// ```
/// struct Gear;
///
/// impl takwishan::Names for Gear {
///     fn concept(&self, number: u16) -> Option<String> {
///         (number == 1).then(|| "pump".to_string())
///     }
/// }
///
/// let rules = [0x10, 0x00, 0x60, 0x00];
/// let question = [0x11, 0x00, 0x00, 0x00, 0x80, 0x00, 0x00, 0x02, 0x00, 0x00];
/// let union = takwishan::write(&rules, &question)?;
/// let facts = [0x00, 0x01, 0x00, 0x07, 0x00, 0x00];
/// let steps = takwishan::explain(&rules, &question, &union, &facts, &[0, 7])?;
/// let text = takwishan::in_words_by(&rules, &union, &steps, &Gear);
/// assert!(text.contains("something drives each pump"));
/// assert!(text.ends_with("v0 of pump(v0)\n"));
/// # Ok::<(), takwishan::Refusal>(())
/// ```
pub fn in_words_by(rules: &[u8], union: &[u8], steps: &[Step], names: &dyn Names) -> String {
    let words = Words {
        rules: as_read::rules(rules).unwrap_or_default(),
        union,
        names,
    };
    let mut text = words.member(0);
    for step in steps.iter().rev() {
        text += &words.step(step);
        text += &words.renamed(step);
        text += &words.member(step.member);
    }
    text
}

/// The sheets that are spoken of, and names for what is in them.
struct Words<'a> {
    rules: Rules,
    union: &'a [u8],
    names: &'a dyn Names,
}

impl Words<'_> {
    fn concept(&self, number: u16) -> String {
        self.names.concept(number).unwrap_or(format!("concept {number}"))
    }

    /// As after "is": a pump, an engine.
    fn a_concept(&self, number: u16) -> String {
        let name = self.concept(number);
        let article = if name.starts_with(['a', 'e', 'i', 'o', 'u']) {
            "an"
        } else {
            "a"
        };
        format!("{article} {name}")
    }

    /// A role's name, if it has one. A helper is no role of the register.
    fn named(&self, role: u16) -> Option<String> {
        (!self.is_helper(role)).then(|| self.names.role(role)).flatten()
    }

    fn is_helper(&self, role: u16) -> bool {
        role >= self.rules.helpers
    }

    fn numbered(&self, role: u16) -> String {
        let sort = if self.is_helper(role) { "helper" } else { "role" };
        format!("{sort} {role}")
    }

    /// A role as in an atom: drives, role 16.
    fn role(&self, number: u16) -> String {
        self.named(number).unwrap_or_else(|| self.numbered(number))
    }

    /// A role as between two things: drives, has role 16 to.
    fn has(&self, role: u16) -> String {
        let numbered = || format!("has {} to", self.numbered(role));
        self.named(role).unwrap_or_else(numbered)
    }

    fn term(&self, term: Term) -> String {
        match term {
            Term::Variable(number) => format!("v{number}"),
            Term::Object(number) => self.names.object(number).unwrap_or(format!("object {number}")),
        }
    }

    fn atom(&self, atom: Atom) -> String {
        match atom {
            Atom::Concept(name, term) => format!("{}({})", self.concept(name), self.term(term)),
            Atom::Role(name, first, second) => {
                format!("{}({}, {})", self.role(name), self.term(first), self.term(second))
            }
        }
    }

    /// Answer terms and atoms.
    fn question(&self, question: &Question) -> String {
        let terms: Vec<String> = question.terms.iter().map(|&term| self.term(term)).collect();
        let atoms: Vec<String> = question.atoms.iter().map(|&atom| self.atom(atom)).collect();
        let atoms = atoms.join(", ");
        match terms.len() {
            0 => atoms,
            _ => format!("{} of {atoms}", terms.join(", ")),
        }
    }

    fn member(&self, number: u16) -> String {
        let question = as_read::question(member(self.union, number.into()));
        let text = question.map_or("not in the union".to_string(), |question| self.question(&question));
        format!("member {number}: {text}\n")
    }

    /// The atom of a member.
    fn atom_of(&self, number: u16, index: u16) -> String {
        let question = as_read::question(member(self.union, number.into()));
        let atom = question.and_then(|question| question.atoms.get(usize::from(index)).copied());
        atom.map_or(format!("atom {index} (not there)"), |atom| self.atom(atom))
    }

    fn step(&self, step: &Step) -> String {
        let atom = self.atom_of(step.parent, step.atom.into());
        match step.kind {
            1 => format!("    rule {} on {atom}: {}\n", step.other, self.rule(step.other)),
            2 => format!("    {atom} and {} merged\n", self.atom_of(step.parent, step.other)),
            kind => format!("    a step of kind {kind}, which there is not\n"),
        }
    }

    /// Which variables have another name in the member than in the step's result.
    fn renamed(&self, step: &Step) -> String {
        let places = step.targets.iter().enumerate();
        let changed = places.filter(|&(v, &target)| target != NO_TARGET && usize::from(target) != v);
        let names: Vec<String> = changed.map(|(v, target)| format!("v{v} to v{target}")).collect();
        match names.len() {
            0 => String::new(),
            _ => format!("    renamed: {}\n", names.join(", ")),
        }
    }

    /// The rule at this index.
    fn rule(&self, index: u16) -> String {
        match self.rules.indexed.get(usize::from(index)) {
            None => "not on the sheet".to_string(),
            Some(Indexed { rule, of: None }) => self.sentence(*rule),
            Some(Indexed {
                rule,
                of: Some((pair, place)),
            }) => {
                let place = ["first", "second", "third"][place % 3];
                let pair = self.pair(*pair);
                format!(
                    "{}\n        the {place} of three rules for: {pair}",
                    self.sentence(*rule)
                )
            }
        }
    }

    fn sentence(&self, rule: Rule) -> String {
        match rule {
            Rule::Bears(left, right) => self.bears(left, right),
            Rule::Implies { left, right, exchanged } => {
                let (left, right) = (self.has(left), self.has(right));
                match exchanged {
                    false => format!("whatever {left} a thing {right} it"),
                    true => format!("whatever a thing {left} {right} it"),
                }
            }
        }
    }

    /// Those that bear a description.
    fn each(&self, description: Description) -> String {
        match description {
            Description::Concept(name) => format!("each {}", self.concept(name)),
            Description::To(role) => format!("whatever {} something", self.has(role)),
            Description::From(role) => format!("whatever something {}", self.has(role)),
        }
    }

    fn bears(&self, left: Description, right: Description) -> String {
        let each = self.each(left);
        match right {
            Description::Concept(name) => format!("{each} is {}", self.a_concept(name)),
            Description::To(role) => format!("{each} {} something", self.has(role)),
            Description::From(role) => format!("something {} {each}", self.has(role)),
        }
    }

    /// The two records as one rule.
    fn pair(&self, pair: Pair) -> String {
        let each = self.each(pair.left);
        let filler = self.a_concept(pair.filler);
        let has = self.has(pair.role);
        match pair.to {
            true => format!("{each} {has} something that is {filler}"),
            false => format!("something that is {filler} {has} {each}"),
        }
    }
}
