//! Sheets read into words: facts, and a union's members one after the other. Nothing is checked but what is needed to read them.

/// In the place of an object: there is none.
pub const FREE: u32 = 1 << 24;

/// A term that is an object is its number and this; a variable is its number alone.
pub const OBJECT: u32 = 1 << 25;

/// Most answer terms and atoms of a question, and its variables.
pub const TERMS: usize = 4;
pub const ATOMS: usize = 8;
pub const VARIABLES: usize = 32;

/// An atom: kind and number as in a fact's word, and two terms. A concept's second term is the object 0, as in its facts.
#[derive(Clone, Copy, Default, PartialEq)]
pub struct Atom {
    pub predicate: u64,
    pub first: u32,
    pub second: u32,
}

#[derive(Clone, Copy)]
pub struct Query {
    pub answers: [u32; TERMS],
    pub terms: usize,
    pub atoms: [Atom; ATOMS],
    pub size: usize,
}

pub struct Member {
    /// the 32 bits of its step
    pub step: u32,
    /// whether that merged two atoms
    pub merged: bool,
    pub query: Query,
}

impl Atom {
    /// The set of its variables.
    pub fn variables(&self) -> u32 {
        let set = |term: u32| if term < OBJECT { 1u32 << term } else { 0 };
        set(self.first) | set(self.second)
    }
}

/// The number in a few bytes, the most significant first.
fn number(bytes: &[u8]) -> u64 {
    bytes.iter().fold(0, |n, &byte| n << 8 | byte as u64)
}

/// A predicate and its two places: of two role partners the lower, the places exchanged.
fn as_read<T>(predicate: u64, first: T, second: T) -> (u64, T, T) {
    match predicate {
        0x8001 | 0x8003 | 0x8005 | 0x8007 => (predicate - 1, second, first),
        _ => (predicate, first, second),
    }
}

/// A fact as a word of 64 bits: kind 1, zeros 3, number 12, first object 24, second object 24.
pub fn fact(record: &[u8]) -> u64 {
    let bits = number(record);
    let (predicate, first, second) = as_read(bits >> 32, bits >> 16 & 0xffff, bits & 0xffff);
    predicate << 48 | first << 24 | second
}

fn term(bits: u64) -> u32 {
    let number = bits as u32 & 0xffff;
    if bits >> 16 & 1 == 1 {
        OBJECT | number
    } else {
        number % VARIABLES as u32
    }
}

fn atom(record: &[u8]) -> Atom {
    let bits = number(record);
    let (role, name) = (bits >> 47, bits >> 34 & 0xfff);
    if role == 0 {
        let (first, second) = (term(bits >> 17), OBJECT);
        return Atom {
            predicate: name,
            first,
            second,
        };
    }
    let (predicate, first, second) = as_read(1 << 15 | name, term(bits >> 17), term(bits));
    Atom {
        predicate,
        first,
        second,
    }
}

/// The members of a union sheet, each read when its turn comes.
pub struct Members<'a> {
    left: usize,
    rest: &'a [u8],
}

impl Members<'_> {
    pub fn of(sheet: &[u8]) -> Members<'_> {
        Members {
            left: number(&sheet[..2]) as usize,
            rest: &sheet[2..],
        }
    }
}

impl Iterator for Members<'_> {
    type Item = Member;

    fn next(&mut self) -> Option<Member> {
        self.left = self.left.checked_sub(1)?;
        let (head, rest) = self.rest.split_at(5);
        let (terms, size) = ((head[4] >> 4) as usize, (head[4] & 15) as usize);
        let (answer_part, rest) = rest.split_at(3 * terms);
        let (atom_part, rest) = rest.split_at(6 * size);
        self.rest = rest;
        let mut query = Query {
            answers: [OBJECT; TERMS],
            terms,
            atoms: [Atom::default(); ATOMS],
            size,
        };
        for (place, record) in query.answers.iter_mut().zip(answer_part.chunks_exact(3)) {
            *place = term(number(record));
        }
        for (place, record) in query.atoms.iter_mut().zip(atom_part.chunks_exact(6)) {
            *place = atom(record);
        }
        Some(Member {
            step: number(&head[..4]) as u32,
            merged: head[0] >> 6 == 2,
            query,
        })
    }
}
