//! Sheets to read: full ones to time, small ones and damaged ones to compare on.

/// Numbers that look drawn at random and are the same in each run.
pub struct Draw(u64);

impl Draw {
    pub fn new() -> Draw {
        Draw(0x9e37_79b9_7f4a_7c15)
    }

    fn below(&mut self, bound: u64) -> u64 {
        self.0 ^= self.0 << 13;
        self.0 ^= self.0 >> 7;
        self.0 ^= self.0 << 17;
        self.0 % bound
    }

    /// A concept's or a role's number; half of them below 16, where roles have partners.
    fn number(&mut self) -> u64 {
        let bound = if self.below(2) == 0 { 16 } else { 4096 };
        self.below(bound)
    }
}

/// The order of a sheet's facts, or of a member's atoms: as they were drawn, or rising, which puts concepts before roles.
#[derive(Clone, Copy, PartialEq)]
pub enum Order {
    Drawn,
    Sorted,
}

impl Order {
    fn apply(self, records: &mut [u64]) {
        if self == Order::Sorted {
            records.sort();
        }
    }
}

/// The low `bytes` bytes of a number, the most significant first.
fn put(sheet: &mut Vec<u8>, number: u64, bytes: usize) {
    sheet.extend(&number.to_be_bytes()[8 - bytes..]);
}

/// A fact's 48 bits, half of them roles.
fn fact(draw: &mut Draw) -> u64 {
    let role = draw.below(2);
    let objects = draw.below(65536) << 16 | (role * draw.below(65536));
    role << 47 | draw.number() << 32 | objects
}

/// So many sound facts.
pub fn many_facts(count: usize, order: Order) -> Vec<u8> {
    let mut draw = Draw::new();
    let mut facts: Vec<u64> = (0..count).map(|_| fact(&mut draw)).collect();
    order.apply(&mut facts);
    let mut sheet = Vec::new();
    for fact in facts {
        put(&mut sheet, fact, 6);
    }
    sheet
}

/// A term's 17 bits: a variable below `variables`, and one in eight an object.
fn term(draw: &mut Draw, variables: u64) -> u64 {
    match draw.below(8) {
        0 => 1 << 16 | draw.below(65536),
        _ => draw.below(variables),
    }
}

/// An atom's 48 bits, half of them roles.
fn atom(draw: &mut Draw, variables: u64) -> u64 {
    let role = draw.below(2);
    let terms = term(draw, variables) << 17 | (role * term(draw, variables));
    role << 47 | draw.number() << 34 | terms
}

/// An atom's 48 bits after reciprocal names are read: no two atoms of a member may share them.
fn as_read(atom: u64) -> u64 {
    let (number, first, second) = (atom >> 34 & 0xfff, atom >> 17 & 0x1ffff, atom & 0x1ffff);
    if atom >> 47 == 1 && number < 8 && number % 2 == 1 {
        return 1 << 47 | (number - 1) << 34 | second << 17 | first;
    }
    atom
}

/// The shape of a member: how many answer terms and atoms, over how many variables.
struct Shape {
    terms: usize,
    size: usize,
    variables: u64,
}

/// A sound member: each of its answer terms stands in an atom, and no atom is there twice.
fn member(draw: &mut Draw, sheet: &mut Vec<u8>, shape: Shape, order: Order) {
    let mut atoms: Vec<u64> = Vec::new();
    while atoms.len() < shape.size {
        let atom = atom(draw, shape.variables);
        if atoms.iter().all(|&other| as_read(other) != as_read(atom)) {
            atoms.push(atom);
        }
    }
    order.apply(&mut atoms);
    put(sheet, draw.below(1 << 32), 4);
    put(sheet, (shape.terms << 4 | shape.size) as u64, 1);
    for _ in 0..shape.terms {
        let from = atoms[draw.below(shape.size as u64) as usize];
        put(sheet, from >> 17 & 0x1ffff, 3);
    }
    for atom in atoms {
        put(sheet, atom, 6);
    }
}

/// A union of so many sound members, each as large as a member may be: 4 answer terms and 8 atoms.
pub fn large_union(count: usize, order: Order) -> Vec<u8> {
    let mut draw = Draw::new();
    let mut sheet = Vec::new();
    put(&mut sheet, count as u64, 2);
    for _ in 0..count {
        let shape = Shape {
            terms: 4,
            size: 8,
            variables: 32,
        };
        member(&mut draw, &mut sheet, shape, order);
    }
    sheet
}

/// A sound union of 1 to 3 members of `arity` answer terms, over few variables, so that damage often leaves it sound or meets 4 or 5.
pub fn small_union(draw: &mut Draw, arity: usize) -> Vec<u8> {
    let mut sheet = Vec::new();
    let count = 1 + draw.below(3);
    put(&mut sheet, count, 2);
    for _ in 0..count {
        let shape = Shape {
            terms: arity,
            size: 1 + draw.below(8) as usize,
            variables: 3,
        };
        member(draw, &mut sheet, shape, Order::Drawn);
    }
    sheet
}

/// Calls `visit` with the sheet, and with the sheet cut short, run on, and with single bits turned: each bit of its first and its
/// last 100 bytes, and every 61st in between.
pub fn damaged(sheet: &[u8], visit: &mut dyn FnMut(&[u8])) {
    visit(sheet);
    for cut in 0..100.min(sheet.len()) {
        visit(&sheet[..cut]);
        visit(&sheet[..sheet.len() - cut]);
    }
    let mut other = sheet.to_vec();
    for _ in 0..100 {
        other.push(0);
        visit(&other);
    }
    other.truncate(sheet.len());
    let bits = 8 * sheet.len();
    for bit in 0..bits {
        if bit % 61 == 0 || bit < 800 || bits - bit <= 800 {
            other[bit / 8] ^= 0x80 >> (bit % 8);
            visit(&other);
            other[bit / 8] ^= 0x80 >> (bit % 8);
        }
    }
}
