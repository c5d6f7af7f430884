//! The same union as an SQL statement: a `UNION` of joins, one for each member.
use crate::cases::sheets::{Atom, Query, Term};
use crate::cases::Case;

/// sqlite3 takes no more than 500 parts in one compound.
const PARTS: usize = 128;

/// A join in the making: its tables, its conditions, and the column that a variable first stood in.
#[derive(Default)]
struct Join {
    from: Vec<String>,
    wants: Vec<String>,
    column: [Option<String>; 32],
}

impl Join {
    fn place(&mut self, term: Term, name: String) {
        match term {
            Term::Object(object) => self.wants.push(format!("{name}={object}")),
            Term::Variable(v) => match &self.column[v as usize] {
                Some(other) => self.wants.push(format!("{name}={other}")),
                None => self.column[v as usize] = Some(name),
            },
        }
    }

    /// Each role's and concept's facts are rows of one table.
    fn of(atoms: &[Atom]) -> Join {
        let mut join = Join::default();
        for (i, &atom) in atoms.iter().enumerate() {
            let number = match atom {
                Atom::Concept(number, t) => {
                    join.from.push(format!("concept f{i}"));
                    join.place(t, format!("f{i}.object"));
                    number
                }
                Atom::Role(number, t, u) => {
                    join.from.push(format!("role f{i}"));
                    join.place(t, format!("f{i}.first"));
                    join.place(u, format!("f{i}.second"));
                    number
                }
            };
            join.wants.push(format!("f{i}.number={number}"));
        }
        join
    }

    fn exists(&self) -> String {
        format!(
            "EXISTS (SELECT 1 FROM {} WHERE {})",
            self.from.join(","),
            self.wants.join(" AND ")
        )
    }
}

fn terms(atom: Atom) -> Vec<Term> {
    match atom {
        Atom::Concept(_, t) => vec![t],
        Atom::Role(_, t, u) => vec![t, u],
    }
}

/// The atoms that a chain of shared variables ties to the answer, and the rest.
fn tied(query: &Query) -> (Vec<Atom>, Vec<Atom>) {
    let mut reached: Vec<Term> = query.answers.clone();
    let (mut tied, mut rest) = (Vec::new(), query.atoms.clone());
    let shared = |atom: &Atom, reached: &[Term]| {
        terms(*atom)
            .iter()
            .any(|term| matches!(term, Term::Variable(_)) && reached.contains(term))
    };
    while let Some(i) = rest.iter().position(|atom| shared(atom, &reached)) {
        let atom = rest.remove(i);
        reached.extend(terms(atom));
        tied.push(atom);
    }
    (tied, rest)
}

/// One member as a query: a join of the atoms that have to do with the answer; of the rest it is asked only whether it has a match.
fn member(query: &Query) -> String {
    let (tied, rest) = tied(query);
    let mut join = Join::of(&tied);
    if !rest.is_empty() {
        join.wants.push(Join::of(&rest).exists());
    }
    let mut answers = Vec::new();
    for (k, &term) in query.answers.iter().enumerate() {
        let value = match term {
            Term::Object(object) => object.to_string(),
            Term::Variable(v) => {
                let column = join.column[v as usize].clone();
                column.expect("an answer variable stands in an atom")
            }
        };
        answers.push(format!("{value} AS a{k}"));
        // a lost tag is in no answer
        join.wants.push(format!("{value} NOT BETWEEN 65024 AND 65535"));
    }
    if answers.is_empty() {
        answers.push("1".to_string());
    }
    let (answers, wants) = (answers.join(","), join.wants.join(" AND "));
    match join.from.join(",") {
        from if from.is_empty() => format!("SELECT {answers} WHERE {wants}"),
        from => format!("SELECT DISTINCT {answers} FROM {from} WHERE {wants}"),
    }
}

/// The whole union, ascending.
pub fn statement(case: &Case) -> String {
    let members: Vec<String> = case.members.iter().map(member).collect();
    let parts: Vec<String> = members.chunks(PARTS).map(|part| part.join(" UNION ")).collect();
    let union = match &parts[..] {
        [one] => one.clone(),
        _ => parts
            .iter()
            .map(|part| format!("SELECT * FROM ({part})"))
            .collect::<Vec<_>>()
            .join(" UNION "),
    };
    let order: Vec<String> = (1..=case.members[0].answers.len().max(1))
        .map(|k| k.to_string())
        .collect();
    format!("{union} ORDER BY {};\n", order.join(","))
}
