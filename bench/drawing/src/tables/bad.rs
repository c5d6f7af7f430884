//! Bad sheets: the library beside the plain program of the same algorithm and the `sqlite3` command, each as long as it may; worst first.
use super::{answers, chosen, drawing, head, ms, ms_or, ratio, row, too_long};
use crate::cases::bad::{lines, Group};
use crate::cases::Case;
use crate::compare::{as_sqlite, compare_in_time};
use crate::desk::Desk;
use crate::turns::{self, Call, Span};
use crate::{plain, probe, proved};

const SPAN: Span = Span {
    rounds: 2,
    seconds: 0.3,
    most_seconds: 1.0,
};

/// So many seconds for sqlite3.
const SQLITE_LIMIT: f64 = 3.0;
const SQLITE_TOO_LONG: &str = "> 3000";

const COLUMNS: [&str; 10] = [
    "sheet",
    "members",
    "searched",
    "answers",
    "answer",
    "check",
    "drawing",
    "plain",
    "drawing/plain",
    "sqlite3",
];

/// The seconds that the lines are sorted by, and the line.
fn line(case: &Case, desk: &Desk) -> (f64, String) {
    let (drawn, list, [ends, _]) = compare_in_time(case, probe::limit());
    desk.load(case);
    let sqlite = as_sqlite(case, drawn, &list, desk, SQLITE_LIMIT);
    let plain = Call::Answer(plain::answer);
    let library = proved::LIBRARY;
    let (library, plain) = if ends {
        let calls = [Call::Answer(library.answer), Call::Check(library.check), plain];
        let [answer, check, plain] = turns::take(calls, case, &SPAN);
        (Some((answer, check)), plain)
    } else {
        (None, turns::take([plain], case, &SPAN)[0])
    };
    let drawing = library.map(|(answer, check)| drawing(answer, check));
    let cells = row(&[
        &case.name,
        &case.members.len().to_string(),
        &plain::searched(&case.union).to_string(),
        &answers(drawn),
        &ms_or(library.map(|times| times.0), &too_long()),
        &ms_or(library.map(|times| times.1), "-"),
        &ms_or(drawing, "-"),
        &ms(plain),
        &drawing.map_or("-".to_string(), |drawing| ratio(drawing, plain)),
        &ms_or(sqlite, SQLITE_TOO_LONG),
    ]);
    (library.map_or(f64::INFINITY, |times| times.0), cells)
}

fn table(group: Group, said: &str, part: Option<&str>, desk: &Desk) {
    let mut rows = Vec::new();
    for bad in lines()
        .iter()
        .filter(|bad| bad.group == group && chosen(&bad.case, part))
    {
        let (seconds, cells) = line(&bad.case, desk);
        eprintln!("{cells}");
        rows.push((seconds, cells));
    }
    rows.sort_by(|a, b| b.0.total_cmp(&a.0));
    println!(
        "{said}: all that ended agree on all {}. Milliseconds of the processor.",
        rows.len()
    );
    println!("{}", head(&COLUMNS));
    for (_, cells) in rows {
        println!("{cells}");
    }
    println!();
}

pub fn print(part: Option<&str>) {
    let desk = Desk::new();
    table(Group::Acyclic, "Without rings", part, &desk);
    table(Group::Cyclic, "With rings or cliques", part, &desk);
}
