//! All that a register may ask: the proved library beside the plain program of the same algorithm and the `sqlite3` command, worst first.
use super::{answers, chosen, drawing, head, ms, ms_or, ratio, row};
use crate::cases::{all, Case};
use crate::compare::compare;
use crate::desk::Desk;
use crate::proved::LIBRARY;
use crate::turns::{self, Call, Span};
use crate::{plain, Drawn};

/// Drawing alone is a difference, which takes many turns to be told.
const SPAN: Span = Span {
    rounds: 4,
    seconds: 1.0,
    most_seconds: 1.0,
};

/// So many seconds for sqlite3.
const SQLITE_SECONDS: f64 = 0.2;

const COLUMNS: [&str; 12] = [
    "case",
    "members",
    "atoms",
    "answers",
    "list",
    "answer",
    "check",
    "drawing",
    "plain",
    "answer/plain",
    "drawing/plain",
    "sqlite3",
];

/// The best of some runs of sqlite3.
pub fn sqlite(case: &Case, desk: &Desk, limit: f64) -> Option<f64> {
    let once = desk.seconds(case, 1, limit)?;
    let runs = (SQLITE_SECONDS / once.max(1e-5)).min(1000.0) as usize + 1;
    Some(desk.seconds(case, runs, limit)?.min(once))
}

/// A line of the table, and by what the lines are sorted.
fn line(case: &Case, drawn: Drawn, desk: &Desk) -> (f64, String) {
    let calls = [
        Call::Answer(LIBRARY.answer),
        Call::Check(LIBRARY.check),
        Call::Answer(plain::answer),
    ];
    let [answer, check, plain] = turns::take(calls, case, &SPAN);
    let drawing = drawing(answer, check);
    let line = row(&[
        &case.name,
        &case.members.len().to_string(),
        &case.members[0].atoms.len().to_string(),
        &answers(drawn),
        &format!("{} KB", case.list / 1024),
        &ms(answer),
        &ms(check),
        &ms(drawing),
        &ms(plain),
        &ratio(answer, plain),
        &ratio(drawing, plain),
        &ms_or(sqlite(case, desk, f64::INFINITY), "-"),
    ]);
    (drawing / plain, line)
}

pub fn print(part: Option<&str>) {
    let desk = Desk::new();
    let mut lines = Vec::new();
    for case in all::cases().iter().filter(|case| chosen(case, part)) {
        let drawn = compare(case, &desk);
        let (ratio, line) = line(case, drawn, &desk);
        eprintln!("{line}");
        lines.push((ratio, line));
    }
    lines.sort_by(|a, b| b.0.total_cmp(&a.0));
    println!(
        "All agree on all {} cases. Milliseconds of the processor, the best of several turns.",
        lines.len()
    );
    println!("{}", head(&COLUMNS));
    for (_, line) in lines {
        println!("{line}");
    }
}
