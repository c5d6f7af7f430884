//! Full-size work: whole process against whole process, the program on files and the `sqlite3` command on a ready, indexed one; the
//! library's call and sqlite3's own timer; the library before; and the plain program of the same algorithm.
use super::all::sqlite;
use super::{answers, chosen, drawing, head, ms, ms_or, ratio, row, too_long};
use crate::cases::{full, Case};
use crate::compare::{as_sqlite, compare_in_time};
use crate::desk::Desk;
use crate::turns::{self, Call, Span};
use crate::{before, plain, probe, proved, Drawn};

const SPAN: Span = Span {
    rounds: 4,
    seconds: 1.0,
    most_seconds: 2.0,
};

/// The other programs have no longer than this for a case.
const LIMIT: f64 = 60.0;
const TOO_LONG: &str = "> 60000";

/// A process is run so many times at least, and for so many seconds.
const RUNS: usize = 5;
const SECONDS: f64 = 0.5;

const COLUMNS: [&str; 15] = [
    "case",
    "members",
    "atoms",
    "facts",
    "answers",
    "program",
    "sqlite3, process",
    "program/sqlite3",
    "answer",
    "sqlite3, timer",
    "answer/timer",
    "check",
    "drawing",
    "plain",
    "drawing/plain",
];

/// The least seconds of several runs.
fn best(mut run: impl FnMut() -> Option<f64>) -> Option<f64> {
    let (mut best, mut spent, mut runs) = (run()?, 0.0, 1);
    while (runs < RUNS || spent < SECONDS) && best < LIMIT / 10.0 {
        let seconds = run()?;
        best = best.min(seconds);
        spent += seconds;
        runs += 1;
    }
    Some(best)
}

/// The seconds of the library's calls, if it ends: all of it, checking alone, and the earlier one's; and of the plain program.
fn calls(case: &Case, [ends, earlier_ends]: [bool; 2]) -> (Option<[f64; 2]>, Option<f64>, f64) {
    let plain = Call::Answer(plain::answer);
    let library = proved::LIBRARY;
    let earlier = before::LIBRARY.filter(|_| earlier_ends);
    let earlier = earlier.map(|library| turns::take([Call::Answer(library.answer)], case, &SPAN)[0]);
    if !ends {
        let [plain] = turns::take([plain], case, &SPAN);
        return (None, earlier, plain);
    }
    let of_library = [Call::Answer(library.answer), Call::Check(library.check)];
    let [answer, check, plain] = turns::take([of_library[0], of_library[1], plain], case, &SPAN);
    (Some([answer, check]), earlier, plain)
}

fn ratio_or(one: Option<f64>, other: Option<f64>) -> String {
    one.zip(other).map_or("-".to_string(), |(one, other)| ratio(one, other))
}

/// The seconds of the program's whole process, if it is built: it says what was drawn.
fn program(case: &Case, drawn: Drawn, desk: &Desk) -> Option<f64> {
    let (said, _) = desk.program(LIMIT)?;
    let expected = match drawn.number {
        0 => format!("accepted {}", drawn.count),
        number => format!("refused {number}"),
    };
    assert_eq!(said, expected, "{}: the program differs", case.name);
    best(|| Some(desk.program(LIMIT)?.1))
}

/// The case's line, and that of the earlier library if there is one.
fn line(case: &Case, desk: &Desk) -> (String, Option<String>) {
    let (drawn, list, ends) = compare_in_time(case, probe::limit());
    desk.load(case);
    let process = as_sqlite(case, drawn, &list, desk, LIMIT);
    let process = process.and_then(|_| best(|| Some(desk.answers(case, LIMIT)?.2)));
    let program = program(case, drawn, desk);
    let timer = process.and_then(|_| sqlite(case, desk, LIMIT));
    let (library, earlier, plain) = calls(case, ends);
    let (answer, check) = (library.map(|times| times[0]), library.map(|times| times[1]));
    let drawing = library.map(|[answer, check]| drawing(answer, check));
    let cells = row(&[
        &case.name,
        &case.members.len().to_string(),
        &case.members[0].atoms.len().to_string(),
        &case.entries.len().to_string(),
        &answers(drawn),
        &ms_or(program, "-"),
        &ms_or(process, TOO_LONG),
        &ratio_or(program, process),
        &ms_or(answer, &too_long()),
        &ms_or(timer, TOO_LONG),
        &ratio_or(answer, timer),
        &ms_or(check, "-"),
        &ms_or(drawing, "-"),
        &ms(plain),
        &ratio_or(drawing, Some(plain)),
    ]);
    (cells, before::LIBRARY.map(|_| earlier_line(case, earlier, answer)))
}

fn earlier_line(case: &Case, earlier: Option<f64>, answer: Option<f64>) -> String {
    row(&[
        &case.name,
        &ms_or(earlier, &too_long()),
        &ms_or(answer, &too_long()),
        &ratio_or(earlier, answer),
    ])
}

pub fn print(part: Option<&str>) {
    let desk = Desk::new();
    let (mut lines, mut earlier) = (Vec::new(), Vec::new());
    for case in full::cases().iter().filter(|case| chosen(case, part)) {
        let (line, before) = line(case, &desk);
        eprintln!("{line}");
        lines.push(line);
        earlier.extend(before);
    }
    println!(
        "All that ended agree on all {} cases. Milliseconds of the processor.",
        lines.len()
    );
    println!("{}\n{}\n", head(&COLUMNS), lines.join("\n"));
    if !earlier.is_empty() {
        println!(
            "{}\n{}\n",
            head(&["case", "answer before", "answer", "before/after"]),
            earlier.join("\n")
        );
    }
}
