//! Explaining: the library beside the plain program of the same algorithm, and beside drawing the whole list; worst first. Of each list the
//! first, the middle and the last tuple are explained, and one that is none.
use super::{answers, chosen, drawing, head, ms, ratio, row};
use crate::cases::{bad, explain, full, Case, Draw};
use crate::proved::LIBRARY;
use crate::{clock, plain, proved, Drawn};
use takwishan::limits::MOST_EXPLANATION_BYTES;

/// A time is the median of so many runs, or of fewer if they take longer than this.
const RUNS: usize = 15;
const SECONDS: f64 = 0.5;

/// So many tuples are drawn, or fewer if that takes longer than this.
const DRAWN: usize = 24;
const DRAWN_SECONDS: f64 = 1.0;

/// Facts from this number on are not the case's own; no fact of its own has this object.
const OTHERS: u64 = 3000;
const NOWHERE: u16 = 60_000;

const COLUMNS: [&str; 14] = [
    "sheet",
    "members",
    "answers",
    "steps",
    "answer",
    "check",
    "first",
    "middle",
    "last",
    "none",
    "explain/answer",
    "explaining",
    "plain",
    "explaining/plain",
];

/// The median seconds of each, taken in turn.
fn medians<const N: usize>(mut runs: [&mut dyn FnMut(); N]) -> [f64; N] {
    let mut times = [const { Vec::new() }; N];
    let begin = clock::seconds();
    while times[0].is_empty() || times[0].len() < RUNS && clock::seconds() - begin < SECONDS {
        for (run, times) in runs.iter_mut().zip(&mut times) {
            let start = clock::seconds();
            run();
            times.push(clock::seconds() - start);
        }
    }
    times.map(|mut times| {
        times.sort_by(f64::total_cmp);
        times[times.len() / 2]
    })
}

/// What the plain program says of tuples of objects that stand in the case's facts, and how long that takes.
fn drawn_tuples(case: &Case) -> Vec<(u32, f64, Vec<u8>)> {
    let own: Vec<u64> = case
        .entries
        .iter()
        .filter(|fact| fact.1 < OTHERS)
        .flat_map(|fact| [fact.2, fact.3])
        .collect();
    let (mut draw, terms, mut list) = (
        Draw::new(),
        case.members[0].answers.len(),
        vec![0; MOST_EXPLANATION_BYTES],
    );
    let (mut tuples, begin) = (Vec::new(), clock::seconds());
    while tuples.len() < DRAWN && clock::seconds() - begin < DRAWN_SECONDS {
        let object = |_| own[draw.below(own.len() as u64) as usize] as u16;
        let tuple: Vec<u8> = (0..terms).map(object).flat_map(u16::to_be_bytes).collect();
        let start = clock::seconds();
        let number = plain::explain::explain(case, &tuple, &mut list).number;
        tuples.push((number, clock::seconds() - start, tuple));
    }
    tuples
}

/// The first, the middle and the last tuple of the list, and one that is none: of those drawn the one that takes longest. Where the list is
/// too short for the answers, a drawn one that is an answer stands in place of the first.
fn tuples(case: &Case, drawn: Drawn, list: &[u8]) -> [Option<Vec<u8>>; 4] {
    let (size, tried) = (2 * case.members[0].answers.len(), drawn_tuples(case));
    let longest = |number: u32| {
        let such = tried.iter().filter(|tuple| tuple.0 == number);
        such.max_by(|a, b| a.1.total_cmp(&b.1)).map(|tuple| tuple.2.clone())
    };
    let at = |i: usize| (drawn.count > 0).then(|| list[size * i..][..size].to_vec());
    let nowhere = (size > 0).then(|| NOWHERE.to_be_bytes().repeat(size / 2));
    [
        at(0).or_else(|| longest(0)),
        at(drawn.count / 2),
        at(drawn.count.saturating_sub(1)),
        longest(19).or(nowhere),
    ]
}

/// What explaining a tuple gives, and the seconds of the library, of checking alone, and of the plain program.
struct Times {
    explained: Drawn,
    explain: f64,
    check: f64,
    plain: f64,
}

impl Times {
    /// The two agree; what was in the lists before differs, so that a byte that isn't written is seen.
    fn of(case: &Case, tuple: &[u8]) -> Times {
        let (mut ours, mut theirs) = (vec![1; MOST_EXPLANATION_BYTES], vec![2; MOST_EXPLANATION_BYTES]);
        let (mut given, mut plain) = (Drawn { number: 0, count: 0 }, Drawn { number: 1, count: 0 });
        let [explain, check, time] = medians([
            &mut || given = proved::explain(case, tuple, &mut ours),
            &mut || assert_eq!((LIBRARY.check)(case), 0, "{}: the union is refused", case.name),
            &mut || plain = plain::explain::explain(case, tuple, &mut theirs),
        ]);
        assert_eq!(given, plain, "{}: {tuple:?}: the two differ", case.name);
        assert!(ours == theirs, "{}: {tuple:?}: the steps differ", case.name);
        Times {
            explained: given,
            explain,
            check,
            plain: time,
        }
    }

    fn explaining(&self) -> f64 {
        drawing(self.explain, self.check)
    }
}

/// The longest time, the ratios of all tuples to the plain program, the longest beside the list's, and the line.
struct Line {
    longest: f64,
    ratios: Vec<f64>,
    beside: f64,
    cells: String,
}

fn line(case: &Case) -> Line {
    let (mut list, mut drawn) = (vec![0; case.list], Drawn { number: 0, count: 0 });
    let [answer] = medians([&mut || drawn = (LIBRARY.answer)(case, &mut list)]);
    let times = tuples(case, drawn, &list).map(|tuple| tuple.map(|tuple| Times::of(case, &tuple)));
    let (given, none) = (&times[..3], &times[3]);
    assert!(
        none.as_ref().is_none_or(|times| times.explained.number == 19),
        "{}: an answer",
        case.name
    );
    assert!(
        given.iter().flatten().all(|times| times.explained.number == 0),
        "{}: no answer",
        case.name
    );
    let steps: Vec<String> = given
        .iter()
        .flatten()
        .map(|times| times.explained.count.to_string())
        .collect();
    let cell = |i: usize| times[i].as_ref().map_or("-".to_string(), |times| ms(times.explain));
    let worst = times
        .iter()
        .flatten()
        .max_by(|a, b| a.explain.total_cmp(&b.explain))
        .expect("a tuple");
    let cells = row(&[
        &case.name,
        &case.members.len().to_string(),
        &answers(drawn),
        &steps.join(", "),
        &ms(answer),
        &ms(worst.check),
        &cell(0),
        &cell(1),
        &cell(2),
        &cell(3),
        &ratio(worst.explain, answer),
        &ms(worst.explaining()),
        &ms(worst.plain),
        &ratio(worst.explaining(), worst.plain),
    ]);
    Line {
        longest: worst.explain,
        ratios: times
            .iter()
            .flatten()
            .map(|times| times.explaining() / times.plain)
            .collect(),
        beside: worst.explain / answer,
        cells,
    }
}

fn table(said: &str, cases: Vec<Case>, part: Option<&str>) {
    let mut lines = Vec::new();
    for case in cases.iter().filter(|case| chosen(case, part)) {
        let line = line(case);
        eprintln!("{}", line.cells);
        lines.push(line);
    }
    lines.sort_by(|a, b| b.longest.total_cmp(&a.longest));
    let mut ratios: Vec<f64> = lines.iter().flat_map(|line| line.ratios.clone()).collect();
    ratios.sort_by(f64::total_cmp);
    let [.., most] = ratios[..] else { return };
    println!(
        "{said}: both agree on all {} tuples. Milliseconds of the processor, medians.",
        ratios.len()
    );
    println!(
        "explaining/plain: median {:.2}, most {most:.2}.",
        ratios[ratios.len() / 2]
    );
    let slower = lines.iter().filter(|line| line.beside > 1.0).count();
    println!(
        "Explaining takes longer than drawing the list on {slower} of {} sheets.\n{}",
        lines.len(),
        head(&COLUMNS)
    );
    for line in lines {
        println!("{}", line.cells);
    }
    println!();
}

pub fn print(part: Option<&str>) {
    table("Usual sheets", full::cases(), part);
    table("Many steps", explain::cases(), part);
    table(
        "Bad sheets",
        bad::lines().into_iter().map(|bad| bad.case).collect(),
        part,
    );
}
