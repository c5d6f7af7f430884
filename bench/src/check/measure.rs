//! Times of the proved check and of the plain one on bad sheets, the worst first. Times are this thread's processor time, the least
//! of some repetitions.
use super::bad;
use super::unions::{Bytes, Sheet};
use super::{check, Counts};
use crate::proved;
use std::hint::black_box;

/// A sheet is measured twice at least, and again until it has taken so many seconds, and at most so often.
pub const ENOUGH: f64 = 8.0;
pub const MOST_REPETITIONS: usize = 20;

#[repr(C)]
struct Timespec {
    seconds: i64,
    nanoseconds: i64,
}

extern "C" {
    fn clock_gettime(clock: i32, time: *mut Timespec) -> i32;
}

/// Seconds that this thread has run: others on the machine do not add to them.
pub fn processor_time() -> f64 {
    const THREAD_CPUTIME: i32 = 3;
    let mut time = Timespec {
        seconds: 0,
        nanoseconds: 0,
    };
    let status = unsafe { clock_gettime(THREAD_CPUTIME, &mut time) };
    assert_eq!(status, 0, "the clock cannot be read");
    time.seconds as f64 + time.nanoseconds as f64 / 1e9
}

/// What was measured on one sheet.
pub struct Measured {
    name: String,
    members: usize,
    number: u32,
    proved: f64,
    plain: f64,
    counts: Counts,
}

/// A turn on a small sheet has so many calls that it takes about so many seconds.
const TURN: f64 = 2e-4;

/// What the work gives, and the seconds that it took.
pub fn seconds<T>(work: impl FnOnce() -> T) -> (f64, T) {
    let begin = processor_time();
    let given = black_box(work());
    (processor_time() - begin, given)
}

/// What the last of so many calls gives, and the seconds that one took.
pub fn several<T>(calls: usize, mut work: impl FnMut() -> T) -> (f64, T) {
    let (time, given) = seconds(|| {
        (1..calls).for_each(|_| drop(black_box(work())));
        work()
    });
    (time / calls as f64, given)
}

/// Both checks on one sheet, taking turns; their numbers must agree.
pub fn measured(name: &str, sheet: &Sheet, repetitions: usize) -> Measured {
    let Bytes {
        rules,
        question,
        union,
    } = sheet.bytes();
    let mut best = Measured {
        name: name.to_string(),
        members: sheet.members.len(),
        number: 0,
        proved: f64::INFINITY,
        plain: f64::INFINITY,
        counts: Counts::default(),
    };
    let mut spent = 0.0;
    let mut calls = 1;
    for repetition in 0..repetitions {
        let (proved, number) = several(calls, || proved::check(&rules, &question, &union));
        let (plain, (other, counts)) = several(calls, || {
            let mut counts = Counts::default();
            let number = check(&rules, &question, &union, &mut counts);
            (number, counts)
        });
        assert_eq!(number, other, "the checks differ on {name}");
        calls = 1 + (TURN / proved) as usize;
        best.number = number;
        best.proved = best.proved.min(proved);
        best.plain = best.plain.min(plain);
        best.counts = counts;
        spent += proved + plain;
        if repetition > 0 && spent > ENOUGH {
            break;
        }
    }
    best
}

impl Measured {
    fn print(&self) {
        let counts = &self.counts;
        println!(
            "{:<34} {:>4} {:>4} {:>10.4} {:>10.4} {:>6.2} {:>9} {:>9} {:>8} {:>11} {:>7.1}",
            self.name,
            self.members,
            self.number,
            self.proved * 1e3,
            self.plain * 1e3,
            self.proved / self.plain,
            counts.results,
            counts.compared,
            counts.unlike,
            counts.passed,
            counts.tests.get() as f64 / counts.compared.max(1) as f64,
        );
    }
}

pub fn run() {
    println!("check: milliseconds of processor time, the least of some repetitions, worst first; number 0 is acceptance");
    println!(
        "{:<34} {:>4} {:>4} {:>10} {:>10} {:>6} {:>9} {:>9} {:>8} {:>11} {:>7}",
        "sheet",
        "memb",
        "no.",
        "proved",
        "plain",
        "ratio",
        "results",
        "compared",
        "unlike",
        "passed over",
        "tests"
    );
    let mut all: Vec<Measured> = bad::all()
        .into_iter()
        .map(|(name, sheet)| {
            eprintln!("measuring: {name}");
            measured(&name, &sheet(), MOST_REPETITIONS)
        })
        .collect();
    let common = bad::common();
    all.extend(
        common
            .iter()
            .map(|(name, sheet)| measured(name, sheet, 10 * MOST_REPETITIONS)),
    );
    all.sort_by(|a, b| b.proved.total_cmp(&a.proved));
    all.iter().for_each(Measured::print);
}

/// Each of the two checks once, on the named sheet with only so many of its rules, for a profiler.
pub fn once() {
    let mut arguments = std::env::args().skip(2);
    let (Some(name), Some(rules)) = (arguments.next(), arguments.next()) else {
        panic!("the name of a sheet and the number of its rules");
    };
    let rules: usize = rules.parse().expect("a number of rules");
    for (_, sheet) in bad::all().into_iter().filter(|(other, _)| *other == name) {
        let mut sheet = sheet();
        sheet.rules.truncate(rules);
        measured(&name, &sheet, 1).print();
    }
}
