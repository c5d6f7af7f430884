//! A search for bad sheets: hill climbing over questions, rules and relations. A sheet is the worse the more the plain program
//! has to do for it.
mod change;
mod sheet;
mod starts;

use crate::cases::{Draw, MOST_FACTS};
use crate::{clock, plain};
use change::{by_chance, changed};
use sheet::Sheet;
use std::hint::black_box;
use std::time::{Duration, Instant};

/// How far a climb goes: the most facts of its sheets, and whether they are filled up; the most that is to be done for one, then it is bad
/// enough; how many changes one after the other may bring nothing worse; how long it may take.
struct Reach {
    facts: usize,
    full: bool,
    work: u64,
    patience: usize,
    seconds: u64,
}

/// First on small sheets, whose tables are small too, so that a search takes little time and forgets as one of a full sheet does. Then on
/// full ones, up to some thirty seconds' worth.
const SMALL: Reach = Reach {
    facts: 900,
    full: false,
    work: 80_000_000,
    patience: 200,
    seconds: 15,
};
const FULL: Reach = Reach {
    facts: MOST_FACTS,
    full: true,
    work: 30_000_000_000,
    patience: 25,
    seconds: 30,
};

/// A sheet is searched no further when so many times as much was done as for the one before it, and that was not little.
const TIMES: u64 = 4;
const LITTLE: u64 = 1_000_000;

/// Where a full sheet has 100 objects a small one has 30: what a member takes grows by this power.
const GROWTH: f64 = 1.354;

/// So many sheets of a kind are printed.
const PRINTED: usize = 4;

/// A sheet, what is to be done for it, and what would be for a full one.
struct Step {
    sheet: Sheet,
    work: u64,
    badness: f64,
}

impl Step {
    /// Work is counted up to a number. `None` if it is no sheet, or its question is not of the kind.
    fn of(sheet: Sheet, rings: bool, reach: &Reach, most: u64) -> Option<Step> {
        if sheet.has_ring() != rings {
            return None;
        }
        let work = plain::work(&sheet.case(reach.full)?, most);
        let power = if reach.full { 1.0 } else { GROWTH };
        Some(Step {
            sheet,
            badness: work.iter().map(|&work| (work as f64).powf(power)).sum(),
            work: work.iter().sum(),
        })
    }
}

/// One of the worst sheets that stand, or one by chance, made small.
fn start(rings: bool, draw: &mut Draw) -> Step {
    let known = starts::of(rings);
    loop {
        let mut sheet = match draw.below(3) {
            0 => known[draw.below(known.len() as u64) as usize].clone(),
            _ => by_chance(draw),
        };
        sheet.fit(SMALL.facts);
        if let Some(step) = Step::of(sheet, rings, &SMALL, SMALL.work) {
            return step;
        }
    }
}

/// Goes on from a sheet by changes that make it worse; one that makes it no better is taken too, so that the climb can leave a level.
fn climb(mut step: Step, rings: bool, reach: &Reach, end: Instant, draw: &mut Draw) -> Step {
    let end = end.min(Instant::now() + Duration::from_secs(reach.seconds));
    let mut failed = 0;
    while failed < reach.patience && step.work < reach.work && Instant::now() < end {
        let sheet = changed(&step.sheet, reach.facts, draw);
        let most = (TIMES * step.work.max(LITTLE)).min(reach.work);
        failed += 1;
        match Step::of(sheet, rings, reach, most) {
            Some(other) if other.badness >= step.badness => {
                if other.badness > 1.02 * step.badness {
                    failed = 0;
                }
                step = other;
            }
            _ => {}
        }
    }
    step
}

/// One climb: a small sheet, then the same in full size.
fn whole_climb(rings: bool, end: Instant, draw: &mut Draw) -> Option<Step> {
    let small = climb(start(rings, draw), rings, &SMALL, end, draw);
    let full = Step::of(small.sheet.enlarged(), rings, &FULL, FULL.work)?;
    Some(climb(full, rings, &FULL, end, draw))
}

/// The seconds that the plain program takes, if the search was gone through to its end.
fn seconds(step: &Step) -> Option<f64> {
    if step.work >= FULL.work {
        return None;
    }
    let case = step.sheet.case(true)?;
    let mut list = vec![0; case.list];
    let begin = clock::seconds();
    black_box(plain::answer(&case, &mut list));
    Some(clock::seconds() - begin)
}

/// The worst sheets of a kind.
fn print(rings: bool, worst: &[Step]) {
    println!("// {}", if rings { "With rings" } else { "Without rings" });
    for step in worst {
        let said = seconds(step).map_or("too many seconds".to_string(), |seconds| {
            format!("{seconds:.3} seconds")
        });
        println!("// {said}\n{}\n", step.sheet.code());
    }
}

/// Climbs for so many seconds, over sheets with rings, without, or both in turn. Each climb's sheet goes to standard error, the worst ones
/// to standard output.
pub fn run(seconds: u64, seed: u64, kind: Option<&str>) {
    let kinds: &[bool] = match kind {
        Some("rings") => &[true],
        Some("plain") => &[false],
        None => &[false, true],
        Some(other) => panic!("there is no kind {other}"),
    };
    let end = Instant::now() + Duration::from_secs(seconds);
    let mut draw = Draw::seeded(seed);
    let mut worst = [Vec::new(), Vec::new()];
    for &rings in kinds.iter().cycle().take_while(|_| Instant::now() < end) {
        let Some(step) = whole_climb(rings, end, &mut draw) else {
            continue;
        };
        eprintln!("// {:.3}\n{}\n", step.work as f64 * 1e-9, step.sheet.code());
        let of_kind: &mut Vec<Step> = &mut worst[rings as usize];
        of_kind.push(step);
        of_kind.sort_by_key(|step| std::cmp::Reverse(step.work));
        of_kind.truncate(PRINTED);
    }
    for &rings in kinds {
        print(rings, &worst[rings as usize]);
    }
}
