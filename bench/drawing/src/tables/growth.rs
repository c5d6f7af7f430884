//! How time grows with the number of facts.
use super::{head, ms_or, row, too_long};
use crate::cases::growth::{of, COUNTS, KINDS};
use crate::cases::Case;
use crate::turns::{self, Call, Span};
use crate::{plain, probe, proved, Drawn};

const SPAN: Span = Span {
    rounds: 4,
    seconds: 0.3,
    most_seconds: 1.0,
};

type Answer = fn(&Case, &mut [u8]) -> Drawn;

/// Seconds of the call on each kind of sheet with so many facts; of the library only where it ends.
fn seconds(count: usize, call: Answer, library: bool) -> [Option<f64>; KINDS.len()] {
    KINDS.map(|kind| {
        let case = of(count, kind);
        let ends = !library || probe::ends("library", &case, probe::limit()).is_some();
        ends.then(|| turns::take([Call::Answer(call)], &case, &SPAN)[0])
    })
}

pub fn print() {
    let calls: [(&str, Answer, bool); 2] = [
        ("library", proved::LIBRARY.answer, true),
        ("plain program", plain::answer, false),
    ];
    for (said, call, library) in calls {
        println!("Chains of eight, one member: milliseconds of the {said}'s whole call.");
        println!("{}", head(&[&["facts"][..], &KINDS].concat()));
        for count in COUNTS {
            let cells = seconds(count, call, library).map(|seconds| ms_or(seconds, &too_long()));
            let cells: Vec<&str> = cells.iter().map(String::as_str).collect();
            println!("{}", row(&[&[count.to_string().as_str()][..], &cells].concat()));
        }
        println!();
    }
}
