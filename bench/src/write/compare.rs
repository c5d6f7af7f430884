//! What both writers give, byte by byte, on random rules and questions, sound and damaged, for sheets of many lengths. A difference stops
//! the run.
use super::{write, Written, LONGEST};
use crate::check::compare::{damaged, question, records};
use crate::check::unions::{packed, Bytes, Draw};
use crate::check::Counts;
use crate::proved;

/// Both writers on sheets of this length that were full of other bytes; what they gave.
pub fn both(name: &str, rules: &[u8], question: &[u8], length: usize) -> Written {
    let mut sheets = [vec![0xa5; length], vec![0x5a; length]];
    let [one, other] = &mut sheets;
    let given = proved::write(rules, question, one);
    let plain = write(rules, question, other, &mut Counts::default());
    if given != plain || one != other {
        eprintln!(
            "THE WRITERS DIFFER on {name}, a sheet of {length}: proved {given:?}, plain {plain:?}"
        );
        eprintln!("rules {rules:02x?}\nquestion {question:02x?}");
        eprintln!("proved {one:02x?}\nplain {other:02x?}");
        std::process::exit(1);
    }
    given
}

/// Sheets of lengths around the edge; the numbers that were given.
fn around(name: &str, rules: &[u8], question: &[u8], draw: &mut Draw) -> Vec<u32> {
    let written = both(name, rules, question, LONGEST);
    let mut lengths = vec![0, draw.below(200)];
    if written.number == 0 {
        let length = written.length as usize;
        lengths.extend([length - 1, length, length + 1, draw.below(length)]);
    }
    let others = lengths
        .into_iter()
        .map(|length| both(name, rules, question, length).number);
    std::iter::once(written.number).chain(others).collect()
}

pub fn run(sheets: usize) {
    let mut draw = Draw(0x2545_f491_4f6c_dd1d);
    let mut seen = [0usize; 19];
    for case in 0..sheets {
        let count = draw.below(6);
        let rules = records(&mut draw, count)
            .iter()
            .flat_map(|record| record.0.to_be_bytes())
            .collect();
        let mut bytes = Bytes {
            rules,
            question: packed(&question(&mut draw)),
            union: vec![0],
        };
        for turn in 0..3 {
            let name = format!("case {case}, turn {turn}");
            for number in around(&name, &bytes.rules, &bytes.question, &mut draw) {
                seen[number as usize] += 1;
            }
            damaged(&mut draw, &mut bytes);
        }
    }
    let total: usize = seen.iter().sum();
    println!("compared {total} sheets written: both writers gave the same bytes, number, count and length on each");
    let numbers: Vec<String> = [0, 1, 2, 3, 4, 5, 15, 16, 17, 18]
        .iter()
        .map(|&number| format!("{number}: {}", seen[number]))
        .collect();
    println!("numbers given: {}", numbers.join(", "));
}
