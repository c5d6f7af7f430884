//! One call of a library in a process of its own, so that one that does not end soon can be stopped: this program calls itself.
use crate::cases::Case;
use crate::proved::Library;
use crate::{before, process, proved, Drawn};
use std::path::Path;
use std::process::Command;

/// What one call gave: number and count, and a number made of all bytes of the list.
#[derive(Clone, Copy, PartialEq, Debug)]
pub struct Outcome {
    pub drawn: Drawn,
    pub list: u64,
}

impl Outcome {
    pub fn of(drawn: Drawn, list: &[u8]) -> Outcome {
        let mix = |n: u64, &byte: &u8| (n ^ byte as u64).wrapping_mul(0x100_0000_01b3);
        Outcome {
            drawn,
            list: list.iter().fold(0xcbf2_9ce4_8422_2325, mix),
        }
    }
}

fn library(which: &str) -> Option<Library> {
    match which {
        "before" => before::LIBRARY,
        _ => Some(proved::LIBRARY),
    }
}

const SHEETS: [&str; 4] = ["rules.bin", "question.bin", "union.bin", "facts.bin"];

/// The child's part: one call on the sheets in a folder with a list of this length, what it gave printed as three numbers.
pub fn answer_once(which: &str, folder: &str, list: &str) {
    let [rules, question, union, facts] =
        SHEETS.map(|name| std::fs::read(Path::new(folder).join(name)).expect("the sheet was written"));
    let (name, list) = (which.to_string(), list.parse().expect("a length"));
    let (members, entries) = (Vec::new(), Vec::new());
    let case = Case {
        name,
        rules,
        question,
        union,
        facts,
        list,
        members,
        entries,
    };
    let library = library(which).expect("it was linked");
    let mut bytes = vec![1; case.list];
    let drawn = (library.answer)(&case, &mut bytes);
    let Outcome { drawn, list } = Outcome::of(drawn, &bytes);
    println!("{} {} {list}", drawn.number, drawn.count);
}

/// So many seconds the library and the earlier one have for a case; `DRAWING_LIMIT` sets it.
pub fn limit() -> f64 {
    let set = std::env::var("DRAWING_LIMIT").ok();
    set.and_then(|text| text.parse().ok()).unwrap_or(60.0)
}

/// What the library gives, if it ends within so many seconds.
pub fn ends(which: &str, case: &Case, limit: f64) -> Option<Outcome> {
    library(which)?;
    let folder = std::env::temp_dir().join(format!("probe-{}", std::process::id()));
    std::fs::create_dir_all(&folder).expect("a folder can be made");
    for (name, bytes) in SHEETS
        .iter()
        .zip([&case.rules, &case.question, &case.union, &case.facts])
    {
        std::fs::write(folder.join(name), bytes).expect("the folder can be written");
    }
    let mut command = Command::new(std::env::current_exe().expect("this program"));
    command.arg("once").arg(which).arg(&folder).arg(case.list.to_string());
    let ran = process::run(&mut command, None, &folder, limit);
    let _ = std::fs::remove_dir_all(&folder);
    let numbers: Vec<u64> = ran?
        .printed
        .split_whitespace()
        .filter_map(|word| word.parse().ok())
        .collect();
    let [number, count, list] = numbers[..] else {
        panic!("{}: the call of the library fails", case.name);
    };
    Some(Outcome {
        drawn: Drawn {
            number: number as u32,
            count: count as usize,
        },
        list,
    })
}
