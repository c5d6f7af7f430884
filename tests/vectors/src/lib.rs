//! The cases of this folder, for tests in Rust. README.md says what a case's files hold.

use std::fs;
use std::path::{Path, PathBuf};

/// The program's answer list, in bytes.
const PROGRAM_LIST: usize = 16_384;

/// Four sheets, the length of the list that is lent, and what the program would print.
pub struct Case {
    pub name: String,
    pub rules: Vec<u8>,
    pub question: Vec<u8>,
    pub union: Vec<u8>,
    pub facts: Vec<u8>,
    pub list: usize,
    pub output: String,
    /// What checking gives, where that does not follow from the output.
    check: Option<u32>,
}

impl Case {
    /// What drawing gives for it: number, count and every byte of the list.
    pub fn outcome(&self) -> (u32, u64, Vec<u8>) {
        let mut lines = self.output.lines();
        let first = lines.next().unwrap_or("");
        let mut list = Vec::new();
        let (number, count) = match first.split_once(' ') {
            Some(("refused", number)) => (number.parse().expect("a refusal's number"), 0),
            Some(("accepted", count)) => (0, count.parse().expect("a count")),
            _ => panic!("{}: an output that begins with {first:?}", self.name),
        };
        for object in lines.flat_map(|line| line.split(' ')) {
            list.extend(object.parse::<u16>().expect("an object").to_be_bytes());
        }
        assert!(list.len() <= self.list, "{}: its answers do not fit", self.name);
        list.resize(self.list, 0);
        (number, count, list)
    }

    /// The number that checking gives for it: that of its file `checked`, else drawing's, if it is one that checking has.
    pub fn checked(&self) -> u32 {
        match (self.check, self.outcome().0) {
            (Some(number), _) => number,
            (None, number @ (1..=11 | 17 | 18)) => number,
            (None, _) => 0,
        }
    }
}

/// Bytes from hexadecimal text: see README.md.
pub fn hex(text: &str) -> Vec<u8> {
    let mut bytes = Vec::new();
    for line in text.lines() {
        let line = line.split('#').next().unwrap_or("");
        let (times, record) = match line.split_once('*') {
            Some((times, record)) => (times.trim().parse().expect("how many times"), record),
            None => (1, line),
        };
        let byte = |word| match u8::from_str_radix(word, 16) {
            Ok(byte) if word.len() == 2 => byte,
            _ => panic!("{word} is no byte of two hexadecimal digits"),
        };
        bytes.extend(record.split_whitespace().map(byte).collect::<Vec<u8>>().repeat(times));
    }
    bytes
}

fn read(file: &Path) -> String {
    fs::read_to_string(file).unwrap_or_else(|e| panic!("{}: {e}", file.display()))
}

/// A file of a case, or of the case that it is like.
fn of_case(folder: &Path, file: &str) -> PathBuf {
    match folder.join(file) {
        own if own.is_file() => own,
        _ => of_case(&folder.with_file_name(read(&folder.join("like")).trim()), file),
    }
}

fn root() -> &'static Path {
    Path::new(env!("CARGO_MANIFEST_DIR"))
}

/// The case of that name.
pub fn case(name: &str) -> Case {
    let folder = root().join(name);
    let sheet = |file| hex(&read(&of_case(&folder, file)));
    let number = |file: &str| match folder.join(file) {
        own if own.is_file() => Some(read(&own).trim().parse().expect("a number")),
        _ => None,
    };
    Case {
        name: name.to_string(),
        rules: sheet("rules.hex"),
        question: sheet("question.hex"),
        union: sheet("union.hex"),
        facts: sheet("facts.hex"),
        list: number("list").map_or(PROGRAM_LIST, |length| length as usize),
        output: read(&folder.join("output")),
        check: number("checked"),
    }
}

/// Every case, by name.
pub fn all() -> Vec<Case> {
    let entries = fs::read_dir(root()).expect("the folder of the cases");
    let folders = entries.map(|entry| entry.expect("an entry").path());
    let mut names: Vec<String> = folders
        .filter(|folder| folder.join("output").is_file())
        .map(|folder| folder.file_name().expect("a name").to_string_lossy().into_owned())
        .collect();
    names.sort();
    for card in 1..=12 {
        let is_it = |name: &String| name.split('-').next() == Some(&format!("K{card}"));
        assert!(names.iter().any(is_it), "K{card} is missing");
    }
    names.iter().map(|name| case(name)).collect()
}
