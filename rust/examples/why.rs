//! Why a tuple is on the list of a folder's sheets, in words: `why FOLDER OBJECT.. [NUMBER=NAME..]`, the names being those of concepts.
//! An absent file is an empty sheet, as for the programs. `make run` runs it on sample/.
use std::collections::HashMap;
use std::path::Path;
use std::{env, fs, io, process};
use takwishan::{answer, explain, in_words_by, Names, Refusal};

const USAGE: &str = "usage: why FOLDER OBJECT.. [NUMBER=NAME..], such as: why sample 22 2=pump";

/// Names of concepts; roles have document 01's.
struct Concepts(HashMap<u16, String>);

impl Names for Concepts {
    fn concept(&self, number: u16) -> Option<String> {
        self.0.get(&number).cloned()
    }
}

/// What is asked: whose sheets, which tuple, and in which names.
struct Asked {
    folder: String,
    objects: Vec<u16>,
    concepts: Concepts,
}

struct Sheets {
    rules: Vec<u8>,
    question: Vec<u8>,
    union: Vec<u8>,
    facts: Vec<u8>,
}

/// None if an argument is neither an object nor a concept's name.
fn asked(mut arguments: impl Iterator<Item = String>) -> Option<Asked> {
    let folder = arguments.next()?;
    let mut objects = Vec::new();
    let mut names = HashMap::new();
    for argument in arguments {
        match argument.split_once('=') {
            None => objects.push(argument.parse().ok()?),
            Some((number, name)) => {
                names.insert(number.parse().ok()?, name.to_string());
            }
        }
    }
    let concepts = Concepts(names);
    Some(Asked {
        folder,
        objects,
        concepts,
    })
}

fn sheets(folder: &str) -> io::Result<Sheets> {
    let sheet = |file: &str| match fs::read(Path::new(folder).join(file)) {
        Err(e) if e.kind() == io::ErrorKind::NotFound => Ok(Vec::new()),
        read => read,
    };
    Ok(Sheets {
        rules: sheet("rules.bin")?,
        question: sheet("question.bin")?,
        union: sheet("union.bin")?,
        facts: sheet("facts.bin")?,
    })
}

/// How many answers there are, in words. An answer is explained even if the list of all, as long as the program's, is too short.
fn how_many(sheets: &Sheets) -> Result<String, Refusal> {
    let mut list = [0; 16_384];
    match answer(&sheets.rules, &sheets.question, &sheets.union, &sheets.facts, &mut list) {
        Ok(count) => Ok(format!("{count} answers")),
        Err(Refusal::ListTooShort) => Ok("more answers than the list has room for".to_string()),
        Err(refusal) => Err(refusal),
    }
}

/// The tuple as the program prints it.
fn printed(objects: &[u16]) -> String {
    match objects {
        [] => "the empty tuple".to_string(),
        _ => objects.iter().map(u16::to_string).collect::<Vec<_>>().join(" "),
    }
}

/// The list drawn, and why the tuple is on it.
fn why(asked: &Asked, sheets: &Sheets) -> Result<String, Refusal> {
    let how_many = how_many(sheets)?;
    let tuple: Vec<u8> = asked.objects.iter().flat_map(|object| object.to_be_bytes()).collect();
    let steps = explain(&sheets.rules, &sheets.question, &sheets.union, &sheets.facts, &tuple)?;
    let from = match steps.first() {
        None => "the question itself:".to_string(),
        Some(step) => format!("member {}, to which the question comes so:", step.member),
    };
    Ok(format!(
        "{} is one of {how_many}. The facts alone yield it from {from}\n{}",
        printed(&asked.objects),
        in_words_by(&sheets.rules, &sheets.union, &steps, &asked.concepts)
    ))
}

fn main() {
    let Some(asked) = asked(env::args().skip(1)) else {
        eprintln!("{USAGE}");
        process::exit(2);
    };
    let sheets = sheets(&asked.folder).unwrap_or_else(|e| {
        eprintln!("why: {}: {e}", asked.folder);
        process::exit(2);
    });
    match why(&asked, &sheets) {
        Ok(text) => print!("{text}"),
        Err(refusal) => {
            eprintln!("why: {refusal}");
            process::exit(1);
        }
    }
}
