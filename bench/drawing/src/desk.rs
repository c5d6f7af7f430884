//! The other programs of a desk: the `sqlite3` command on a database with indexes that is made before, and this repository's program on
//! files of its folder. A folder is made for both, and removed at the end.
use crate::cases::sheets::Fact;
use crate::cases::Case;
use crate::process::{self, Ran};
use crate::sql::statement;
use std::fmt::Write;
use std::path::{Path, PathBuf};
use std::process::Command;

/// Longer than this no statement takes that prepares something.
const PATIENCE: f64 = 600.0;

pub struct Desk {
    folder: PathBuf,
    /// whether there is an `sqlite3` command
    sqlite: bool,
}

impl Drop for Desk {
    fn drop(&mut self) {
        let _ = std::fs::remove_dir_all(&self.folder);
    }
}

/// The fact as it is read: of two role partners the lower, the objects exchanged.
fn as_read((role, number, first, second): Fact) -> Fact {
    match (role, number) {
        (true, 1 | 3 | 5 | 7) => (role, number - 1, second, first),
        _ => (role, number, first, second),
    }
}

/// The repository's program, if it was built.
fn program() -> Option<PathBuf> {
    let path = Path::new(env!("CARGO_MANIFEST_DIR")).join("../../target/bin/takwishan");
    path.is_file().then_some(path)
}

impl Desk {
    pub fn new() -> Desk {
        let folder = std::env::temp_dir().join(format!("drawing-{}", std::process::id()));
        std::fs::create_dir_all(&folder).expect("a folder can be made");
        let version = Command::new("sqlite3").arg("--version").output();
        let sqlite = version.is_ok_and(|output| output.status.success());
        Desk { folder, sqlite }
    }

    /// sqlite3 on a script; `None` if there is no such command or it takes too long.
    fn sqlite3(&self, script: &str, limit: f64) -> Option<Ran> {
        let path = self.folder.join("script.sql");
        std::fs::write(&path, script).expect("the script can be written");
        let mut command = Command::new("sqlite3");
        command.arg("-batch").arg(self.folder.join("facts.db"));
        self.sqlite
            .then(|| process::run(&mut command, Some(&path), &self.folder, limit))?
    }

    /// Makes the database of the case's facts, and the files for the program.
    pub fn load(&self, case: &Case) {
        let _ = std::fs::remove_file(self.folder.join("facts.db"));
        let mut script = String::from(
            "CREATE TABLE concept(number INT, object INT, PRIMARY KEY(number, object)) WITHOUT ROWID;\n\
             CREATE TABLE role(number INT, first INT, second INT, PRIMARY KEY(number, first, second)) WITHOUT ROWID;\n\
             CREATE INDEX back ON role(number, second, first);\nBEGIN;\n",
        );
        for &fact in &case.entries {
            let statement = match as_read(fact) {
                (true, number, first, second) => format!("role VALUES({number},{first},{second})"),
                (false, number, object, _) => format!("concept VALUES({number},{object})"),
            };
            writeln!(script, "INSERT INTO {statement};").expect("memory");
        }
        script.push_str("COMMIT;\nANALYZE;\n");
        self.sqlite3(&script, PATIENCE);
        let files = [
            ("rules.bin", &case.rules),
            ("question.bin", &case.question),
            ("union.bin", &case.union),
            ("facts.bin", &case.facts),
        ];
        for (name, bytes) in files {
            std::fs::write(self.folder.join(name), bytes).expect("the folder can be written");
        }
    }

    /// The bytes of the answer list, the number of answers and the seconds that the whole process takes.
    pub fn answers(&self, case: &Case, limit: f64) -> Option<(Vec<u8>, usize, f64)> {
        let ran = self.sqlite3(&statement(case), limit)?;
        let (mut bytes, mut count) = (Vec::new(), 0);
        for line in ran.printed.lines() {
            count += 1;
            if !case.members[0].answers.is_empty() {
                for object in line.split('|') {
                    let object: u16 = object.parse().expect("an object's number");
                    bytes.extend(object.to_be_bytes());
                }
            }
        }
        Some((bytes, count, ran.seconds))
    }

    /// Seconds that sqlite3's own timer gives for the best of so many runs, the output thrown away.
    pub fn seconds(&self, case: &Case, runs: usize, limit: f64) -> Option<f64> {
        let mut script = String::from(".output /dev/null\n.timer on\n");
        for _ in 0..runs {
            script.push_str(&statement(case));
        }
        let mut best: Option<f64> = None;
        for line in self.sqlite3(&script, limit)?.printed.lines() {
            let words: Vec<&str> = line.split_whitespace().collect();
            if let ["Run", "Time:", "real", _, "user", user, "sys", system] = words[..] {
                let parse = |word: &str| word.parse::<f64>().expect("seconds");
                let seconds = parse(user) + parse(system);
                best = Some(best.map_or(seconds, |best| best.min(seconds)));
            }
        }
        best
    }

    /// What the repository's program prints first, and the seconds that its whole process takes.
    pub fn program(&self, limit: f64) -> Option<(String, f64)> {
        let mut command = Command::new(program()?);
        command.current_dir(&self.folder);
        let ran = process::run(&mut command, None, &self.folder, limit)?;
        let first = ran.printed.lines().next().unwrap_or("nothing");
        Some((first.to_string(), ran.seconds))
    }
}
