//! Commands that are run to their end, or as long as they may.
use crate::clock;
use std::fs::File;
use std::path::Path;
use std::process::{Command, Stdio};
use std::time::{Duration, Instant};

/// What a command printed, and the processor's time that it took.
pub struct Ran {
    pub printed: String,
    pub seconds: f64,
}

/// Runs the command with what the file holds on its standard input; `None` if there is none such, or it was stopped after so many seconds.
pub fn run(command: &mut Command, input: Option<&Path>, folder: &Path, limit: f64) -> Option<Ran> {
    let printed = folder.join("printed");
    let stdin = match input {
        Some(path) => File::open(path).expect("the input stands there").into(),
        None => Stdio::null(),
    };
    let before = clock::children();
    let begin = Instant::now();
    let output = File::create(&printed).expect("the folder can be written");
    let mut child = command.stdin(stdin).stdout(output).spawn().ok()?;
    loop {
        if let Some(status) = child.try_wait().expect("a child can be waited for") {
            let seconds = clock::children() - before;
            let printed = std::fs::read_to_string(&printed).expect("it was written");
            assert!(status.success(), "{command:?} fails: {status}");
            return Some(Ran { printed, seconds });
        }
        if begin.elapsed().as_secs_f64() > limit {
            child.kill().expect("a child can be stopped");
            child.wait().expect("a child can be waited for");
            return None;
        }
        std::thread::sleep(Duration::from_micros(200));
    }
}
