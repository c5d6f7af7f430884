//! Time for drawing answers, and for explaining them, with the proved library, beside a plain Rust program of the same algorithm and, for
//! drawing, the `sqlite3` command, on the same sheets in the same run.
//!
//! What they give is compared first, and the run stops if they differ. Then they take turns; the best turn counts. Time is the
//! processor's, so that other work on the machine disturbs it less. Nothing about time is asserted.
mod before;
mod cases;
#[cfg(feature = "climb")]
mod climb;
mod clock;
mod compare;
mod desk;
mod plain;
mod probe;
mod process;
mod proved;
mod sql;
mod tables;
mod turns;

/// What drawing gives beside the list: the number of the refusal, 0 for none, and the count.
#[derive(Clone, Copy, PartialEq, Eq, Debug)]
pub struct Drawn {
    pub number: u32,
    pub count: usize,
}

impl From<takwishan::Answers> for Drawn {
    fn from(answers: takwishan::Answers) -> Drawn {
        Drawn {
            number: answers.number,
            count: answers.count as usize,
        }
    }
}

fn main() {
    let arguments: Vec<String> = std::env::args().skip(1).collect();
    let arguments: Vec<&str> = arguments.iter().map(String::as_str).collect();
    match arguments[..] {
        [] => {
            tables::all::print(None);
            tables::full::print(None);
            tables::bad::print(None);
            tables::growth::print();
            tables::explain::print(None);
        }
        ["once", which, folder, list] => probe::answer_once(which, folder, list),
        ["growth"] => tables::growth::print(),
        #[cfg(feature = "climb")]
        ["climb", seconds, seed, ref kind @ ..] => {
            let number = |text: &str| text.parse().expect("a number");
            climb::run(number(seconds), number(seed), kind.first().copied());
        }
        [table, ref rest @ ..] => {
            let print = match table {
                "all" => tables::all::print,
                "full" => tables::full::print,
                "bad" => tables::bad::print,
                "explain" => tables::explain::print,
                _ => panic!("there is no table {table}"),
            };
            print(rest.first().copied());
        }
    }
}
