//! The proved library beside plain Rust programs: `bench` runs all benchmarks, `bench readers`, `bench check`, `bench write` and `bench
//! rename` one of them, `bench compare` compares numbers on random sheets, `bench cards` checks 01's cards, `bench search` looks for bad
//! sheets.
//! Nothing about time is asserted.
mod check;
mod plain;
mod proved;
mod readers;
mod rename;
mod sheets;
mod write;

pub const MOST_FACTS: usize = 10_000;
pub const MOST_MEMBERS: usize = 512;

/// The words of a member's row: its step, the number of its answer terms, 4 of them, the number of its atoms, a word that is not
/// used, 8 atoms.
pub const ROW: usize = 16;

/// 01's role partners.
pub const PARTNERS: [u16; 16] = [1, 0, 3, 2, 5, 4, 7, 6, 8, 9, 10, 11, 12, 13, 14, 15];

/// What reading a sheet gives beside the table: the refusal's number, 0 for none, and the count.
#[derive(Clone, Copy, PartialEq, Eq, Debug)]
pub struct Read {
    pub number: u32,
    pub count: usize,
}

fn main() {
    let mode = std::env::args().nth(1);
    match mode.as_deref() {
        None => {
            readers::run();
            check::cards::run();
            check::compare::run(3_000);
            check::measure::run();
            write::run(3_000);
            rename::run(3_000);
        }
        Some("readers") => readers::run(),
        Some("cards") => check::cards::run(),
        Some("compare") => check::compare::run(30_000),
        Some("check") => check::measure::run(),
        Some("write") => write::run(30_000),
        Some("rename") => rename::run(30_000),
        Some("search") => check::search::run(),
        Some("once") => check::measure::once(),
        Some(other) => {
            eprintln!(
                "bench: no mode {other}: readers, cards, compare, check, write, rename or search"
            );
            std::process::exit(2);
        }
    }
}
