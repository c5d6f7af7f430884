//! The tables, and what they share.
pub mod all;
pub mod bad;
pub mod explain;
pub mod full;
pub mod growth;

use crate::cases::Case;
use crate::{probe, Drawn};

/// A line of a table.
fn row(cells: &[&str]) -> String {
    format!("| {} |", cells.join(" | "))
}

/// A table's first two lines.
fn head(columns: &[&str]) -> String {
    format!("{}\n{}|", row(columns), "|---".repeat(columns.len()))
}

/// Whether the case's name has the part that was asked for, if any was.
fn chosen(case: &Case, part: Option<&str>) -> bool {
    part.is_none_or(|part| case.name.contains(part))
}

/// The number of answers, or of the refusal.
fn answers(drawn: Drawn) -> String {
    match drawn.number {
        0 => drawn.count.to_string(),
        number => format!("refused {number}"),
    }
}

/// A number of milliseconds, to three digits.
fn ms(seconds: f64) -> String {
    let ms = seconds * 1e3;
    match ms {
        _ if ms >= 100.0 => format!("{ms:.0}"),
        _ if ms >= 10.0 => format!("{ms:.1}"),
        _ if ms >= 1.0 => format!("{ms:.2}"),
        _ => format!("{ms:.3}"),
    }
}

/// The same of what may not have been measured.
fn ms_or(seconds: Option<f64>, otherwise: &str) -> String {
    seconds.map_or(otherwise.to_string(), ms)
}

fn ratio(one: f64, other: f64) -> String {
    format!("{:.2}", one / other)
}

/// The drawing's part of a call: without what checking the same sheets takes.
fn drawing(answer: f64, check: f64) -> f64 {
    (answer - check).max(0.0)
}

/// In place of the time of a call that did not end.
fn too_long() -> String {
    format!("> {:.0}", probe::limit() * 1e3)
}
