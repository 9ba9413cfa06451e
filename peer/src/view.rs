//! What is printed on request, and changes nothing.

use crate::house::House;
use std::fmt::Write;

#[derive(Clone, Copy, Debug, PartialEq, Eq)]
pub enum View {
    Show,
    Status,
    Help,
}

impl View {
    /// What these words ask to be printed.
    pub fn parse(words: &[&[u8]]) -> Option<View> {
        match words {
            [b"show"] => Some(View::Show),
            [b"status"] => Some(View::Status),
            [b"help"] => Some(View::Help),
            _ => None,
        }
    }
}

/// The tables of a house, line by line.
pub fn show(house: &House) -> String {
    let mut out = format!("house {} census {}\n", house.me, house.census);
    for (name, fields) in &house.objects {
        let fields: String = fields.iter().map(|field| format!(" {field}")).collect();
        let _ = writeln!(out, "object {name}{fields}");
    }
    for root in &house.roots {
        let _ = writeln!(out, "root {root}");
    }
    for (object, holder, line) in house.lines_by_age() {
        let _ = writeln!(out, "line {object} {holder} {} {}", line.stamp, line.census);
    }
    out
}

/// Where a house stands, as a line. Only house 0 has rounds.
pub fn status(house: &House) -> String {
    let survey = &house.survey;
    format!(
        "house {} census {} tally {} round {} objects {} roots {} lines {}\n",
        house.me,
        house.census,
        survey.tally,
        survey.rounds.len(),
        house.objects.len(),
        house.roots.len(),
        house.list.len()
    )
}
