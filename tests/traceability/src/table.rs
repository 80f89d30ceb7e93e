//! The table as a document.

use crate::place::{Column, Place, COLUMNS};
use crate::{Borrowed, Rule, Section};

/// What stands above the tables.
const OPENING: &str = "\
# The rules of the papers, and where each is met

This page is made by `cargo run -p traceability` from `tests/traceability/rules`, and a test asks that it is up to date, that
each file, definition, function, law, test and edit that it names is in the tree, that each must-fail edit belongs to a rule,
and that each question and each instruction has one. What a rule does not have reads **none**.

A definition is the rule as the proofs know it; the code does it; the proof shows that the code equals the definition, or what
safety rests on; the tests are those of the reference, which was written from the papers alone, unless a folder is named; a
must-fail edit is a wrong rule or wrong code that the prover refuses. Definitions, code and proofs stand in `crates/`, tests
without a folder in `tests/reference/tests/rules/`. A folder of proofs bears the name of the function that it is about; \"found\"
are the proofs of functions whose contracts the check proves with no such folder. Code that no proof is named for is proved in the
same way, or where it is called.
";

/// What a cell without a place says.
const NONE: &str = "**none**";

/// The document of these sections.
pub fn table(sections: &[Section]) -> String {
    let mut document = OPENING.to_string();
    document += &totals(sections);
    for section in sections {
        document += &format!("\n## {}\n", section.title);
        if !section.rules.is_empty() {
            document += &heads(&["rule"], COLUMNS.map(Column::title).as_slice());
            document.extend(section.rules.iter().map(rule_row));
        }
        if !section.borrowed.is_empty() {
            document += &heads(&["rule", "says"], &["is here"]);
            document.extend(section.borrowed.iter().map(borrowed_row));
        }
    }
    document
}

/// The heads of a table.
fn heads(first: &[&str], further: &[&str]) -> String {
    let heads = [first, further].concat();
    let rule = "---|".repeat(heads.len());
    format!("\n| {} |\n|{rule}\n", heads.join(" | "))
}

/// How many rules there are, and how many have nothing in each column.
fn totals(sections: &[Section]) -> String {
    let rules: Vec<&Rule> = sections.iter().flat_map(|section| &section.rules).collect();
    let lacks = |rule: &&&Rule, column| rule.of(column).next().is_none();
    let lacking = |column| rules.iter().filter(|rule| lacks(rule, column)).count();
    let counts = COLUMNS.map(|column| lacking(column).to_string());
    let heads = heads(&["rules"], COLUMNS.map(Column::lack).as_slice());
    format!("{heads}| {} | {} |\n", rules.len(), counts.join(" | "))
}

/// The row of a rule.
fn rule_row(rule: &Rule) -> String {
    let cells = COLUMNS.map(|column| {
        let places: Vec<String> = rule.of(column).map(cell).collect();
        if places.is_empty() {
            NONE.to_string()
        } else {
            places.join("; ")
        }
    });
    format!(
        "| **{}** {} | {} |\n",
        rule.name,
        rule.words,
        cells.join(" | ")
    )
}

/// A place in a cell.
fn cell(place: &Place) -> String {
    let found = if place.is_found() { "found: " } else { "" };
    let names: Vec<String> = place.names.iter().map(|name| format!("`{name}`")).collect();
    match place.names.is_empty() {
        true => format!("{found}`{}`", place.path),
        false => format!("{found}`{}`: {}", place.path, names.join(", ")),
    }
}

/// The row of a borrowed rule.
fn borrowed_row(borrowed: &Borrowed) -> String {
    let rules: Vec<String> = borrowed
        .rules
        .iter()
        .map(|rule| format!("**{rule}**"))
        .collect();
    format!(
        "| {} | {} | {} |\n",
        borrowed.name,
        borrowed.words,
        rules.join(", ")
    )
}
