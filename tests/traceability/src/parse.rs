//! The rules of a text.

use crate::place::{Column, Place, COLUMNS};
use crate::{Borrowed, Rule, Section};

/// The word that opens a line of functions whose proofs the check finds.
const FOUND: &str = "found";

/// The sections of a text, or what is wrong with the first line that is.
pub fn parse(text: &str) -> Result<Vec<Section>, String> {
    let mut sections = Vec::new();
    for (number, line) in text.lines().enumerate() {
        if line.is_empty() || line.starts_with('#') {
            continue;
        }
        let read = read(line, &mut sections);
        read.map_err(|reason| format!("line {}: {reason}: {line}", number + 1))?;
    }
    Ok(sections)
}

/// Reads one line behind these sections.
fn read(line: &str, sections: &mut Vec<Section>) -> Result<(), String> {
    let (word, rest) = line.split_once(' ').ok_or("nothing follows its word")?;
    if word == "section" {
        sections.push(Section {
            title: rest.to_string(),
            rules: Vec::new(),
            borrowed: Vec::new(),
        });
        return Ok(());
    }
    let section = sections.last_mut().ok_or("no section is open")?;
    match word {
        "rule" => section.rules.push(rule(rest)?),
        "borrows" => section.borrowed.push(borrowed(rest)?),
        "is" => {
            let borrowed = section.borrowed.last_mut().ok_or("no rule is borrowed")?;
            borrowed.rules.extend(words(rest));
        }
        _ => {
            let column = match word {
                FOUND => Some(Column::Proof),
                _ => COLUMNS.into_iter().find(|column| column.word() == word),
            };
            let column = column.ok_or("its word is unknown")?;
            let rule = section.rules.last_mut().ok_or("no rule is open")?;
            let place = place(column, rest)?;
            if place.is_found() != (word == FOUND) {
                return Err("a proof that is found is that of a function".to_string());
            }
            rule.places.push(place);
        }
    }
    Ok(())
}

/// The words of a line.
fn words(rest: &str) -> impl Iterator<Item = String> + '_ {
    rest.split_whitespace().map(String::from)
}

/// A name and what stands behind it.
fn named(rest: &str) -> Result<(String, String), String> {
    let (name, words) = rest.split_once(' ').ok_or("a name without words")?;
    Ok((name.to_string(), words.to_string()))
}

/// A rule without places.
fn rule(rest: &str) -> Result<Rule, String> {
    let (name, words) = named(rest)?;
    let places = Vec::new();
    Ok(Rule {
        name,
        words,
        places,
    })
}

/// A borrowed rule, whose rules are not named yet.
fn borrowed(rest: &str) -> Result<Borrowed, String> {
    let (name, words) = named(rest)?;
    let rules = Vec::new();
    Ok(Borrowed { name, words, rules })
}

/// A place of a column.
fn place(column: Column, rest: &str) -> Result<Place, String> {
    let mut words = words(rest);
    let path = words.next().ok_or("no file is named")?;
    let names = words.collect();
    Ok(Place {
        column,
        path,
        names,
    })
}
