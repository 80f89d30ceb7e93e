//! The table of rules is up to date, names what is there, and leaves nothing out.

use std::collections::BTreeSet;
use std::fs;
use traceability::{edits, parse, root, sections, table, Column, Place, Rule, Section};

/// The sections of all papers.
fn all() -> Vec<Section> {
    sections().expect("rules that can be read")
}

/// The rules of all papers.
fn rules() -> Vec<Rule> {
    all()
        .into_iter()
        .flat_map(|section| section.rules)
        .collect()
}

/// Their names.
fn names() -> Vec<String> {
    rules().into_iter().map(|rule| rule.name).collect()
}

#[test]
fn the_document_is_the_table_of_the_rules() {
    let document = fs::read_to_string(root().join("docs/RULES.md")).expect("the document");
    assert!(
        document == table(&all()),
        "docs/RULES.md is not up to date: cargo run -p traceability"
    );
}

#[test]
fn each_place_is_in_the_tree() {
    let root = root();
    let rules = rules();
    let places = rules.iter().flat_map(|rule| &rule.places);
    let missing: Vec<String> = places.flat_map(|place| place.missing(&root)).collect();
    assert!(missing.is_empty(), "{}", missing.join("\n"));
}

#[test]
fn each_must_fail_edit_belongs_to_a_rule() {
    let rules = rules();
    let places = rules.iter().flat_map(|rule| rule.of(Column::Edit));
    let named = places.flat_map(|place| {
        let edit = |name: &String| (place.path.clone(), name.clone());
        place.names.iter().map(edit)
    });
    let named: BTreeSet<(String, String)> = named.collect();
    let left: Vec<_> = edits(&root())
        .into_iter()
        .filter(|edit| !named.contains(edit))
        .collect();
    assert!(left.is_empty(), "{left:#?}");
}

/// The file that an edit changes.
fn changed(place: &Place, name: &str) -> String {
    let file = root().join(place.file()).join(format!("{name}.edit"));
    let text = fs::read_to_string(file).expect("an edit");
    let line = text.lines().find_map(|line| line.strip_prefix("file: "));
    format!("{}/{}", place.path, line.expect("a file to change"))
}

/// Does the rule name the file as its definition or code, or a proof of its crate?
fn concerns(rule: &Rule, file: &str) -> bool {
    let of = |path: &str| path.split('/').next().map(String::from);
    rule.places.iter().any(|place| match place.column {
        Column::Definition | Column::Code => place.path == file,
        Column::Proof => of(&place.path) == of(file),
        Column::Test | Column::Edit => false,
    })
}

#[test]
fn each_edit_changes_what_its_rule_names() {
    for rule in rules() {
        for place in rule.of(Column::Edit) {
            for name in &place.names {
                let file = changed(place, name);
                assert!(concerns(&rule, &file), "{}: {name} of {file}", rule.name);
            }
        }
    }
}

#[test]
fn each_question_of_the_language_has_a_rule() {
    let names = names();
    let language = fs::read_to_string(root().join("docs/LANGUAGE.md")).expect("the language");
    let headings = language
        .lines()
        .filter_map(|line| line.strip_prefix("### "));
    let numbers: Vec<&str> = headings
        .filter_map(|heading| Some(heading.split_once(": ")?.0))
        .filter(|name| name.parse::<u8>().is_ok())
        .collect();
    assert!(!numbers.is_empty(), "no question");
    for number in numbers {
        let rule = format!("question.{number}");
        let part = format!("{rule}.");
        let has = |name: &String| *name == rule || name.starts_with(&part);
        assert!(names.iter().any(has), "{rule}");
    }
}

#[test]
fn each_file_of_tests_by_rule_belongs_to_a_rule() {
    let rules = rules();
    let places = rules.iter().flat_map(|rule| rule.of(Column::Test));
    let named: BTreeSet<String> = places.map(Place::file).collect();
    let folder = "tests/reference/tests/rules";
    let files = fs::read_dir(root().join(folder)).expect("the tests by rule");
    for file in files.flatten() {
        let name = file.file_name().to_string_lossy().into_owned();
        let shared = ["main.rs", "support.rs"].contains(&name.as_str());
        assert!(
            shared || named.contains(&format!("{folder}/{name}")),
            "{name}"
        );
    }
}

#[test]
fn each_instruction_has_a_rule_of_types_and_one_of_steps() {
    let kinds = fs::read_to_string(root().join("crates/layout/specs/Kinds.antt"));
    let kinds = kinds.expect("the kinds of records");
    let kinds = kinds
        .lines()
        .filter_map(|line| line.strip_prefix("abbrev pub "));
    let kinds = kinds.filter_map(|line| line.split(' ').next());
    let plain = ["VERSION", "BLOCK", "LEVEL", "NARROW-LIT"];
    let instructions: Vec<&str> = kinds.filter(|kind| !plain.contains(kind)).collect();
    assert!(!instructions.is_empty());
    let names = names();
    for kind in instructions {
        for rule in [format!("fit.{kind}"), format!("step.{kind}")] {
            assert!(names.contains(&rule), "{rule}");
        }
    }
}

#[test]
fn names_of_rules_are_unique_and_borrowed_ones_exist() {
    let names = names();
    let unique: BTreeSet<&String> = names.iter().collect();
    assert_eq!(unique.len(), names.len());
    for borrowed in all().iter().flat_map(|section| &section.borrowed) {
        assert!(!borrowed.rules.is_empty(), "{}", borrowed.name);
        let missing = borrowed.rules.iter().find(|&rule| !unique.contains(rule));
        assert_eq!(missing, None, "{}", borrowed.name);
    }
}

/// What of a place is missing.
fn missing(column: Column, path: &str, name: &str) -> usize {
    let (path, names) = (path.to_string(), vec![name.to_string()]);
    let place = Place {
        column,
        path,
        names,
    };
    place.missing(&root()).len()
}

#[test]
fn names_that_are_not_there_are_missing() {
    let types = "rules/specs/Types.antt";
    assert_eq!(missing(Column::Definition, types, "within"), 0);
    assert_eq!(missing(Column::Definition, types, "withi"), 1);
    assert_eq!(missing(Column::Definition, types, "eqb"), 1);
    assert_eq!(
        missing(Column::Definition, "rules/specs/Type.antt", "within"),
        1
    );
    assert_eq!(missing(Column::Code, "typing/src/types.rt", "is_within"), 0);
    assert_eq!(missing(Column::Code, "typing/src/types.rt", "is_with"), 1);
    let test = "within_is_itself_and_0_and_2_and_3_in_1_and_4_in_5";
    assert_eq!(missing(Column::Test, "types.rs", test), 0);
    assert_eq!(missing(Column::Test, "types.rs", "within"), 1);
    assert_eq!(missing(Column::Edit, "flow", "promise_assigns"), 0);
    assert_eq!(missing(Column::Edit, "flow", "promise"), 1);
}

#[test]
fn a_proof_is_found_where_the_function_has_a_contract_and_no_folder() {
    let found = |path, name| missing(Column::Proof, path, name);
    // `read_to_end` has a folder of proofs, and `read_on` no contract.
    assert_eq!(found("fir_check/src/main.rt", "read_to_end"), 1);
    assert_eq!(found("fir_check/src/main.rt", "read_on"), 1);
    assert_eq!(found("fir_check/src/main.rt", "read"), 1);
    assert_eq!(found("abi/src/lib.rt", "fir_step"), 0);
}

#[test]
fn a_rule_without_a_place_shows() {
    let text = "section S\nrule a.b says so\ndefinition rules/specs/Types.antt within\n";
    let table = table(&parse(text).expect("rules"));
    let row = "| **a.b** says so | `rules/specs/Types.antt`: `within` | **none** | **none** | **none** | **none** |";
    assert!(table.contains(row), "{table}");
    assert!(table.contains("| 1 | 0 | 1 | 1 | 1 | 1 |"), "{table}");
}

#[test]
fn lines_that_are_no_rules_are_named() {
    for (text, reason) in [
        ("rule a b", "no section is open"),
        ("section S\ncode a b", "no rule is open"),
        ("section S\nis a", "no rule is borrowed"),
        ("section S\nrule a b\nproofs a", "its word is unknown"),
        ("section S\nrule a b\nfound a/proofs/b", "that is found"),
        ("section S\nrule a b\nproof a/src/b.rt c", "that is found"),
        ("section", "nothing follows its word"),
        ("section S\nrule a", "a name without words"),
    ] {
        let wrong = parse(text).expect_err("a wrong line");
        assert!(wrong.contains(reason), "{wrong}");
    }
}
