//! The examples of `docs/TEXT-FORM.md` assemble, and the scripts are accepted.

use cases::exact;
use reference::{kinds, verdict, Verdict};
use std::collections::BTreeSet;

/// The document.
const DOCUMENT: &str = include_str!("../../../docs/TEXT-FORM.md");

/// A version whose block an instruction can stand in.
const BODY: &str = "version 0.0(r0: int) -> int\nlevel portal\nblock 0 quiet -> r0\n";

/// The code that is fenced under a name.
fn fenced(name: &str) -> Vec<String> {
    let open = format!("```{name}\n");
    let parts = DOCUMENT.split(&open).skip(1);
    let code = parts.map(|part| part.split("```").next().unwrap_or_default());
    code.map(String::from).collect()
}

/// The code in the first column of the table of a section.
fn first_column(section: &str) -> Vec<String> {
    let after = DOCUMENT.split(&format!("## {section}\n")).nth(1);
    let section = after.and_then(|after| after.split("\n## ").next());
    let lines = section.expect("the section is there").lines();
    let cells = lines.filter_map(|line| line.strip_prefix("| `")?.split('`').next());
    cells.map(String::from).collect()
}

#[test]
fn scripts_are_accepted() {
    let scripts = fenced("fir");
    assert_eq!(scripts.len(), 6, "scripts of the document");
    for script in scripts {
        let verdict = verdict(&exact(&script));
        assert!(
            matches!(verdict, Verdict::Accepted(_)),
            "{verdict:?}\n{script}"
        );
    }
}

#[test]
fn each_instruction_has_an_example_under_its_name() {
    let mut met = BTreeSet::new();
    for example in first_column("Instructions") {
        let image = exact(&format!("{BODY}{example}"));
        let records = reference::questions::records(&image).expect("whole records");
        let kind = records[3].item.kind();
        let row = DOCUMENT.lines().find(|line| line.contains(&example));
        let named = row.is_some_and(|row| row.contains(&format!("| {kind} ")));
        assert!(named, "{example} is of kind {kind}");
        met.insert(kind);
    }
    assert!(met.iter().copied().eq(kinds::MOVE..=kinds::LIT), "{met:?}");
}

#[test]
fn each_type_has_its_word() {
    let types = first_column("Types");
    let bytes = types.iter().map(|ty| {
        let image = exact(&format!("version 0.0(r0: {ty}) -> int"));
        image[10]
    });
    let bytes: Vec<u8> = bytes.collect();
    assert_eq!(bytes, [0, 1, 2, 3, 0x13, 0x23, 4, 5]);
}

#[test]
fn each_level_has_its_word() {
    let levels = first_column("Levels");
    let bytes = levels
        .iter()
        .map(|level| exact(&format!("level {level}"))[4]);
    let bytes: Vec<u8> = bytes.collect();
    assert_eq!(bytes, [0, 1, 2]);
}

#[test]
fn the_odd_text_assembles_and_comes_back() {
    let odd = fenced("odd");
    assert_eq!(odd.len(), 1, "odd texts of the document");
    let image = exact(&odd[0]);
    assert!(matches!(verdict(&image), Verdict::Refused(_)));
    assert_eq!(text::assemble(&text::disassemble(&image)), Ok(image));
}
