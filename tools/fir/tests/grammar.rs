//! `tools/editor`: the grammar knows every word that the text form has, and no other.

mod support;

use reference::Record;
use std::collections::BTreeSet;
use support::json::Value;

/// The grammar.
const GRAMMAR: &str = include_str!("../../editor/fir.tmLanguage.json");
/// What makes it known to an editor.
const PACKAGE: &str = include_str!("../../editor/package.json");
const CONFIGURATION: &str = include_str!("../../editor/language-configuration.json");

/// The kinds of records that are tried, and the longest body.
const KINDS: u16 = 64;
const BODY: usize = 48;
/// The bytes that bodies are filled with: kinds, marks, operations, and types that are
/// owned and borrowed.
const FILLS: [u8; 8] = [0, 1, 2, 3, 4, 5, 0x13, 0x23];
/// A byte that stands at one place of a body: a count, a mark and an operation too many.
const ODD: u8 = 9;

/// The bytes of all records whose body is filled with one byte, but for one place at most.
fn records() -> Vec<Vec<u8>> {
    let mut records = Vec::new();
    let bodies = (0..=BODY).flat_map(|length| FILLS.map(|fill| vec![fill; length]));
    for body in bodies {
        for place in 0..=body.len() {
            let mut body = body.clone();
            if let Some(byte) = body.get_mut(place) {
                *byte = ODD;
            }
            let known = (0..KINDS).filter_map(|kind| Record::read(kind, &body));
            records.extend(known.map(|record| record.bytes()));
        }
    }
    records
}

/// The words of a text: letters alone.
fn words(text: &str) -> impl Iterator<Item = String> + '_ {
    let parts = text.split(|sign: char| !sign.is_ascii_alphanumeric());
    let words =
        parts.filter(|part| !part.is_empty() && part.bytes().all(|b| b.is_ascii_lowercase()));
    words.map(String::from)
}

/// Every word that the text of an image can have.
fn words_of_the_text_form() -> BTreeSet<String> {
    let mut all: BTreeSet<String> = words(&text::disassemble(&[ODD])).collect();
    for record in records() {
        all.extend(words(&text::disassemble(&record)));
    }
    all
}

/// The expressions of a grammar.
fn expressions(grammar: &Value) -> Vec<String> {
    match grammar {
        Value::List(values) => values.iter().flat_map(expressions).collect(),
        Value::Object(fields) => {
            let own = ["match", "begin"]
                .into_iter()
                .filter_map(|name| fields.get(name));
            let own: Vec<String> = own.map(|value| value.text().to_string()).collect();
            let inside = fields.values().flat_map(expressions);
            inside.chain(own).collect()
        }
        _ => Vec::new(),
    }
}

/// The words that stand as alternatives in the brackets of an expression.
fn alternatives(expression: &str) -> Vec<String> {
    let groups = expression.split('(').skip(1);
    let groups = groups.filter_map(|behind| behind.split(')').next());
    let plain = groups.filter(|group| {
        let mut bytes = group.bytes();
        bytes.all(|byte| byte.is_ascii_lowercase() || byte == b'|')
    });
    plain
        .flat_map(|group| group.split('|').map(String::from))
        .collect()
}

#[test]
fn the_grammar_knows_every_word_of_the_text_form_and_no_other() {
    let expressions = expressions(&Value::of(GRAMMAR));
    let known: BTreeSet<String> = expressions
        .iter()
        .flat_map(|one| alternatives(one))
        .collect();
    let words = words_of_the_text_form();
    assert!(words.len() > 40, "{words:?}");
    assert_eq!(known, words);
}

#[test]
fn no_word_of_the_text_form_names_a_register() {
    let keywords = text::KEYWORDS.iter().map(|word| word.to_string());
    let keywords: BTreeSet<String> = keywords.collect();
    assert_eq!(keywords, words_of_the_text_form());
}

/// The place of a part among those that the grammar tries one after another.
fn order(part: &str) -> usize {
    let grammar = Value::of(GRAMMAR);
    let mut parts = grammar.field("patterns").list().iter();
    let place = parts.position(|there| there.field("include").text() == format!("#{part}"));
    place.expect("the part is there")
}

#[test]
fn names_of_registers_are_tried_behind_all_words_and_tests_before_other_comments() {
    for words in [
        "type",
        "declaration",
        "level",
        "mark",
        "instruction",
        "register",
    ] {
        assert!(order(words) < order("called"), "{words}");
    }
    assert!(order("test") < order("comment"));
}

#[test]
fn each_part_of_the_grammar_is_included_once_and_there() {
    let grammar = Value::of(GRAMMAR);
    let included = grammar.field("patterns").list().iter();
    let included = included.map(|part| part.field("include").text().trim_start_matches('#'));
    let included: BTreeSet<&str> = included.collect();
    let Value::Object(parts) = grammar.field("repository") else {
        panic!("no parts");
    };
    let parts: BTreeSet<&str> = parts.keys().map(String::as_str).collect();
    assert_eq!(included, parts);
}

#[test]
fn the_editor_finds_the_grammar_by_the_extension_of_texts() {
    let contributes = Value::of(PACKAGE);
    let contributes = contributes.field("contributes");
    let language = &contributes.field("languages").list()[0];
    assert_eq!(language.field("extensions").list()[0].text(), ".fir");
    let grammar = &contributes.field("grammars").list()[0];
    assert_eq!(grammar.field("path").text(), "./fir.tmLanguage.json");
    let scope = Value::of(GRAMMAR).field("scopeName").clone();
    assert_eq!(grammar.field("scopeName"), &scope);
    let comments = Value::of(CONFIGURATION);
    assert_eq!(comments.field("comments").field("lineComment").text(), "#");
}
