//! `fir explain`: the section of each refusal, and their list.

mod support;

use support::fir;

/// The refusals there are.
fn refusals() -> impl Iterator<Item = u8> {
    1..=23
}

/// What `fir explain` prints of a refusal.
#[track_caller]
fn explained(number: u8) -> String {
    let done = fir(&["explain", &number.to_string()], b"");
    assert_eq!((done.status, done.errors.as_str()), (0, ""));
    done.text()
}

#[test]
fn each_refusal_has_its_own_section_with_a_wrong_script_and_a_mended_one() {
    for number in refusals() {
        let text = explained(number);
        assert!(text.starts_with(&format!("{number}: ")), "{text}");
        let wrong = format!("refused by {number} at ");
        let (_, behind) = text.split_once(&wrong).expect("a wrong script");
        let mended = ["Checked, accepted:", ", DONE ", " bytes:", " registers:"];
        assert!(mended.iter().any(|words| behind.contains(words)), "{text}");
    }
}

#[test]
fn a_section_ends_where_the_next_one_begins() {
    for number in refusals() {
        let text = explained(number);
        let headings = text.lines().filter(|line| line.starts_with("##"));
        assert_eq!(headings.count(), 0, "{text}");
        assert!(text.ends_with("\n") && !text.ends_with("\n\n"), "{text}");
    }
}

#[test]
fn scripts_are_indented_and_comments_in_them_stay() {
    let text = explained(14);
    assert!(!text.contains("```"), "{text}");
    let script = "\n    # The inner part is to end where the outer one does, but reaches one further.\n    version 0.0(r0: int, r1: int) -> int\n      level portal\n";
    assert!(text.contains(script), "{text}");
}

#[test]
fn without_a_number_all_are_listed_in_the_order_of_the_questions() {
    let done = fir(&["explain"], b"");
    assert_eq!((done.status, done.errors.as_str()), (0, ""));
    let text = done.text();
    let number = |line: &str| {
        line.strip_prefix(' ')?
            .split_whitespace()
            .next()?
            .parse()
            .ok()
    };
    let numbers: Vec<u8> = text.lines().filter_map(number).collect();
    let order = [
        1, 2, 3, 4, 5, 6, 7, 14, 8, 18, 9, 10, 11, 19, 12, 13, 15, 16, 17, 20, 21, 22, 23,
    ];
    assert_eq!(numbers, order);
    assert!(
        text.contains("\nQuestions to an image:\n        1  an image has "),
        "{text}"
    );
}

#[test]
fn each_end_that_is_not_done_has_its_section_in_any_case_of_letters() {
    let list = fir(&["explain"], b"").text();
    for word in ["UNDEF", "STEPS", "DEEP", "VECTORS", "PROMISES"] {
        let done = fir(&["explain", word], b"");
        let text = done.text();
        assert_eq!((done.status, done.errors.as_str()), (0, ""));
        assert!(text.starts_with(&format!("{word}: ")), "{text}");
        assert!(!text.contains("##"), "{text}");
        assert_eq!(fir(&["explain", &word.to_lowercase()], b"").text(), text);
        let heading = text
            .lines()
            .next()
            .unwrap_or_default()
            .replacen(": ", "  ", 1);
        assert!(list.contains(&format!(" {heading}\n")), "{list}");
    }
    let undef = fir(&["explain", "Undef"], b"").text();
    assert!(undef.contains("    r0 = div r0, r1\n"), "{undef}");
}

#[test]
fn other_words_are_bad_usage() {
    for word in ["0", "24", "256", "-1", "8.0", "all", ""] {
        let done = fir(&["explain", word], b"");
        assert_eq!((done.status, done.output.len()), (2, 0), "{word}");
        let reason = format!("`{word}` is no question's number, no word such as UNDEF and");
        assert!(done.errors.contains(&reason), "{}", done.errors);
    }
    let done = fir(&["explain", "8", "9"], b"");
    assert_eq!(done.status, 2);
    assert!(
        done.errors.contains("`9` is one too many"),
        "{}",
        done.errors
    );
}

#[test]
fn the_help_names_it() {
    assert!(fir(&["--help"], b"")
        .text()
        .contains("fir explain [N|WORD]"));
    assert!(fir(&["explain", "--help"], b"")
        .text()
        .contains("fir explain [N|WORD]"));
}

#[test]
fn each_instruction_is_explained_by_its_word() {
    let list = fir(&["explain"], b"").text();
    let words = list.split("\nInstructions:\n").nth(1);
    let words: Vec<&str> = words.expect("they are listed").split_whitespace().collect();
    let kinds = (17..=36).map(|kind| (kind, format!("\n{kind} ")));
    let mut told = String::from("\n");
    for word in &words {
        let done = fir(&["explain", word], b"");
        assert_eq!((done.status, done.errors.as_str()), (0, ""), "{word}");
        assert!(done.text().contains(word), "{word}");
        told += &done.text();
    }
    for (kind, begins) in kinds {
        assert!(told.contains(&begins), "{kind}");
    }
    let skip = "35 SKIP: skip 3 unless r1\n    where the integer in r1 is 0, the next 3 \
                instructions of the block are passed over\n";
    for word in ["skip", "SKIP", "Skip"] {
        assert_eq!(fir(&["explain", word], b"").text(), skip);
    }
}
