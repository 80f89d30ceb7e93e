//! The words of refusals for levels: faults of a LEVEL by questions 3 and 4, calls that go
//! up by 18, entries above the run's level by 19, and `--level`.

mod support;

use cases::exact;
use support::{file, fir, refused};

/// An identity of a level: LEVEL at 11, BLOCK at 16, 23 bytes.
fn identity(numbers: &str, level: &str) -> String {
    format!("version {numbers}(r0: int) -> int\nlevel {level}\nblock 0 quiet -> r0\n")
}

/// Asserts the line for a text as it stands.
#[track_caller]
fn says(text: &str, line: &str) {
    refused(&exact(text), line);
}

#[test]
fn a_level_of_another_length_is_named() {
    let mut image = exact(&identity("0.0", "portal"));
    image[11] = 6;
    image.insert(16, 0);
    refused(&image, "refused by 3 at 11: LEVEL has 5 bytes, this one 6");
    let mut image = exact(&identity("0.0", "portal"));
    image[11] = 4;
    image.remove(15);
    refused(&image, "refused by 3 at 11: LEVEL has 5 bytes, this one 4");
}

#[test]
fn an_unknown_level_is_named_with_those_that_there_are() {
    says(
        &identity("0.0", "3"),
        "refused by 4 at 11: LEVEL has the level 3, and levels are 0 portal, 1 staff and 2 factory",
    );
}

#[test]
fn a_missing_level_is_named_with_the_line_to_write() {
    let due = "where the LEVEL of 0.1, a line such as `level portal`, is due";
    let first = identity("0.0", "staff");
    let without = "version 0.1(r0: int) -> int blocks=1\n";
    says(
        &format!("{first}{without}block 0 quiet -> r0"),
        &format!("refused by 4 at 34: BLOCK stands {due}"),
    );
    says(
        &format!("{first}{without}r0 = lit 1"),
        &format!("refused by 4 at 34: LIT stands {due}"),
    );
    says(
        &format!("{first}{without}{first}"),
        &format!("refused by 4 at 34: VERSION stands {due}"),
    );
    says(
        &format!("{first}{without}"),
        &format!("refused by 4 at 34: the image ends {due}"),
    );
}

#[test]
fn a_text_without_a_level_line_names_the_line_in_its_place() {
    let text = "# an old script\nversion 0.0(r0: int) -> int\n\n  block 0 quiet -> r0\n";
    let file = file("levels", "old.fir", text.as_bytes());
    assert_eq!(
        fir(&["check", &file], b"").text(),
        format!(
            "{file}:4:3: refused by 4 at 11: BLOCK stands where the LEVEL of 0.0, a line such as \
             `level portal`, is due\n"
        )
    );
}

#[test]
fn a_level_twice_or_elsewhere_is_named_with_what_is_due() {
    let whole = identity("0.0", "staff");
    says(
        &whole.replace("block", "level portal\nblock"),
        "refused by 4 at 16: LEVEL stands where 1 more block of 0.0 is due",
    );
    says(
        &format!("{whole}level portal"),
        "refused by 4 at 23: LEVEL stands where a VERSION is due",
    );
    says(
        "level portal",
        "refused by 4 at 0: LEVEL stands where a VERSION is due",
    );
    let counted = whole.replace("-> r0\n", "-> r0 count=1\n");
    says(
        &format!("{counted}level portal"),
        "refused by 4 at 23: LEVEL stands where 1 more instruction of block 0 of 0.0 is due",
    );
}

#[test]
fn a_call_up_is_named_with_both_levels() {
    let calling =
        |own, called| identity("0.0", own) + "r0 = call 1.0(r0)\n" + &identity("1.0", called);
    for (own, called) in [
        ("portal", "staff"),
        ("portal", "factory"),
        ("staff", "factory"),
    ] {
        says(
            &calling(own, called),
            &format!(
                "refused by 18 at 23: CALL of 1.0 goes up: 0.0 is of level {own}, and 1.0 of {called}"
            ),
        );
    }
    let file = file("levels", "up.fir", calling("staff", "factory").as_bytes());
    assert_eq!(
        fir(&["check", &file], b"").text(),
        format!(
            "{file}:4:1: refused by 18 at 23: CALL of 1.0 goes up: 0.0 is of level staff, and \
             1.0 of factory\n"
        )
    );
}

/// Versions 0.0 to 0.2 of each level.
fn each_level() -> Vec<u8> {
    let levels = [("0.0", "portal"), ("0.1", "staff"), ("0.2", "factory")];
    let versions = levels.map(|(numbers, level)| identity(numbers, level));
    exact(&versions.concat())
}

#[test]
fn an_entry_above_the_runs_level_is_named_with_both_levels() {
    let image = each_level();
    for (level, version, words) in [
        (
            "portal",
            "0.1",
            "0.1 is of level staff, and the run states portal",
        ),
        (
            "0",
            "0.2",
            "0.2 is of level factory, and the run states portal",
        ),
        (
            "staff",
            "0.2",
            "0.2 is of level factory, and the run states staff",
        ),
    ] {
        for command in ["run", "trace"] {
            let done = fir(&[command, "-", version, "7", "--level", level], &image);
            assert_eq!(done.text(), format!("refused by 19 at 0: {words}\n"));
            assert_eq!((done.status, done.errors.as_str()), (1, ""));
        }
    }
}

#[test]
fn a_run_enters_versions_of_its_level_and_lower() {
    let image = each_level();
    for (level, highest) in [
        ("portal", 0),
        ("0", 0),
        ("staff", 1),
        ("1", 1),
        ("factory", 2),
        ("2", 2),
    ] {
        for version in 0..3 {
            let name = format!("0.{version}");
            let done = fir(&["run", "-", &name, "--level", level, "7"], &image);
            let entered = done.text() == "DONE 7 after 1 step\n";
            assert_eq!(entered, version <= highest, "{name} at {level}");
        }
    }
}

#[test]
fn a_run_states_the_highest_level_where_none_is_given() {
    let done = fir(&["run", "-", "0.2", "7"], &each_level());
    assert_eq!(done.text(), "DONE 7 after 1 step\n");
}

#[test]
fn a_level_that_is_none_is_bad_usage() {
    for level in ["3", "tenant", "Portal", "-1", ""] {
        let done = fir(&["run", "-", "0.0", "7", "--level", level], &each_level());
        assert_eq!(done.status, 2, "{level}");
        let words = format!("--level is portal, staff or factory, not `{level}`");
        assert!(done.errors.contains(&words), "{}", done.errors);
    }
    let done = fir(&["run", "-", "0.0", "7", "--level"], &each_level());
    assert!(done.errors.contains("nothing follows --level"));
    let twice = ["run", "-", "0.0", "--level", "0", "7", "--level", "1"];
    let done = fir(&twice, &each_level());
    assert!(done.errors.contains("--level stands twice"));
}

/// 0.0 of a level dispatches on function 1, whose versions are of these levels.
fn dispatching(own: &str, levels: &[&str]) -> Vec<u8> {
    let mut text = identity("0.0", own) + "r0 = dispatch 1(r0: int) -> int quiet\n";
    for (number, level) in levels.iter().enumerate() {
        text += &identity(&format!("1.{number}"), level);
    }
    exact(&text)
}

#[test]
fn a_dispatch_that_finds_versions_above_alone_names_them() {
    for (own, levels, words) in [
        (
            "portal",
            &["staff"][..],
            "1.0 is of level staff, above portal",
        ),
        (
            "staff",
            &["factory", "factory"],
            "1.0 is of level factory, above staff; 1.1 is of level factory, above staff",
        ),
    ] {
        let done = fir(&["run", "-", "0.0", "7"], &dispatching(own, levels));
        let cause = format!(": no version of function 1 fits: {words}\n");
        assert!(done.text().ends_with(&cause), "{}", done.text());
    }
    // Nothing is above, and nothing takes the integer.
    let text = identity("0.0", "staff") + "r0 = dispatch 1(r0: int) -> int quiet\n";
    let other = identity("1.0", "staff").replace("(r0: int)", "(r0: int, r1: int)");
    let done = fir(&["run", "-", "0.0", "7"], &exact(&(text + &other)));
    let cause = ": no version of function 1 fits: 1.0 has 2 parameters, and 1 argument is given\n";
    assert!(done.text().ends_with(cause), "{}", done.text());
}

#[test]
fn versions_that_are_passed_over_count_as_looked_at() {
    let image = dispatching("staff", &["factory", "staff", "portal"]);
    let done = fir(&["run", "-", "0.0", "7", "--stats"], &image);
    let sums = "  DISPATCH steps: 1, looked at 2 of 3 versions\n";
    assert!(done.text().ends_with(sums), "{}", done.text());
    let done = fir(&["trace", "-", "0.0", "7", "--level", "staff"], &image);
    let looked = "looked at 2 of 3, opens call 1 of 1.1 with r0 = 7";
    assert!(done.text().contains(looked), "{}", done.text());
}

#[test]
fn a_live_version_whose_level_differs_is_named_with_both() {
    let text = |level| identity("0.0", "factory") + "r0 = call 1.0(r0)\n" + &identity("1.0", level);
    let new = file("levels", "new.bin", &exact(&text("portal")));
    let then = format!("{new}@1");
    let call = ["run", "-", "0.0", "7", "--then", &then];
    let done = fir(&call, &exact(&text("staff")));
    let words = "refused by 15 at 32 after 1 step: 1.0 has a live call and differs: its level, byte 47, is \
                 portal, and was staff at 47 of the old image\n";
    assert!(done.text().contains(words), "{}", done.text());
    assert_eq!(done.status, 1);
}

#[test]
fn dis_shows_levels_and_asm_gives_them_back() {
    let image = each_level();
    let text = fir(&["dis", "-"], &image).text();
    for level in ["portal", "staff", "factory"] {
        assert!(text.contains(&format!("  level {level}\n")), "{text}");
    }
    assert_eq!(fir(&["asm", "-"], text.as_bytes()).output, image);
}
