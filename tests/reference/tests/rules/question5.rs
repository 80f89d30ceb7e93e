//! Question 5: the order of versions.

use crate::support::{accepts, refuses};

/// Identity versions of these numbers, 23 bytes each.
fn versions(numbers: &[(u8, u8)]) -> String {
    let version =
        |(f, v): &(u8, u8)| format!("version {f}.{v}(r0: int) -> int\nblock 0 quiet -> r0\n");
    numbers.iter().map(version).collect()
}

#[test]
fn question5_first_version_other_than_0_0() {
    refuses(&versions(&[(0, 1)]), 5, 0);
    refuses(&versions(&[(1, 0)]), 5, 0);
}

#[test]
fn question5_next_version_of_the_same_function_or_first_of_the_next_passes() {
    accepts(&versions(&[
        (0, 0),
        (0, 1),
        (0, 2),
        (0, 3),
        (1, 0),
        (2, 0),
        (2, 1),
    ]));
}

#[test]
fn question5_skipped_version() {
    refuses(&versions(&[(0, 0), (0, 2)]), 5, 23);
}

#[test]
fn question5_skipped_function() {
    refuses(&versions(&[(0, 0), (2, 0)]), 5, 23);
}

#[test]
fn question5_next_function_that_begins_with_version_1() {
    refuses(&versions(&[(0, 0), (1, 1)]), 5, 23);
}

#[test]
fn question5_same_version_twice() {
    refuses(&versions(&[(0, 0), (0, 0)]), 5, 23);
}

#[test]
fn question5_function_taken_up_again() {
    refuses(&versions(&[(0, 0), (1, 0), (0, 1)]), 5, 46);
}

#[test]
fn question5_compares_with_the_version_before_though_that_one_fails_nothing_later() {
    refuses(&versions(&[(0, 0), (0, 1), (1, 0), (1, 2), (1, 3)]), 5, 69);
}

#[test]
fn question5_is_put_to_the_whole_image_before_question_6() {
    let text = "version 0.0(r0: 0x66) -> int\nblock 0 quiet -> r0\n".to_string();
    refuses(&(text + &versions(&[(0, 2)])), 5, 23);
}
