//! "How long at most": what a version depends on, its bound, and the order of the list.

use cases::image;
use reference::longest::rows;
use reference::{bounds_of, Bound, Program, Refusal};

/// The rows of an image in words: `0.0 7, 1.0 large, 2.0 none`.
fn listed_of(image: &[u8]) -> String {
    let program = Program::accept(image).expect("an accepted image");
    let row = |row: reference::longest::Row| {
        let bound = match row.bound {
            Bound::Steps(steps) => steps.to_string(),
            Bound::Large => "large".to_string(),
            Bound::None => "none".to_string(),
        };
        format!("{}.{} {bound}", row.function, row.version)
    };
    let rows: Vec<String> = rows(&program).into_iter().map(row).collect();
    rows.join(", ")
}

/// Asserts the rows of the image of a text.
#[track_caller]
fn lists(text: &str, rows: &str) {
    assert_eq!(listed_of(&image(text)), rows);
}

/// A version without parameters, of these instructions.
fn version(numbers: &str, level: &str, instructions: &[&str]) -> String {
    let lines = instructions.iter().map(|line| format!("    {line}\n"));
    let lines: String = lines.collect();
    format!(
        "version {numbers}() -> int\n  registers r0: int\n  level {level}\n  \
         block 0 quiet -> r0\n    r0 = lit 1\n{lines}"
    )
}

/// Versions for the portal, each with its instructions behind a LIT.
fn versions(all: &[(&str, &[&str])]) -> String {
    let texts = all
        .iter()
        .map(|(numbers, lines)| version(numbers, "portal", lines));
    texts.collect()
}

#[test]
fn bound_is_the_instructions_and_the_block_end() {
    lists(
        "version 0.0(r0: int) -> int
           block 0 quiet -> r0",
        "0.0 1",
    );
    lists(&versions(&[("0.0", &["r0 = add r0, r0"])]), "0.0 3");
}

#[test]
fn bound_counts_promise_blocks_that_nothing_forces() {
    lists(
        "version 0.0(r0: int) -> int
           registers r1: quiet promise, r2: int
           block 0 quiet -> r0
             r1 = prom 1
           block 1 quiet -> r2
             r2 = lit 4
             r2 = lit 5",
        "0.0 5",
    );
}

#[test]
fn bound_counts_skipped_parts_in_full() {
    let skipped: &[&str] = &["skip 2 unless r0", "r0 = call 1.0()", "r0 = lit 2"];
    lists(&versions(&[("0.0", skipped), ("1.0", &[])]), "1.0 2, 0.0 7");
}

#[test]
fn bound_counts_each_call_as_often_as_it_stands_there() {
    let twice: &[&str] = &["r0 = call 1.0()", "r0 = call 1.0()"];
    lists(&versions(&[("0.0", twice), ("1.0", &[])]), "1.0 2, 0.0 8");
}

#[test]
fn bound_counts_calls_in_promise_blocks_and_depends_on_them() {
    lists(
        "version 0.0(r0: int) -> int
           registers r1: quiet promise, r2: int
           block 0 quiet -> r0
             r1 = prom 1
           block 1 quiet -> r2
             r2 = call 1.0(r0)
         version 1.0(r0: int) -> int
           block 0 quiet -> r0
             r0 = lit 1
             r0 = lit 2",
        "1.0 3, 0.0 7",
    );
}

/// A DISPATCH of 0.0 on function 1 in these words, and three versions of it with 1, 5
/// and 3 instructions, whose heads are given.
fn dispatching(dispatch: &str, heads: [&str; 3]) -> String {
    let lengths = [1, 5, 3];
    let version = |(number, (head, length)): (usize, (&str, usize))| {
        let lines = "    r3 = lit 7\n".repeat(length);
        let (head, rest) = head.split_once('|').expect("a head and a mark");
        let registers = match head.contains("r2: ") {
            true => "r3: int",
            false => "r2: int, r3: int",
        };
        format!(
            "version 1.{number}{head}\n  registers {registers}\n  level {rest} -> r3\n{lines}",
            head = head.trim_end(),
            rest = rest.trim().replacen(' ', "\n  block 0 ", 1)
        )
    };
    let heads = heads.into_iter().zip(lengths).enumerate().map(version);
    let heads: String = heads.collect();
    format!(
        "version 0.0(r0: int, r1: vector) -> int
  registers r2: own vector, r3: int, r4: value
  level staff
  block 0 reflective -> r0
    r2 = vec []
    {dispatch}
{heads}"
    )
}

/// The head of a version that takes an integer, a vector and an owned vector.
const SAME: &str = "(r0: int, r1: vector, r2: own vector) -> int | portal quiet";

/// The DISPATCH that fits it.
const DISPATCH: &str = "r3 = dispatch 1(r0: int, r1: vector, r2: own vector) -> int quiet";

/// The bound of 0.0 that dispatches on versions of these heads.
#[track_caller]
fn dispatched(dispatch: &str, heads: [&str; 3]) -> u32 {
    let image = cases::exact(&dispatching(dispatch, heads));
    let rows = bounds_of(&image).expect("an accepted image");
    let last = rows.last().expect("a row");
    assert_eq!((last.function, last.version), (0, 0), "{rows:?}");
    match last.bound {
        Bound::Steps(steps) => steps,
        other => panic!("{other:?}"),
    }
}

#[test]
fn dispatch_adds_the_largest_bound_that_it_may_reach() {
    assert_eq!(dispatched(DISPATCH, [SAME, SAME, SAME]), 3 + 6);
}

#[test]
fn dispatch_passes_over_versions_above_the_level_that_it_stands_in() {
    let staff = "(r0: int, r1: vector, r2: own vector) -> int | staff quiet";
    let factory = "(r0: int, r1: vector, r2: own vector) -> int | factory quiet";
    assert_eq!(dispatched(DISPATCH, [SAME, staff, SAME]), 3 + 6);
    assert_eq!(dispatched(DISPATCH, [SAME, factory, SAME]), 3 + 4);
}

#[test]
fn dispatch_leaves_the_kinds_of_arguments_aside() {
    let others = "(r0: vector, r1: int, r2: own vector) -> int | portal quiet";
    assert_eq!(dispatched(DISPATCH, [SAME, others, SAME]), 3 + 6);
}

#[test]
fn dispatch_depends_on_the_count_and_the_ownerships_of_parameters() {
    let fewer = "(r0: int, r1: vector) -> int | portal quiet";
    let borrowed = "(r0: int, r1: vector, r2: borrow vector) -> int | portal quiet";
    assert_eq!(dispatched(DISPATCH, [SAME, fewer, SAME]), 3 + 4);
    assert_eq!(dispatched(DISPATCH, [SAME, borrowed, SAME]), 3 + 4);
}

#[test]
fn dispatch_depends_on_the_return_and_on_the_mark() {
    let wider = "(r0: int, r1: vector, r2: own vector) -> value | portal quiet";
    let marked = "(r0: int, r1: vector, r2: own vector) -> int | portal reflective";
    assert_eq!(dispatched(DISPATCH, [SAME, wider, SAME]), 3 + 4);
    assert_eq!(dispatched(DISPATCH, [SAME, marked, SAME]), 3 + 4);
    let all = "r4 = dispatch 1(r0: int, r1: vector, r2: own vector) -> value reflective";
    assert_eq!(dispatched(all, [SAME, wider, SAME]), 3 + 6);
    assert_eq!(dispatched(all, [SAME, marked, SAME]), 3 + 6);
}

#[test]
fn dispatch_that_nothing_fits_adds_0_and_depends_on_nothing() {
    let none = "r3 = dispatch 1(r0: int) -> int quiet";
    let image = cases::exact(&dispatching(none, [SAME, SAME, SAME]));
    assert_eq!(listed_of(&image), "0.0 3, 1.0 2, 1.1 6, 1.2 4");
}

#[test]
fn none_where_a_version_comes_to_itself() {
    lists(&versions(&[("0.0", &["r0 = call 0.0()"])]), "0.0 none");
    let dispatch: &[&str] = &["r0 = dispatch 0() -> int quiet"];
    lists(
        &versions(&[("0.0", &[]), ("0.1", dispatch)]),
        "0.0 2, 0.1 none",
    );
}

#[test]
fn none_where_a_chain_comes_back_to_another_version_than_the_first() {
    lists(
        &versions(&[
            ("0.0", &["r0 = call 1.0()"]),
            ("1.0", &["r0 = call 2.0()"]),
            ("2.0", &["r0 = call 1.0()"]),
            ("3.0", &[]),
        ]),
        "3.0 2, 0.0 none, 1.0 none, 2.0 none",
    );
}

#[test]
fn none_in_a_part_that_is_always_skipped_too() {
    lists(
        &versions(&[(
            "0.0",
            &["r0 = lit 0", "skip 1 unless r0", "r0 = call 0.0()"],
        )]),
        "0.0 none",
    );
}

#[test]
fn the_list_is_made_one_by_one_and_not_in_layers() {
    lists(
        &versions(&[("0.0", &["r0 = call 1.0()"]), ("1.0", &[]), ("2.0", &[])]),
        "1.0 2, 0.0 5, 2.0 2",
    );
}

#[test]
fn the_lowest_function_then_the_lowest_version_is_first_among_those_free() {
    lists(
        &versions(&[
            ("0.0", &["r0 = call 1.1()"]),
            ("0.1", &[]),
            ("1.0", &["r0 = call 0.1()"]),
            ("1.1", &[]),
        ]),
        "0.1 2, 1.0 5, 1.1 2, 0.0 5",
    );
}

/// A version that calls the next one 24 times, and so many plain instructions besides.
fn multiplied(function: usize, more: usize) -> String {
    let call = format!("r0 = call {}.0()", function + 1);
    let mut lines = vec![call.as_str(); 24];
    lines.extend(vec!["r0 = lit 0"; more]);
    version(&format!("{function}.0"), "portal", &lines)
}

/// An image whose 0.0 has this bound, by a chain of versions that call the next one 24
/// times: a version with m more instructions has 2 + m + 24 × (1 + the next one's).
fn chain_of(bound: u64) -> Vec<u8> {
    let (mut text, mut left, mut function) = (String::new(), bound, 0);
    while left > 48 {
        let more = (left - 2) % 24;
        text += &multiplied(function, more as usize);
        left = (left - 2) / 24 - 1;
        function += 1;
    }
    let lines = vec!["r0 = lit 0"; left as usize - 2];
    text += &version(&format!("{function}.0"), "portal", &lines);
    cases::exact(&text)
}

/// The bound of 0.0, whose row is the last one.
fn last_bound(image: &[u8]) -> Bound {
    let rows = bounds_of(image).expect("an accepted image");
    let last = rows.last().expect("a row");
    assert_eq!((last.function, last.version), (0, 0));
    last.bound
}

#[test]
fn a_bound_of_4294967295_is_a_number_and_one_more_is_large() {
    assert_eq!(last_bound(&chain_of(1000)), Bound::Steps(1000));
    assert_eq!(
        last_bound(&chain_of((1 << 32) - 2)),
        Bound::Steps(u32::MAX - 1)
    );
    assert_eq!(last_bound(&chain_of((1 << 32) - 1)), Bound::Steps(u32::MAX));
    assert_eq!(last_bound(&chain_of(1 << 32)), Bound::Large);
    assert_eq!(last_bound(&chain_of((1 << 32) + 1)), Bound::Large);
    assert_eq!(last_bound(&chain_of(1 << 60)), Bound::Large);
}

#[test]
fn a_refusal_is_returned_as_it_is() {
    let short = &cases::IDENTITY[..19];
    let refusal = Refusal {
        number: 2,
        offset: 16,
    };
    assert_eq!(bounds_of(short), Err(refusal));
    assert_eq!(bounds_of(&cases::IDENTITY).map(|rows| rows.len()), Ok(1));
}
