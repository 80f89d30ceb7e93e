//! "Program": what `check` prints.

use cases::{image, IDENTITY};
use reference::report;

#[test]
fn identity_prints_its_line_and_accepted_1() {
    assert_eq!(report(&IDENTITY), "0.0 1 0 0 0\naccepted 1\n");
}

#[test]
fn a_refused_image_prints_only_its_refusal() {
    assert_eq!(report(&IDENTITY[..22]), "refused 2 at 16\n");
    assert_eq!(report(&[]), "refused 1 at 0\n");
}

#[test]
fn each_version_prints_the_counts_of_its_bodys_sets() {
    // 0.0 reads r0, r1; assigns r2, r3, r4; empties r0; the promise captures r1, r4.
    // 0.1 reads nothing before it assigns r0.
    let image = image(
        "version 0.0(r0: own vector, r1: int) -> own vector
           registers r2: own vector, r3: quiet promise, r4: int
           block 0 quiet -> r2
             r2 = use r0
             r3 = prom 1
             r4 = force r3
           block 1 quiet -> r4
             r4 = add r1, r1
         version 0.1() -> int
           registers r0: int
           block 0 quiet -> r0
             r0 = lit 1",
    );
    assert_eq!(report(&image), "0.0 2 3 1 2\n0.1 0 1 0 0\naccepted 2\n");
}

#[test]
fn at_a_skip_both_ways_are_counted_but_for_what_one_of_them_assigns() {
    // Reads r0, r1; assigns r4, for r2 and r3 are assigned on one way; empties
    // r0; the promise captures r1, r4.
    let image = image(
        "version 0.0(r0: own vector, r1: int) -> int
           registers r2: own vector, r3: quiet promise, r4: int
           block 0 quiet -> r1
             skip 3 unless r1
             r2 = use r0
             r3 = prom 1
             r4 = lit 2
             r4 = lit 3
           block 1 quiet -> r4
             r4 = add r1, r1",
    );
    assert_eq!(report(&image), "0.0 2 1 1 2\naccepted 1\n");
}
