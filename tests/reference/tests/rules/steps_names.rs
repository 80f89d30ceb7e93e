//! "Steps": NAMED, STORE, PEEK and POKE.

use crate::support::{gives, undefined, Run};
use reference::Value;

#[test]
fn named_gives_what_store_put_there() {
    let text = "version 0.0(r0: int) -> value
                  registers r1: value
                  block 0 quiet -> r1
                    store x7 = r0
                    r1 = named x7";
    gives(text, &[-1, 5], 5);
}

#[test]
fn named_of_an_unset_name_is_undef() {
    let text = "version 0.0(r0: int) -> value
                  registers r1: value
                  block 0 quiet -> r1
                    store x7 = r0
                    r1 = named x6";
    undefined(text, &[-1, 5]);
}

#[test]
fn store_shares_the_same_vector() {
    let text = "version 0.0(r0: vector) -> value
                  registers r1: value
                  block 0 quiet -> r1
                    store x0 = r0
                    r1 = named x0";
    let mut run = Run::begin(text, &[1, 5]);
    run.steps(2);
    assert_eq!(run.name(0, 0), Some(Value::Vector(0)));
    assert_eq!(run.register(0, 1), Some(Value::Vector(0)));
}

#[test]
fn each_call_opens_with_unset_names() {
    let text = "version 0.0(r0: int) -> value
                  registers r1: value
                  block 0 quiet -> r1
                    store x0 = r0
                    r1 = call 1.0()
                version 1.0() -> value
                  registers r0: value
                  block 0 quiet -> r0
                    r0 = named x0";
    undefined(text, &[-1, 5]);
}

/// 0.0 stores 5 and gives a promise to 1.0, which forces it after storing 9.
fn forced_from_a_newer_call(block: &str) -> String {
    format!(
        "version 0.0(r0: int) -> int
           registers r1: quiet promise, r2: value, r3: int
           block 0 quiet -> r3
             store x0 = r0
             r1 = prom 1
             r3 = call 1.0(r1)
             r2 = named x0
             r3 = cast r2
           block 1 quiet -> r0
             {block}
         version 1.0(r0: quiet promise) -> int
           registers r1: int
           block 0 quiet -> r1
             r1 = lit 9
             store x0 = r1
             r1 = force r0"
    )
}

#[test]
fn named_in_a_promise_block_uses_the_names_of_its_own_frame() {
    let text = forced_from_a_newer_call("r2 = named x0\nr0 = cast r2");
    let mut run = Run::begin(&text, &[-1, 5]);
    run.steps(8);
    assert_eq!(run.register(0, 0), Some(Value::Integer(5)));
    gives(&text, &[-1, 5], 5);
}

#[test]
fn store_in_a_promise_block_uses_the_names_of_its_own_frame() {
    gives(
        &forced_from_a_newer_call("r0 = lit 77\nstore x0 = r0"),
        &[-1, 5],
        77,
    );
}

/// 0.0 gives a promise to 1.0, which acts on the names of the promise's frame.
fn reflecting(stored: &str, instruction: &str) -> String {
    format!(
        "version 0.0(r0: int) -> value
           registers r1: quiet promise, r2: value
           block 0 reflective -> r2
             {stored}
             r1 = prom 1
             r2 = call 1.0(r1)
             r2 = named x3
           block 1 quiet -> r0
         version 1.0(r0: quiet promise) -> value
           registers r1: value, r2: int
           block 0 reflective -> r1
             r2 = lit 9
             {instruction}"
    )
}

#[test]
fn peek_reads_the_names_of_the_promises_frame() {
    let text = reflecting("store x3 = r0", "r1 = peek r0.x3");
    let mut run = Run::begin(&text, &[-1, 5]);
    run.steps(5);
    assert_eq!(run.register(1, 1), Some(Value::Integer(5)));
    gives(&text, &[-1, 5], 5);
}

#[test]
fn peek_of_an_unset_name_is_undef() {
    undefined(&reflecting("store x4 = r0", "r1 = peek r0.x3"), &[-1, 5]);
    // A name of the own frame does not help.
    let text = reflecting("store x4 = r0", "store x3 = r2\nr1 = peek r0.x3");
    undefined(&text, &[-1, 5]);
}

#[test]
fn poke_writes_the_names_of_the_promises_frame() {
    let poke = "poke r0.x3 = r2\nr1 = peek r0.x3";
    gives(&reflecting("store x3 = r0", poke), &[-1, 5], 9);
    // It sets a name that was unset.
    gives(&reflecting("", poke), &[-1, 5], 9);
}

#[test]
fn poke_leaves_the_own_names() {
    let text = reflecting("", "poke r0.x3 = r2\nr1 = named x3");
    undefined(&text, &[-1, 5]);
}
