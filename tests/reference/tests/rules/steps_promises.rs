//! "Steps": PROM and FORCE.

use crate::support::{end_of, gives, undefined, Run};
use reference::state::Opener;
use reference::{End, Value};

/// Forces a promise twice whose block adds 1 to r0 each time it runs.
const TWICE: &str = "
    version 0.0(r0: int) -> int
      registers r1: quiet promise, r2: int, r3: int
      block 0 quiet -> r0
        r1 = prom 1
        r2 = force r1
        r2 = force r1
      block 1 quiet -> r0
        r3 = lit 1
        r0 = add r0, r3
";

#[test]
fn force_caches_its_integer() {
    gives(TWICE, &[-1, 5], 6);
    // PROM, FORCE, LIT, ADD, block end, FORCE of the cache, block end.
    assert_eq!(end_of(TWICE, &[-1, 5]), (End::Integer(6), 7));
}

#[test]
fn promise_delays_its_block() {
    let mut run = Run::begin(TWICE, &[-1, 5]);
    run.steps(1);
    assert_eq!(run.register(0, 1), Some(Value::Promise(0)));
    let promise = run.state.promises[0].clone().expect("a promise");
    assert_eq!((promise.frame, promise.block), (0, 1));
    assert_eq!(promise.cache, None);
    assert_eq!(run.state.activations.len(), 1);
}

#[test]
fn force_opens_an_activation_that_notes_its_promise_and_d() {
    let mut run = Run::begin(TWICE, &[-1, 5]);
    run.steps(2);
    let opened = run.state.activations[1].clone();
    assert_eq!(opened.opener, Opener::Force(0));
    assert_eq!((opened.d, opened.frame, opened.block), (2, 0, 1));
    assert_eq!(run.state.activations[0].next, 2);
    run.steps(3);
    assert_eq!(run.state.activations.len(), 1);
    assert_eq!(run.register(0, 2), Some(Value::Integer(6)));
    let promise = run.state.promises[0].clone().expect("a promise");
    assert_eq!(promise.cache, Some(6));
}

#[test]
fn block_reads_registers_as_they_are_when_it_is_forced() {
    let text = "version 0.0(r0: int) -> int
                  registers r1: quiet promise
                  block 0 quiet -> r0
                    r1 = prom 1
                    r0 = lit 100
                    r0 = force r1
                  block 1 quiet -> r0
                    r0 = add r0, r0";
    gives(text, &[-1, 5], 200);
}

#[test]
fn force_of_a_promise_being_forced_is_undef() {
    let text = "version 0.0(r0: int) -> int
                  registers r1: quiet promise
                  block 0 quiet -> r0
                    r1 = prom 1
                    r1 = prom 2
                    r0 = force r1
                  block 1 quiet -> r0
                  block 2 quiet -> r0
                    r0 = force r1";
    undefined(text, &[-1, 5]);
    assert_eq!(end_of(text, &[-1, 5]), (End::Undef, 4));
}

#[test]
fn force_of_another_promise_inside_a_force() {
    let text = "version 0.0(r0: int) -> int
                  registers r1: quiet promise, r2: quiet promise, r3: int
                  block 0 quiet -> r3
                    r1 = prom 1
                    r2 = prom 2
                    r3 = force r2
                  block 1 quiet -> r0
                    r0 = add r0, r0
                  block 2 quiet -> r3
                    r3 = force r1
                    r3 = add r3, r3";
    gives(text, &[-1, 5], 20);
}

#[test]
fn nested_promise_belongs_to_the_frame_of_the_block_that_made_it() {
    let text = "version 0.0(r0: int) -> int
                  registers r1: any, r2: quiet promise, r3: int
                  block 0 quiet -> r3
                    r1 = prom 1
                    r2 = cast r1
                    r3 = call 1.0(r2)
                    r2 = cast r1
                    r3 = force r2
                  block 1 quiet -> r0
                    r1 = prom 2
                  block 2 quiet -> r3
                    r3 = add r0, r0
                version 1.0(r0: quiet promise) -> int
                  registers r1: int
                  block 0 quiet -> r1
                    r1 = force r0";
    let mut run = Run::begin(text, &[-1, 5]);
    // PROM, CAST, CALL, FORCE, then PROM in block 1 of the older frame.
    run.steps(5);
    let Some(Value::Promise(place)) = run.register(0, 1) else {
        panic!("r1 holds the nested promise");
    };
    let promise = run.state.promises[place].clone().expect("a promise");
    assert_eq!((promise.frame, promise.block), (0, 2));
    gives(text, &[-1, 5], 10);
}

#[test]
fn d_keeps_its_old_value_until_the_force_ends() {
    let text = "version 0.0(r0: int) -> int
                  registers r1: quiet promise
                  block 0 quiet -> r0
                    r1 = prom 1
                    r0 = force r1
                  block 1 quiet -> r0";
    let mut run = Run::begin(text, &[-1, 5]);
    run.steps(2);
    assert_eq!(run.register(0, 0), Some(Value::Integer(5)));
    gives(text, &[-1, 5], 5);
}

#[test]
fn d_belongs_to_the_frame_of_the_activation_that_forced() {
    let text = "version 0.0(r0: int) -> int
                  registers r1: quiet promise, r2: int
                  block 0 quiet -> r2
                    r1 = prom 1
                    r2 = call 1.0(r1)
                  block 1 quiet -> r0
                version 1.0(r0: quiet promise) -> int
                  registers r1: int, r2: int
                  block 0 quiet -> r2
                    r2 = force r0";
    let mut run = Run::begin(text, &[-1, 5]);
    run.steps(4);
    assert_eq!(run.register(1, 2), Some(Value::Integer(5)));
    assert_eq!(run.register(0, 2), None);
    gives(text, &[-1, 5], 5);
}

#[test]
fn new_promise_takes_the_lowest_place_that_nothing_refers_to() {
    let text = "version 0.0(r0: int) -> int
                  registers r1: any, r2: any
                  block 0 quiet -> r0
                    r1 = prom 1
                    r1 = prom 2
                    r2 = prom 3
                  block 1 quiet -> r0
                  block 2 quiet -> r0
                  block 3 quiet -> r0";
    let mut run = Run::begin(text, &[-1, 5]);
    run.steps(3);
    assert_eq!(run.register(0, 1), Some(Value::Promise(1)));
    assert_eq!(run.register(0, 2), Some(Value::Promise(0)));
}
