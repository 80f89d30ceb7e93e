//! "Steps": CALL and its end.

use crate::support::{end_of, gives, Run};
use reference::state::Opener;
use reference::{End, Said, Value};

#[test]
fn call_opens_a_frame_with_its_arguments_in_the_first_registers() {
    let text = "version 0.0(r0: int, r1: vector) -> int
                  block 0 quiet -> r0
                    r0 = call 1.1(r1, r0)
                version 1.0() -> int
                  registers r0: int
                  block 0 quiet -> r0
                    r0 = lit 1
                version 1.1(r0: vector, r1: int) -> int
                  registers r2: int
                  block 0 quiet -> r1";
    let mut run = Run::begin(text, &[-1, 5, 0]);
    run.steps(1);
    assert_eq!(run.state.frames.len(), 2);
    let frame = &run.state.frames[1];
    assert_eq!((frame.function, frame.version), (1, 1));
    assert_eq!(run.register(1, 0), Some(Value::Vector(0)));
    assert_eq!(run.register(1, 1), Some(Value::Integer(5)));
    assert_eq!(run.register(1, 2), None);
    assert_eq!(frame.names, [None; 8]);
    let opened = &run.state.activations[1];
    assert_eq!((opened.opener, opened.frame), (Opener::Call, 1));
    assert_eq!((opened.d, opened.block, opened.next), (0, 0, 0));
    gives(text, &[-1, 5, 0], 5);
}

#[test]
fn end_of_a_call_gives_its_value_to_d_and_closes_its_frame() {
    let text = "version 0.0(r0: int) -> int
                  registers r1: any
                  block 0 quiet -> r0
                    r1 = call 1.0(r0)
                version 1.0(r0: int) -> int
                  block 0 quiet -> r0
                    r0 = add r0, r0";
    let mut run = Run::begin(text, &[-1, 5]);
    run.steps(3);
    assert_eq!(run.state.frames.len(), 1);
    assert_eq!(run.register(0, 1), Some(Value::Integer(10)));
    assert_eq!(run.step(), Said::Ended(End::Integer(5)));
    assert_eq!(end_of(text, &[-1, 5]), (End::Integer(5), 4));
}

#[test]
fn call_empties_what_it_gives_to_owned_parameters_and_nothing_else() {
    let text = "version 0.0(r0: own vector, r1: own vector, r2: vector) -> int
                  registers r3: int
                  block 0 quiet -> r3
                    r3 = call 1.0(r0, r1, r2)
                version 1.0(r0: own vector, r1: borrow vector, r2: vector) -> int
                  registers r3: int
                  block 0 quiet -> r3
                    r3 = lit 1";
    let mut run = Run::begin(text, &[0, 0, 0]);
    run.steps(1);
    assert_eq!(run.register(0, 0), None);
    assert_eq!(run.register(0, 1), Some(Value::Vector(1)));
    assert_eq!(run.register(0, 2), Some(Value::Vector(2)));
    let lent = [0, 1, 2].map(|register| run.register(1, register));
    assert_eq!(lent, [0, 1, 2].map(|place| Some(Value::Vector(place))));
}

#[test]
fn call_that_empties_its_own_d_fills_it_at_its_end() {
    let text = "version 0.0(r0: own vector) -> own vector
                  block 0 quiet -> r0
                    r0 = call 1.0(r0)
                version 1.0(r0: own vector) -> own vector
                  registers r1: own vector
                  block 0 quiet -> r1
                    r1 = dup r0";
    let mut run = Run::begin(text, &[1, 5]);
    run.steps(1);
    assert_eq!(run.register(0, 0), None);
    assert_eq!(run.register(1, 0), Some(Value::Vector(0)));
    run.steps(2);
    assert_eq!(run.register(0, 0), Some(Value::Vector(1)));
}

#[test]
fn d_keeps_its_old_value_until_the_call_ends() {
    let text = "version 0.0(r0: int) -> int
                  registers r1: quiet promise, r2: int
                  block 0 quiet -> r0
                    r1 = prom 1
                    r0 = call 1.0(r1)
                  block 1 quiet -> r0
                version 1.0(r0: quiet promise) -> int
                  registers r1: int
                  block 0 quiet -> r1
                    r1 = force r0
                    r1 = add r1, r1";
    // The forced block reads r0, the d of the pending call, as it was.
    gives(text, &[-1, 5], 10);
}

#[test]
fn vector_in_the_d_of_a_pending_call_still_counts() {
    let text = "version 0.0(r0: vector) -> vector
                  block 0 quiet -> r0
                    r0 = call 1.0()
                version 1.0() -> own vector
                  registers r0: own vector
                  block 0 quiet -> r0
                    r0 = vec []";
    let mut run = Run::begin(text, &[0]);
    run.steps(2);
    assert_eq!(run.register(1, 0), Some(Value::Vector(1)));
    assert_eq!(run.state.counted_vectors().len(), 2);
    run.steps(1);
    assert_eq!(run.state.counted_vectors().len(), 1);
}

#[test]
fn call_in_a_promise_block_returns_to_the_frame_of_the_block() {
    let text = "version 0.0(r0: int) -> int
                  registers r1: quiet promise, r2: int
                  block 0 quiet -> r2
                    r2 = lit 0
                    r1 = prom 1
                    r2 = call 1.0(r1)
                  block 1 quiet -> r0
                    r0 = call 2.0(r0)
                version 1.0(r0: quiet promise) -> int
                  registers r1: int
                  block 0 quiet -> r1
                    r1 = force r0
                version 2.0(r0: int) -> int
                  block 0 quiet -> r0
                    r0 = add r0, r0";
    let mut run = Run::begin(text, &[-1, 5]);
    // LIT, PROM, CALL 1.0, FORCE, CALL 2.0, ADD, end of 2.0.
    run.steps(7);
    assert_eq!(run.register(0, 0), Some(Value::Integer(10)));
    assert_eq!(run.state.frames.len(), 2);
    gives(text, &[-1, 5], 10);
}

#[test]
fn done_leaves_no_live_call() {
    let text = "version 0.0(r0: vector) -> vector\nblock 0 quiet -> r0";
    let mut run = Run::begin(text, &[2, 5, 6]);
    assert_eq!(run.step(), Said::Ended(End::Vector(2)));
    assert!(run.state.frames.is_empty());
    assert!(run.state.activations.is_empty());
    assert_eq!(run.state.result, [5, 6]);
}
