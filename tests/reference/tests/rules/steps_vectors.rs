//! "Steps": USE, DUP, VEC, LEN, GET and SET.

use crate::support::{gives, undefined, Run, UNTOUCHED};
use reference::{Answer, End, Integer, Value};

/// The items of the vector that a run of 0.0 is DONE with.
#[track_caller]
fn items(text: &str, words: &[Integer]) -> Vec<Integer> {
    let run = Run::begin(text, words);
    let mut buffer = UNTOUCHED;
    let (_, answer, _) = run.state.budget(&run.program, 1000, &mut buffer);
    let Answer::Ended(End::Vector(length)) = answer else {
        panic!("{answer:?}");
    };
    assert_eq!(buffer[length..], UNTOUCHED[length..]);
    buffer[..length].to_vec()
}

#[test]
fn use_takes_the_same_vector_and_empties_its_register() {
    let text = "version 0.0(r0: own vector) -> vector
                  registers r1: vector
                  block 0 quiet -> r1
                    r1 = use r0";
    let mut run = Run::begin(text, &[1, 5]);
    run.steps(1);
    assert_eq!(run.register(0, 0), None);
    assert_eq!(run.register(0, 1), Some(Value::Vector(0)));
}

#[test]
fn use_into_its_own_register_leaves_the_vector_there() {
    let text = "version 0.0(r0: own vector) -> own vector
                  block 0 quiet -> r0
                    r0 = use r0";
    let mut run = Run::begin(text, &[1, 5]);
    run.steps(1);
    assert_eq!(run.register(0, 0), Some(Value::Vector(0)));
    assert_eq!(items(text, &[2, 5, 6]), [5, 6]);
}

#[test]
fn use_into_a_register_that_was_emptied_fills_it() {
    let text = "version 0.0(r0: own vector) -> own vector
                  registers r1: own vector
                  block 0 quiet -> r0
                    r1 = use r0
                    r0 = use r1";
    let mut run = Run::begin(text, &[1, 5]);
    run.steps(2);
    assert_eq!(run.register(0, 0), Some(Value::Vector(0)));
    assert_eq!(run.register(0, 1), None);
    assert_eq!(items(text, &[2, 5, 6]), [5, 6]);
}

#[test]
fn dup_makes_another_vector_with_the_same_items() {
    let text = "version 0.0(r0: vector) -> vector
                  registers r1: own vector, r2: int
                  block 0 quiet -> r0
                    r1 = dup r0
                    r2 = lit 0
                    set r1[r2] = r2";
    assert_eq!(items(text, &[2, 5, 6]), [5, 6]);
    let mut run = Run::begin(text, &[2, 5, 6]);
    run.steps(3);
    assert_eq!(run.register(0, 1), Some(Value::Vector(1)));
    assert_eq!(run.state.vectors[1], Some(vec![0, 6]));
}

#[test]
fn dup_into_its_own_register_makes_another_vector() {
    let text = "version 0.0(r0: own vector) -> own vector
                  block 0 quiet -> r0
                    r0 = dup r0";
    let mut run = Run::begin(text, &[1, 5]);
    run.steps(1);
    assert_eq!(run.register(0, 0), Some(Value::Vector(1)));
    assert_eq!(run.state.counted_vectors().len(), 1);
}

#[test]
fn vec_lists_its_registers_in_order() {
    let text = "version 0.0(r0: int, r1: int) -> own vector
                  registers r2: own vector
                  block 0 quiet -> r2
                    r2 = vec [r1, r0, r1]";
    assert_eq!(items(text, &[-1, 5, -1, 6]), [6, 5, 6]);
}

#[test]
fn vec_of_nothing_is_an_empty_vector() {
    let text = "version 0.0() -> vector
                  registers r0: own vector
                  block 0 quiet -> r0
                    r0 = vec []";
    assert_eq!(items(text, &[]), []);
}

#[test]
fn vector_of_16_items_comes_back_whole() {
    let text = "version 0.0(r0: vector) -> vector\nblock 0 quiet -> r0";
    let mut words = vec![16];
    words.extend(1..=16);
    assert_eq!(items(text, &words), (1..=16).collect::<Vec<_>>());
}

#[test]
fn len_gives_the_length() {
    let text = "version 0.0(r0: borrow vector) -> int
                  registers r1: int
                  block 0 quiet -> r1
                    r1 = len r0";
    gives(text, &[0], 0);
    gives(text, &[3, 7, 7, 7], 3);
}

#[test]
fn get_gives_the_item_at_the_index() {
    let text = "version 0.0(r0: vector, r1: int) -> int
                  block 0 quiet -> r1
                    r1 = get r0[r1]";
    gives(text, &[3, 7, 8, 9, -1, 0], 7);
    gives(text, &[3, 7, 8, 9, -1, 2], 9);
    undefined(text, &[3, 7, 8, 9, -1, 3]);
    undefined(text, &[3, 7, 8, 9, -1, -1]);
    undefined(text, &[0, -1, 0]);
    undefined(text, &[3, 7, 8, 9, -1, Integer::MIN]);
    undefined(text, &[3, 7, 8, 9, -1, Integer::MAX]);
}

#[test]
fn set_changes_the_item_at_the_index() {
    let text = "version 0.0(r0: own vector, r1: int, r2: int) -> own vector
                  block 0 quiet -> r0
                    set r0[r1] = r2";
    assert_eq!(items(text, &[3, 7, 8, 9, -1, 0, -1, 1]), [1, 8, 9]);
    assert_eq!(items(text, &[3, 7, 8, 9, -1, 2, -1, 1]), [7, 8, 1]);
    undefined(text, &[3, 7, 8, 9, -1, 3, -1, 1]);
    undefined(text, &[3, 7, 8, 9, -1, -1, -1, 1]);
    undefined(text, &[0, -1, 0, -1, 1]);
}

#[test]
fn set_outside_changes_no_item() {
    let text = "version 0.0(r0: own vector, r1: int) -> own vector
                  block 0 quiet -> r0
                    set r0[r1] = r1";
    let mut run = Run::begin(text, &[1, 7, -1, 1]);
    assert_eq!(run.budget(10), (Answer::Ended(End::Undef), 1));
    assert_eq!(run.state.vectors[0], Some(vec![7]));
}

#[test]
fn owned_vector_goes_through_an_owned_parameter_and_return() {
    let text = "version 0.0(r0: own vector) -> own vector
                  registers r1: own vector
                  block 0 quiet -> r1
                    r1 = call 1.0(r0)
                version 1.0(r0: own vector) -> own vector
                  registers r1: int
                  block 0 quiet -> r0
                    r1 = lit 0
                    set r0[r1] = r1";
    assert_eq!(items(text, &[2, 5, 6]), [0, 6]);
}

#[test]
fn owned_return_may_become_shared() {
    let text = "version 0.0() -> vector
                  registers r0: vector, r1: any
                  block 0 quiet -> r0
                    r0 = call 1.0()
                    r1 = move r0
                version 1.0() -> own vector
                  registers r0: own vector
                  block 0 quiet -> r0
                    r0 = vec []";
    assert_eq!(items(text, &[]), []);
}

#[test]
fn tidied_state_keeps_what_is_referred_to_and_nothing_else() {
    let text = "version 0.0(r0: vector) -> int
                  registers r1: any, r2: int
                  block 0 quiet -> r2
                    r1 = vec []
                    r1 = prom 1
                    r0 = vec []
                    r1 = prom 2
                    r2 = lit 1
                  block 1 quiet -> r2
                    r2 = lit 2
                  block 2 quiet -> r2
                    r2 = lit 3";
    let mut run = Run::begin(text, &[1, 5]);
    run.steps(4);
    assert_eq!(run.register(0, 0), Some(Value::Vector(1)));
    assert_eq!(run.register(0, 1), Some(Value::Promise(1)));
    let tidied = run.state.clone().tidied();
    assert_eq!(tidied.frames, run.state.frames);
    assert_eq!(tidied.vectors[..2], [None, Some(vec![])]);
    assert_eq!(tidied.promises[0], None);
    assert_eq!(tidied.promises[1], run.state.promises[1]);
}

#[test]
fn new_vector_takes_the_lowest_place_that_nothing_refers_to() {
    let text = "version 0.0(r0: vector, r1: vector) -> int
                  registers r2: vector, r3: int
                  block 0 quiet -> r3
                    r0 = vec []
                    r2 = vec []
                    r3 = lit 1";
    let mut run = Run::begin(text, &[0, 0]);
    run.steps(2);
    // The first VEC takes place 2, which frees place 0 for the second.
    assert_eq!(run.register(0, 0), Some(Value::Vector(2)));
    assert_eq!(run.register(0, 2), Some(Value::Vector(0)));
}
