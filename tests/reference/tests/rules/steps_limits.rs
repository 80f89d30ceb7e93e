//! "Steps": DEEP, VECTORS and PROMISES, and what counts.

use crate::support::{end_of, gives, Run};
use reference::{Answer, End, Said, Value};

/// Functions from `first` to `last` that each give their promise to the next;
/// the last one runs an instruction.
fn chain(first: usize, last: usize, instruction: &str) -> String {
    let link = |function: usize| {
        let instruction = if function == last {
            instruction.to_string()
        } else {
            format!("r1 = call {}.0(r0)", function + 1)
        };
        format!(
            "version {function}.0(r0: quiet promise) -> int
               registers r1: int, r2: any
               block 0 quiet -> r1
                 {instruction}\n"
        )
    };
    (first..=last).map(link).collect()
}

/// A body that makes a promise of r0, runs an instruction, and gives the
/// promise to a chain of 31 calls.
fn promise_down_the_chain(before: &str, last: &str) -> String {
    format!(
        "version 0.0(r0: int) -> int
           registers r1: quiet promise, r2: int
           block 0 quiet -> r2
             r1 = prom 1
             {before}
             r2 = call 1.0(r1)
           block 1 quiet -> r0
         {}",
        chain(1, 31, last)
    )
}

#[test]
fn deep_32_activations_live() {
    let text = promise_down_the_chain("", "r1 = lit 5");
    // PROM, 31 calls, LIT, 32 block ends.
    assert_eq!(end_of(&text, &[-1, 7]), (End::Integer(5), 65));
}

#[test]
fn deep_a_force_needs_an_activation_too() {
    let text = promise_down_the_chain("", "r1 = force r0");
    assert_eq!(end_of(&text, &[-1, 7]), (End::Deep, 32));
}

#[test]
fn deep_a_force_of_a_promise_with_its_integer_needs_none() {
    let text = promise_down_the_chain("r2 = force r1", "r1 = force r0");
    gives(&text, &[-1, 7], 7);
}

#[test]
fn deep_comes_after_undef_in_a_dispatch() {
    let none = "r1 = dispatch 1() -> int quiet";
    let text = promise_down_the_chain("", none);
    assert_eq!(end_of(&text, &[-1, 7]), (End::Undef, 33));
    let fitting = "r1 = dispatch 1(r0: quiet promise) -> int quiet";
    let text = promise_down_the_chain("", fitting);
    assert_eq!(end_of(&text, &[-1, 7]), (End::Deep, 32));
}

#[test]
fn deep_comes_after_undef_in_a_force() {
    // The block of the promise in r1 gives that promise down to the 32nd activation.
    let text = format!(
        "version 0.0(r0: int) -> int
           registers r1: quiet promise
           block 0 quiet -> r0
             r1 = prom 1
             r1 = prom 2
             r0 = force r1
           block 1 quiet -> r0
           block 2 quiet -> r0
             r0 = call 1.0(r1)
         {}",
        chain(1, 30, "r1 = force r0")
    );
    assert_eq!(end_of(&text, &[-1, 7]), (End::Undef, 3 + 30 + 1));
}

#[test]
fn deep_changes_nothing_and_does_not_count() {
    let text = "version 0.0(r0: own vector) -> int
                  registers r1: int
                  block 0 quiet -> r1
                    r1 = call 0.0(r0)";
    let mut run = Run::begin(text, &[1, 5]);
    run.steps(31);
    let before = run.state.clone();
    assert_eq!(run.step(), Said::Ended(End::Deep));
    assert_eq!(run.state.frames, before.frames);
    assert_eq!(run.state.activations, before.activations);
    assert_eq!(run.register(31, 0), Some(Value::Vector(0)));
}

/// Functions 0 to 3 that each hold 15 vectors and call the next; function 4
/// makes 4 more, which makes 64, and goes on with an instruction.
fn hoard(instruction: &str) -> String {
    let declared: Vec<String> = (0..15).map(|r| format!("r{r}: own vector")).collect();
    let function = |number: usize| {
        let count = if number < 4 { 15 } else { 4 };
        let made: String = (0..count).map(|r| format!("r{r} = vec []\n")).collect();
        let then = if number < 4 {
            format!("r15 = call {}.0()", number + 1)
        } else {
            format!("r15 = lit 9\n{instruction}")
        };
        format!(
            "version {number}.0() -> int
               registers {}, r15: int
               block 0 quiet -> r15
                 {made}{then}\n",
            declared.join(", ")
        )
    };
    (0..5).map(function).collect()
}

#[test]
fn vectors_64_count() {
    gives(&hoard(""), &[], 9);
}

#[test]
fn vectors_the_65th_stops_and_does_not_count() {
    // 15 VEC and a CALL four times, then 4 VEC and a LIT.
    assert_eq!(end_of(&hoard("r4 = vec []"), &[]), (End::Vectors, 69));
}

#[test]
fn vectors_are_counted_before_d_is_overwritten() {
    assert_eq!(end_of(&hoard("r0 = vec []"), &[]), (End::Vectors, 69));
    assert_eq!(end_of(&hoard("r0 = dup r0"), &[]), (End::Vectors, 69));
}

#[test]
fn vectors_use_needs_no_new_one() {
    gives(&hoard("r4 = use r0"), &[], 9);
}

#[test]
fn vectors_that_nothing_refers_to_do_not_count() {
    // A shared register that takes an integer lets its vector go.
    let text = hoard("r0 = lit 1\nr4 = vec []").replace("r0: own vector", "r0: any");
    gives(&text, &[], 9);
}

#[test]
fn vectors_in_names_count() {
    let text = hoard("store x0 = r0\nr0 = lit 1\nr4 = vec []");
    let text = text.replace("r0: own vector", "r0: value");
    assert_eq!(end_of(&text, &[]), (End::Vectors, 71));
}

#[test]
fn vectors_held_twice_count_once() {
    let text = hoard("r4 = move r0\nr5 = move r0").replace("own vector", "vector");
    let mut run = Run::begin(&text, &[]);
    run.steps(71);
    assert_eq!(run.state.counted_vectors().len(), 64);
}

#[test]
fn vectors_of_ended_calls_do_not_count() {
    let text = "version 0.0() -> int
                  registers r0: int
                  block 0 quiet -> r0
                    r0 = call 1.0()
                version 1.0() -> int
                  registers r0: vector, r1: int
                  block 0 quiet -> r1
                    r0 = vec []
                    r1 = lit 1";
    let mut run = Run::begin(text, &[]);
    run.steps(3);
    assert_eq!(run.state.counted_vectors().len(), 1);
    run.steps(1);
    assert_eq!(run.state.counted_vectors().len(), 0);
}

/// Functions 0 to 8 that each hold 7 promises and call the next; function 9
/// makes the 64th in r1 and goes on with an instruction.
fn delay(instruction: &str) -> String {
    let function = |number: usize| {
        let (proms, then) = if number < 9 {
            (7, format!("r0 = call {}.0(r0)", number + 1))
        } else {
            (1, instruction.to_string())
        };
        let made: String = (1..=proms).map(|n| format!("r{n} = prom {n}\n")).collect();
        let blocks = 1..=proms + then.matches("prom").count();
        let blocks: String = blocks.map(|n| format!("block {n} quiet -> r0\n")).collect();
        let declared: Vec<String> = (2..8).map(|n| format!("r{n}: any")).collect();
        format!(
            "version {number}.0(r0: int) -> int
               registers r1: quiet promise, {}
               block 0 quiet -> r0
                 {made}{then}
               {blocks}",
            declared.join(", ")
        )
    };
    (0..10).map(function).collect()
}

#[test]
fn promises_64_count() {
    gives(&delay(""), &[-1, 5], 5);
    let mut run = Run::begin(&delay(""), &[-1, 5]);
    run.steps(73);
    assert_eq!(run.state.counted_promises().len(), 64);
}

#[test]
fn promises_the_65th_stops_changes_nothing_and_does_not_count() {
    // 7 PROM and a CALL nine times, then one PROM.
    let text = delay("r2 = prom 2");
    assert_eq!(end_of(&text, &[-1, 5]), (End::Promises, 73));
    let mut run = Run::begin(&text, &[-1, 5]);
    run.steps(73);
    let before = run.state.clone();
    assert_eq!(run.budget(1), (Answer::Ended(End::Promises), 0));
    assert_eq!(run.state.frames, before.frames);
    assert_eq!(run.state.activations, before.activations);
    assert_eq!(run.state.promises, before.promises);
}

#[test]
fn promises_are_counted_before_d_is_overwritten() {
    let text = delay("r1 = prom 2");
    assert_eq!(end_of(&text, &[-1, 5]), (End::Promises, 73));
}

#[test]
fn promises_that_nothing_refers_to_do_not_count() {
    let text = delay("r2 = lit 1\nr3 = prom 2");
    let text = text.replace("r1 = prom 1\nr2 = lit", "r2 = prom 1\nr2 = lit");
    gives(&text, &[-1, 5], 5);
}

#[test]
fn promises_with_their_integer_count_like_others() {
    // 7 PROM and a CALL nine times, then a PROM, a FORCE and its block end.
    let text = delay("r0 = force r1\nr2 = prom 2");
    assert_eq!(end_of(&text, &[-1, 5]), (End::Promises, 75));
}

#[test]
fn promises_of_pending_forces_count() {
    let text = "version 0.0(r0: int) -> int
                  registers r1: any, r2: quiet promise
                  block 0 quiet -> r0
                    r2 = prom 1
                    r0 = force r2
                  block 1 quiet -> r0
                    r2 = prom 2
                    r1 = prom 3
                  block 2 quiet -> r0
                  block 3 quiet -> r0";
    let mut run = Run::begin(text, &[-1, 5]);
    run.steps(4);
    // Nothing but the pending force refers to place 0.
    assert_eq!(run.register(0, 2), Some(Value::Promise(1)));
    assert_eq!(run.register(0, 1), Some(Value::Promise(2)));
    let counted: Vec<usize> = run.state.counted_promises().into_iter().collect();
    assert_eq!(counted, [0, 1, 2]);
    run.steps(1);
    let counted: Vec<usize> = run.state.counted_promises().into_iter().collect();
    assert_eq!(counted, [1, 2]);
}
