//! "Steps": budgets, ends, and lent buffers.

use crate::support::{Run, PORTAL, UNTOUCHED};
use cases::{CALLS_ITSELF, IDENTITY};
use reference::{Answer, End, Integer, Program, Refusal, Said, State};

const TOO_SHORT: Answer = Answer::Refused(Refusal {
    number: 13,
    offset: 0,
});

/// Four steps that give 20 for 5.
const FOUR_STEPS: &str = "
    version 0.0(r0: int) -> int
      block 0 quiet -> r0
        r0 = add r0, r0
        r0 = move r0
        r0 = add r0, r0
";

/// One step that gives its vector.
const VECTOR: &str = "version 0.0(r0: vector) -> vector\nblock 0 quiet -> r0";

/// One step that makes UNDEF.
const UNDEF: &str = "version 0.0(r0: int) -> int\nblock 0 quiet -> r0\nr0 = div r0, r0";

/// A budget lent a buffer of so many places: the state, answer, steps and buffer after it.
fn lend(run: &Run, budget: u32, places: usize) -> (State, Answer, u32, Vec<Integer>) {
    let mut buffer = vec![-99; places];
    let state = run.state.clone();
    let (state, answer, steps) = state.budget(&run.program, budget, &mut buffer);
    (state, answer, steps, buffer)
}

#[test]
fn budget_that_is_used_up_gives_steps() {
    for budget in 0..4 {
        let mut run = Run::begin(FOUR_STEPS, &[-1, 5]);
        assert_eq!(run.budget(budget), (Answer::Steps, budget));
    }
}

#[test]
fn budget_of_exactly_the_steps_gives_done() {
    let done = Answer::Ended(End::Integer(20));
    for budget in [4, 5, u32::MAX] {
        let mut run = Run::begin(FOUR_STEPS, &[-1, 5]);
        assert_eq!(run.budget(budget), (done, 4));
    }
}

#[test]
fn further_budget_goes_on_from_the_state_and_counts_its_own_steps() {
    let mut run = Run::begin(FOUR_STEPS, &[-1, 5]);
    assert_eq!(run.budget(1), (Answer::Steps, 1));
    assert_eq!(run.budget(0), (Answer::Steps, 0));
    assert_eq!(run.budget(2), (Answer::Steps, 2));
    assert_eq!(run.budget(9), (Answer::Ended(End::Integer(20)), 1));
}

#[test]
fn budgets_and_single_steps_reach_the_same_states() {
    let mut by_steps = Run::begin(FOUR_STEPS, &[-1, 5]);
    let by_budget = Run::begin(FOUR_STEPS, &[-1, 5]);
    for budget in 1..=4 {
        by_steps.step();
        assert_eq!(lend(&by_budget, budget, 16).0, by_steps.state);
    }
}

#[test]
fn budget_on_a_buffer_of_15_places_is_refused_and_leaves_the_state() {
    let run = Run::begin(FOUR_STEPS, &[-1, 5]);
    let (state, answer, steps, buffer) = lend(&run, 9, 15);
    assert_eq!((answer, steps), (TOO_SHORT, 0));
    assert_eq!(state, run.state);
    assert_eq!(buffer, vec![-99; 15]);
    let (_, answer, ..) = lend(&run, 0, 0);
    assert_eq!(answer, TOO_SHORT);
}

#[test]
fn run_goes_on_after_a_refused_budget() {
    let mut run = Run::begin(FOUR_STEPS, &[-1, 5]);
    run.budget(2);
    run.state = lend(&run, 9, 15).0;
    assert_eq!(run.budget(9), (Answer::Ended(End::Integer(20)), 2));
}

#[test]
fn done_with_a_vector_writes_its_items_from_place_0_on() {
    let run = Run::begin(VECTOR, &[3, 7, 8, 9]);
    let (_, answer, steps, buffer) = lend(&run, 1, 20);
    assert_eq!((answer, steps), (Answer::Ended(End::Vector(3)), 1));
    assert_eq!(buffer[..3], [7, 8, 9]);
    assert_eq!(buffer[3..], [-99; 17]);
}

#[test]
fn done_with_an_integer_writes_nothing() {
    let run = Run::begin(FOUR_STEPS, &[-1, 5]);
    assert_eq!(lend(&run, 9, 16).3, UNTOUCHED);
}

#[test]
fn all_else_writes_nothing() {
    let run = Run::begin(VECTOR, &[3, 7, 8, 9]);
    assert_eq!(lend(&run, 0, 16).3, UNTOUCHED);
    let run = Run::begin(UNDEF, &[-1, 0]);
    assert_eq!(lend(&run, 1, 16).3, UNTOUCHED);
}

#[test]
fn step_that_makes_undef_counts() {
    let mut run = Run::begin(UNDEF, &[-1, 0]);
    assert_eq!(run.budget(0), (Answer::Steps, 0));
    assert_eq!(run.budget(1), (Answer::Ended(End::Undef), 1));
}

#[test]
fn step_stopped_by_deep_does_not_count_and_budget_is_looked_at_first() {
    let mut run = Run::begin(CALLS_ITSELF, &[-1, 5]);
    assert_eq!(run.budget(31), (Answer::Steps, 31));
    assert_eq!(run.budget(0), (Answer::Steps, 0));
    assert_eq!(run.budget(1), (Answer::Ended(End::Deep), 0));
}

/// Runs that have ended, and how.
fn ended_runs() -> impl Iterator<Item = (Run, End)> {
    [
        (FOUR_STEPS, vec![-1, 5], End::Integer(20)),
        (VECTOR, vec![2, 7, 8], End::Vector(2)),
        (UNDEF, vec![-1, 0], End::Undef),
        (CALLS_ITSELF, vec![-1, 0], End::Deep),
    ]
    .into_iter()
    .map(|(text, words, end)| {
        let mut run = Run::begin(text, &words);
        assert_eq!(run.budget(100).0, Answer::Ended(end));
        (run, end)
    })
}

#[test]
fn single_step_of_an_ended_run_changes_nothing_and_gives_its_end_again() {
    for (mut run, end) in ended_runs() {
        let before = run.state.clone();
        assert_eq!(run.step(), Said::Ended(end));
        assert_eq!(run.state, before);
    }
}

#[test]
fn budget_on_an_ended_run_gives_its_end_with_0_steps() {
    for (run, end) in ended_runs() {
        for budget in [0, 1, 100] {
            let (state, answer, steps, _) = lend(&run, budget, 16);
            assert_eq!((answer, steps), (Answer::Ended(end), 0));
            assert_eq!(state, run.state);
        }
    }
}

#[test]
fn budget_on_an_ended_run_writes_a_vectors_items_again() {
    let mut run = Run::begin(VECTOR, &[2, 7, 8]);
    assert_eq!(run.step(), Said::Ended(End::Vector(2)));
    for _ in 0..2 {
        let buffer = lend(&run, 0, 16).3;
        assert_eq!(buffer[..2], [7, 8]);
        assert_eq!(buffer[2..], UNTOUCHED[2..]);
    }
}

#[test]
fn budget_on_an_ended_run_is_put_to_13_too() {
    let mut run = Run::begin(VECTOR, &[2, 7, 8]);
    run.budget(100);
    let (state, answer, steps, buffer) = lend(&run, 100, 15);
    assert_eq!((answer, steps), (TOO_SHORT, 0));
    assert_eq!(state, run.state);
    assert_eq!(buffer, vec![-99; 15]);
}

#[test]
fn ends_but_done_leave_calls_registers_and_names() {
    let mut run = Run::begin(CALLS_ITSELF, &[-1, 5]);
    run.budget(100);
    assert_eq!(run.state.frames.len(), 32);
    assert_eq!(run.state.activations.len(), 32);
}

#[test]
fn identity_ends_with_its_single_block_end() {
    let program = Program::accept(&IDENTITY).expect("an accepted image");
    let state = State::begin(&program, PORTAL, 0, 0, &[-1, 7], &UNTOUCHED).expect("a run begins");
    assert_eq!(state.step(&program).1, Said::Ended(End::Integer(7)));
}
