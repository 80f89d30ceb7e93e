//! Runs with their start kept, on images whose answers are worked out by hand.

use library::{
    Answer, End, Entry, Held, Kept, Position, Program, Ran, Refusal, Run, Said, State, Trail,
    CELLS, FIR_ACTIVATIONS, FIR_ITEMS, PORTAL,
};

/// The version that the runs enter.
const ENTRY: Entry = Entry {
    function: 0,
    version: 0,
};

/// No step lies behind.
const NONE_BEHIND: Refusal = Refusal {
    question: 20,
    offset: 0,
};

/// The most steps that lie behind.
const MOST: u32 = 4_294_967_295;

/// The program of a text.
fn program(text: &str) -> Program {
    let image = text::assemble(text).expect("a text that is well formed");
    Program::load(image).unwrap_or_else(|no| panic!("{no:?}"))
}

/// 0.0 calls 1.0 twice, which adds a number to its argument: 9 steps.
fn adding(number: i64) -> Program {
    program(&format!(
        "version 0.0(r0: int) -> int
           level portal
           block 0 quiet -> r0
             r0 = call 1.0(r0)
             r0 = call 1.0(r0)
         version 1.0(r0: int) -> int
           registers r1: int
           level portal
           block 0 quiet -> r0
             r1 = lit {number}
             r0 = add r0, r1"
    ))
}

/// 0.0 calls itself.
fn deep() -> Program {
    program("version 0.0(r0: int) -> int\nlevel portal\nblock 0 quiet -> r0\nr0 = call 0.0(r0)")
}

/// A run of a program with the integer 1, at its start.
fn begun(program: &Program) -> Trail<'_> {
    let begun = Run::begin(program, PORTAL, ENTRY, &[-1, 1], &[0; FIR_ITEMS]);
    Trail::start(begun.unwrap_or_else(|no| panic!("{no:?}")))
}

/// Takes a budget of a run.
fn budget(trail: &mut Trail, budget: u32) -> Ran {
    trail.budget(budget, &mut [0; FIR_ITEMS])
}

/// Asserts that a step back is refused by 20, and that nothing changes.
#[track_caller]
fn assert_none_behind(trail: &mut Trail) {
    let before = trail.clone();
    assert_eq!(trail.back(), Err(NONE_BEHIND));
    assert!(trail.state() == before.state(), "the state is as it was");
    assert!(trail.kept() == before.kept(), "the trail is as it was");
}

/// What calls can see of a run: where it stands, and what its registers and names hold.
fn seen(run: &Run) -> (Option<Position>, u8, Vec<Option<Held>>) {
    let calls = 0..FIR_ACTIVATIONS;
    let places = calls.flat_map(|call| (0..CELLS).map(move |place| run.look(call, place)));
    (run.position(), run.state().depth, places.collect())
}

#[test]
fn each_step_back_gives_the_state_before_the_step() {
    let program = adding(1);
    let mut trail = begun(&program);
    let mut states = vec![seen(&trail)];
    while trail.step() == Said::GoesOn {
        states.push(seen(&trail));
    }
    assert_eq!(trail.behind(), Some(9), "the step that makes DONE counts");
    while let Some(state) = states.pop() {
        assert_eq!(trail.back(), Ok(()));
        assert_eq!(seen(&trail), state);
        assert_eq!(trail.behind(), Some(states.len() as u32));
    }
    assert_none_behind(&mut trail);
}

#[test]
fn a_step_back_leaves_the_bytes_of_a_budget_from_the_start() {
    let program = adding(1);
    for steps in 1..=9 {
        let (mut trail, mut run) = (begun(&program), begun(&program).run().clone());
        for _ in 0..steps {
            trail.step();
        }
        trail.back().expect("a step lies behind");
        run.budget(steps - 1, &mut [0; FIR_ITEMS]);
        assert!(trail.state() == run.state(), "after {steps} steps");
    }
}

#[test]
fn a_run_goes_on_from_where_it_went_back_to() {
    let program = adding(1);
    let mut trail = begun(&program);
    budget(&mut trail, 7);
    let seven = seen(&trail);
    trail.back().expect("seven steps lie behind");
    trail.back().expect("six steps lie behind");
    assert_eq!(trail.behind(), Some(5));
    let ran = budget(&mut trail, 2);
    assert_eq!((ran.answer, ran.steps), (Answer::Steps, 2));
    assert_eq!(seen(&trail), seven, "forward again");
    let ran = budget(&mut trail, 9);
    let answer = Answer::Ended(End::Integer(3));
    assert_eq!(ran, Ran { answer, steps: 2 });
    assert_eq!(trail.behind(), Some(9));
}

#[test]
fn steps_and_budgets_are_those_of_a_run_without_a_trail() {
    let program = adding(1);
    let (mut trail, mut run) = (begun(&program), begun(&program).run().clone());
    for _ in 0..4 {
        assert_eq!(trail.step(), run.step());
        assert!(trail.state() == run.state(), "a step");
    }
    let (mut lent, mut other) = ([7; FIR_ITEMS + 1], [7; FIR_ITEMS + 1]);
    for steps in [0, 1, 2, 9, 0, 3] {
        let ran = trail.budget(steps, &mut lent);
        assert_eq!(ran, run.budget(steps, &mut other));
        assert_eq!(lent, other);
        assert!(trail.state() == run.state(), "a budget of {steps}");
    }
    assert_eq!(trail.step(), Said::Ended(End::Integer(3)));
    assert_eq!(trail.behind(), Some(9), "an ended run takes no step");
    let refused = trail.budget(5, &mut [0; FIR_ITEMS - 1]);
    assert!(refused.is_refused());
    assert_eq!(trail.behind(), Some(9));
}

#[test]
fn the_step_that_makes_undef_counts() {
    let text = "version 0.0(r0: int) -> int\nregisters r1: int\nlevel portal\n\
                block 0 quiet -> r0\nr1 = lit 0\nr0 = div r0, r1";
    let program = program(text);
    let mut trail = begun(&program);
    assert_eq!(budget(&mut trail, 9).answer, Answer::Ended(End::Undef));
    assert_eq!(trail.behind(), Some(2));
    assert_eq!(trail.back(), Ok(()));
    assert_eq!(trail.look(0, 1), Some(Held::Integer(0)));
    assert_eq!(trail.step(), Said::Ended(End::Undef));
}

#[test]
fn a_step_that_is_stopped_does_not_count() {
    let program = deep();
    let mut trail = begun(&program);
    let ran = budget(&mut trail, 99);
    let answer = Answer::Ended(End::Deep);
    assert_eq!(ran, Ran { answer, steps: 31 });
    assert_eq!(trail.behind(), Some(31));
    assert_eq!(trail.back(), Ok(()));
    assert_eq!((trail.behind(), trail.state().calls), (Some(30), 31));
    assert_eq!(trail.step(), Said::GoesOn);
    assert_eq!(trail.step(), Said::Ended(End::Deep));
    assert_eq!(trail.behind(), Some(31));
}

#[test]
fn a_stop_with_no_step_behind_stays() {
    let program = deep();
    let mut run = begun(&program).run().clone();
    run.budget(31, &mut [0; FIR_ITEMS]);
    let mut trail = Trail::start(run);
    assert_eq!(trail.step(), Said::Ended(End::Deep));
    assert_none_behind(&mut trail);
    assert_eq!(trail.step(), Said::Ended(End::Deep));
}

#[test]
fn a_change_that_is_taken_is_a_new_start() {
    let (old, new) = (adding(1), adding(100));
    let mut trail = begun(&old);
    budget(&mut trail, 4);
    let state = trail.state().clone();
    assert_eq!(trail.change(&new), Ok(()));
    assert_eq!(trail.image(), new.image());
    assert_none_behind(&mut trail);
    assert!(trail.kept().start() == state, "the state is the start");
    budget(&mut trail, 2);
    assert_eq!((trail.back(), trail.back()), (Ok(()), Ok(())));
    assert!(*trail.state() == state, "as it was at the change");
    assert_none_behind(&mut trail);
    let answer = Answer::Ended(End::Integer(1 + 1 + 100));
    assert_eq!(budget(&mut trail, 9), Ran { answer, steps: 5 });
}

#[test]
fn a_change_that_is_refused_leaves_the_steps_behind() {
    let (old, new) = (adding(1), adding(100));
    let mut trail = begun(&old);
    budget(&mut trail, 2);
    let before = trail.clone();
    let no = Refusal {
        question: 15,
        offset: 41,
    };
    assert_eq!(trail.change(&new), Err(no));
    assert_eq!(trail.image(), old.image());
    assert!(trail.kept() == before.kept() && trail.state() == before.state());
    assert_eq!(trail.back(), Ok(()));
    assert_eq!(trail.behind(), Some(1));
}

#[test]
fn past_the_most_steps_none_lies_behind_until_a_change() {
    let program = adding(1);
    let mut trail = begun(&program);
    budget(&mut trail, 3);
    let mut kept = trail.kept().clone();
    kept.steps = MOST - 1;
    let mut trail = Trail::resume_with_its_own_run(trail.run().clone(), kept);
    trail.step();
    assert_eq!(trail.behind(), Some(MOST));
    trail.step();
    assert_eq!(trail.behind(), None);
    assert_eq!(trail.kept().steps, MOST);
    assert_none_behind(&mut trail);
    budget(&mut trail, 1);
    assert_none_behind(&mut trail);
    assert_eq!(trail.change(&program), Ok(()));
    assert_eq!(trail.behind(), Some(0));
    trail.step();
    assert_eq!(trail.back(), Ok(()));
}

#[test]
fn a_budget_goes_past_the_most_steps_too() {
    let program = adding(1);
    for (steps, behind) in [(3, Some(MOST)), (4, None)] {
        let begun = begun(&program);
        let mut kept = begun.kept().clone();
        kept.steps = MOST - 3;
        let mut trail = Trail::resume_with_its_own_run(begun.run().clone(), kept);
        budget(&mut trail, steps);
        assert_eq!(trail.behind(), behind);
    }
}

#[test]
fn a_trail_is_stored_with_its_run() {
    let program = adding(1);
    let mut trail = begun(&program);
    budget(&mut trail, 5);
    let (state, kept) = (trail.state().clone(), trail.kept().clone());
    let run = Run::resume_with_its_own_program(state, program.clone());
    let mut stored = Trail::resume_with_its_own_run(run, kept);
    assert_eq!((stored.back(), trail.back()), (Ok(()), Ok(())));
    assert!(stored.state() == trail.state(), "the same state");
    assert_eq!(stored.behind(), Some(4));
}

#[test]
fn a_trail_knows_its_start() {
    let program = adding(1);
    let first = begun(&program);
    assert!(first.kept().start() == *first.state(), "the start");
    assert_eq!(first.behind(), Some(0));
    let mut trail = first.clone();
    budget(&mut trail, 5);
    let again = trail.at_start();
    assert!(again.state() == first.state() && again.kept() == first.kept());
    assert_eq!(trail.behind(), Some(5), "the trail itself stays");
}

#[test]
fn any_bytes_are_a_start() {
    let program = adding(1);
    let run = begun(&program).run().clone();
    let mut kept = Kept::filled(0xA5);
    assert!(kept.start() == State::filled(0xA5));
    for (steps, past, behind) in [(0, 0, Some(0)), (7, 1, None), (7, 200, None)] {
        (kept.steps, kept.past) = (steps, past);
        let mut trail = Trail::resume_with_its_own_run(run.clone(), kept.clone());
        assert_eq!(trail.behind(), behind);
        assert_none_behind(&mut trail);
    }
    (kept.steps, kept.past) = (MOST, 0);
    let mut trail = Trail::resume_with_its_own_run(run, kept);
    assert_eq!(trail.back(), Ok(()));
    assert_eq!(trail.behind(), Some(MOST - 1));
    assert!(*trail.state() == State::filled(0xA5), "it has ended");
}
