//! Eight runs in a pool: what its types keep together, and what it answers.

use library::{
    Answer, End, Entry, Number, Pool, Program, Ran, Refusal, Run, Said, Start, Store,
    FIR_REFUSED_ARGUMENTS, FIR_REFUSED_BACK, FIR_REFUSED_BUFFER, FIR_REFUSED_CHANGE,
    FIR_REFUSED_POOL, FIR_RUNS, PORTAL,
};
use text::assemble;

/// A vector for each of three registers, one by one: a LIT, the VECs and the end are 5 steps.
const THREE: &str = "
    version 0.0() -> int
      registers r0: int, r1: vector, r2: vector, r3: vector
      level portal
      block 0 quiet -> r0
        r0 = lit 1
        r1 = vec [r0]
        r2 = vec []
        r3 = dup r1
";

/// The first of two vectors.
const FIRST: &str = "
    version 0.0(r0: vector, r1: vector) -> vector
      level portal
      block 0 quiet -> r0
";

/// The program of a text.
fn program(text: &str) -> Program {
    let image = assemble(text).expect("it is a text");
    Program::load(image).expect("it is accepted")
}

/// A start of 0.0 with these words.
fn start(words: &[i64]) -> Start<'_> {
    let (function, version) = (0, 0);
    Start {
        level: PORTAL,
        entry: Entry { function, version },
        words,
    }
}

/// A number.
fn number(place: usize) -> Number {
    Number::new(place).expect("it is at most 7")
}

/// A budget that ended with VECTORS.
fn vectors(steps: u32) -> Option<Ran> {
    let answer = Answer::Ended(End::Vectors);
    Some(Ran { answer, steps })
}

/// A refusal by a question at 0.
fn refused(question: u8) -> Refusal {
    let offset = 0;
    Refusal { question, offset }
}

#[test]
fn a_number_is_at_most_7() {
    assert_eq!(Number::ALL.map(Number::get), [0, 1, 2, 3, 4, 5, 6, 7]);
    assert_eq!(Number::new(7), Some(Number::ALL[7]));
    assert_eq!(Number::new(FIR_RUNS), None);
    assert_eq!(Number::new(usize::MAX), None);
    assert_eq!(number(3).to_string(), "3");
}

#[test]
fn reserves_sum_to_at_most_64() {
    assert!(Pool::new([8; FIR_RUNS]).is_ok());
    for reserves in [[9, 8, 8, 8, 8, 8, 8, 8], [32; FIR_RUNS], [255; FIR_RUNS]] {
        let refusal = Pool::new(reserves).err();
        assert_eq!(refusal, Some(refused(FIR_REFUSED_POOL)), "{reserves:?}");
    }
}

#[test]
fn a_run_stops_with_vectors_where_it_has_as_many_as_it_may_have() {
    let program = program(THREE);
    let mut pool = Pool::new([2, 62, 0, 0, 0, 0, 0, 0]).expect("64 in all");
    let (tight, wide) = (number(0), number(1));
    for number in [tight, wide] {
        let begun = pool.start(number, &program, start(&[]), &[0; 16]);
        assert_eq!(begun, Ok(()));
    }
    let had: Vec<usize> = (0..3)
        .map(|_| {
            assert_eq!(pool.step(tight), Some(Said::GoesOn));
            pool.has(tight)
        })
        .collect();
    assert_eq!(had, [0, 1, 2]);
    assert_eq!((pool.reserve(tight), pool.may_have(tight)), (2, 2));
    assert_eq!(pool.step(tight), Some(Said::Ended(End::Vectors)));
    assert_eq!(pool.has(tight), 0);
    assert_eq!(pool.budget(tight, 9, &mut [0; 16]), vectors(0));
    let answer = Answer::Ended(End::Integer(1));
    let ran = pool.budget(wide, 9, &mut [0; 16]);
    assert_eq!(ran, Some(Ran { answer, steps: 5 }));
}

#[test]
fn a_number_without_a_run_has_nothing_to_go_on_with() {
    let mut pool = Pool::new([8; FIR_RUNS]).expect("64 in all");
    let program = program(THREE);
    for number in Number::ALL {
        assert_eq!(pool.step(number), None);
        assert_eq!(pool.budget(number, 5, &mut [0; 16]), None);
        assert_eq!(pool.change(number, &program), None);
        assert!(pool.get(number).is_none());
        assert_eq!(pool.back(number), refused(FIR_REFUSED_BACK));
    }
    let short = pool.start(number(2), &program, start(&[]), &[0; 15]);
    assert_eq!(short, Err(refused(FIR_REFUSED_BUFFER)));
    assert!(
        pool.get(number(2)).is_none(),
        "a refused start gives it none"
    );
    let short = pool.run(number(2), &program, start(&[]), 5, &mut [0; 15]);
    assert_eq!(short.answer, Answer::Refused(refused(FIR_REFUSED_BUFFER)));
    assert!(pool.get(number(2)).is_none());
}

#[test]
fn a_start_that_needs_too_much_has_begun_and_ended() {
    let program = program(FIRST);
    let mut pool = Pool::new([1, 63, 0, 0, 0, 0, 0, 0]).expect("64 in all");
    let words = [1, 7, 2, 8, 9];
    let begun = pool.start(number(0), &program, start(&words), &[0; 16]);
    assert_eq!(begun, Ok(()));
    let run = pool.get(number(0)).expect("it has begun");
    assert_eq!((run.state().calls, run.position()), (0, None));
    assert_eq!(pool.budget(number(0), 0, &mut [0; 16]), vectors(0));
    let ran = pool.run(number(0), &program, start(&words), 9, &mut [0; 16]);
    assert_eq!(Some(ran), vectors(0));
    let mut items = [-1; 16];
    let ran = pool.run(number(1), &program, start(&words), 9, &mut items);
    assert_eq!(ran.answer, Answer::Ended(End::Vector(1)));
    assert_eq!(items[..2], [7, -1]);
}

#[test]
fn a_refused_start_leaves_the_run_and_its_program() {
    let (three, first) = (program(THREE), program(FIRST));
    let mut pool = Pool::new([8; FIR_RUNS]).expect("64 in all");
    let number = number(5);
    let begun = pool.start(number, &three, start(&[]), &[0; 16]);
    assert_eq!(begun, Ok(()));
    assert_eq!(pool.step(number), Some(Said::GoesOn));
    assert_eq!(pool.step(number), Some(Said::GoesOn));
    let before = pool.clone();
    let refusal = pool.start(number, &first, start(&[0]), &[0; 16]);
    assert_eq!(refusal, Err(refused(FIR_REFUSED_ARGUMENTS)));
    let ran = pool.run(number, &first, start(&[0]), 9, &mut [0; 16]);
    assert!(ran.is_refused());
    let (run, kept) = (pool.get(number), before.get(number));
    let (run, kept) = (run.expect("it stays"), kept.expect("it stays"));
    assert!(run.state() == kept.state() && run.image() == kept.image());
    assert_eq!(pool.store(), before.store());
    let begun = pool.start(number, &first, start(&[0, 0]), &[0; 16]);
    assert_eq!((begun, pool.has(number)), (Ok(()), 2));
    assert!(pool.get(number).expect("another").image() == first.image());
}

#[test]
fn a_change_puts_another_program_in_force_and_leaves_the_pool() {
    let (three, first) = (program(THREE), program(FIRST));
    let more = [
        THREE,
        "version 1.0(r0: int) -> int\nlevel portal\nblock 0 quiet -> r0\n",
    ];
    let more = program(&more.concat());
    let mut pool = Pool::new([8; FIR_RUNS]).expect("64 in all");
    let number = number(7);
    let ran = pool.run(number, &three, start(&[]), 3, &mut [0; 16]);
    assert_eq!((ran.answer, ran.steps), (Answer::Steps, 3));
    assert_eq!(pool.change(number, &more), Some(Ok(())));
    assert!(pool.get(number).expect("a run").image() == more.image());
    assert_eq!(pool.has(number), 2);
    let refusal = pool.change(number, &first).expect("a run");
    let question = refusal.expect_err("a live version differs").question;
    assert_eq!(question, FIR_REFUSED_CHANGE);
    assert!(pool.get(number).expect("a run").image() == more.image());
}

#[test]
fn a_pool_that_was_stored_goes_on() {
    let program = program(THREE);
    let mut pool = Pool::new([8; FIR_RUNS]).expect("64 in all");
    let number = number(4);
    pool.run(number, &program, start(&[]), 3, &mut [0; 16]);
    let (store, state) = (
        *pool.store(),
        pool.get(number).expect("a run").state().clone(),
    );
    let mut runs = [const { None }; FIR_RUNS];
    runs[4] = Some(Run::resume_with_its_own_program(state, &program));
    let resumed = Pool::resume_with_its_own_runs(store, runs);
    let mut resumed = resumed.unwrap_or_else(|no| panic!("{no:?}"));
    assert_eq!(resumed.has(number), 2);
    let ran = resumed.budget(number, 9, &mut [0; 16]).expect("a run");
    assert_eq!(ran.answer, Answer::Ended(End::Integer(1)));
    let over = Store {
        reserves: [9; FIR_RUNS],
        ..store
    };
    let refusal = Pool::resume_with_its_own_runs(over, [const { None }; FIR_RUNS]).err();
    assert_eq!(refusal, Some(refused(FIR_REFUSED_POOL)));
}

#[test]
fn a_store_answers_for_every_number_and_every_content() {
    let program = program(THREE);
    let mut store = Store {
        reserves: [0; FIR_RUNS],
        has: [255; FIR_RUNS],
    };
    assert_eq!(store.may_have(0), 0);
    assert_eq!(store.may_have(8), 0);
    let mut run = Run::begin(&program, PORTAL, start(&[]).entry, &[], &[0; 16]).expect("it begins");
    let before = run.state().clone();
    for number in [8, usize::MAX] {
        assert_eq!(store.step(number, &mut run), Err(refused(FIR_REFUSED_POOL)));
        let ran = store.budget(number, &mut run, 5, &mut []);
        assert_eq!(ran.answer, Answer::Refused(refused(FIR_REFUSED_POOL)));
        let change = store.may_change(number, &run, &[]);
        assert_eq!(change, Err(refused(FIR_REFUSED_POOL)));
        assert_eq!(store.back(number), refused(FIR_REFUSED_POOL));
    }
    assert!(before == *run.state());
    assert_eq!(store.has, [255; FIR_RUNS]);
    let ran = store.budget(3, &mut run, 9, &mut [0; 16]);
    assert_eq!(Some(ran), vectors(1));
    assert_eq!(store.has[3], 0);
    let noise = store;
    assert_eq!(
        store.make_anew([9; FIR_RUNS]),
        Err(refused(FIR_REFUSED_POOL))
    );
    assert_eq!(store, noise);
}
