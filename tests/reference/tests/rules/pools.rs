//! "Eight scripts, one store": who gets a vector, what counts for whom, how a start goes, and
//! 21.

use crate::support::{Run, PORTAL, UNTOUCHED};
use cases::{image, CALLS_ITSELF};
use reference::pool::{Start, NOT_IN_POOL, RUNS};
use reference::{Answer, End, Integer, Pool, Refusal, Said};

/// VECTORS, after so many steps.
fn vectors(steps: u32) -> Option<(Answer, u32)> {
    Some((Answer::Ended(End::Vectors), steps))
}

/// DONE with an integer, after so many steps.
fn done(integer: Integer, steps: u32) -> Option<(Answer, u32)> {
    Some((Answer::Ended(End::Integer(integer)), steps))
}

/// A pool in which the first numbers reserve so many, and the others none.
#[track_caller]
fn pool(first: &[u8]) -> Pool {
    let mut reserves = [0; RUNS];
    reserves[..first.len()].copy_from_slice(first);
    Pool::make(reserves, "a pool").expect("they sum to at most 64")
}

/// A body that makes so many vectors, at most 15, one by one, and gives 1: a LIT, the VECs,
/// and its end are as many steps and 2 more.
fn making(count: usize) -> String {
    let types: Vec<String> = (1..=count).map(|r| format!("r{r}: vector")).collect();
    let vecs: String = (1..=count).map(|r| format!("r{r} = vec [r0]\n")).collect();
    let registers = ["r0: int".to_string()].into_iter().chain(types);
    let registers: Vec<String> = registers.collect();
    format!(
        "version 0.0() -> int
           registers {}
           block 0 quiet -> r0
             r0 = lit 1
             {vecs}",
        registers.join(", ")
    )
}

/// A body of two vectors that gives the length of the first.
const OF_TWO: &str = "version 0.0(r0: vector, r1: vector) -> int
                        registers r2: int
                        block 0 quiet -> r2
                          r2 = len r0";

/// A start of 0.0 of the image of a text.
fn start(text: &str, words: &[Integer]) -> Start {
    Start {
        image: image(text),
        level: PORTAL,
        entry: (0, 0),
        words: words.to_vec(),
    }
}

/// Starts a text without arguments under a number.
#[track_caller]
fn begin(pool: &mut Pool, number: usize, text: &str) {
    let begun = pool.start(number, &start(text, &[]), &UNTOUCHED);
    assert_eq!(begun, Ok(()));
}

/// A budget under a number.
fn budget(pool: &mut Pool, number: usize, budget: u32) -> Option<(Answer, u32)> {
    pool.budget(number, budget, &mut UNTOUCHED.clone())
}

/// How many the run of a number may have.
fn may_have(pool: &Pool, number: usize) -> usize {
    pool.usage().may_have(number)
}

#[test]
fn a_run_always_gets_vectors_up_to_its_reserve() {
    let mut pool = pool(&[4, 60]);
    begin(&mut pool, 0, &making(4));
    assert_eq!(budget(&mut pool, 0, 100), done(1, 6));
    begin(&mut pool, 0, &making(5));
    assert_eq!(budget(&mut pool, 0, 100), vectors(5));
}

#[test]
fn above_it_it_gets_one_exactly_while_those_in_use_and_unused_reserves_are_below_64() {
    let mut tight = pool(&[0, 60]);
    assert_eq!(may_have(&tight, 0), 4);
    begin(&mut tight, 0, &making(5));
    assert_eq!(budget(&mut tight, 0, 5), Some((Answer::Steps, 5)));
    assert_eq!((tight.has(0), may_have(&tight, 0)), (4, 4));
    assert_eq!(tight.step(0), Ok(Some(Said::Ended(End::Vectors))));
    let mut wide = pool(&[0, 59]);
    assert_eq!(may_have(&wide, 0), 5);
    begin(&mut wide, 0, &making(5));
    assert_eq!(budget(&mut wide, 0, 100), done(1, 7));
}

#[test]
fn those_in_use_above_a_reserve_are_taken_from_the_others() {
    let mut pool = pool(&[2, 2, 50]);
    assert_eq!(may_have(&pool, 0), 12);
    begin(&mut pool, 1, &making(9));
    assert_eq!(budget(&mut pool, 1, 3), Some((Answer::Steps, 3)));
    assert_eq!((pool.has(1), may_have(&pool, 0)), (2, 12));
    assert_eq!(budget(&mut pool, 1, 4), Some((Answer::Steps, 4)));
    assert_eq!((pool.has(1), may_have(&pool, 0)), (6, 8));
    begin(&mut pool, 0, &making(9));
    assert_eq!(budget(&mut pool, 0, 100), vectors(9));
}

#[test]
fn a_number_without_a_live_run_keeps_its_whole_reserve() {
    let mut pool = pool(&[0, 60]);
    begin(&mut pool, 1, &making(3));
    assert_eq!(may_have(&pool, 0), 4);
    assert_eq!(budget(&mut pool, 1, 4), Some((Answer::Steps, 4)));
    assert_eq!((pool.has(1), may_have(&pool, 0)), (3, 4));
    assert_eq!(budget(&mut pool, 1, 100), done(1, 1));
    assert_eq!((pool.has(1), may_have(&pool, 0)), (0, 4));
}

#[test]
fn those_of_an_ended_run_count_for_nobody() {
    let mut pool = pool(&[0, 0, 50]);
    begin(&mut pool, 1, &making(15));
    assert_eq!(budget(&mut pool, 1, 100), vectors(15));
    assert_eq!((pool.has(1), may_have(&pool, 0)), (0, 14));
    let lodger = pool.get(1).expect("it was started");
    let left = lodger.run.state().counted_vectors().len();
    assert_eq!(left, 14, "they stand in its calls still");
}

#[test]
fn those_no_longer_referred_to_count_for_nobody() {
    let text = "version 0.0() -> int
                  registers r0: int, r1: value, r2: value
                  block 0 quiet -> r0
                    r0 = lit 1
                    r1 = vec []
                    r2 = vec []
                    r1 = lit 0
                    r1 = vec [r0]";
    let mut pool = pool(&[0, 62]);
    begin(&mut pool, 0, text);
    let mut had = Vec::new();
    for _ in 0..5 {
        assert_eq!(pool.step(0), Ok(Some(Said::GoesOn)));
        had.push(pool.has(0));
    }
    assert_eq!(had, [0, 1, 2, 1, 2]);
    assert_eq!(pool.step(0), Ok(Some(Said::Ended(End::Integer(1)))));
}

#[test]
fn one_vector_in_two_registers_counts_once_and_a_copy_is_another() {
    let text = |last: &str| {
        format!(
            "version 0.0() -> int
               registers r0: int, r1: vector, r2: vector
               block 0 quiet -> r0
                 r0 = lit 1
                 r1 = vec []
                 {last}"
        )
    };
    let mut pool = pool(&[1, 63]);
    begin(&mut pool, 0, &text("r2 = move r1"));
    assert_eq!(budget(&mut pool, 0, 100), done(1, 4));
    begin(&mut pool, 0, &text("r2 = dup r1"));
    assert_eq!(budget(&mut pool, 0, 100), vectors(2));
}

#[test]
fn vectors_is_before_d_is_overwritten() {
    let text = "version 0.0() -> int
                  registers r0: int, r1: vector
                  block 0 quiet -> r0
                    r0 = lit 1
                    r1 = vec []
                    r1 = vec [r0]";
    let mut pool = pool(&[1, 63]);
    begin(&mut pool, 0, text);
    assert_eq!(budget(&mut pool, 0, 100), vectors(2));
}

#[test]
fn a_vector_is_needed_where_its_operands_are_there() {
    let mut run = Run::begin(&making(1), &[]);
    assert!(!run.state.needs_vector(&run.program), "LIT needs none");
    run.steps(1);
    assert!(run.state.needs_vector(&run.program));
    run.state.frames[0].registers[0] = None;
    assert!(
        !run.state.needs_vector(&run.program),
        "the item is not there"
    );
}

#[test]
fn a_start_whose_arguments_need_more_than_it_may_have_stops_at_once() {
    let words = [1, 7, 2, 8, 9];
    for given in [None, Some(0), Some(100)] {
        let mut pool = pool(&[0, 63]);
        match given {
            None => {
                let begun = pool.start(0, &start(OF_TWO, &words), &UNTOUCHED);
                assert_eq!(begun, Ok(()));
            }
            Some(budget) => {
                let buffer = &mut UNTOUCHED.clone();
                let ran = pool.run(0, &start(OF_TWO, &words), budget, buffer);
                assert_eq!(Some(ran), vectors(0));
            }
        }
        let state = pool.get(0).expect("it was started").run.state();
        assert!(state.frames.is_empty() && state.activations.is_empty());
        assert_eq!(pool.has(0), 0);
        assert_eq!(budget(&mut pool, 0, 0), vectors(0));
        assert_eq!(budget(&mut pool, 0, 100), vectors(0));
        assert_eq!(pool.step(0), Ok(Some(Said::Ended(End::Vectors))));
    }
    let mut pool = pool(&[0, 62]);
    let begun = pool.start(0, &start(OF_TWO, &words), &UNTOUCHED);
    assert_eq!((begun, pool.has(0)), (Ok(()), 2));
    assert_eq!(budget(&mut pool, 0, 100), done(1, 2));
}

#[test]
fn a_start_first_ends_the_run_that_had_the_number() {
    let mut pool = pool(&[0, 62]);
    begin(&mut pool, 0, &making(2));
    assert_eq!(budget(&mut pool, 0, 3), Some((Answer::Steps, 3)));
    assert_eq!((pool.has(0), may_have(&pool, 0)), (2, 2));
    let begun = pool.start(0, &start(OF_TWO, &[0, 0]), &UNTOUCHED);
    assert_eq!((begun, pool.has(0)), (Ok(()), 2));
    assert_eq!(budget(&mut pool, 0, 100), done(0, 2));
}

#[test]
fn a_refused_start_leaves_the_run_and_the_pool() {
    let mut pool = pool(&[8; RUNS]);
    begin(&mut pool, 3, &making(5));
    assert_eq!(budget(&mut pool, 3, 4), Some((Answer::Steps, 4)));
    let state = pool.get(3).expect("it was started").run.state().clone();
    let mut wrong = start(OF_TWO, &[0, 0]);
    let mut refusals = Vec::new();
    for (entry, words, places) in [((0, 1), 2, 16), ((0, 0), 1, 16), ((0, 0), 2, 15)] {
        wrong.entry = entry;
        wrong.words = vec![0; words];
        let refused = pool.start(3, &wrong, &UNTOUCHED[..places]);
        refusals.push(refused.expect_err("it is refused").number);
        assert_eq!(*pool.get(3).expect("it stays").run.state(), state);
        assert_eq!(pool.has(3), 3);
    }
    assert_eq!(refusals, [11, 12, 13]);
    assert_eq!(budget(&mut pool, 3, 100), done(1, 3));
}

#[test]
fn a_run_alone_with_the_reserve_64_is_the_run_without_a_pool() {
    // Each call holds 15 vectors and calls itself: four calls hold 60.
    let text = making(15) + "r0 = call 0.0()\n";
    let mut pool = pool(&[64]);
    begin(&mut pool, 0, &text);
    let mut alone = Run::begin(&text, &[]);
    assert_eq!(budget(&mut pool, 0, 9), Some(alone.budget(9)));
    assert_eq!(*pool.get(0).expect("a run").run.state(), alone.state);
    let end = budget(&mut pool, 0, 1_000);
    assert_eq!(end, Some(alone.budget(1_000)));
    assert_eq!(end, vectors(4 * 17 + 1 + 4 - 9));
    assert_eq!(*pool.get(0).expect("a run").run.state(), alone.state);
}

#[test]
fn a_change_leaves_what_a_run_has() {
    let mut pool = pool(&[8; RUNS]);
    begin(&mut pool, 0, &making(3));
    assert_eq!(budget(&mut pool, 0, 3), Some((Answer::Steps, 3)));
    let another = "version 1.0() -> int
                     registers r0: int
                     block 0 quiet -> r0
                       r0 = lit 3";
    let more = making(3) + another;
    assert_eq!(pool.change(0, &image(&more)), Some(Ok(())));
    assert_eq!(pool.has(0), 2);
    let refused = pool.change(0, &image(&making(2))).expect("it has a run");
    assert_eq!(refused.map_err(|no| no.number), Err(15));
    assert_eq!(budget(&mut pool, 0, 100), done(1, 2));
}

#[test]
fn no_other_end_asks_the_pool() {
    let mut pool = pool(&[0, 64]);
    let begun = pool.start(0, &start(CALLS_ITSELF, &[-1, 0]), &UNTOUCHED);
    assert_eq!(begun, Ok(()));
    let deep = Some((Answer::Ended(End::Deep), 31));
    assert_eq!(budget(&mut pool, 0, 100), deep);
}

#[test]
fn question21_reserves_sum_to_at_most_64() {
    let mut reserves = [8; RUNS];
    assert!(Pool::make(reserves, "a pool").is_ok());
    reserves[5] = 9;
    for reserves in [reserves, [32; RUNS], [255; RUNS]] {
        let made = Pool::make(reserves, "a pool").err();
        assert_eq!(made, Some(NOT_IN_POOL), "{reserves:?}");
    }
}

#[test]
fn question21_a_number_is_at_most_7_before_all_else() {
    let (number, offset) = (21, 0);
    let refused = Refusal { number, offset };
    let mut pool = pool(&[8; RUNS]);
    let mut wrong = start(OF_TWO, &[]);
    wrong.image.clear();
    for number in [8, 9, 255, 256, usize::MAX] {
        assert_eq!(pool.start(number, &wrong, &[]), Err(refused));
        let answer = Some((Answer::Refused(refused), 0));
        assert_eq!(pool.budget(number, 5, &mut []), answer);
        assert_eq!(pool.step(number), Err(refused));
        assert_eq!(pool.change(number, &[]), Some(Err(refused)));
        assert_eq!(pool.back(number), refused);
    }
    assert_eq!(pool.step(7), Ok(None), "a number without a run");
}

#[test]
fn a_state_in_the_pool_has_no_step_behind_it() {
    let mut pool = pool(&[8; RUNS]);
    begin(&mut pool, 2, &making(3));
    assert_eq!(budget(&mut pool, 2, 3), Some((Answer::Steps, 3)));
    let (number, offset) = (20, 0);
    assert_eq!(pool.back(2), Refusal { number, offset });
    assert_eq!(pool.has(2), 2);
}
