//! The runs that the paper names, worked out by hand, asked of the proved
//! engine, the reference and the tuned interpreter.

use cases::{
    adding, computing, filling, giving, image, CALLS_ITSELF, CALL_INTO_ITSELF, COMPUTED, DIVISION,
    DUP_AND_SET, GREATEST, IDENTITY, LEAST, SKIPS_NESTED, SKIPS_NONE, SKIPS_ONE, USE_INTO_ITSELF,
};
use differential::engine;
use differential::tuned::{Code, Machine};
use reference::bounds::{Steps, BUFFER};
use reference::{Answer, End, Integer, Program, Refusal, Said, State};

/// The level that the runs state unless another is named.
const PORTAL: usize = 0;

/// What the places of a lent buffer hold before a run.
const UNTOUCHED: Integer = 77;

/// Asserts what a budget at the start of a run of version 0.0 gives, by each
/// of the three, and that a vector's items alone are written.
#[track_caller]
fn gives(
    image: &[u8],
    words: &[Integer],
    budget: Steps,
    answer: Answer,
    steps: Steps,
    items: &[Integer],
) {
    let expected = (answer, steps);
    let mut buffer = vec![UNTOUCHED; BUFFER + 4];
    buffer[..items.len()].copy_from_slice(items);

    let mut found = vec![UNTOUCHED; BUFFER + 4];
    let (mut run, begun) = engine::begin(image, PORTAL, (0, 0), words, &found);
    assert_eq!(begun, Ok(()), "the proved engine begins");
    let (answer, steps) = engine::budget(&mut run, budget, &mut found);
    assert_eq!((answer, steps), expected, "by the proved engine");
    assert_eq!(found, buffer, "by the proved engine");

    let program = Program::accept(image).expect("an accepted image");
    let mut found = vec![UNTOUCHED; BUFFER + 4];
    let begun = State::begin(&program, PORTAL, 0, 0, words, &found).expect("the reference begins");
    let (_, answer, steps) = begun.clone().budget(&program, budget, &mut found);
    assert_eq!((answer, steps), expected, "by the reference");
    assert_eq!(found, buffer, "by the reference");

    let code = Code::new(&program);
    let mut tuned = Machine::new(&program, &code, &begun);
    assert_eq!(tuned.budget(budget), expected, "by the tuned interpreter");
    assert_eq!(tuned.result(), items, "by the tuned interpreter");
}

/// DONE with an integer.
fn done(integer: Integer) -> Answer {
    Answer::Ended(End::Integer(integer))
}

#[test]
fn p2_identity_of_7_is_done_with_7_after_1_step() {
    gives(&IDENTITY, &[-1, 7], 1, done(7), 1, &[]);
}

#[test]
fn p3_identity_with_budget_0_is_steps_after_0() {
    gives(&IDENTITY, &[-1, 7], 0, Answer::Steps, 0, &[]);
}

#[test]
fn p7_dup_and_set_of_a_vector_is_done_with_42() {
    let image = image(DUP_AND_SET);
    let answer = Answer::Ended(End::Vector(1));
    gives(&image, &[1, 1], 100, answer, 5, &[42]);
    gives(&image, &[1, 1], 4, Answer::Steps, 4, &[]);
    let answer = Answer::Ended(End::Vector(3));
    gives(&image, &[3, 1, 2, 3], 5, answer, 5, &[42, 2, 3]);
}

#[test]
fn p8_set_on_an_empty_vector_is_undef() {
    let undef = Answer::Ended(End::Undef);
    gives(&image(DUP_AND_SET), &[0], 100, undef, 4, &[]);
}

#[test]
fn p10_minus_7_divided_by_2_is_minus_4() {
    let image = image(DIVISION);
    gives(&image, &[-1, -7, -1, 2], 2, done(-4), 2, &[]);
    gives(&image, &[-1, 7, -1, -2], 2, done(-4), 2, &[]);
    gives(&image, &[-1, 7, -1, 2], 2, done(3), 2, &[]);
    gives(&image, &[-1, -7, -1, -2], 2, done(3), 2, &[]);
    gives(&image, &[-1, -6, -1, 2], 2, done(-3), 2, &[]);
    gives(&image, &[-1, 6, -1, -2], 2, done(-3), 2, &[]);
    gives(
        &image,
        &[-1, Integer::MIN, -1, 1],
        2,
        done(Integer::MIN),
        2,
        &[],
    );
    gives(
        &image,
        &[-1, Integer::MIN, -1, Integer::MAX],
        2,
        done(-2),
        2,
        &[],
    );
    gives(
        &image,
        &[-1, Integer::MAX, -1, Integer::MIN],
        2,
        done(-1),
        2,
        &[],
    );
    let undef = Answer::Ended(End::Undef);
    gives(&image, &[-1, 7, -1, 0], 2, undef, 1, &[]);
    gives(&image, &[-1, Integer::MIN, -1, -1], 2, undef, 1, &[]);
}

#[test]
fn operations_keep_to_64_bits() {
    for (op, a, b, result) in COMPUTED {
        let (answer, steps) = match result {
            Some(integer) => (done(integer), 2),
            None => (Answer::Ended(End::Undef), 1),
        };
        println!("{op} of {a} and {b}");
        gives(
            &image(&computing(op)),
            &[-1, a, -1, b],
            9,
            answer,
            steps,
            &[],
        );
    }
}

#[test]
fn a_literal_is_its_8_bytes() {
    for integer in [1 << 32, -(1 << 32), 1 << 40, GREATEST, LEAST, -3] {
        let literal = [&[13, 0, 36, 0, 0][..], &i64::to_le_bytes(integer)].concat();
        gives(&giving(&literal), &[], 9, done(integer), 2, &[]);
    }
}

#[test]
fn words_items_and_results_have_64_bits() {
    let vector = image("version 0.0(r0: vector) -> vector\nblock 0 quiet -> r0");
    for integer in [1 << 40, -(1 << 40), GREATEST, LEAST] {
        gives(&IDENTITY, &[-1, integer], 9, done(integer), 1, &[]);
        let items = [integer, -1, integer];
        let words = [3, integer, -1, integer];
        let answer = Answer::Ended(End::Vector(3));
        gives(&vector, &words, 9, answer, 1, &items);
    }
}

#[test]
fn a_head_word_counts_with_all_of_its_bits() {
    let (number, offset) = (12, 0);
    for head in [1 << 32, (1 << 32) - 1, (1 << 32) + 1, -(1 << 32) - 1, LEAST] {
        let words = [head, 7];
        let (_, begun) = engine::begin(&IDENTITY, PORTAL, (0, 0), &words, &[0; BUFFER]);
        assert_eq!(begun, Err(Refusal { number, offset }), "{head}");
    }
}

#[test]
fn p11_a_body_that_calls_itself_is_deep_after_31_steps() {
    let image = image(CALLS_ITSELF);
    let deep = Answer::Ended(End::Deep);
    gives(&image, &[-1, 0], 32, deep, 31, &[]);
    // Budget is looked at first.
    gives(&image, &[-1, 0], 31, Answer::Steps, 31, &[]);
}

#[test]
fn vectors_is_said_at_the_65th_and_not_counted() {
    // Each call holds two vectors and the words' one is held once: 1 + 2 × 31
    // count in 31 calls, and the 32nd has room for one more.
    let image = image(
        "version 0.0(r0: vector) -> int
           registers r1: vector, r2: vector, r3: int
           block 0 quiet -> r3
             r1 = vec []
             r2 = vec []
             r3 = call 0.0(r0)",
    );
    let vectors = Answer::Ended(End::Vectors);
    gives(&image, &[0], 1000, vectors, 3 * 31 + 1, &[]);
    gives(&image, &[0], 3 * 31 + 1, Answer::Steps, 3 * 31 + 1, &[]);
}

#[test]
fn the_end_is_given_again_to_steps_and_budgets() {
    let image = image(DUP_AND_SET);
    let mut buffer = [UNTOUCHED; BUFFER];
    let (mut run, _) = engine::begin(&image, PORTAL, (0, 0), &[1, 1], &buffer);
    engine::budget(&mut run, 5, &mut buffer);
    assert_eq!(engine::step(&mut run), Said::Ended(End::Vector(1)));
    let mut buffer = [UNTOUCHED; BUFFER];
    let (answer, steps) = engine::budget(&mut run, 0, &mut buffer);
    assert_eq!((answer, steps), (Answer::Ended(End::Vector(1)), 0));
    assert_eq!(buffer[..2], [42, UNTOUCHED]);
    let (number, offset) = (13, 0);
    let refused = Answer::Refused(Refusal { number, offset });
    let (answer, steps) = engine::budget(&mut run, 1, &mut [0; BUFFER - 1]);
    assert_eq!((answer, steps), (refused, 0));
}

#[test]
fn a_skip_that_skips_is_one_step() {
    let image = image(SKIPS_ONE);
    gives(&image, &[-1, 0], 9, done(5), 3, &[]);
    gives(&image, &[-1, 0], 2, Answer::Steps, 2, &[]);
}

#[test]
fn a_skip_that_does_not_skip_is_one_step() {
    let image = image(SKIPS_ONE);
    gives(&image, &[-1, 1], 9, done(6), 4, &[]);
    gives(&image, &[-1, -1], 9, done(6), 4, &[]);
    gives(&image, &[-1, Integer::MIN], 3, Answer::Steps, 3, &[]);
}

#[test]
fn a_skip_of_no_instruction_is_one_step() {
    gives(&image(SKIPS_NONE), &[-1, 0], 9, done(0), 2, &[]);
    gives(&image(SKIPS_NONE), &[-1, 7], 9, done(7), 2, &[]);
}

#[test]
fn nested_skips_pass_over_their_own_parts() {
    let image = image(SKIPS_NESTED);
    gives(&image, &[-1, 0, -1, 0], 9, done(1), 3, &[]);
    gives(&image, &[-1, 0, -1, 1], 9, done(1), 3, &[]);
    gives(&image, &[-1, 1, -1, 0], 9, done(2), 5, &[]);
    gives(&image, &[-1, 1, -1, 1], 9, done(3), 6, &[]);
}

#[test]
fn a_register_that_is_emptied_and_filled_by_one_instruction_keeps_the_vector() {
    let answer = Answer::Ended(End::Vector(2));
    gives(&image(USE_INTO_ITSELF), &[2, 4, 5], 9, answer, 2, &[4, 5]);
    gives(&image(CALL_INTO_ITSELF), &[2, 4, 5], 9, answer, 3, &[4, 5]);
}

#[test]
fn a_register_that_is_filled_again_holds_the_new_vector() {
    // USE, VEC, PROM, FORCE, LEN and two block ends.
    let text = filling("r2 = use r0\nr0 = vec [r1, r1, r1]\nr3 = prom 1\nr1 = force r3");
    gives(&image(&text), &[1, 9, -1, 0], 9, done(3), 7, &[]);
    // USE, USE, PROM, FORCE, LEN and two block ends.
    let text = filling("r2 = use r0\nr0 = use r2\nr3 = prom 1\nr1 = force r3");
    gives(&image(&text), &[1, 9, -1, 0], 9, done(1), 7, &[]);
}

/// Asserts what a change comes to after so many steps of a run of 0.0 with 5, and
/// what the run is then DONE with after 9 in all, by the proved engine and the reference.
#[track_caller]
fn changes(old: &str, steps: Steps, new: &str, expected: Result<(), Refusal>, gives: Integer) {
    let (old, new, buffer) = (image(old), image(new), &mut [UNTOUCHED; BUFFER]);
    let end = (done(gives), 9 - steps);

    let (mut run, _) = engine::begin(&old, PORTAL, (0, 0), &[-1, 5], buffer);
    assert_eq!(engine::budget(&mut run, steps, buffer).1, steps);
    let found = engine::change(&mut run, &new);
    assert_eq!(found, expected, "by the proved engine");
    let found = engine::budget(&mut run, 100, buffer);
    assert_eq!(found, end, "by the proved engine");

    let program = Program::accept(&old).expect("an accepted image");
    let state = State::begin(&program, PORTAL, 0, 0, &[-1, 5], buffer).expect("a run begins");
    let (state, ..) = state.budget(&program, steps, buffer);
    let found = reference::change(&old, &new, &state);
    assert_eq!(found, expected, "by the reference");
    let in_force = if found.is_ok() { new } else { old };
    let program = Program::accept(&in_force).expect("an accepted image");
    let (_, answer, more) = state.budget(&program, 100, buffer);
    assert_eq!((answer, more), end, "by the reference");
}

#[test]
fn a_change_is_taken_where_what_differs_has_no_live_call() {
    changes(&adding(1), 0, &adding(100), Ok(()), 5 + 100 + 100);
    changes(&adding(1), 4, &adding(100), Ok(()), 5 + 1 + 100);
    changes(&adding(1), 8, &adding(100), Ok(()), 5 + 1 + 1);
    changes(&adding(1), 2, &adding(1), Ok(()), 5 + 1 + 1);
}

#[test]
fn a_change_is_refused_by_15_where_a_version_with_a_live_call_differs() {
    let no = |offset| Err(Refusal { number: 15, offset });
    for steps in [1, 2, 3, 5, 6, 7] {
        changes(&adding(1), steps, &adding(100), no(41), 5 + 1 + 1);
    }
    // The mark of 0.0's body.
    let marked = adding(1).replacen("quiet", "reflective", 1);
    for steps in 0..9 {
        changes(&adding(1), steps, &marked, no(0), 5 + 1 + 1);
    }
}

#[test]
fn a_change_is_refused_by_the_new_images_own_questions_first() {
    let wrong = adding(100).replace("r0 = add r0, r1", "r0 = add r0, r2");
    let refused = Err(Refusal {
        number: 7,
        offset: 78,
    });
    for steps in 0..9 {
        changes(&adding(1), steps, &wrong, refused, 5 + 1 + 1);
    }
}

#[test]
fn a_done_run_may_go_on_under_any_accepted_image() {
    for new in [
        adding(100),
        CALLS_ITSELF.to_string(),
        DUP_AND_SET.to_string(),
    ] {
        changes(&adding(1), 9, &new, Ok(()), 5 + 1 + 1);
    }
}

/// 0.0 makes a promise and dispatches: its argument, the promise, and nothing, on
/// function 1, which has these versions of one parameter.
fn searching(versions: &[&str]) -> String {
    let mut text = "version 0.0(r0: value) -> int
           registers r1: quiet promise, r2: int
           block 0 quiet -> r2
             r2 = lit 2
             r1 = prom 1
             r2 = dispatch 1(r0: value) -> int quiet
             r2 = dispatch 1(r1: any) -> int quiet
             r2 = dispatch 1() -> int quiet
           block 1 quiet -> r2\n"
        .to_string();
    for (number, parameter) in versions.iter().enumerate() {
        text += &format!(
            "version 1.{number}(r0: {parameter}) -> int
               registers r1: int
               block 0 quiet -> r1
                 r1 = lit {number}\n"
        );
    }
    text
}

/// Asserts what the search comes to after so many steps of a run of 0.0: how many
/// versions are looked at, and of how many, by the proved engine and the reference.
#[track_caller]
fn searches(text: &str, words: &[Integer], steps: Steps, expected: Option<(u8, u8)>) {
    let (image, buffer) = (image(text), &mut [UNTOUCHED; BUFFER]);
    let (mut run, _) = engine::begin(&image, PORTAL, (0, 0), words, buffer);
    engine::budget(&mut run, steps, buffer);
    assert_eq!(engine::search(&run), expected, "by the proved engine");

    let program = Program::accept(&image).expect("an accepted image");
    let state = State::begin(&program, PORTAL, 0, 0, words, buffer).expect("a run begins");
    let (state, ..) = state.budget(&program, steps, buffer);
    let search = state.search(&program);
    let found = search.map(|search| (search.looked(), search.versions));
    assert_eq!(found, expected, "by the reference");
}

#[test]
fn a_search_looks_at_versions_up_to_the_first_that_fits() {
    // LIT, PROM, and then three times DISPATCH, LIT and the end of the call.
    let kinds = ["int", "vector", "reflective promise", "quiet promise"];
    for (integer, vector, promise, count) in
        [(1, 2, 3, 4), (1, 2, 3, 3), (1, 2, 2, 2), (1, 1, 1, 1)]
    {
        let text = searching(&kinds[..count as usize]);
        searches(&text, &[-1, 7], 1, None);
        searches(&text, &[-1, 7], 2, Some((integer, count)));
        searches(&text, &[0], 2, Some((vector, count)));
        searches(&text, &[-1, 7], 3, None);
        searches(&text, &[-1, 7], 5, Some((promise, count)));
    }
    let any = searching(&["any", "int"]);
    searches(&any, &[-1, 7], 2, Some((1, 2)));
    searches(&any, &[-1, 7], 5, Some((1, 2)));
}

#[test]
fn a_search_without_a_fit_looks_at_all_and_undef_stands_there() {
    let kinds = ["int", "vector", "value"];
    for count in 1..=4 {
        // The first takes any argument, and none takes no argument.
        let any = searching(&[&["any"], &kinds[..count - 1]].concat());
        let all = Some((count as u8, count as u8));
        searches(&any, &[-1, 7], 8, all);
        searches(&any, &[-1, 7], 9, all);
        searches(&any, &[-1, 7], 100, all);
        // No version takes a vector: UNDEF at the first DISPATCH.
        let integers = searching(&vec!["int"; count]);
        searches(&integers, &[1, 7], 2, all);
        searches(&integers, &[1, 7], 3, all);
    }
}

#[test]
fn a_run_that_is_done_stands_at_no_dispatch() {
    searches(CALLS_ITSELF, &[-1, 7], 100, None);
    let text = searching(&["any"]).replace("             r2 = dispatch 1() -> int quiet\n", "");
    searches(&text, &[-1, 7], 9, None);
}

/// Versions 0.0 to 0.2, of the portal, site staff and the factory, dispatch on function
/// 1, whose versions are of these levels and give 10 and their number.
fn leveled(levels: &[&str]) -> Vec<u8> {
    let version = |numbers, level, body| {
        let head = format!("version {numbers}(r0: int) -> int\nlevel {level}\n");
        format!("{head}block 0 quiet -> r0\nr0 = {body}\n")
    };
    let mut text = String::new();
    for (number, level) in ["portal", "staff", "factory"].iter().enumerate() {
        let dispatch = "dispatch 1(r0: int) -> int quiet".to_string();
        text += &version(format!("0.{number}"), level, dispatch);
    }
    for (number, level) in levels.iter().enumerate() {
        text += &version(format!("1.{number}"), level, format!("lit 1{number}"));
    }
    image(&text)
}

/// Asserts what a run of a version of function 0 comes to at a level, by the proved
/// engine, the reference and the tuned interpreter: a refusal, or its answer, its steps
/// and how many versions its search looks at.
#[track_caller]
fn enters(image: &[u8], level: usize, version: usize, expected: Result<(Answer, Steps, u8), u8>) {
    let no = |number| Refusal { number, offset: 0 };
    let (words, buffer) = ([-1, 5], &mut [UNTOUCHED; BUFFER]);
    let (mut run, begun) = engine::begin(image, level, (0, version), &words, buffer);
    let found = begun.map(|()| {
        let looked = engine::search(&run).expect("it stands at a DISPATCH").0;
        let (answer, steps) = engine::budget(&mut run, 9, buffer);
        (answer, steps, looked)
    });
    assert_eq!(found, expected.map_err(no), "by the proved engine");

    let program = Program::accept(image).expect("an accepted image");
    let begun = State::begin(&program, level, 0, version, &words, buffer);
    let found = begun.clone().map(|state| {
        let looked = state.search(&program).expect("it stands at a DISPATCH");
        let (_, answer, steps) = state.budget(&program, 9, buffer);
        (answer, steps, looked.looked())
    });
    assert_eq!(found, expected.map_err(no), "by the reference");

    if let (Ok(state), Ok((answer, steps, _))) = (begun, expected) {
        let code = Code::new(&program);
        let mut tuned = Machine::new(&program, &code, &state);
        assert_eq!(tuned.budget(9), (answer, steps), "by the tuned interpreter");
    }
}

#[test]
fn an_entry_above_the_runs_level_is_19() {
    let image = leveled(&["portal"]);
    for (level, enterable) in [(0, 1), (1, 2), (2, 3), (3, 3), (256, 3), (usize::MAX, 3)] {
        for version in 0..3 {
            let may = version < enterable;
            let expected = if may { Ok((done(10), 4, 1)) } else { Err(19) };
            enters(&image, level, version, expected);
        }
    }
}

#[test]
fn eleven_comes_before_19_and_19_before_12_and_13() {
    let image = leveled(&["portal"]);
    for (version, words, places, number) in [
        (3, &[][..], 0, 11),
        (2, &[], 0, 19),
        (0, &[], 0, 12),
        (0, &[-1, 5], 15, 13),
    ] {
        let buffer = vec![0; places];
        let (_, begun) = engine::begin(&image, PORTAL, (0, version), words, &buffer);
        assert_eq!(begun, Err(Refusal { number, offset: 0 }), "{number}");
    }
}

#[test]
fn a_dispatch_passes_over_versions_above_its_own_versions_level() {
    let image = leveled(&["factory", "staff", "portal"]);
    // At each level that may enter: the level of 0.0 to 0.2 decides, not the run's.
    for level in 0..=3 {
        for version in 0..=level.min(2) {
            let called = 2 - version as u8;
            let answer = done(10 + Integer::from(called));
            enters(&image, level, version, Ok((answer, 4, called + 1)));
        }
    }
}

#[test]
fn a_dispatch_that_finds_versions_above_alone_is_undef_and_looks_at_all() {
    let undef = Answer::Ended(End::Undef);
    let image = leveled(&["factory", "staff", "factory"]);
    enters(&image, 2, 0, Ok((undef, 1, 3)));
    enters(&image, 2, 1, Ok((done(11), 4, 2)));
    enters(&image, 2, 2, Ok((done(10), 4, 1)));
}

/// 0.0, of site staff, makes a promise whose block dispatches on function 2, and gives
/// it to 1.0, of the portal, which forces it. Function 2 has a version of each level.
const FORCED_BELOW: &str = "
    version 0.0(r0: int) -> int
      registers r1: quiet promise
      level staff
      block 0 quiet -> r0
        r1 = prom 1
        r0 = call 1.0(r1)
      block 1 quiet -> r0
        r0 = dispatch 2(r0: int) -> int quiet
    version 1.0(r0: quiet promise) -> int
      registers r1: int
      level portal
      block 0 quiet -> r1
        r1 = force r0
    version 2.0(r0: int) -> int
      level factory
      block 0 quiet -> r0
        r0 = lit 20
    version 2.1(r0: int) -> int
      level staff
      block 0 quiet -> r0
        r0 = lit 21
    version 2.2(r0: int) -> int
      level portal
      block 0 quiet -> r0
        r0 = lit 22
";

#[test]
fn a_dispatch_goes_by_the_version_that_holds_it_while_a_lower_one_forces_it() {
    let (image, buffer) = (image(FORCED_BELOW), &mut [UNTOUCHED; BUFFER]);
    let (mut run, begun) = engine::begin(&image, 1, (0, 0), &[-1, 5], buffer);
    assert_eq!(begun, Ok(()));
    engine::budget(&mut run, 3, buffer);
    assert_eq!(engine::search(&run), Some((2, 3)));
    // DISPATCH, LIT, and the ends of 2.1, the forced block, 1.0 and 0.0.
    assert_eq!(engine::budget(&mut run, 9, buffer), (done(21), 6));

    let program = Program::accept(&image).expect("an accepted image");
    let state = State::begin(&program, 1, 0, 0, &[-1, 5], buffer).expect("a run begins");
    let code = Code::new(&program);
    let mut tuned = Machine::new(&program, &code, &state);
    assert_eq!(tuned.budget(9), (done(21), 9), "by the tuned interpreter");
    let (_, answer, steps) = state.budget(&program, 9, buffer);
    assert_eq!((answer, steps), (done(21), 9), "by the reference");
}

#[test]
fn a_change_is_refused_by_15_where_a_live_versions_level_differs() {
    let leveled = |level: &str| {
        let text = adding(1).replacen("portal", "factory", 1);
        text.replace("portal", level)
    };
    let no = Err(Refusal {
        number: 15,
        offset: 41,
    });
    let (old, buffer) = (image(&leveled("staff")), &mut [UNTOUCHED; BUFFER]);
    for level in ["portal", "factory"] {
        let new = image(&leveled(level));
        for (steps, expected) in [(0, Ok(())), (1, no), (3, no), (4, Ok(())), (5, no)] {
            let (mut run, _) = engine::begin(&old, 2, (0, 0), &[-1, 5], buffer);
            engine::budget(&mut run, steps, buffer);
            assert_eq!(engine::change(&mut run, &new), expected, "{level}");
            let ran = engine::budget(&mut run, 9, buffer);
            assert_eq!(ran, (done(7), 9 - steps), "{level} after {steps}");
        }
    }
}
