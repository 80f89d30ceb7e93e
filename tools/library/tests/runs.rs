//! Programs that are loaded, and each call that is lent a state, on images whose answers
//! are worked out by hand.

use library::{
    load, table_size, Activation, Answer, At, End, Entry, Held, Loaded, Opener, Position, Program,
    Promise, Ran, Refusal, Run, Said, Search, State, CELLS, FACTORY, FIR_ITEMS, FIR_REGISTERS,
    PORTAL, STAFF,
};

/// The version that the runs enter.
const ENTRY: Entry = Entry {
    function: 0,
    version: 0,
};

/// A body that makes a vector and a promise, stores, forces and gives a vector.
const TEXT: &str = "
    version 0.0(r0: int) -> own vector
      registers r1: own vector, r2: quiet promise, r3: int
      level portal
      block 0 quiet -> r1
        r1 = vec [r0, r0]
        store x2 = r0
        r2 = prom 1
        r3 = force r2
        set r1[r0] = r3
      block 1 quiet -> r3
        r3 = add r0, r0
";

/// The image of the text.
fn image() -> Vec<u8> {
    text::assemble(TEXT).expect("a text that is well formed")
}

/// The program of an image that is accepted.
fn loaded(image: &[u8]) -> Program {
    Program::load(image).unwrap_or_else(|no| panic!("{no:?}"))
}

/// A run of a program that has begun with the integer 1.
fn begun(program: &Program) -> Run<'_> {
    let begun = Run::begin(program, PORTAL, ENTRY, &[-1, 1], &[0; FIR_ITEMS]);
    begun.unwrap_or_else(|no| panic!("{no:?}"))
}

/// A no by a question at an offset.
fn no(question: u8, offset: usize) -> Refusal {
    Refusal { question, offset }
}

#[test]
fn an_image_is_loaded_into_a_table_that_is_lent() {
    let image = image();
    let bytes = table_size(image.len());
    assert_eq!(bytes, 2304 + image.len() / 6 * 8);
    let mut table = vec![7; bytes + 3];
    let ready = Loaded::Ready { versions: 1 };
    assert_eq!(load(&image, &mut table[..bytes]), ready);
    assert_eq!(table[..4], [2, 0, 0, 0], "0.0 stands at 2, and 0.1 nowhere");
    assert_eq!(table[bytes..], [7; 3]);
    let program = loaded(&image);
    assert_eq!(program.image(), image);
    assert_eq!(program.table().len(), bytes);
    let lent = Program::of_any_bytes(&image[..], &table[..bytes]);
    let run = Run::resume_with_its_own_program(begun(&program).state().clone(), &lent);
    assert_eq!(run.position(), begun(&program).position());
}

#[test]
fn a_table_has_no_version_where_the_image_is_not_loaded() {
    let image = image();
    let bytes = table_size(image.len());
    let mut table = vec![7; bytes];
    let short = load(&image, &mut table[..bytes - 1]);
    assert_eq!(short, Loaded::Short(bytes));
    assert_eq!(table[..256], [0; 256]);
    let cut = &image[..image.len() - 1];
    let mut table = vec![7; bytes];
    let refused = no(2, image.len() - 8);
    assert_eq!(load(cut, &mut table), Loaded::Refused(refused));
    assert_eq!(table[..256], [0; 256]);
    assert_eq!(load(cut, &mut []), Loaded::Refused(refused));
    assert_eq!(load(&image, &mut []), Loaded::Short(bytes));
    assert_eq!(Program::load(cut).err(), Some(refused));
    let program = Program::of_any_bytes(&image[..], table);
    let begun = Run::begin(&program, PORTAL, ENTRY, &[-1, 1], &[0; FIR_ITEMS]);
    assert_eq!(begun.err(), Some(no(11, 0)));
}

#[test]
fn several_runs_borrow_one_program() {
    let program = loaded(&image());
    let (mut first, mut second) = (begun(&program), begun(&program));
    for _ in 0..7 {
        assert_eq!(first.step(), Said::GoesOn);
    }
    assert!(first.state() != second.state(), "each has its own state");
    let buffer = &mut [0; FIR_ITEMS];
    assert_eq!(second.budget(9, buffer).steps, 8);
    assert_eq!(first.budget(9, buffer).steps, 1);
    assert!(first.state() == second.state(), "the same bytes");
}

#[test]
fn every_byte_of_a_begun_state_is_written() {
    let program = loaded(&image());
    let begun = begun(&program);
    for byte in [0, 7, 0xA5, 0xFF] {
        let mut run = Run::resume_with_its_own_program(State::filled(byte), &program);
        let buffer = [0; FIR_ITEMS];
        assert_eq!(
            run.restart(&program, PORTAL, ENTRY, &[-1, 1], &buffer),
            Ok(())
        );
        assert!(run.state() == begun.state(), "over {byte}");
    }
}

#[test]
fn a_refused_run_leaves_the_one_in_its_place() {
    let (program, other) = (loaded(&image()), loaded(&other()));
    let mut run = begun(&program);
    run.step();
    let before = run.state().clone();
    let buffer = [0; FIR_ITEMS];
    let missing = Entry {
        function: 9,
        version: 1,
    };
    assert_eq!(
        run.restart(&other, PORTAL, missing, &[-1, 1], &buffer),
        Err(no(11, 0))
    );
    assert_eq!(
        run.restart(&other, PORTAL, ENTRY, &[0], &buffer),
        Err(no(12, 0))
    );
    let short = &buffer[1..];
    assert_eq!(
        run.restart(&other, PORTAL, ENTRY, &[-1, 1], short),
        Err(no(13, 0))
    );
    let ran = run.rerun(&other, PORTAL, ENTRY, &[-1], 5, &mut [0; FIR_ITEMS]);
    let answer = Answer::Refused(no(12, 0));
    assert_eq!(ran, Ran { answer, steps: 0 });
    assert!(ran.is_refused());
    assert!(*run.state() == before, "the state is as it was");
    assert_eq!(run.image(), image());
    let refused = Run::begin(&other, PORTAL, missing, &[-1, 1], &buffer);
    assert_eq!(refused.err(), Some(no(11, 0)));
}

#[test]
fn a_run_that_begins_anew_goes_by_its_own_image() {
    let (program, other) = (loaded(&image()), loaded(&other()));
    let mut run = begun(&program);
    assert_eq!(
        run.restart(&other, PORTAL, ENTRY, &[-1, 1], &[0; FIR_ITEMS]),
        Ok(())
    );
    assert_eq!(run.image(), other.image());
    assert_eq!(run.step(), Said::GoesOn);
    assert_eq!(run.look(0, 0), Some(Held::Integer(7)));
    let ran = run.rerun(&program, PORTAL, ENTRY, &[-1, 1], 3, &mut [0; FIR_ITEMS]);
    assert!(!ran.is_refused());
    assert_eq!(run.image(), image());
}

/// The image of a body that gives 7.
fn other() -> Vec<u8> {
    let text = "version 0.0(r0: int) -> int\nlevel portal\nblock 0 quiet -> r0\nr0 = lit 7";
    text::assemble(text).expect("a text that is well formed")
}

#[test]
fn steps_and_budgets_come_to_the_same_end() {
    let program = loaded(&image());
    let mut stepped = begun(&program);
    for _ in 0..7 {
        assert_eq!(stepped.step(), Said::GoesOn);
    }
    assert_eq!(stepped.step(), Said::Ended(End::Vector(2)));
    let answer = Answer::Ended(End::Vector(2));
    let mut buffer = [9; FIR_ITEMS + 1];
    let ran = stepped.budget(0, &mut buffer);
    assert_eq!(ran, Ran { answer, steps: 0 });
    assert_eq!(buffer[..3], [1, 2, 9]);
    let ran = stepped.rerun(&program, PORTAL, ENTRY, &[-1, 1], 8, &mut buffer);
    assert_eq!(ran, Ran { answer, steps: 8 });
    let ran = stepped.rerun(&program, PORTAL, ENTRY, &[-1, 1], 7, &mut buffer);
    let answer = Answer::Steps;
    assert_eq!(ran, Ran { answer, steps: 7 });
}

#[test]
fn a_state_of_no_run_is_stuck() {
    let mut run = Run::resume_with_its_own_program(State::blank(), loaded(&image()));
    assert_eq!(run.step(), Said::Stuck);
    let answer = Answer::Stuck;
    let ran = run.budget(5, &mut [0; FIR_ITEMS]);
    assert_eq!(ran, Ran { answer, steps: 0 });
    assert!(*run.state() == State::blank(), "it is as it was");
}

/// 0.0, at 0 to 41, calls 1.0 twice, which adds a number to its argument.
fn adding(number: i64) -> Vec<u8> {
    let text = format!(
        "version 0.0(r0: int) -> int
           level portal
           block 0 quiet -> r0
             r0 = call 1.0(r0)
             r0 = call 1.0(r0)
         version 1.0(r0: int) -> int
           registers r1: int
           level portal
           block 0 quiet -> r0
             r1 = lit {number}
             r0 = add r0, r1"
    );
    text::assemble(&text).expect("a text that is well formed")
}

#[test]
fn a_change_that_is_accepted_puts_the_new_image_in_force() {
    let (old, new) = (loaded(&adding(1)), loaded(&adding(100)));
    let mut run = begun(&old);
    // CALL, LIT, ADD and the end of 1.0.
    let ran = run.budget(4, &mut [0; FIR_ITEMS]);
    assert_eq!((ran.answer, ran.steps), (Answer::Steps, 4));
    let before = run.state().clone();
    assert_eq!(run.change(&new), Ok(()));
    assert!(*run.state() == before, "the state is carried over whole");
    assert_eq!(run.image(), new.image());
    let ran = run.budget(9, &mut [0; FIR_ITEMS]);
    let answer = Answer::Ended(End::Integer(1 + 1 + 100));
    assert_eq!(ran, Ran { answer, steps: 5 });
    // DONE leaves no live call: any accepted image goes, also an owned one.
    assert_eq!(run.change(loaded(&other())), Ok(()));
    assert_eq!(run.step(), Said::Ended(End::Integer(102)));
}

#[test]
fn a_change_that_is_refused_leaves_the_old_image_in_force() {
    let (old, new) = (loaded(&adding(1)), loaded(&adding(100)));
    let mut run = begun(&old);
    run.step();
    let before = run.state().clone();
    assert_eq!(run.change(&new), Err(no(15, 41)));
    assert_eq!(run.change(loaded(&other())), Err(no(15, 0)));
    assert_eq!(run.may_change(&new.image()[..41]), Err(no(7, 23)));
    assert_eq!(run.may_change(&[]), Err(no(1, 0)));
    assert!(*run.state() == before, "the state is as it was");
    assert_eq!(run.image(), old.image());
    let ran = run.budget(9, &mut [0; FIR_ITEMS]);
    let answer = Answer::Ended(End::Integer(1 + 1 + 1));
    assert_eq!(ran, Ran { answer, steps: 8 });
}

#[test]
fn a_live_version_that_is_missing_is_at_the_new_images_length() {
    // Function 1 enters function 0, which alone the new image has.
    let text = "version 0.0(r0: int) -> int\nlevel portal\nblock 0 quiet -> r0\n";
    let caller = text.replace("0.0", "1.0") + "r0 = call 0.0(r0)";
    let image = |text: &str| loaded(&text::assemble(text).expect("a text that is well formed"));
    let (old, new) = (image(&format!("{text}{caller}")), image(text));
    let entry = Entry {
        function: 1,
        version: 0,
    };
    let run = Run::begin(&old, PORTAL, entry, &[-1, 5], &[0; FIR_ITEMS]);
    let mut run = run.unwrap_or_else(|no| panic!("{no:?}"));
    assert_eq!(run.change(&new), Err(no(15, 23)));
    run.step();
    assert_eq!(run.change(&new), Err(no(15, 23)));
    run.step();
    run.step();
    assert_eq!(run.change(&new), Ok(()));
}

#[test]
fn a_stored_state_goes_on_with_its_own_image() {
    let stored = {
        let program = loaded(&adding(1));
        let mut run = begun(&program);
        run.budget(6, &mut [0; FIR_ITEMS]);
        (run.state().clone(), run.image().to_vec())
    };
    let (state, image) = stored;
    let mut run = Run::resume_with_its_own_program(state, loaded(&image));
    let ran = run.budget(9, &mut [0; FIR_ITEMS]);
    let answer = Answer::Ended(End::Integer(3));
    assert_eq!(ran, Ran { answer, steps: 3 });
}

#[test]
fn a_state_under_an_image_that_is_not_its_own_gets_an_answer() {
    let program = loaded(&adding(1));
    let mut run = begun(&program);
    run.step();
    // The other image has no version 1.0, which the run stands in.
    let mut run = Run::resume_with_its_own_program(run.state().clone(), loaded(&other()));
    assert_eq!(run.search(), None);
    assert_eq!(run.step(), Said::Stuck);
    let ran = run.budget(5, &mut [0; FIR_ITEMS]);
    let answer = Answer::Stuck;
    assert_eq!(ran, Ran { answer, steps: 0 });
}

#[test]
fn places_of_a_live_call_can_be_seen() {
    let program = loaded(&image());
    let mut run = begun(&program);
    for _ in 0..4 {
        run.step();
    }
    assert_eq!(run.look(0, 0), Some(Held::Integer(1)));
    assert_eq!(run.look(0, 1), Some(Held::Vector(0)));
    assert_eq!(run.look(0, 2), Some(Held::Promise(0)));
    assert_eq!(run.look(0, 3), Some(Held::Nothing));
    assert_eq!(run.look(0, FIR_REGISTERS + 2), Some(Held::Integer(1)));
    assert_eq!(run.look(0, FIR_REGISTERS + 3), Some(Held::Nothing));
    assert_eq!(run.look(0, CELLS), None);
    assert_eq!(run.look(1, 0), None);
    assert_eq!(run.look(usize::MAX, usize::MAX), None);
}

#[test]
fn a_run_says_where_it_stands_at_each_step() {
    let program = loaded(&image());
    let mut run = begun(&program);
    // VERSION, LEVEL and BLOCK take 26 bytes, the instructions of block 0 the next 33.
    let instructions = [(0, 0, 26), (0, 1, 34), (0, 2, 40), (0, 3, 46), (1, 0, 66)];
    for (block, instruction, offset) in instructions {
        let position = run.position().expect("the run goes on");
        assert_eq!(position.at, At::Instruction);
        let found = (position.block, position.instruction, position.offset);
        assert_eq!(found, (block, instruction, offset));
        assert_eq!(run.step(), Said::GoesOn);
    }
    let end = Position {
        at: At::BlockEnd,
        function: 0,
        version: 0,
        block: 1,
        instruction: 1,
        offset: 59,
    };
    assert_eq!(run.position(), Some(end));
    run.budget(9, &mut [0; FIR_ITEMS]);
    assert_eq!(run.position(), None, "DONE stands nowhere");
}

#[test]
fn a_run_stands_at_what_made_it_undef() {
    let text = "version 0.0(r0: int) -> int\nlevel portal\nblock 0 quiet -> r0\nr0 = div r0, r0";
    let program = loaded(&text::assemble(text).expect("a text that is well formed"));
    let run = Run::begin(&program, PORTAL, ENTRY, &[-1, 0], &[0; FIR_ITEMS]);
    let mut run = run.unwrap_or_else(|no| panic!("{no:?}"));
    let before = run.position();
    assert_eq!(before.map(|position| position.offset), Some(23));
    assert_eq!(run.step(), Said::Ended(End::Undef));
    assert_eq!(run.position(), before);
}

/// 0.0 dispatches on function 1, whose three versions take an integer, none, and a
/// vector.
fn searching() -> Vec<u8> {
    let text = "version 0.0(r0: value) -> int
                  registers r1: int
                  level portal
                  block 0 quiet -> r1
                    r1 = lit 4
                    r1 = dispatch 1(r0: value) -> int quiet
                version 0.1(r0: int) -> int
                  level portal
                  block 0 quiet -> r0
                    r0 = dispatch 1(r0: int, r0: int) -> int quiet
                version 1.0(r0: int) -> int
                  level portal
                  block 0 quiet -> r0
                version 1.1() -> int
                  registers r0: int
                  level portal
                  block 0 quiet -> r0
                    r0 = lit 1
                version 1.2(r0: vector) -> int
                  registers r1: int
                  level portal
                  block 0 quiet -> r1
                    r1 = len r0";
    text::assemble(text).expect("a text that is well formed")
}

#[test]
fn a_run_at_a_dispatch_says_what_its_search_comes_to() {
    let program = loaded(&searching());
    for (words, looked) in [(&[-1, 1][..], 1), (&[1, 8], 3)] {
        let run = Run::begin(&program, PORTAL, ENTRY, words, &[0; FIR_ITEMS]);
        let mut run = run.unwrap_or_else(|no| panic!("{no:?}"));
        assert_eq!(run.search(), None);
        run.step();
        let before = run.state().clone();
        let versions = 3;
        assert_eq!(run.search(), Some(Search { looked, versions }));
        assert!(*run.state() == before, "the state is as it was");
        run.step();
        assert_eq!(run.state().owner(1), Some((1, looked as u8 - 1)));
        assert_eq!(run.search(), None);
        let ran = run.budget(9, &mut [0; FIR_ITEMS]);
        assert!(matches!(ran.answer, Answer::Ended(End::Integer(1))));
        assert_eq!(run.search(), None, "DONE stands nowhere");
    }
}

#[test]
fn a_search_that_none_fits_looks_at_all_before_and_after_undef() {
    let program = loaded(&searching());
    let entry = Entry {
        function: 0,
        version: 1,
    };
    let run = Run::begin(&program, PORTAL, entry, &[-1, 1], &[0; FIR_ITEMS]);
    let mut run = run.unwrap_or_else(|no| panic!("{no:?}"));
    let (looked, versions) = (3, 3);
    assert_eq!(run.search(), Some(Search { looked, versions }));
    assert_eq!(run.step(), Said::Ended(End::Undef));
    assert_eq!(run.search(), Some(Search { looked, versions }));
}

#[test]
fn a_state_of_no_run_stands_at_no_dispatch() {
    let run = Run::resume_with_its_own_program(State::blank(), loaded(&searching()));
    assert_eq!(run.search(), None);
}

/// Versions 0.0 to 0.2 of the portal, site staff and the factory, which dispatch on
/// function 1; its versions are for the factory, site staff and the portal, and give 10
/// to 12.
fn leveled() -> Vec<u8> {
    let mut text = String::new();
    for (number, level) in ["portal", "staff", "factory"].iter().enumerate() {
        let dispatch = "r0 = dispatch 1(r0: int) -> int quiet";
        text += &format!("version 0.{number}(r0: int) -> int\nlevel {level}\n");
        text += &format!("block 0 quiet -> r0\n{dispatch}\n");
    }
    for (number, level) in ["factory", "staff", "portal"].iter().enumerate() {
        text += &format!("version 1.{number}(r0: int) -> int\nlevel {level}\n");
        text += &format!("block 0 quiet -> r0\nr0 = lit 1{number}\n");
    }
    text::assemble(&text).expect("a text that is well formed")
}

/// Version 0.`version` of an image.
fn entry(version: usize) -> Entry {
    let function = 0;
    Entry { function, version }
}

#[test]
fn a_run_begins_at_versions_of_its_level_or_lower() {
    let (program, buffer) = (loaded(&leveled()), [0; FIR_ITEMS]);
    let begin =
        |level, version| Run::begin(&program, level, entry(version), &[-1, 1], &buffer).err();
    for (level, enterable) in [
        (PORTAL, 1),
        (STAFF, 2),
        (FACTORY, 3),
        (3, 3),
        (usize::MAX, 3),
    ] {
        for version in 0..3 {
            let refused = (version >= enterable).then_some(no(19, 0));
            assert_eq!(begin(level, version), refused, "{version} at {level}");
        }
    }
    // 11 comes before 19, 19 before 12 and 13.
    let begin = |version, words: &[i64]| {
        let run = Run::begin(&program, PORTAL, entry(version), words, &[]);
        run.err()
    };
    assert_eq!(begin(3, &[]), Some(no(11, 0)));
    assert_eq!(begin(2, &[]), Some(no(19, 0)));
    assert_eq!(begin(0, &[]), Some(no(12, 0)));
    assert_eq!(begin(0, &[-1, 1]), Some(no(13, 0)));
    let mut run = begun(&program);
    let before = run.state().clone();
    let ran = run.rerun(&program, STAFF, entry(2), &[-1, 1], 9, &mut [0; FIR_ITEMS]);
    assert_eq!(ran.answer, Answer::Refused(no(19, 0)));
    assert!(*run.state() == before, "the state is as it was");
}

#[test]
fn a_run_is_the_same_at_each_level_that_may_enter() {
    let program = loaded(&leveled());
    for (version, looked) in [(0, 3), (1, 2), (2, 1)] {
        for level in [version, FACTORY, FACTORY + 1, usize::MAX] {
            let run = Run::begin(&program, level, entry(version), &[-1, 1], &[0; FIR_ITEMS]);
            let mut run = run.unwrap_or_else(|no| panic!("{no:?}"));
            let versions = 3;
            assert_eq!(run.search(), Some(Search { looked, versions }));
            let ran = run.budget(9, &mut [0; FIR_ITEMS]);
            let answer = Answer::Ended(End::Integer(9 + looked as i64));
            assert_eq!(ran, Ran { answer, steps: 4 });
        }
    }
}

#[test]
fn a_version_with_a_live_call_keeps_its_level() {
    // 0.0 dispatches on 1.2; the level of 1.2 is the last LEVEL's byte.
    let old = leveled();
    let mut new = old.clone();
    let version = old.len() - (11 + 5 + 7 + 13);
    new[version + 15] = 1;
    let (old, new) = (loaded(&old), loaded(&new));
    let mut run = begun(&old);
    run.step();
    assert_eq!(run.change(&new), Err(no(15, version)));
    let mut run = begun(&old);
    assert_eq!(run.change(&new), Ok(()));
    assert_eq!(run.search().map(|search| search.looked), Some(3));
    assert_eq!(run.step(), Said::Ended(End::Undef));
}

#[test]
fn parts_are_read_out_of_the_numbers() {
    let program = loaded(&image());
    let mut run = begun(&program);
    for _ in 0..4 {
        run.step();
    }
    let promise = |cache| Promise {
        call: 0,
        block: 1,
        cache,
    };
    let forcing = Activation {
        opener: Opener::Force(0),
        d: 3,
        call: 0,
        block: 1,
        next: 0,
    };
    let state = run.state();
    assert_eq!(state.top(), Some(forcing));
    assert_eq!(state.activation(1), Some(forcing));
    assert_eq!(state.activation(2), None);
    assert_eq!(state.owner(0), Some((0, 0)));
    assert_eq!(state.owner(1), None);
    assert_eq!(state.vector(0), Some(&[1, 1][..]));
    assert_eq!(state.promise(0), Some(promise(None)));
    run.step();
    run.step();
    let state = run.state();
    assert_eq!(state.promise(0), Some(promise(Some(2))));
    assert_eq!(state.promise(64), None);
    assert_eq!(state.vector(64), None);
    assert_eq!(State::blank().top(), None);
}
