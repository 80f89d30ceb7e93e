//! What bytes stand for, worked out by hand: the parts of a table that are out of the
//! ordinary, and the numbers of a state that no begun run has.

use definitions::store::{Arrays, BYTES, CALLS, CELL_PLACES, DEPTH, NUMBERS, STACK, STATUS};
use definitions::{
    Answer, Behind, End, Instruction, Opener, Position, Program, Said, State, Status, Trail, Value,
};

/// Where the records of a table begin, and the bytes of one.
const RECORDS: usize = 2304;
const RECORD: usize = 8;

/// A table of so many records, all of them 0.
fn table(records: usize) -> Vec<u8> {
    vec![0; RECORDS + RECORD * records]
}

/// Puts an entry of a table.
fn enter(table: &mut [u8], entry: usize, number: u16) {
    table[2 * entry..][..2].copy_from_slice(&number.to_le_bytes());
}

/// Puts a record of a table.
fn record(table: &mut [u8], number: usize, bytes: [u8; RECORD]) {
    table[RECORDS + RECORD * number..][..RECORD].copy_from_slice(&bytes);
}

/// The bytes of 0.0 from its place 2 on: parameters, registers, return, blocks, two types,
/// and the level behind them.
const IMAGE: [u8; 20] = [0, 0, 1, 0, 0, 0, 1, 2, 2, 1, 2, 2, 5, 0, 3, 0, 1, 0, 0, 0];

/// The table of 0.0 at place 2, whose block 0 is record 0, of mark 0, with its result in
/// r1 and these instructions.
fn table_of(instructions: &[[u8; RECORD]]) -> Vec<u8> {
    let mut table = table(instructions.len() + 1);
    enter(&mut table, 0, 2);
    let count = instructions.len() as u8;
    record(&mut table, 0, [2, 0, 1, count, 0, 0, 18, 0]);
    for (number, &bytes) in instructions.iter().enumerate() {
        record(&mut table, 1 + number, bytes);
    }
    table
}

/// What stands at a number of block 0 of 0.0.
fn at(image: &[u8], table: &[u8], number: u8) -> Position {
    let program = Program { image, table };
    let version = program.version(0, 0).expect("0.0 is there");
    version
        .block(0)
        .expect("its block is there")
        .position(number)
}

#[test]
fn a_version_is_there_where_its_place_is_not_0() {
    let mut table = table(0);
    enter(&mut table, 4 * 31 + 3, 1);
    let program = Program {
        image: &[],
        table: &table,
    };
    let there = |function, version| program.version(function, version).is_some();
    assert!(there(31, 3));
    assert!(!there(31, 2) && !there(32, 0) && !there(31, 4) && !there(0, 127));
    let cut = Program {
        image: &[],
        table: &table[..2 * 127],
    };
    assert!(cut.version(31, 3).is_none());
}

#[test]
fn the_fields_of_a_version_are_the_images_and_its_numbers_the_tables() {
    let mut table = table_of(&[]);
    enter(&mut table, 5, 2);
    let program = Program {
        image: &IMAGE,
        table: &table,
    };
    let version = program.version(1, 1).expect("it is there");
    assert_eq!((version.function(), version.version()), (1, 1));
    assert_eq!(version.parameter_types(), [2]);
    assert_eq!((version.type_of(1), version.type_of(2)), (Some(2), None));
    assert_eq!((version.returns(), version.level()), (2, 1));
    assert!(version.block(0).is_some() && version.block(1).is_none());
}

#[test]
fn parameters_without_a_register_are_left_out() {
    let mut image = IMAGE;
    image[6] = 200;
    let table = table_of(&[]);
    let program = Program {
        image: &image,
        table: &table,
    };
    let version = program.version(0, 0).expect("it is there");
    assert_eq!(version.parameter_types(), [2, 2]);
}

#[test]
fn a_block_whose_records_do_not_all_stand_in_the_table_has_no_instruction() {
    let lines = [[17, 0, 1, 0, 0, 0, 40, 0]; 2];
    let table = table_of(&lines);
    let copy = Instruction::Move { d: 0, a: 1 };
    assert_eq!(at(&IMAGE, &table, 1), Position::Instruction(copy, 38));
    assert_eq!(at(&IMAGE, &table, 2), Position::BlockEnd(16));
    assert_eq!(at(&IMAGE, &table, 3), Position::Outside);
    let cut = &table[..table.len() - 1];
    assert_eq!(at(&IMAGE, cut, 0), Position::BlockEnd(16));
    assert_eq!(at(&IMAGE, cut, 1), Position::Outside);
}

#[test]
fn of_a_block_48_instructions_count() {
    let table = table_of(&[[17, 0, 1, 0, 0, 0, 40, 0]; 60]);
    let is_instruction = |number| matches!(at(&IMAGE, &table, number), Position::Instruction(..));
    assert!(is_instruction(47));
    assert_eq!(at(&IMAGE, &table, 48), Position::BlockEnd(16));
    assert_eq!(at(&IMAGE, &table, 49), Position::Outside);
}

#[test]
fn short_kinds_read_the_record_and_all_others_the_image() {
    let arith = [24, 1, 4, 2, 3, 9, 0, 0];
    let (d, op, a, b) = (1, 4, 2, 3);
    let expected = Instruction::Arith { d, op, a, b };
    let found = at(&IMAGE, &table_of(&[arith]), 0);
    assert_eq!(found, Position::Instruction(expected, 0));
    let image = [&IMAGE[..], &[7, 0, 1, 2, 3, 4, 5, 6, 7, 0x80]].concat();
    let value = i64::from_le_bytes([0, 1, 2, 3, 4, 5, 6, 7]);
    for kind in [0, 1, 2, 3, 16, 36, 37, 255] {
        let literal = [kind, 9, 9, 9, 9, 9, 18, 0];
        let expected = Instruction::Lit { d: 7, value };
        let found = at(&image, &table_of(&[literal]), 0);
        assert_eq!(found, Position::Instruction(expected, 16), "{kind}");
    }
}

#[test]
fn lists_have_at_most_8_registers_and_end_in_zeros() {
    let vec = [20, 0, 0, 0, 0, 0, 18, 0];
    let image = [&IMAGE[..], &[7, 200, 1, 2, 3]].concat();
    let expected = Instruction::Vec {
        d: 7,
        items: vec![1, 2, 3, 0, 0, 0, 0, 0],
    };
    let found = at(&image, &table_of(&[vec]), 0);
    assert_eq!(found, Position::Instruction(expected, 16));
    let dispatch = [34, 0, 0, 0, 0, 0, 18, 0];
    let image = [&IMAGE[..], &[7, 1, 0, 2, 1, 2, 5]].concat();
    let expected = Instruction::Dispatch {
        d: 7,
        function: 1,
        mark: 0,
        returns: 2,
        pairs: vec![(2, 5)],
    };
    let found = at(&image, &table_of(&[dispatch]), 0);
    assert_eq!(found, Position::Instruction(expected, 16));
}

/// The state of two arrays that hold 0 but for what is put into them.
fn state(put: impl Fn(&mut [u8; BYTES], &mut [i64; NUMBERS])) -> State {
    let (mut bytes, mut numbers) = ([0; BYTES], [0; NUMBERS]);
    put(&mut bytes, &mut numbers);
    let arrays = Arrays {
        bytes: &bytes,
        numbers: &numbers,
    };
    arrays.state()
}

#[test]
fn tags_say_what_a_cell_holds() {
    let state = state(|bytes, numbers| {
        for tag in 0..=5 {
            bytes[32 + usize::from(tag)] = tag;
            bytes[CELL_PLACES + 32 + usize::from(tag)] = 200 + tag;
            numbers[32 + usize::from(tag)] = -1;
        }
        (bytes[32 + 24], bytes[32 + 25]) = (7, 8);
        bytes[CALLS] = 2;
    });
    let held = |place| state.look(1, place);
    assert_eq!(held(1), Some(Value::Integer(-1)));
    assert_eq!(held(2), Some(Value::Vector(202)));
    assert_eq!(held(3), Some(Value::Promise(203)));
    for place in [0, 4, 5, 23] {
        assert_eq!(held(place), Some(Value::Empty), "{place}");
    }
    assert_eq!((held(24), state.look(2, 0)), (None, None));
    assert_eq!(state.live_versions(), [(0, 0), (7, 8)].into());
}

#[test]
fn every_number_of_a_status_stands_for_one() {
    let status = |number| {
        state(|bytes, numbers| {
            (bytes[STATUS], bytes[STATUS + 1]) = (number, 200);
            numbers[NUMBERS - 1] = -9;
        })
        .status
    };
    assert_eq!(status(0), Status::Running);
    assert_eq!(status(1), Status::Ended(End::Integer(-9)));
    assert_eq!(status(2), Status::Ended(End::Vector(200)));
    assert_eq!(status(3), Status::Ended(End::Undef));
    assert_eq!(status(5), Status::Ended(End::Vectors));
    for number in [6, 7, 8, 255] {
        assert_eq!(status(number), Status::Ended(End::Promises), "{number}");
    }
}

#[test]
fn an_end_that_nobody_came_to_is_given_again() {
    let mut state = state(|bytes, _| (bytes[STATUS], bytes[STATUS + 1]) = (2, 200));
    let program = Program {
        image: &[],
        table: &[],
    };
    let before = state.clone();
    assert_eq!(state.step(program), Said::Ended(End::Vector(200)));
    let mut buffer = [7; 20];
    let ran = state.budget(program, 9, &mut buffer);
    assert_eq!(ran.answer, Answer::Ended(End::Vector(200)));
    assert_eq!((&buffer[..16], &buffer[16..]), (&[0; 16][..], &[7; 4][..]));
    assert_eq!(state, before);
}

#[test]
fn an_opener_is_a_call_or_a_force_and_counts_are_cut() {
    let state = state(|bytes, _| {
        (bytes[STACK], bytes[STACK + 1]) = (200, 99);
        (bytes[CALLS], bytes[DEPTH]) = (255, 200);
    });
    assert_eq!(state.activations[0].opener, Opener::Force(99));
    assert_eq!(state.activations[1].opener, Opener::Call);
    assert_eq!(state.live_frames().len(), 32);
    assert_eq!(state.live_activations().len(), 32);
    let program = Program {
        image: &[],
        table: &[],
    };
    assert_eq!(state.clone().step(program), Said::Stuck);
}

#[test]
fn every_mark_but_0_is_reflective() {
    // MOVE of a promise of block 0, whose mark is 7, into r1 of kind 11, of kind 5, of 0 and of 4.
    for (kind, goes_on) in [(11, false), (5, true), (0, true), (4, false)] {
        let mut image = IMAGE;
        image[11] = kind;
        let mut table = table_of(&[[17, 1, 0, 0, 0, 0, 0, 0]]);
        table[RECORDS + 1] = 7;
        let program = Program {
            image: &image,
            table: &table,
        };
        let mut state = state(|bytes, _| {
            bytes[0] = 3;
            (bytes[CALLS], bytes[DEPTH]) = (1, 1);
        });
        let said = state.step(program);
        assert_eq!(said == Said::GoesOn, goes_on, "{kind}: {said:?}");
    }
}

/// A state of 0.0 that stands at an instruction of block 0.
fn standing(next: u8) -> State {
    state(|bytes, _| {
        bytes[0] = 1;
        bytes[STACK + 5] = next;
        (bytes[CALLS], bytes[DEPTH]) = (1, 1);
    })
}

/// A table whose block 0 of 0.0 has so many MOVEs of r0 to r1.
fn moving(count: usize) -> Vec<u8> {
    table_of(&vec![[17, 1, 0, 0, 0, 0, 0, 0]; count])
}

#[test]
fn every_past_but_0_says_that_no_step_lies_behind() {
    assert_eq!(Behind::read(7, 0), Behind::Steps(7));
    assert_eq!(Behind::read(u32::MAX, 0), Behind::Steps(u32::MAX));
    for past in [1, 2, 255] {
        assert_eq!(Behind::read(7, past), Behind::Past, "{past}");
    }
}

#[test]
fn a_step_back_runs_the_start_whatever_the_state_is() {
    let table = moving(9);
    let program = Program {
        image: &IMAGE,
        table: &table,
    };
    let mut trail = Trail {
        start: standing(2),
        behind: Behind::Steps(4),
        state: State::empty(),
    };
    assert_eq!(trail.back(program), Ok(()));
    assert_eq!(trail.behind, Behind::Steps(3));
    assert_eq!(trail.state.activations[0].next, 5);
    assert_eq!(trail.start, standing(2));
}

#[test]
fn a_start_that_is_stuck_stays_where_it_is() {
    let table = moving(3);
    let program = Program {
        image: &IMAGE,
        table: &table,
    };
    let mut trail = Trail {
        start: standing(200),
        behind: Behind::Steps(u32::MAX),
        state: State::empty(),
    };
    assert_eq!(trail.back(program), Ok(()));
    assert_eq!(trail.state, standing(200));
    assert_eq!(trail.behind, Behind::Steps(u32::MAX - 1));
}

#[test]
fn steps_go_past_what_a_count_holds_and_stay_there() {
    let table = moving(9);
    let program = Program {
        image: &IMAGE,
        table: &table,
    };
    let mut trail = Trail::started(standing(0));
    trail.behind = Behind::Steps(u32::MAX - 1);
    assert_eq!(trail.step(program), Said::GoesOn);
    assert_eq!(trail.behind, Behind::Steps(u32::MAX));
    let before = trail.clone();
    assert_eq!(trail.budget(program, 0, &mut [0; 16]).steps, 0);
    assert_eq!(trail, before);
    assert_eq!(trail.step(program), Said::GoesOn);
    assert_eq!(trail.behind, Behind::Past);
    let before = trail.clone();
    assert_eq!(trail.back(program), Err(20));
    assert_eq!(trail, before);
    trail.change();
    assert_eq!(trail.behind, Behind::Steps(0));
    assert_eq!(trail.back(program), Err(20));
}
