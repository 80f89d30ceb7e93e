//! Pools of any bytes, worked out by hand: what a run may have, what asks for a vector, and
//! what is written down.

use definitions::pools::RUNS;
use definitions::state::PLACES;
use definitions::{Answer, End, Pool, Program, Said, State, Status, Value};

/// Where the records of a table begin, and the bytes of one.
const RECORDS: usize = 2304;
const RECORD: usize = 8;

/// The bytes of 0.0 from its place 2 on: parameters, registers, return, blocks, two types,
/// and the level behind them; and at place 20 a VEC of one item.
const IMAGE: [u8; 25] = [
    0, 0, 1, 0, 0, 0, 1, 2, 2, 1, 2, 2, 5, 0, 3, 0, 1, 0, 0, 0, 20, 0, 1, 1, 0,
];

/// VEC r1 = [r0], whose items stand in the image, DUP r1 = r0, and MOVE r1 = r0.
const VEC: [u8; RECORD] = [20, 1, 1, 0, 0, 0, 20, 0];
const DUP: [u8; RECORD] = [19, 1, 0, 0, 0, 0, 0, 0];
const MOVE: [u8; RECORD] = [17, 1, 0, 0, 0, 0, 0, 0];

/// A table whose block 0 of 0.0 has one instruction twice.
fn table(instruction: [u8; RECORD]) -> Vec<u8> {
    let mut table = vec![0; RECORDS];
    table[..2].copy_from_slice(&2u16.to_le_bytes());
    table.extend([2, 0, 1, 2, 0, 0, 18, 0]);
    table.extend([instruction, instruction].concat());
    table
}

/// A state of 0.0 before its first step, with this in r0 and so many vectors in names and in
/// frames below.
fn state(r0: Value, vectors: usize) -> State {
    let mut state = State::empty();
    (state.calls, state.depth) = (1, 1);
    state.frames[0].registers[0] = r0;
    for place in 0..vectors {
        let at = state.frames[0].names.len();
        let frame = place / at;
        state.frames[frame].names[place % at] = Value::Vector(place as u8);
        state.calls = state.calls.max(frame as u8 + 1);
    }
    state
}

/// A pool with these first reserves and counts, all others 0.
fn pool(first: &[u8], counts: &[u8]) -> Pool {
    let (mut reserves, mut has) = ([0; RUNS], [0; RUNS]);
    reserves[..first.len()].copy_from_slice(first);
    has[..counts.len()].copy_from_slice(counts);
    Pool { reserves, has }
}

#[test]
fn a_run_may_have_its_reserve_or_what_the_others_leave() {
    let cases: [(&[u8], &[u8], usize); 8] = [
        (&[0, 0], &[], 64),
        (&[64], &[], 64),
        (&[5, 59], &[], 5),
        (&[5, 10], &[99, 20], 44),
        (&[5, 10], &[0, 4], 54),
        (&[5, 10], &[0, 255, 255, 255], 5),
        (&[0, 10], &[0, 54], 10),
        (&[0, 10], &[0, 64], 0),
    ];
    for (reserves, has, most) in cases {
        assert_eq!(pool(reserves, has).allowed(0), most, "{reserves:?} {has:?}");
    }
}

#[test]
fn vectors_count_once_each_below_the_places_there_are() {
    let mut counted = state(Value::Vector(3), 5);
    assert_eq!(counted.vectors_in(), 5);
    counted.frames[0].registers[4] = Value::Vector(64);
    assert_eq!(counted.vectors_in(), 5, "there is no place 64");
    counted.frames[9].registers[4] = Value::Vector(63);
    assert_eq!(counted.vectors_in(), 5, "that call is not live");
    assert_eq!(state(Value::Empty, PLACES).vectors_in(), PLACES);
}

/// What a single step says of an instruction with this in r0 in a run that has `has` vectors
/// of the `most` that it may have.
fn said(instruction: [u8; RECORD], r0: Value, has: usize, most: usize) -> Said {
    let table = table(instruction);
    let (image, table) = (&IMAGE[..], &table[..]);
    state(r0, has).step_with(most, Program { image, table })
}

#[test]
fn operands_come_first_and_then_vectors() {
    let full = Said::Ended(End::Vectors);
    let (integer, vector) = (Value::Integer(7), Value::Vector(0));
    assert_eq!(said(VEC, integer, 3, 4), Said::GoesOn);
    assert_eq!(said(VEC, integer, 4, 4), full);
    assert_eq!(said(VEC, integer, 9, 4), full);
    assert_eq!(said(VEC, integer, 0, 0), full);
    assert_eq!(said(VEC, vector, 4, 4), Said::Stuck);
    assert_eq!(said(VEC, Value::Empty, 9, 4), Said::Stuck);
    assert_eq!(said(DUP, vector, 3, 4), Said::GoesOn);
    assert_eq!(said(DUP, vector, 4, 4), full);
    assert_eq!(said(DUP, integer, 4, 4), Said::Stuck);
    assert_eq!(said(DUP, Value::Vector(64), 4, 4), Said::Stuck);
    assert_eq!(said(VEC, integer, PLACES, PLACES), full);
}

#[test]
fn nothing_else_asks() {
    for most in [0, 1, PLACES] {
        assert_eq!(said(MOVE, Value::Integer(7), 5, most), Said::GoesOn);
    }
}

#[test]
fn a_budget_stops_where_its_steps_do() {
    let table = table(VEC);
    let (image, table) = (&IMAGE[..], &table[..]);
    let mut run = state(Value::Integer(7), 3);
    let mut pool = pool(&[4], &[99, 60, 1]);
    let ran = pool.budget(0, Program { image, table }, &mut run, 9, &mut [0; 16]);
    assert_eq!((ran.answer, ran.steps), (Answer::Ended(End::Vectors), 1));
    assert_eq!(pool.has, [0, 60, 1, 0, 0, 0, 0, 0]);
    assert_eq!(run.vectors_in(), 4);
}

#[test]
fn what_a_run_has_is_written_whatever_it_came_to_but_not_by_a_refusal() {
    let table = table(VEC);
    let (image, table) = (&IMAGE[..], &table[..]);
    let program = Program { image, table };
    let noise = pool(&[8], &[99]);
    let mut stuck = state(Value::Empty, 5);
    let mut after = noise;
    assert_eq!(after.step(0, program, &mut stuck), Ok(Said::Stuck));
    assert_eq!(after.has[0], 5);
    let mut after = noise;
    let ran = after.budget(0, program, &mut stuck, 0, &mut [0; 16]);
    assert_eq!((ran.answer, after.has[0]), (Answer::Steps, 5));
    let mut after = noise;
    let ran = after.budget(0, program, &mut stuck, 9, &mut [0; 15]);
    assert_eq!((ran.answer, after), (Answer::Refused(13), noise));
    let mut over = Pool {
        reserves: [32; RUNS],
        ..noise
    };
    let before = over;
    assert_eq!(over.step(0, program, &mut stuck), Err(21));
    assert_eq!((over.back(0), noise.back(8), noise.back(7)), (21, 21, 20));
    assert_eq!(over, before);
    stuck.status = Status::Ended(End::Deep);
    let mut after = noise;
    let ended = Ok(Said::Ended(End::Deep));
    assert_eq!(after.step(0, program, &mut stuck), ended);
    assert_eq!(after.has[0], 0);
}

#[test]
fn a_start_needs_no_more_than_it_may_have() {
    let begun = |vectors| move || Ok(state(Value::Empty, vectors));
    let mut tight = pool(&[0, 61], &[99]);
    let state = tight.begin(0, begun(3)).expect("it begins");
    assert_eq!((state.calls, state.status), (1, Status::Running));
    assert_eq!(tight.has[0], 3);
    let state = tight.begin(0, begun(4)).expect("it begins");
    assert_eq!((state.calls, state.depth), (0, 0));
    assert_eq!(state.status, Status::Ended(End::Vectors));
    assert_eq!(tight.has[0], 0);
    let before = tight;
    assert_eq!(tight.begin(0, || Err(12)), Err(12));
    assert_eq!(tight.begin(8, begun(0)), Err(21));
    assert_eq!(tight, before);
}
