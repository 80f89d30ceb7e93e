//! "Two images into one": which bytes change, whose questions come first, and each bound
//! of question 23.

use cases::{exact, image, IDENTITY};
use reference::bounds::{BUFFER, MAX_IMAGE};
use reference::{join, report, verdict, Answer, End, Program, Refusal, State, Unjoined, Verdict};

/// Two functions: the first calls, searches and gives a literal that looks like either.
const CALLER: &str = "
    version 0.0(r0: int) -> int
      level staff
      block 0 quiet -> r0
        r0 = call 1.1(r0)
        r0 = dispatch 1(r0: int) -> int quiet
        r0 = call 0.0(r0)
    version 1.0(r0: vector) -> int
      registers r1: int
      level portal
      block 0 quiet -> r1
        r1 = lit 33
    version 1.1(r0: int) -> int
      level portal
      block 0 quiet -> r0
        r0 = add r0, r0
";

/// A no to the two together.
fn together() -> Result<Vec<u8>, Unjoined> {
    Err(Unjoined::Together(Refusal {
        number: 23,
        offset: 0,
    }))
}

/// So many functions of one version that gives its argument.
fn functions(count: u8) -> Vec<u8> {
    let function = |number| {
        let mut one = IDENTITY;
        one[4] = number;
        one
    };
    (0..count).flat_map(function).collect()
}

/// So many versions that give their argument, four of each function.
fn versions(count: u8) -> Vec<u8> {
    let version = |index| {
        let mut one = IDENTITY;
        [one[4], one[5]] = [index / 4, index % 4];
        one
    };
    (0..count).flat_map(version).collect()
}

/// 32 versions of 37 literals and an operation each, of 512 bytes: 16,384 together.
fn half() -> Vec<u8> {
    let version = |index: u8| {
        let head = [11, 0, 1, 0, index / 4, index % 4, 0, 1, 2, 1, 2];
        let (level, block) = ([5, 0, 3, 0, 0], [7, 0, 2, 0, 0, 0, 38]);
        let literals = [13, 0, 36, 0, 0, 5, 0, 0, 0, 0, 0, 0, 0].repeat(37);
        [
            &head[..],
            &level,
            &block,
            &literals,
            &[8, 0, 24, 0, 0, 4, 0, 0],
        ]
        .concat()
    };
    (0..32).flat_map(version).collect()
}

#[test]
fn the_first_stays_and_the_second_has_other_functions_alone() {
    let (first, second) = (functions(3), exact(CALLER));
    let joined = join(&first, &second, MAX_IMAGE).expect("they go together");
    assert_eq!(joined[..first.len()], first);
    let mut expected = second.clone();
    // VERSION, CALL, DISPATCH, CALL, VERSION and VERSION.
    for (place, before) in [(4, 0), (28, 1), (37, 1), (48, 0), (56, 1), (93, 1)] {
        assert_eq!(expected[place], before, "{place}");
        expected[place] += 3;
    }
    assert_eq!(joined[first.len()..], expected);
    let text = "3.0 1 1 0 0\n4.0 0 1 0 0\n4.1 1 1 0 0\naccepted 6\n";
    assert!(report(&joined).ends_with(text), "{}", report(&joined));
}

#[test]
fn an_image_is_joined_with_itself() {
    let joined = join(&IDENTITY, &IDENTITY, 46).expect("it goes");
    assert_eq!(joined, functions(2));
}

#[test]
fn the_first_image_is_asked_before_the_second() {
    let refusal = |number, offset| Refusal { number, offset };
    let cut = &IDENTITY[..20];
    let (own, other) = (refusal(2, 16), refusal(1, 0));
    assert_eq!(join(cut, &[], 0), Err(Unjoined::First(own)));
    assert_eq!(join(&[], cut, 0), Err(Unjoined::First(other)));
    assert_eq!(join(&IDENTITY, cut, 0), Err(Unjoined::Second(own)));
    assert_eq!(join(&IDENTITY, &[], 0), Err(Unjoined::Second(other)));
    // A question to the second comes before 23.
    let mut unassigned = functions(32);
    unassigned[6] = 0;
    let no = Unjoined::Second(refusal(10, 0));
    assert_eq!(join(&functions(32), &unassigned, 0), Err(no));
}

#[test]
fn question23_asks_for_32_functions() {
    let joined = join(&functions(20), &functions(12), MAX_IMAGE);
    assert_eq!(joined, Ok(functions(32)));
    assert_eq!(join(&functions(20), &functions(13), MAX_IMAGE), together());
    assert_eq!(join(&functions(1), &functions(32), MAX_IMAGE), together());
    assert_eq!(join(&functions(32), &functions(32), MAX_IMAGE), together());
}

#[test]
fn question23_asks_for_64_versions() {
    assert_eq!(
        join(&versions(40), &versions(24), MAX_IMAGE),
        Ok(versions(64))
    );
    assert_eq!(join(&versions(40), &versions(25), MAX_IMAGE), together());
    assert_eq!(join(&versions(1), &versions(64), MAX_IMAGE), together());
}

#[test]
fn question23_asks_for_32768_bytes() {
    let half = half();
    let whole = join(&half, &half, MAX_IMAGE).expect("it goes");
    assert_eq!(whole.len(), MAX_IMAGE);
    assert_eq!(verdict(&whole), Verdict::Accepted(64));
    // One register more makes it 32,769.
    let mut longer = half.clone();
    [longer[0], longer[7]] = [12, 2];
    longer.insert(11, 2);
    assert_eq!(verdict(&longer), Verdict::Accepted(32));
    assert_eq!(join(&half, &longer, 40_000), together());
    assert_eq!(join(&longer, &half, 40_000), together());
}

#[test]
fn question23_asks_for_the_buffer() {
    for places in 0..46 {
        assert_eq!(join(&IDENTITY, &IDENTITY, places), together());
    }
    for places in [46, 47, 40_000] {
        assert_eq!(join(&IDENTITY, &IDENTITY, places), Ok(functions(2)));
    }
}

/// What a run of an image comes to.
fn outcome(image: &[u8], level: usize, entry: (usize, usize)) -> Result<(Answer, u32), Refusal> {
    let program = Program::accept(image)?;
    let (words, mut buffer) = ([-1, 7], [0; BUFFER]);
    let state = State::begin(&program, level, entry.0, entry.1, &words, &buffer)?;
    let (_, answer, steps) = state.budget(&program, 1000, &mut buffer);
    Ok((answer, steps))
}

#[test]
fn each_entry_runs_under_its_new_number_as_alone() {
    let (first, second) = (image(cases::CALLS_ITSELF), exact(CALLER));
    let joined = join(&first, &second, MAX_IMAGE).expect("they go together");
    for level in 0..3 {
        let own = outcome(&first, level, (0, 0));
        assert_eq!(outcome(&joined, level, (0, 0)), own);
        for function in 0..2 {
            for version in 0..3 {
                let alone = outcome(&second, level, (function, version));
                assert_eq!(outcome(&joined, level, (function + 1, version)), alone);
            }
        }
        let no = Refusal {
            number: 11,
            offset: 0,
        };
        assert_eq!(outcome(&joined, level, (3, 0)), Err(no));
    }
    let done = Ok((Answer::Ended(End::Integer(14)), 2));
    assert_eq!(outcome(&joined, 0, (2, 1)), done);
}
