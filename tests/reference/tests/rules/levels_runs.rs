//! "Levels of staff": question 19, what DISPATCH passes over, and that a run is the
//! same at each higher level.

use crate::support::UNTOUCHED;
use cases::image;
use reference::monitor::{check_levels, Breach};
use reference::state::Opener;
use reference::watched::Watched;
use reference::{begin, End, Level, Program, Search, State, Status};

/// Versions 0.0, 0.1 and 0.2, for the portal, site staff and the factory.
const EACH_LEVEL: &str = "
    version 0.0(r0: int) -> int
      level portal
      block 0 quiet -> r0
    version 0.1(r0: int) -> int
      level staff
      block 0 quiet -> r0
    version 0.2(r0: int) -> int
      level factory
      block 0 quiet -> r0
";

/// The number of the question that refuses to begin a version of [`EACH_LEVEL`].
fn refused_by(level: usize, version: usize, words: &[i64], places: usize) -> Option<u8> {
    let found = begin(
        &image(EACH_LEVEL),
        level,
        0,
        version,
        words,
        &vec![0; places],
    );
    found.err().map(|no| {
        assert_eq!(no.offset, 0);
        no.number
    })
}

#[test]
fn question19_an_entry_is_of_the_runs_level_or_lower() {
    for (level, enterable) in [(0, 1), (1, 2), (2, 3), (3, 3), (255, 3), (usize::MAX, 3)] {
        for version in 0..3 {
            let refused = (version >= enterable).then_some(19);
            assert_eq!(refused_by(level, version, &[-1, 7], 16), refused);
        }
    }
}

#[test]
fn question19_a_level_counts_with_all_of_its_bits() {
    for level in [256, 1 << 32, (1 << 32) + 1, usize::MAX << 8] {
        assert_eq!(refused_by(level, 2, &[-1, 7], 16), None, "{level}");
    }
}

#[test]
fn question19_comes_after_11_and_before_12_and_13() {
    assert_eq!(refused_by(0, 3, &[], 0), Some(11));
    assert_eq!(refused_by(0, 2, &[], 0), Some(19));
    assert_eq!(refused_by(1, 1, &[], 0), Some(12));
    assert_eq!(refused_by(1, 1, &[-1, 7], 15), Some(13));
}

#[test]
fn a_run_begins_in_the_same_state_at_each_level_that_may_enter() {
    let program = Program::accept(&image(EACH_LEVEL)).expect("an accepted image");
    let begin = |level, version| State::begin(&program, level, 0, version, &[-1, 7], &UNTOUCHED);
    for (version, lowest) in [(0, 0), (1, 1), (2, 2)] {
        let first = begin(lowest, version).expect("a run begins");
        for level in [lowest + 1, 2, 3, usize::MAX] {
            let higher = begin(level.max(lowest), version);
            assert_eq!(higher, Ok(first.clone()));
        }
    }
}

/// 0.0 of a level dispatches on function 1, which has versions of these levels; the
/// one that is called gives its number.
fn dispatching(own: &str, levels: &[&str]) -> String {
    let mut text = format!(
        "version 0.0(r0: int) -> int
           level {own}
           block 0 quiet -> r0
             r0 = dispatch 1(r0: int) -> int quiet\n"
    );
    for (number, level) in levels.iter().enumerate() {
        text += &format!(
            "version 1.{number}(r0: int) -> int
               level {level}
               block 0 quiet -> r0
                 r0 = lit {number}\n"
        );
    }
    text
}

/// What the search of 0.0 comes to and how its run ends, at the factory's level.
fn searched(own: &str, levels: &[&str]) -> (Search, End) {
    let program = Program::accept(&image(&dispatching(own, levels))).expect("accepted");
    let state = State::begin(&program, 2, 0, 0, &[-1, 7], &UNTOUCHED).expect("a run begins");
    let search = state.search(&program).expect("it stands at a DISPATCH");
    let mut run = Watched::new(&program, state, 2, "a run that dispatches");
    run.budget(9, &mut UNTOUCHED.clone());
    let Status::Ended(end) = run.state().status else {
        panic!("the run goes on");
    };
    (search, end)
}

#[test]
fn dispatch_passes_over_versions_above_the_level_of_its_own_version() {
    let all = ["factory", "staff", "portal", "portal"];
    for (own, called) in [("factory", 0), ("staff", 1), ("portal", 2)] {
        let (search, end) = searched(own, &all);
        assert_eq!(search.first, Some(called), "{own}");
        assert_eq!(search.looked(), called + 1, "{own}");
        assert_eq!(end, End::Integer(called.into()), "{own}");
    }
}

#[test]
fn dispatch_without_a_version_at_or_below_its_level_is_undef_and_looks_at_all() {
    for (own, levels) in [
        ("portal", &["staff", "factory", "staff"][..]),
        ("staff", &["factory"]),
        ("portal", &["factory", "factory", "factory", "factory"]),
    ] {
        let (search, end) = searched(own, levels);
        assert_eq!((search.first, end), (None, End::Undef), "{own}");
        assert_eq!(usize::from(search.looked()), levels.len(), "{own}");
    }
}

/// 0.0, of site staff, makes a promise whose block dispatches on function 2, and gives
/// it to 1.0, of the portal, which forces it.
const FORCED_BELOW: &str = "
    version 0.0(r0: int) -> int
      registers r1: quiet promise
      level staff
      block 0 quiet -> r0
        r1 = prom 1
        r0 = call 1.0(r1)
      block 1 quiet -> r0
        r0 = dispatch 2(r0: int) -> int quiet
    version 1.0(r0: quiet promise) -> int
      registers r1: int
      level portal
      block 0 quiet -> r1
        r1 = force r0
    version 2.0(r0: int) -> int
      level factory
      block 0 quiet -> r0
        r0 = lit 20
    version 2.1(r0: int) -> int
      level staff
      block 0 quiet -> r0
        r0 = lit 21
    version 2.2(r0: int) -> int
      level portal
      block 0 quiet -> r0
        r0 = lit 22
";

#[test]
fn dispatch_goes_by_the_version_whose_block_holds_it_also_while_another_forces_it() {
    let program = Program::accept(&image(FORCED_BELOW)).expect("an accepted image");
    let state = State::begin(&program, 1, 0, 0, &[-1, 7], &UNTOUCHED).expect("a run begins");
    let mut run = Watched::new(&program, state, 1, "a forced block");
    // PROM, CALL, FORCE; the newest frame is that of 1.0, of the portal.
    run.budget(3, &mut UNTOUCHED.clone());
    let top = run.state().activations.last().expect("a force lives");
    assert_eq!((top.opener, top.frame), (Opener::Force(0), 0));
    assert_eq!(run.search().map(Search::looked), Some(2));
    run.budget(100, &mut UNTOUCHED.clone());
    assert_eq!(run.state().status, Status::Ended(End::Integer(21)));
}

#[test]
fn the_monitor_sees_a_live_call_above_the_runs_level() {
    let text = "version 0.0(r0: int) -> int
                  level staff
                  block 0 quiet -> r0
                    r0 = call 0.1(r0)
                version 0.1(r0: int) -> int
                  level portal
                  block 0 quiet -> r0";
    let program = Program::accept(&image(text)).expect("an accepted image");
    let state = State::begin(&program, 1, 0, 0, &[-1, 7], &UNTOUCHED).expect("a run begins");
    let (mut inside, _) = state.step(&program);
    for level in [Level::STAFF, Level::FACTORY] {
        assert_eq!(check_levels(&program, &inside, level), Ok(()));
    }
    let found = check_levels(&program, &inside, Level::PORTAL);
    assert_eq!(found, Err(Breach::Above { call: 0 }));
    inside.frames[0].version = 1;
    assert_eq!(check_levels(&program, &inside, Level::PORTAL), Ok(()));
    inside.frames[1].version = 0;
    let found = check_levels(&program, &inside, Level::PORTAL);
    assert_eq!(found, Err(Breach::Above { call: 1 }));
}
