//! New images for runs that go on: what they differ in, and demand 3 along changes.

use crate::watched;
use generator::{accepted, begun, update, Random, Tally, Update};
use reference::bounds::BUFFER;
use reference::change::parts;
use reference::{verdict, Program, Refusal, State, Status, Verdict};

/// How many programs are run, and the changes that each gets.
const PROGRAMS: u64 = 2000;
const CHANGES: u64 = 6;

/// The most steps that a run is brought to its end with.
const MOST: u32 = 4000;

/// A run of a seed after some steps, with its image; none where it does not begin.
fn going(seed: u64) -> Option<(Vec<u8>, State)> {
    let image = accepted(seed);
    let program = Program::accept(&image).expect("an accepted image");
    let budget = Random::new(seed).below(60) as u32;
    let (state, ..) = begun(seed, &program)?.budget(&program, budget, &mut [0; BUFFER]);
    Some((image, state))
}

/// How many versions of the new image the old one has with other bytes, does not
/// have, and how many of the old one the new one does not have.
fn differences(old: &[u8], new: &[u8]) -> (usize, usize, usize) {
    let (old, new) = (parts(old), parts(new));
    let find = |list: &[reference::change::Part], numbers| {
        let found = list.iter().find(|part| part.numbers == numbers);
        found.map(|part| part.bytes.to_vec())
    };
    let both = new.iter().filter_map(|n| Some((n, find(&old, n.numbers)?)));
    let changed = both.filter(|(n, had)| n.bytes != had).count();
    let added = new.iter().filter(|n| find(&old, n.numbers).is_none());
    let removed = old.iter().filter(|o| find(&new, o.numbers).is_none());
    (changed, added.count(), removed.count())
}

#[test]
fn most_updates_meet_their_aim() {
    let mut met = Tally::default();
    for seed in 0..PROGRAMS {
        let Some((image, state)) = going(seed) else {
            continue;
        };
        if state.frames.is_empty() {
            continue;
        }
        for aim in Update::ALL {
            let new = update(aim, seed, &image, &state.live_versions());
            met.meet((aim, "made"));
            let kind = match reference::change(&image, &new, &state) {
                Ok(()) if new == image => "same",
                Ok(()) => "taken",
                Err(Refusal { number: 15, offset }) if offset == new.len() => "missing",
                Err(Refusal { number: 15, .. }) => "differs",
                Err(_) => "refused",
            };
            met.meet((aim, kind));
            if kind == "taken" {
                let (changed, added, removed) = differences(&image, &new);
                for (count, name) in [(changed, "changed"), (added, "added"), (removed, "removed")]
                {
                    if count > 0 {
                        met.meet((aim, name));
                    }
                }
            }
        }
    }
    println!("{met}");
    let made = met.count(&(Update::Same, "made"));
    assert!(made >= 1000, "{made} runs go on");
    assert_eq!(met.count(&(Update::Same, "same")), made);
    for (aim, kind, percent) in [
        (Update::Others, "taken", 50),
        (Update::Others, "changed", 30),
        (Update::Others, "added", 10),
        (Update::Others, "removed", 5),
        (Update::Differs, "differs", 80),
        (Update::Lacks, "missing", 30),
        (Update::Lacks, "differs", 2),
        (Update::Refused, "refused", 80),
        (Update::Another, "differs", 50),
    ] {
        let count = met.count(&(aim, kind));
        assert!(count * 100 >= made * percent, "{aim:?}, {kind}: {count}");
    }
    assert_eq!(met.count(&(Update::Others, "differs")), 0);
    assert_eq!(met.count(&(Update::Others, "missing")), 0);
}

#[test]
fn updates_but_refused_ones_are_accepted() {
    for seed in 0..500 {
        let Some((image, state)) = going(seed) else {
            continue;
        };
        for aim in [Update::Others, Update::Differs, Update::Another] {
            let new = update(aim, seed, &image, &state.live_versions());
            let verdict = verdict(&new);
            assert!(
                matches!(verdict, Verdict::Accepted(_)),
                "seed {seed}, {aim:?}"
            );
        }
    }
}

/// Runs a program under the monitor of demand 3, with changes all along; how many
/// were taken, and whether the run ends otherwise than without them.
fn run_changing(seed: u64, met: &mut Tally<&'static str>) {
    let mut image = accepted(seed);
    let program = Program::accept(&image).expect("an accepted image");
    let Some(state) = begun(seed, &program) else {
        return;
    };
    let (alone, _, steps) = state.clone().budget(&program, MOST, &mut [0; BUFFER]);
    let mut run = watched(&program, state, &format!("seed {seed}"));
    let mut random = Random::new(seed);
    for _ in 0..CHANGES {
        run.budget(random.below(25) as u32, &mut [0; BUFFER]);
        let live = run.state().live_versions();
        let new = update(Update::any(&mut random), random.number(), &image, &live);
        let running = run.state().status == Status::Running;
        match run.change(&image, &new) {
            Ok(()) => {
                met.meet(if running { "taken" } else { "taken at an end" });
                image = new;
            }
            Err(refusal) => met.meet(if refusal.number == 15 {
                "15"
            } else {
                "refused"
            }),
        }
    }
    run.budget(MOST, &mut [0; BUFFER]);
    if alone.status != run.state().status {
        met.meet("another end");
    } else if steps.abs_diff(run.tried() as u32) > 1 {
        met.meet("another number of steps");
    }
}

#[test]
fn demand_3_holds_along_changes_of_the_image() {
    let mut met = Tally::default();
    for seed in 0..PROGRAMS {
        run_changing(seed, &mut met);
    }
    println!("{met}");
    for (name, least) in [
        ("taken", 2500),
        ("taken at an end", 2500),
        ("15", 1000),
        ("refused", 500),
        ("another end", 15),
        ("another number of steps", 50),
    ] {
        assert!(met.count(name) >= least, "{name}: {}", met.count(name));
    }
}
