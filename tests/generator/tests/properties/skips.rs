//! SKIPs of accepted images: how they stand, and what runs do with them.

use crate::watched;
use generator::{accepted, begun, Tally};
use reference::program::Block;
use reference::{Instruction, Program};

/// The most steps that a run is given.
const STEPS: usize = 4000;

/// What the SKIPs of a block show that is worth meeting.
fn sights(number: usize, block: &Block) -> Vec<&'static str> {
    let mut sights = Vec::new();
    let mut note = |condition: bool, name| sights.extend(condition.then_some(name));
    let instructions = &block.instructions;
    // The ends of the parts that are open.
    let mut open: Vec<usize> = Vec::new();
    for (place, placed) in instructions.iter().enumerate() {
        open.retain(|&end| end > place);
        let inside = !open.is_empty();
        match placed.item {
            Instruction::Skip { n, .. } => {
                let end = place + 1 + usize::from(n);
                note(number > 0, "in a promise block");
                note(inside, "in a part");
                note(open.len() >= 2, "in a part of a part");
                note(inside && number > 0, "in a part of a promise block");
                note(n == 0, "of no instruction");
                note(n > 8, "of more than 8 instructions");
                note(n > 0 && end == instructions.len(), "up to the block end");
                note(n > 0 && open.contains(&end), "up to the end of a part");
                open.push(end);
            }
            Instruction::Prom { .. } => note(inside, "over a PROM"),
            Instruction::Use { .. } => note(inside, "over a USE"),
            Instruction::Call { .. } => note(inside, "over a CALL"),
            Instruction::Dispatch { .. } => note(inside, "over a DISPATCH"),
            Instruction::Force { .. } => note(inside, "over a FORCE"),
            _ => {}
        }
    }
    sights
}

#[test]
fn skips_stand_in_every_way() {
    let mut met = Tally::default();
    for seed in 0..2000 {
        let program = Program::accept(&accepted(seed)).expect("an accepted image");
        for version in &program.versions {
            for (number, block) in version.blocks.iter().enumerate() {
                sights(number, block).into_iter().for_each(|s| met.meet(s));
            }
        }
    }
    println!("{met}");
    for sight in [
        "in a promise block",
        "in a part",
        "in a part of a part",
        "in a part of a promise block",
        "of no instruction",
        "of more than 8 instructions",
        "up to the block end",
        "up to the end of a part",
        "over a PROM",
        "over a USE",
        "over a CALL",
        "over a DISPATCH",
        "over a FORCE",
    ] {
        assert!(met.count(&sight) >= 50, "{sight}");
    }
}

#[test]
fn runs_skip_and_do_not() {
    let mut met = Tally::default();
    for seed in 0..2000 {
        let program = Program::accept(&accepted(seed)).expect("an accepted image");
        let Some(state) = begun(seed, &program) else {
            continue;
        };
        let mut run = watched(&program, state, &format!("seed {seed}"));
        while run.tried() < STEPS && !run.ended() {
            run.step();
        }
        met.meet("begun");
        if run.skipped() + run.not_skipped() > 0 {
            met.meet("a SKIP runs");
        }
        if run.skipped() > 0 {
            met.meet("a SKIP skips");
        }
        if run.not_skipped() > 0 {
            met.meet("a SKIP does not skip");
        }
    }
    println!("{met}");
    assert!(met.count("a SKIP runs") * 2 > met.count("begun"));
    assert!(met.count("a SKIP skips") * 4 > met.count("begun"));
    assert!(met.count("a SKIP does not skip") * 4 > met.count("begun"));
}
