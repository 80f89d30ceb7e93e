//! Registers that are filled again: how accepted images use them, and that images
//! which flow without it keep their sets.

use generator::{accepted, damaged_at, Tally};
use reference::flow::body_action;
use reference::program::Version;
use reference::record::Placed;
use reference::{verdict, Instruction, Program, Refusal, Register, Verdict};

/// Four register sets, one bit for each register.
#[derive(Clone, Copy, Default)]
struct Sets {
    reads: u16,
    assigns: u16,
    empties: u16,
    captures: u16,
}

/// The bits of registers.
fn bits(registers: impl IntoIterator<Item = Register>) -> u16 {
    registers.into_iter().fold(0, |bits, r| bits | 1 << r)
}

impl Sets {
    /// A then A′ where an emptied register is never assigned again.
    fn then(self, next: Sets) -> Option<Sets> {
        let later = next.reads | next.assigns | next.empties | next.captures;
        let allowed = self.empties & later == 0 && self.captures & next.empties == 0;
        allowed.then_some(Sets {
            reads: self.reads | next.reads & !self.assigns,
            assigns: self.assigns | next.assigns,
            empties: self.empties | next.empties,
            captures: self.captures | next.captures,
        })
    }

    /// The ways of a SKIP joined.
    fn join(self, other: Sets) -> Sets {
        Sets {
            reads: self.reads | other.reads,
            assigns: self.assigns & other.assigns,
            empties: self.empties | other.empties,
            captures: self.captures | other.captures,
        }
    }

    /// How many registers each set has.
    fn counts(self) -> [u32; 4] {
        [self.reads, self.assigns, self.empties, self.captures].map(u16::count_ones)
    }
}

/// The sets of a block where no register is filled again; none if that breaks flow.
fn block_sets(program: &Program, version: &Version, block: u8) -> Option<Sets> {
    let block = &version.blocks[usize::from(block)];
    let sets = part_sets(program, version, &block.instructions, Sets::default())?;
    let reads = bits([block.head.result]);
    sets.then(Sets {
        reads,
        ..Sets::default()
    })
}

/// Sets, then those of instructions in order, both ways at a SKIP.
fn part_sets(
    program: &Program,
    version: &Version,
    mut instructions: &[Placed<Instruction>],
    mut sets: Sets,
) -> Option<Sets> {
    while let [first, rest @ ..] = instructions {
        sets = instruction_sets(program, version, &first.item, sets)?;
        instructions = rest;
        if let Instruction::Skip { n, .. } = first.item {
            let (part, behind) = rest.split_at(n.into());
            sets = sets.join(part_sets(program, version, part, sets)?);
            instructions = behind;
        }
    }
    Some(sets)
}

/// Sets, then an instruction that reads, then empties, then assigns.
fn instruction_sets(
    program: &Program,
    version: &Version,
    instruction: &Instruction,
    sets: Sets,
) -> Option<Sets> {
    let none = Sets::default();
    let before = match *instruction {
        Instruction::Prom { block, .. } => {
            let inner = block_sets(program, version, block)?;
            Sets {
                assigns: 0,
                captures: inner.reads | inner.assigns | inner.empties | inner.captures,
                ..inner
            }
        }
        _ => Sets {
            reads: bits(instruction.reads()),
            ..none
        },
    };
    let empties = bits(program.emptied(instruction));
    let assigns = bits(instruction.assigns());
    sets.then(before)?
        .then(Sets { empties, ..none })?
        .then(Sets { assigns, ..none })
}

/// The counts of a version's sets, as the reference has them.
fn counts(program: &Program, version: &Version) -> [u32; 4] {
    let action = body_action(program, version).expect("flow holds");
    let sets = [
        action.reads,
        action.assigns,
        action.empties,
        action.captures,
    ];
    sets.map(|set| set.len() as u32)
}

#[test]
fn versions_that_flow_without_filling_again_keep_their_sets() {
    let mut met = Tally::default();
    for seed in 0..6000 {
        let program = Program::accept(&accepted(seed)).expect("an accepted image");
        let mut refills = false;
        for version in &program.versions {
            match block_sets(&program, version, 0) {
                Some(sets) => {
                    assert_eq!(sets.counts(), counts(&program, version), "seed {seed}");
                    met.meet("version that fills nothing again");
                }
                None => refills = true,
            }
        }
        if refills {
            met.meet("image that fills again");
        }
    }
    println!("{met}");
    assert!(met.count("image that fills again") >= 1000);
    assert!(met.count("version that fills nothing again") >= 1000);
}

#[test]
fn versions_that_are_refused_by_10_do_not_flow_without_filling_again() {
    for seed in 0..2000 {
        let image = damaged_at(10, seed);
        let Verdict::Refused(Refusal { number: 10, offset }) = verdict(&image) else {
            continue;
        };
        let program = Program::ordered(&image).expect("records in order");
        let mut versions = program.versions.iter();
        let version = versions.find(|v| v.offset == offset).expect("a VERSION");
        let parameters = u32::from(version.head.parameters);
        let sets = block_sets(&program, version, 0);
        let flows = sets.is_some_and(|sets| sets.reads >> parameters == 0);
        assert!(!flows, "seed {seed}");
    }
}

/// How the instructions of a body fill registers again, parts taken as they stand.
fn sights(program: &Program, version: &Version) -> Vec<&'static str> {
    let mut sights = Vec::new();
    let mut note = |condition: bool, name| sights.extend(condition.then_some(name));
    let (mut emptied, mut filled, mut part) = (0, 0, 0);
    for (place, placed) in version.blocks[0].instructions.iter().enumerate() {
        let own = bits(program.emptied(&placed.item));
        let assigns = bits(placed.item.assigns());
        let again = assigns & emptied & !own != 0;
        match placed.item {
            Instruction::Use { .. } => {
                note(again, "a USE into an emptied register");
                note(own & assigns != 0, "a USE into itself");
                note(own & filled != 0, "emptied again");
            }
            Instruction::Call { .. } => note(own & assigns != 0, "a CALL into what it empties"),
            Instruction::Dispatch { .. } => {
                note(own & assigns != 0, "a DISPATCH into what it empties");
            }
            Instruction::Vec { .. } => note(again, "a VEC into an emptied register"),
            Instruction::Prom { block, .. } => {
                let captured = block_sets(program, version, block).unwrap_or_default();
                note(captured.reads & filled != 0, "filled and then captured");
            }
            Instruction::Skip { n, .. } => part = part.max(place + 1 + usize::from(n)),
            _ => {}
        }
        note(again && place < part, "filled in a part of a SKIP");
        filled |= assigns & (emptied | own);
        emptied = (emptied | own) & !assigns;
    }
    sights
}

#[test]
fn registers_are_filled_again_in_every_way() {
    let mut met = Tally::default();
    for seed in 0..6000 {
        let program = Program::accept(&accepted(seed)).expect("an accepted image");
        for version in &program.versions {
            sights(&program, version)
                .into_iter()
                .for_each(|s| met.meet(s));
        }
    }
    println!("{met}");
    for sight in [
        "a USE into an emptied register",
        "a USE into itself",
        "a CALL into what it empties",
        "a DISPATCH into what it empties",
        "a VEC into an emptied register",
        "emptied again",
        "filled and then captured",
        "filled in a part of a SKIP",
    ] {
        assert!(met.count(&sight) >= 30, "{sight}");
    }
}
