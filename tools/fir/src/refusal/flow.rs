//! Question 10, "Flow": which register is read too early, or used or emptied too late.

use super::vocabulary::instruction_name;
use super::{Diagnosis, Found, FoundRecord};
use crate::place::place;
use crate::source::Source;
use reference::record::Placed;
use reference::{Instruction, Register};
use std::collections::BTreeMap;

/// Question 10: where flow does not hold in a version.
pub fn flow(source: &Source, found: &Found) -> Option<Diagnosis> {
    let FoundRecord::Version = found.record else {
        return None;
    };
    let break_ = match block_action(found, 0) {
        Err(break_) => *break_,
        Ok(action) => {
            let parameters = found.version.head.parameters;
            let mut reads = action.reads.into_iter();
            let (register, read) = reads.find(|&(register, _)| register >= parameters)?;
            match action.half_read.get(&register) {
                Some(half) => Break::ReadHalf(register, read, *half),
                None => Break::ReadFirst(register, read),
            }
        }
    };
    let words = break_.words(source, found);
    Some(Diagnosis {
        words: format!("in VERSION {}, {words}", found.version_name()),
        position: source.position(break_.offset()),
    })
}

/// What does something to a register: an instruction, or the end of its block.
#[derive(Clone, Copy)]
struct Doer<'p> {
    offset: usize,
    block: usize,
    instruction: Option<&'p Instruction>,
    /// The offset of the PROM of its block, which does it as far as flow goes.
    prom: Option<usize>,
}

impl<'p> Doer<'p> {
    /// An instruction of a block.
    fn of(block: usize, placed: &'p Placed<Instruction>) -> Doer<'p> {
        Doer {
            offset: placed.offset,
            block,
            instruction: Some(&placed.item),
            prom: None,
        }
    }

    /// What it is and where: `LEN at 41`, in a promise block with the block.
    fn words(&self, source: &Source) -> String {
        let name = match self.instruction {
            Some(instruction) => instruction_name(instruction),
            None => format!("the end of BLOCK {}", self.block),
        };
        let place = place(source, self.offset);
        match (self.block, self.instruction) {
            (0, _) | (_, None) => format!("{name} at {place}"),
            (block, _) => format!("{name} at {place} in block {block}"),
        }
    }

    /// The same with the PROM of its block, if that does it as far as flow goes.
    fn words_with_prom(&self, source: &Source) -> String {
        let words = self.words(source);
        match self.prom {
            Some(prom) => format!("{words}, of PROM at {}", place(source, prom)),
            None => words,
        }
    }
}

/// Registers with what did it to them.
type Registers<'p> = BTreeMap<Register, Doer<'p>>;

/// What assigns or fills a register on one way of a SKIP alone, and the SKIP.
#[derive(Clone, Copy)]
struct Half<'p> {
    assigns: Doer<'p>,
    skip: Doer<'p>,
}

/// An action: four register sets, with who did it.
#[derive(Clone, Default)]
struct Action<'p> {
    reads: Registers<'p>,
    assigns: Registers<'p>,
    empties: Registers<'p>,
    captures: Registers<'p>,
    /// Registers that are assigned on one way of a SKIP alone.
    half: BTreeMap<Register, Half<'p>>,
    /// Those of them that are read so.
    half_read: BTreeMap<Register, Half<'p>>,
    /// Emptied registers that are filled again on one way of a SKIP alone.
    half_filled: BTreeMap<Register, Half<'p>>,
}

/// How flow breaks.
enum Break<'p> {
    /// A register is read before it is assigned.
    ReadFirst(Register, Doer<'p>),
    /// A register is read that is assigned on one way of a SKIP alone.
    ReadHalf(Register, Doer<'p>, Half<'p>),
    /// A register is emptied, and then something is done to it.
    Emptied(Register, Doer<'p>, &'static str, Doer<'p>),
    /// The same with a register that is filled again on one way of a SKIP alone.
    HalfFilled(Register, Doer<'p>, Half<'p>, &'static str, Doer<'p>),
    /// A register is captured, and then emptied.
    Captured(Register, Doer<'p>, Doer<'p>),
}

impl Break<'_> {
    /// The offset of what breaks it; of a promise block's, that of its PROM.
    fn offset(&self) -> usize {
        let (Break::ReadFirst(_, doer)
        | Break::ReadHalf(_, doer, _)
        | Break::Emptied(_, _, _, doer)
        | Break::HalfFilled(_, _, _, _, doer)
        | Break::Captured(_, _, doer)) = self;
        doer.prom.unwrap_or(doer.offset)
    }

    /// What happens to the register, and where.
    fn words(&self, source: &Source, found: &Found) -> String {
        match self {
            Break::ReadFirst(r, read) => read_first(source, found, *r, read),
            Break::ReadHalf(r, read, half) => {
                let r = found.called(*r);
                let (read, skip) = (read.words(source), half.skip.words(source));
                let assigns = half.assigns.words(source);
                format!("{r} is read by {read}, and assigned by {assigns} only where {skip} does not skip")
            }
            Break::Emptied(r, emptied, then, doer) => {
                let filled = filled_later(found, *r, doer);
                let before = filled.map(|filled| {
                    let filled = filled.words(source);
                    format!(", before {filled} fills it again")
                });
                let (emptied, doer) = (emptied.words(source), doer.words_with_prom(source));
                let (before, r) = (before.unwrap_or_default(), found.called(*r));
                format!("{r} is emptied by {emptied} and {then} again by {doer}{before}")
            }
            Break::HalfFilled(r, emptied, half, then, doer) => {
                let (emptied, doer) = (emptied.words(source), doer.words_with_prom(source));
                let (filled, skip) = (half.assigns.words(source), half.skip.words(source));
                let r = found.called(*r);
                format!(
                    "{r} is emptied by {emptied}, filled again by {filled} \
                     only where {skip} does not skip, and {then} by {doer}"
                )
            }
            Break::Captured(r, captured, emptied) => {
                let d = emptied.instruction.and_then(|item| item.destination());
                let fills = d == Some(*r);
                let again = if fills { ", which fills it again" } else { "" };
                let (captured, emptied) = (captured.words(source), emptied.words(source));
                let r = found.called(*r);
                format!("{r} is captured by {captured} and then emptied by {emptied}{again}")
            }
        }
    }
}

/// Words for a register that is read before it is assigned: in a promise block, before
/// its PROM; and what assigns it in a promise block, which does not count.
fn read_first(source: &Source, found: &Found, register: Register, read: &Doer) -> String {
    let (reader, called) = (read.words(source), found.called(register));
    let words = match read.prom {
        Some(prom) => {
            let prom = place(source, prom);
            format!("{called} is read by {reader}, and not assigned before PROM at {prom}")
        }
        None => format!("{called} is read by {reader} before it is assigned"),
    };
    match assigned_in_promise(found, register, read.block) {
        Some(assigned) => {
            let assigned = assigned.words(source);
            format!("{words}; that {assigned} assigns it does not count for what follows a FORCE")
        }
        None => words,
    }
}

/// What assigns a register in a promise block other than the given block.
fn assigned_in_promise<'p>(found: &Found<'p>, register: Register, but: usize) -> Option<Doer<'p>> {
    let blocks = found.version.blocks.iter().enumerate().skip(1);
    let mut others = blocks.filter(|&(number, _)| number != but);
    others.find_map(|(number, block)| {
        let mut instructions = block.instructions.iter();
        let assigns = instructions.find(|placed| placed.item.assigns() == Some(register))?;
        Some(Doer::of(number, assigns))
    })
}

/// What fills a register again behind something in the same block, if anything does.
fn filled_later<'p>(found: &Found<'p>, register: Register, behind: &Doer) -> Option<Doer<'p>> {
    behind.instruction?;
    let block = found.version.blocks.get(behind.block)?;
    let fills = |item: &Instruction| {
        item.destination() == Some(register) && !item.reads().contains(&register)
    };
    let mut later = block.instructions.iter();
    let filling = later.find(|placed| placed.offset > behind.offset && fills(&placed.item))?;
    Some(Doer::of(behind.block, filling))
}

impl<'p> Action<'p> {
    /// A, then a single instruction A′, or how that breaks.
    fn then(mut self, next: Action<'p>) -> Result<Action<'p>, Box<Break<'p>>> {
        self.allows(&next)?;
        for (register, doer) in next.reads {
            if !self.assigns.contains_key(&register) && !self.reads.contains_key(&register) {
                self.reads.insert(register, doer);
                let half = next.half_read.get(&register);
                let half = half.or(self.half.get(&register)).copied();
                self.half_read.extend(half.map(|half| (register, half)));
            }
        }
        add(&mut self.captures, next.captures);
        self.empties.extend(next.empties);
        for &register in next.assigns.keys() {
            self.empties.remove(&register);
            self.half_filled.remove(&register);
        }
        self.assigns.extend(next.assigns);
        Ok(self)
    }

    /// Is the instruction allowed after this, or how does it break?
    fn allows(&self, next: &Action<'p>) -> Result<(), Box<Break<'p>>> {
        let later = [
            ("read", &next.reads),
            ("emptied", &next.empties),
            ("captured", &next.captures),
        ];
        for (does, registers) in later {
            if let Some((register, first, second)) = meeting(&self.empties, registers) {
                return Err(Box::new(match self.half_filled.get(&register) {
                    Some(&half) => Break::HalfFilled(register, first, half, does, second),
                    None => Break::Emptied(register, first, does, second),
                }));
            }
        }
        match meeting(&self.captures, &next.empties) {
            Some((register, first, second)) => {
                Err(Box::new(Break::Captured(register, first, second)))
            }
            None => Ok(()),
        }
    }

    /// The way past a part, joined with the way through it.
    fn join(mut self, through: Action<'p>, skip: Doer<'p>) -> Action<'p> {
        for register in self.empties.keys() {
            let filled = through.assigns.get(register);
            if let (Some(&assigns), None) = (filled, through.empties.get(register)) {
                self.half_filled.insert(*register, Half { assigns, skip });
            }
        }
        for (register, half) in through.half_filled {
            self.half_filled.entry(register).or_insert(half);
        }
        for (register, assigns) in through.assigns {
            if !self.assigns.contains_key(&register) {
                self.half.insert(register, Half { assigns, skip });
            }
        }
        for (register, half) in through.half {
            self.half.entry(register).or_insert(half);
        }
        for (register, half) in through.half_read {
            if !self.reads.contains_key(&register) {
                self.half_read.insert(register, half);
            }
        }
        add(&mut self.reads, through.reads);
        add(&mut self.empties, through.empties);
        add(&mut self.captures, through.captures);
        self
    }

    /// What a PROM yields for its block's action: (R, ∅, U, R ∪ W ∪ U ∪ C).
    fn delayed(self, prom: Doer<'p>) -> Action<'p> {
        let sets = [&self.reads, &self.assigns, &self.empties, &self.captures];
        let captured = sets.into_iter().flat_map(|set| set.keys());
        let captures = captured.map(|&register| (register, prom)).collect();
        let delayed = |(register, doer): (Register, Doer<'p>)| {
            let prom = doer.prom.or(Some(prom.offset));
            (register, Doer { prom, ..doer })
        };
        Action {
            reads: self.reads.into_iter().map(delayed).collect(),
            assigns: Registers::new(),
            captures,
            half: BTreeMap::new(),
            half_filled: BTreeMap::new(),
            ..self
        }
    }
}

/// A register that is in both sets, with what put it there.
fn meeting<'p>(
    first: &Registers<'p>,
    second: &Registers<'p>,
) -> Option<(Register, Doer<'p>, Doer<'p>)> {
    let mut both = first.iter();
    both.find_map(|(&register, &doer)| Some((register, doer, *second.get(&register)?)))
}

/// Adds registers to a set; those there keep what put them there.
fn add<'p>(set: &mut Registers<'p>, more: Registers<'p>) {
    for (register, doer) in more {
        set.entry(register).or_insert(doer);
    }
}

/// Registers that one doer does the same to.
fn all<'p>(registers: impl IntoIterator<Item = Register>, doer: Doer<'p>) -> Registers<'p> {
    registers.into_iter().map(|r| (r, doer)).collect()
}

/// The action of a block: its instructions in order, then its result register is read.
fn block_action<'p>(found: &Found<'p>, number: usize) -> Result<Action<'p>, Box<Break<'p>>> {
    let Some(block) = found.version.blocks.get(number) else {
        return Ok(Action::default());
    };
    let action = part_action(found, number, &block.instructions, Action::default())?;
    let end = Doer {
        offset: block.offset,
        block: number,
        instruction: None,
        prom: None,
    };
    action.then(Action {
        reads: all([block.head.result], end),
        ..Action::default()
    })
}

/// An action, then the instructions of a block or of a part of it, in order;
/// behind a SKIP both ways, joined after its part.
fn part_action<'p>(
    found: &Found<'p>,
    block: usize,
    mut instructions: &'p [Placed<Instruction>],
    before: Action<'p>,
) -> Result<Action<'p>, Box<Break<'p>>> {
    let mut action = before;
    while let [first, rest @ ..] = instructions {
        let doer = Doer::of(block, first);
        action = instruction_action(found, action, doer, &first.item)?;
        instructions = rest;
        if let Instruction::Skip { n, .. } = first.item {
            let (part, behind) = rest.split_at(rest.len().min(n.into()));
            let through = part_action(found, block, part, action.clone())?;
            action = action.join(through, doer);
            instructions = behind;
        }
    }
    Ok(action)
}

/// An action, then an instruction: it reads and captures, then empties, then assigns.
fn instruction_action<'p>(
    found: &Found<'p>,
    before: Action<'p>,
    doer: Doer<'p>,
    instruction: &Instruction,
) -> Result<Action<'p>, Box<Break<'p>>> {
    let first = match *instruction {
        Instruction::Prom { block, .. } if usize::from(block) > doer.block => {
            block_action(found, block.into())?.delayed(doer)
        }
        _ => Action {
            reads: all(instruction.reads(), doer),
            ..Action::default()
        },
    };
    let mut empties = all(found.program.emptied(instruction), doer);
    add(&mut empties, first.empties);
    before.then(Action {
        assigns: all(instruction.assigns(), doer),
        empties,
        ..first
    })
}
