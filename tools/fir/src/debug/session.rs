//! A run that is gone through: where it is, and how it is moved, forward and back.

use super::order::Target;
use super::stops::Stops;
use crate::failure::Failure;
use crate::number::many;
use crate::place::{beginning, place};
use crate::refusal::{self, Refused};
use crate::single::Single;
use crate::source::Source;
use crate::streams::Streams;
use crate::telling;
use crate::trace::{self, Script, Spot};
use library::{
    Opener, Ran, Refusal, Register, Run, State, Trail, FIR_ITEMS, FIR_REFUSED_BACK, FIR_STEPS,
};
use reference::program::Program;
use std::mem;
use std::rc::Rc;

/// A run that is gone through.
pub struct Session {
    /// The image in force, with its text.
    source: Rc<Source>,
    program: Program,
    /// The run, with its start, or what it was at the last change of its image, kept.
    trail: Trail<'static>,
    /// The steps taken before the last change of the image.
    before: u32,
    /// The most steps.
    budget: u32,
    /// Where it stops.
    pub stops: Stops,
    /// The breakpoint that the last command came to.
    hit: Option<usize>,
}

impl Session {
    /// That of a run before its first step.
    pub fn new(source: Source, run: Run<'static>, budget: u32) -> Session {
        Session::going(Rc::new(source), Trail::start(run), 0, budget)
    }

    /// That of a run whose start was kept after so many steps.
    fn going(source: Rc<Source>, trail: Trail<'static>, before: u32, budget: u32) -> Session {
        let program = Program::ordered(&source.image);
        Session {
            source,
            program: program.unwrap_or(Program { versions: vec![] }),
            trail,
            before,
            budget,
            stops: Stops::default(),
            hit: None,
        }
    }

    /// The breakpoint that was come to since this was asked last.
    pub fn take_hit(&mut self) -> Option<usize> {
        self.hit.take()
    }

    /// The state.
    pub fn state(&self) -> &State {
        self.trail.state()
    }

    /// The registers of the topmost call.
    pub fn topmost(&self) -> Vec<Register> {
        self.trail.topmost()
    }

    /// The steps taken, which are never more than the budget.
    pub fn steps(&self) -> u32 {
        let behind = self.trail.behind().unwrap_or(self.budget);
        self.before.saturating_add(behind)
    }

    /// The program, and what its text calls registers.
    pub fn script(&self) -> Script<'_> {
        Script {
            program: &self.program,
            names: &self.source.names,
        }
    }

    /// The call that is worked on; none where no call is live.
    pub fn call(&self) -> Option<usize> {
        self.state().top().map(|top| top.call)
    }

    /// The image with its text.
    pub fn source(&self) -> &Source {
        &self.source
    }

    /// How many calls and forces are live.
    pub fn depth(&self) -> u8 {
        self.state().depth
    }

    /// Takes a step; whether the run goes on and the budget is not used up.
    fn single(&mut self) -> bool {
        self.steps() < self.budget && Single::take(&mut self.trail).goes_on
    }

    /// Takes a step; whether the run goes on, the budget is not used up, and no breakpoint is
    /// come to.
    pub fn advance(&mut self) -> bool {
        let calls = self.state().calls;
        let goes_on = self.single();
        if goes_on {
            self.hit = self.stops.hit(self, calls);
        }
        goes_on && self.hit.is_none()
    }

    /// Takes so many steps, and prints each.
    pub fn step(&mut self, count: u32, streams: &mut Streams) -> Result<(), Failure> {
        let taken = self.steps();
        let wished = taken.saturating_add(count).min(self.budget);
        let mut print = |step: &trace::Step, after: &State| streams.line(&step.line(after));
        let names = &self.source.names;
        trace::steps(&mut self.trail, names, taken, wished, &mut print)?;
        Ok(())
    }

    /// Takes a step, and more until so many calls and forces are live at most.
    pub fn until_depth(&mut self, depth: u8) {
        while self.advance() && self.depth() > depth {}
    }

    /// Takes a step, and more until the run comes to a target. Where it does not, it stays
    /// where it was; why it does not.
    pub fn go_on_to(&mut self, target: Target) -> Result<(), String> {
        self.ask_there_is(target)?;
        let before = self.trail.clone();
        if self.seek(target) {
            return Ok(());
        }
        let cut_short = self.state().status == FIR_STEPS;
        self.trail = before;
        Err(self.missed(target, cut_short))
    }

    /// Asks that the text has what the run is to come to.
    pub fn ask_there_is(&self, target: Target) -> Result<(), String> {
        match target {
            Target::Line(line) => {
                let mut lines = self.offsets().map(|offset| self.source.line(offset));
                let there = lines.any(|there| there == Some(line));
                let wrong = || format!("line {line} has no instruction and no block");
                there.then_some(()).ok_or_else(wrong)
            }
            Target::Version(function, version) => {
                let there = self.program.version(function.into(), version.into());
                let wrong = || format!("there is no version {function}.{version}");
                there.map(|_| ()).ok_or_else(wrong)
            }
        }
    }

    /// Takes a step, and more until the run comes to a target, or to a breakpoint; whether it
    /// does.
    fn seek(&mut self, target: Target) -> bool {
        loop {
            let calls = self.state().calls;
            if !self.advance() {
                return self.hit.is_some();
            }
            if self.came_to(target, calls) {
                return true;
            }
        }
    }

    /// Has the run come to a target by a step before which so many calls were live?
    pub fn came_to(&self, target: Target, calls: u8) -> bool {
        match target {
            Target::Line(line) => self.line() == Some(line),
            Target::Version(function, version) => {
                let newest = usize::from(self.state().calls).saturating_sub(1);
                let opened = self.state().calls > calls;
                opened && self.state().owner(newest) == Some((function, version))
            }
        }
    }

    /// The last step up to now that came to a target; 0 is the start.
    fn last_at(&self, target: Target) -> Option<u32> {
        let (source, start) = (self.source.clone(), self.trail.at_start());
        let mut again = Session::going(source, start, self.before, self.steps());
        let entered = matches!(target, Target::Version(..)) && self.before > 0;
        let there = !entered && again.came_to(target, 0);
        let mut last = there.then_some(self.before);
        while again.seek(target) {
            last = Some(again.steps());
        }
        last
    }

    /// Words for a target that the run does not come to, by its end or within the budget.
    fn missed(&self, target: Target, cut_short: bool) -> String {
        let name = match target {
            Target::Line(line) => format!("line {line} is not come to"),
            Target::Version(function, version) => {
                format!("version {function}.{version} is not entered")
            }
        };
        let within = match cut_short {
            true => format!(" within {}", many(self.budget as usize, "step")),
            false => String::new(),
        };
        match self.last_at(target) {
            None => format!("{name}{within}"),
            Some(step) if step == self.steps() => {
                format!("{name} again{within}; the run stands there")
            }
            Some(step) => {
                format!("{name} again{within}; it was last at step {step}, `at {step}` goes there")
            }
        }
    }

    /// The offsets of all blocks and instructions.
    fn offsets(&self) -> impl Iterator<Item = usize> + '_ {
        let blocks = self
            .program
            .versions
            .iter()
            .flat_map(|version| &version.blocks);
        blocks.flat_map(|block| {
            let instructions = block.instructions.iter().map(|placed| placed.offset);
            instructions.chain([block.offset])
        })
    }

    /// Takes steps until the run ends, the budget is used up, or a breakpoint is come to.
    pub fn finish(&mut self) {
        match self.stops.is_empty() {
            true => self.go_on(self.budget),
            false => while self.advance() {},
        }
    }

    /// Takes steps until so many are taken.
    fn go_on(&mut self, step: u32) {
        let left = step.min(self.budget) - self.steps();
        self.trail.budget(left, &mut [0; FIR_ITEMS]);
    }

    /// Goes to the state after so many steps, from the start where it lies behind; refused
    /// where the run was under another image then.
    pub fn go_to(&mut self, step: u32) -> Result<(), Refused> {
        if step < self.before {
            let (question, offset) = (FIR_REFUSED_BACK, 0);
            return Err(self.none_behind(Refusal { question, offset }));
        }
        if step < self.steps() {
            self.trail = self.trail.at_start();
        }
        self.go_on(step);
        Ok(())
    }

    /// Why the run does not go back.
    fn none_behind(&self, no: Refusal) -> Refused {
        refusal::of_back(no, self.before)
    }

    /// Goes on under another image, with no step behind; refused, under the one in force.
    pub fn change(&mut self, new: Source) -> Result<(), Refused> {
        let (program, before) = (library::Program::load(&new.image[..]), self.steps());
        if let Err(no) = program.and_then(|program| self.trail.change(program)) {
            return Err(refusal::of_change(&self.source, &new, no, self.state()));
        }
        let (trail, stops) = (self.trail.clone(), mem::take(&mut self.stops));
        *self = Session::going(Rc::new(new), trail, before, self.budget);
        self.stops = stops;
        Ok(())
    }

    /// Goes back by so many steps, at least one, or to the start: by one step back, and for
    /// more of them once from the start. Refused where no step lies behind.
    pub fn back(&mut self, count: u32) -> Result<(), Refused> {
        self.trail.back().map_err(|no| self.none_behind(no))?;
        match count {
            1 => Ok(()),
            _ => self.go_to(self.steps().saturating_sub(count - 1).max(self.before)),
        }
    }

    /// Where the run stands.
    fn spot(&self) -> Option<Spot<'_>> {
        Spot::of(self.script(), self.state())
    }

    /// The line of the text that the run stands at.
    pub fn line(&self) -> Option<usize> {
        self.source.line(self.trail.position()?.offset)
    }

    /// Prints where the run stands, or how it ended.
    pub fn stand(&mut self, streams: &mut Streams) -> Result<(), Failure> {
        let steps = many(self.steps() as usize, "step");
        if self.state().status != FIR_STEPS || self.steps() == self.budget {
            let mut buffer = [0; FIR_ITEMS];
            let Ran { answer, .. } = self.trail.budget(0, &mut buffer);
            let words = telling::words_of(answer, &buffer);
            streams.line(&format!("{words} after {steps}"))?;
        }
        if self.state().status == FIR_STEPS {
            return streams.line(&self.standing(&steps));
        }
        match trace::standing(&self.source, &self.trail) {
            Some(standing) => streams.line(&standing.line(&self.source)),
            None => Ok(()),
        }
    }

    /// The line of a run that goes on.
    fn standing(&self, steps: &str) -> String {
        let Some(spot) = self.spot() else {
            return format!("after {steps}, nowhere");
        };
        let position = self.source.position(spot.offset());
        let begin = beginning(&self.source.name, position, "");
        let (version, block) = (spot.version_name(), spot.activation.block);
        format!(
            "{begin}after {steps}, in {version}, block {block}: {}",
            spot.text()
        )
    }

    /// The calls and forces that are live, the newest first, each with its number, what it
    /// is, and where it stands or goes on.
    pub fn activations(&self) -> Vec<(usize, String)> {
        let numbers = (0..usize::from(self.depth())).rev();
        let activations = numbers.filter_map(|number| {
            let activation = self.state().activation(number)?;
            let (function, version) = self.state().owner(activation.call)?;
            let (call, block) = (activation.call, activation.block);
            let what = match activation.opener {
                Opener::Call => format!("call {call} of {function}.{version}"),
                Opener::Force(promise) => {
                    format!("force of p{promise}, block {block} of call {call}")
                }
            };
            let spot = Spot::at(self.script(), self.state(), activation)?;
            let stands = match number + 1 == usize::from(self.depth()) {
                true => "at",
                false => "goes on at",
            };
            let at = place(&self.source, spot.offset());
            Some((number, format!("{what}, {stands} {at}: {}", spot.text())))
        });
        activations.collect()
    }
}
