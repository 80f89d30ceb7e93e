//! A run under the monitor of demand 3, for tests.

use crate::bounds::{Integer, Steps, ITEMS};
use crate::change::change;
use crate::instruction::Instruction;
use crate::kinds;
use crate::monitor::{check_levels, check_state, check_step, Breach};
use crate::position::Position;
use crate::program::Program;
use crate::questions::Refusal;
use crate::search::Search;
use crate::state::{End, State, Status, Value};
use crate::steps::{Answer, Said};
use crate::types::Level;

/// A run; demand 3, and that no live call is above the run's level, is asserted at
/// its start, at each step, forward or back, and at each change of its image, under the
/// image then in force.
pub struct Watched {
    /// The level that the run stated.
    level: Level,
    /// The program of the image in force.
    program: Program,
    state: State,
    /// What a failed assertion names.
    origin: String,
    /// The steps that were tried while the run went on.
    tried: usize,
    /// The SKIPs that skipped, and those that did not.
    skipped: usize,
    not_skipped: usize,
}

impl Watched {
    /// A run that has begun at a level.
    #[track_caller]
    pub fn new(program: &Program, state: State, level: usize, origin: &str) -> Watched {
        let level = Level::stated(level);
        assert_eq!(
            check(program, &state, level),
            Ok(()),
            "{origin}, at the start"
        );
        Watched {
            level,
            program: program.clone(),
            state,
            origin: origin.to_string(),
            tried: 0,
            skipped: 0,
            not_skipped: 0,
        }
    }

    /// The state of the run.
    pub fn state(&self) -> &State {
        &self.state
    }

    /// What the search of the DISPATCH comes to that the run stands at; none
    /// where it stands elsewhere.
    pub fn search(&self) -> Option<Search> {
        self.state.search(&self.program)
    }

    /// The same, if no version were passed over for its level.
    pub fn search_without_levels(&self) -> Option<Search> {
        self.state.search_at(&self.program, Level::FACTORY)
    }

    /// Where the run stands; none where it stands nowhere in its image.
    pub fn position(&self) -> Option<Position> {
        self.state.position(&self.program)
    }

    /// Has the run ended?
    pub fn ended(&self) -> bool {
        self.state.status != Status::Running
    }

    /// The steps that were tried while the run went on.
    pub fn tried(&self) -> usize {
        self.tried
    }

    /// The SKIPs that were executed and skipped.
    pub fn skipped(&self) -> usize {
        self.skipped
    }

    /// The SKIPs that were executed and did not skip.
    pub fn not_skipped(&self) -> usize {
        self.not_skipped
    }

    /// A single step; what it says.
    #[track_caller]
    pub fn step(&mut self) -> Said {
        let (after, said) = self.state.clone().step(&self.program);
        self.tried += usize::from(!self.ended());
        let checked = check_step(&self.program, &self.state, said);
        let checked = checked.and_then(|()| check(&self.program, &after, self.level));
        assert_eq!(checked, Ok(()), "{}, step {}", self.origin, self.tried);
        if let Said::Ended(end) = said {
            self.assert_kept(&after, end);
        }
        if said == Said::GoesOn {
            self.count_skip();
        }
        self.state = after;
        said
    }

    /// Does the next step need a vector, its operands there?
    pub fn needs_vector(&self) -> bool {
        self.state.needs_vector(&self.program)
    }

    /// Stops the run before its next step, which a pool does not let it take: it does not
    /// count, and changes nothing else.
    pub fn stop(&mut self, end: End) {
        assert!(!self.ended(), "{}: it goes on", self.origin);
        self.tried += 1;
        self.state.status = Status::Ended(end);
    }

    /// Counts the instruction that the run stands at if it is a SKIP.
    fn count_skip(&mut self) {
        if let Some(&Instruction::Skip { a, .. }) = self.state.instruction(&self.program) {
            let top = self.state.activations.last().expect("a call lives");
            let held = self.state.frames[top.frame].registers[usize::from(a)];
            let skips = held == Some(Value::Integer(0));
            self.skipped += usize::from(skips);
            self.not_skipped += usize::from(!skips);
        }
    }

    /// A budget; its answer and the steps taken under it. The same steps are
    /// done one by one too.
    #[track_caller]
    pub fn budget(&mut self, budget: Steps, buffer: &mut [Integer]) -> (Answer, Steps) {
        self.budget_seen(budget, buffer, |_| ())
    }

    /// The same; each state between two of its steps is shown.
    #[track_caller]
    pub fn budget_seen(
        &mut self,
        budget: Steps,
        buffer: &mut [Integer],
        mut show: impl FnMut(&Watched),
    ) -> (Answer, Steps) {
        let before = self.state.clone();
        let (after, answer, steps) = before.budget(&self.program, budget, buffer);
        let stopped = matches!(answer, Answer::Ended(end) if !end.counts());
        for step in 0..steps + Steps::from(stopped) {
            if step > 0 {
                show(self);
            }
            self.step();
        }
        let origin = &self.origin;
        assert_eq!(
            self.state, after,
            "{origin}: a budget does what its steps do"
        );
        (answer, steps)
    }

    /// A change from the image in force to another; where it is refused, the run
    /// goes on under the old one. The state is the same either way.
    #[track_caller]
    pub fn change(&mut self, old: &[u8], new: &[u8]) -> Result<(), Refusal> {
        change(old, new, &self.state)?;
        self.program = Program::accept(new)?;
        let checked = check(&self.program, &self.state, self.level);
        assert_eq!(checked, Ok(()), "{}, at a change", self.origin);
        Ok(())
    }

    /// Goes back to a state that the run was in under the image in force.
    #[track_caller]
    pub fn return_to(&mut self, state: State) {
        let checked = check(&self.program, &state, self.level);
        assert_eq!(checked, Ok(()), "{}, at a step back", self.origin);
        self.state = state;
    }

    /// Asserts that an end other than DONE leaves all but the status.
    #[track_caller]
    fn assert_kept(&self, after: &State, end: End) {
        if !matches!(end, End::Integer(_) | End::Vector(_)) {
            let mut restored = after.clone();
            restored.status = self.state.status;
            let origin = &self.origin;
            assert_eq!(
                restored, self.state,
                "{origin}: {end:?} changes nothing else"
            );
        }
    }

    /// How the run ended, with the cause of UNDEF; none while it goes on.
    pub fn ending(&self) -> Option<&'static str> {
        let Status::Ended(end) = self.state.status else {
            return None;
        };
        Some(match end {
            End::Integer(_) => "DONE, integer",
            End::Vector(0) => "DONE, vector of no item",
            End::Vector(ITEMS) => "DONE, vector of 16 items",
            End::Vector(_) => "DONE, vector",
            End::Undef => self.cause(),
            End::Deep => "DEEP",
            End::Vectors => "VECTORS",
            End::Promises => "PROMISES",
        })
    }

    /// Why the instruction that the run stopped at made UNDEF.
    fn cause(&self) -> &'static str {
        let instruction = self.state.instruction(&self.program);
        let top = self.state.activations.last().expect("a call lives");
        let registers = &self.state.frames[top.frame].registers;
        match *instruction.expect("UNDEF at an instruction") {
            Instruction::Arith { op, b, .. } => {
                arith_cause(op, registers[usize::from(b)] == Some(Value::Integer(0)))
            }
            Instruction::Get { .. } => "UNDEF, GET outside",
            Instruction::Set { .. } => "UNDEF, SET outside",
            Instruction::Cast { .. } => "UNDEF, failed CAST",
            Instruction::Named { .. } => "UNDEF, unset name of NAMED",
            Instruction::Peek { .. } => "UNDEF, unset name of PEEK",
            Instruction::Force { .. } => "UNDEF, promise being forced",
            Instruction::Dispatch { .. } => "UNDEF, DISPATCH with no fit",
            _ => "UNDEF, without a cause",
        }
    }
}

/// Checks a state of a run at a level.
fn check(program: &Program, state: &State, level: Level) -> Result<(), Breach> {
    check_state(program, state)?;
    check_levels(program, state, level)
}

/// Why an operation made UNDEF.
fn arith_cause(op: u8, by_zero: bool) -> &'static str {
    match op {
        kinds::ADD => "UNDEF, sum out of range",
        kinds::SUBTRACT => "UNDEF, difference out of range",
        kinds::MULTIPLY => "UNDEF, product out of range",
        kinds::DIVIDE if by_zero => "UNDEF, division by 0",
        kinds::DIVIDE => "UNDEF, quotient out of range",
        _ => "UNDEF, without a cause",
    }
}

/// How runs may end.
pub const ENDINGS: [&str; 19] = [
    "DONE, integer",
    "DONE, vector",
    "DONE, vector of no item",
    "DONE, vector of 16 items",
    "DEEP",
    "VECTORS",
    "PROMISES",
    "UNDEF, sum out of range",
    "UNDEF, difference out of range",
    "UNDEF, product out of range",
    "UNDEF, quotient out of range",
    "UNDEF, division by 0",
    "UNDEF, GET outside",
    "UNDEF, SET outside",
    "UNDEF, failed CAST",
    "UNDEF, unset name of NAMED",
    "UNDEF, unset name of PEEK",
    "UNDEF, promise being forced",
    "UNDEF, DISPATCH with no fit",
];
