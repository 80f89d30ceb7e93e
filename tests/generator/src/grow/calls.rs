//! CALL and DISPATCH.

use super::registers::Gives;
use super::Body;
use crate::world::Callable;
use reference::program::Signature;
use reference::{Instruction, Kind, Mark, Register, Type};

impl Body<'_> {
    /// A CALL of any version that the block may call.
    pub(super) fn call(&mut self) -> Option<()> {
        let callable = self.callable()?;
        self.call_version(&callable)
    }

    /// A version that the block may call.
    fn callable(&mut self) -> Option<Callable> {
        let callables = self.callables();
        self.random.choose(&callables)
    }

    /// A version that the block may call; often one that stands behind a version above
    /// the level, so that a search passes over that one.
    fn dispatched(&mut self) -> Option<Callable> {
        let mut callables = self.callables();
        let hidden = |c: &Callable| {
            let before =
                |other: &Callable| other.function == c.function && other.version < c.version;
            self.world
                .iter()
                .any(|other| before(other) && other.level > self.wish.level)
        };
        let behind = callables.iter().filter(|c| hidden(c)).cloned();
        let behind: Vec<Callable> = behind.collect();
        if !behind.is_empty() && self.random.percent(60) {
            callables = behind;
        }
        self.random.choose(&callables)
    }

    /// The versions that the block may call, by level, mark and the steps that are left.
    fn callables(&self) -> Vec<Callable> {
        let mark = self.blocks[self.here.block].mark;
        let left = self.wish.cost.saturating_sub(self.cost);
        let may_call = |callable: &&Callable| {
            callable.cost <= left
                && callable.level <= self.wish.level
                && callable.signature.mark <= mark
                && !(self.in_promise() && empties(&callable.signature))
        };
        self.world.iter().filter(may_call).cloned().collect()
    }

    /// Adds a CALL of a version, if the block may have one.
    pub(super) fn call_version(&mut self, callable: &Callable) -> Option<()> {
        let signature = &callable.signature;
        let arguments = self.arguments(&signature.parameters)?;
        let emptied = given_to_owned(&signature.parameters, &arguments);
        let d = self.result(signature, &emptied)?;
        let call = Instruction::Call {
            d,
            function: callable.function,
            version: callable.version,
            arguments,
        };
        self.room()?;
        self.emit_emptying(call, &emptied, callable.gives);
        self.cost += callable.cost;
        Some(())
    }

    /// Registers for parameters of these types, each owned one given once.
    fn arguments(&mut self, parameters: &[Type]) -> Option<Vec<Register>> {
        // A promise may capture registers, so it comes before what is emptied.
        let rank = |ty: Type| match ty {
            _ if ty.kind() == Kind::QUIET || ty.kind() == Kind::REFLECTIVE => 0,
            _ if ty.is_shared() => 1,
            _ if ty.is_owned() => 2,
            _ => 3,
        };
        let mut order: Vec<usize> = (0..parameters.len()).collect();
        order.sort_by_key(|&place| rank(parameters[place]));
        let mut arguments = vec![0; parameters.len()];
        let mut owned = Vec::new();
        for place in order {
            let ty = parameters[place];
            arguments[place] = if ty.is_owned() {
                let register = self.owned(&owned)?;
                owned.push(register);
                register
            } else if ty.is_borrowed() {
                self.vector(|register| !owned.contains(&register))?
            } else {
                self.shared(ty.kind())?
            };
        }
        Some(arguments)
    }

    /// A register for the result of a call, often one of those that it empties.
    pub(super) fn result(
        &mut self,
        signature: &Signature,
        emptied: &[Register],
    ) -> Option<Register> {
        if signature.returns.is_owned() && self.random.one_in(2) {
            if let Some(register) = self.random.choose(emptied) {
                return Some(register);
            }
        }
        self.target(Gives::of_return(signature.returns))
    }

    /// A DISPATCH that a version is expected to fit.
    pub(super) fn dispatch(&mut self) -> Option<()> {
        let callable = self.dispatched()?;
        let arguments = self.fitting_arguments(&callable.signature.parameters)?;
        let signature = self.widened(&callable.signature, &arguments);
        let emptied = given_to_owned(&signature.parameters, &arguments);
        let d = self.result(&signature, &emptied)?;
        let types = signature.parameters.iter().copied();
        let dispatch = Instruction::Dispatch {
            d,
            function: callable.function,
            mark: signature.mark,
            returns: signature.returns,
            arguments: types.zip(arguments).collect(),
        };
        self.room()?;
        self.emit_emptying(dispatch, &emptied, callable.gives);
        self.cost += callable.cost;
        Some(())
    }

    /// Registers whose values are expected to match parameters of these types.
    pub(super) fn fitting_arguments(&mut self, parameters: &[Type]) -> Option<Vec<Register>> {
        let mut arguments = self.arguments(parameters)?;
        for (argument, parameter) in arguments.iter_mut().zip(parameters) {
            if !parameter.is_shared() || self.random.percent(40) {
                continue;
            }
            let mut others = self.readable(Type::is_shared);
            others.retain(|&r| {
                let expected = self.fact(r).kind();
                expected.is_some_and(|kind| kind.within(parameter.kind()))
            });
            *argument = self.random.choose(&others).unwrap_or(*argument);
        }
        Some(arguments)
    }

    /// A signature that the version fits and that takes the arguments.
    pub(super) fn widened(&mut self, fitting: &Signature, arguments: &[Register]) -> Signature {
        let mut signature = fitting.clone();
        for (parameter, &argument) in signature.parameters.iter_mut().zip(arguments) {
            if parameter.is_shared() {
                let declared = self.types[usize::from(argument)].kind();
                let wider = Kind::ALL.into_iter().filter(|&wide| declared.within(wide));
                let wider: Vec<Kind> = wider.collect();
                *parameter = Type::shared(self.random.pick(&wider));
            }
        }
        if signature.returns.is_shared() && self.random.percent(40) {
            signature.returns = Type::VALUE;
        }
        let block = self.blocks[self.here.block].mark;
        if block == Mark::REFLECTIVE && self.random.percent(50) {
            signature.mark = Mark::REFLECTIVE;
        }
        signature
    }
}

/// Has the signature an owned parameter?
fn empties(signature: &Signature) -> bool {
    signature.parameters.iter().any(|ty| ty.is_owned())
}

/// The registers that are given to owned parameters.
fn given_to_owned(parameters: &[Type], arguments: &[Register]) -> Vec<Register> {
    let given = parameters.iter().zip(arguments);
    given
        .filter(|(ty, _)| ty.is_owned())
        .map(|(_, &register)| register)
        .collect()
}
