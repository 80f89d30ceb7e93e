//! What the debugger shows of a state.

use super::condition::{Condition, Operand};
use super::session::Session;
use crate::failure::Failure;
use crate::streams::Streams;
use crate::trace::{cell_name, value, Holdings, Script};
use library::{
    Held, Opener, Register, State, CELLS, FIR_IS_INTEGER, FIR_IS_PROMISE, FIR_IS_VECTOR,
    FIR_PLACES, FIR_REGISTERS,
};
use reference::program::Program;
use reference::Type;
use text::type_text;

/// How many lines `list` shows before and behind the one where the run stands.
const AROUND: usize = 5;

/// How wide the names of registers are at least.
const NARROWEST: usize = 3;

/// The topmost call: each register with its type and what it holds, as the library shows it.
pub fn call(session: &Session, streams: &mut Streams) -> Result<(), Failure> {
    let newest = usize::from(session.state().calls).checked_sub(1);
    let Some((function, version)) = newest.and_then(|call| session.state().owner(call)) else {
        return streams.line("no call is live");
    };
    let worked_on = session.state().top().map(|top| (top.call, top.block));
    let forced = worked_on.filter(|&(call, _)| Some(call) != newest);
    let forced = forced.map(|(call, block)| format!("; block {block} of call {call} is forced"));
    let forced = forced.unwrap_or_default();
    streams.line(&format!(
        "the topmost call is of {function}.{version}{forced}"
    ))?;
    let registers = session.script().names.of(function, version);
    let rows = session.topmost();
    let names = (0..rows.len()).map(|register| cell_name(registers, register));
    let names: Vec<String> = names.collect();
    let widest = names.iter().map(String::len).max().unwrap_or_default();
    let width = widest.max(NARROWEST);
    for (name, row) in names.iter().zip(&rows) {
        let ty = type_text(Type(row.declared));
        streams.line(&format!("  {name:<width$} {ty:<18} {}", shown(row)))?;
    }
    Ok(())
}

/// What something holds in the call that is worked on.
pub fn print(session: &Session, operand: &Operand, streams: &mut Streams) -> Result<(), Failure> {
    if let Err(why) = operand.ask_known(&|word| session.ask_known(word)) {
        return streams.line(&why);
    }
    let shown = session.call().and_then(|call| operand.shown(session, call));
    streams.line(&match (shown, operand) {
        (Some(shown), _) => format!("{operand} = {shown}"),
        (None, Operand::Item(..)) => format!("{operand}: there is no such item"),
        (None, _) => format!("{operand} is empty"),
    })
}

/// Whether a condition holds in the call that is worked on.
pub fn ask(session: &Session, condition: &Condition, streams: &mut Streams) -> Result<(), Failure> {
    if let Err(why) = condition.ask_known(&|word| session.ask_known(word)) {
        return streams.line(&why);
    }
    let call = session.call();
    let holds = call.is_some_and(|call| condition.holds(session, call));
    let holds = if holds { "holds" } else { "does not hold" };
    streams.line(&format!("{condition}: {holds}"))
}

/// What a register holds.
fn shown(row: &Register) -> String {
    match row.holds {
        FIR_IS_INTEGER => row.integer.to_string(),
        FIR_IS_VECTOR => format!("{:?}", row.vector()),
        FIR_IS_PROMISE if row.mark == 0 => "a promise, quiet".to_string(),
        FIR_IS_PROMISE => "a promise, reflective".to_string(),
        _ => "empty".to_string(),
    }
}

/// The calls and forces, the newest first; each call with its registers and names.
pub fn stack(session: &Session, streams: &mut Streams) -> Result<(), Failure> {
    let activations = session.activations();
    if activations.is_empty() {
        return streams.line("no call is live");
    }
    let state = session.state();
    for (number, words) in activations {
        streams.line(&format!("#{number} {words}"))?;
        let Some(activation) = state.activation(number) else {
            continue;
        };
        if activation.opener == Opener::Call {
            let held = cells(state, session.script(), activation.call);
            streams.line(&format!("     {}", held.join(", ")))?;
        }
    }
    Ok(())
}

/// What the registers of a call hold, and those of its names that are set.
fn cells(state: &State, script: Script, call: usize) -> Vec<String> {
    let declared = types_of(state, script.program, call).len();
    let shown = (0..CELLS).filter_map(|place| {
        let held = state.look(call, place)?;
        let name = script.cell(state, call, place);
        match held {
            Held::Nothing if place < declared => Some(format!("{name} empty")),
            Held::Nothing => None,
            held => Some(format!("{name} = {}", value(state, held))),
        }
    });
    shown.collect()
}

/// The types of the registers of a call.
fn types_of<'p>(state: &State, program: &'p Program, call: usize) -> &'p [Type] {
    let owner = state.owner(call);
    let version = owner.and_then(|(f, v)| program.version(f.into(), v.into()));
    version.map_or(&[], |version| &version.head.types)
}

/// The registers and names of live calls that hold something: the call and the place.
fn holders(state: &State, held: Held) -> Vec<(usize, usize)> {
    let calls = 0..usize::from(state.calls);
    let cells = calls.flat_map(|call| (0..CELLS).map(move |place| (call, place)));
    let holding = cells.filter(|&(call, place)| state.look(call, place) == Some(held));
    holding.collect()
}

/// The vectors that are held, and who holds them.
pub fn vectors(session: &Session, streams: &mut Streams) -> Result<(), Failure> {
    let (state, script) = (session.state(), session.script());
    let held = Holdings::of(state).vectors;
    let places: Vec<usize> = (0..FIR_PLACES).filter(|&place| held[place]).collect();
    streams.line(&format!("vectors: {} of {FIR_PLACES}", places.len()))?;
    for place in places {
        let items = state.vector(place).unwrap_or_default();
        let holders = holders(state, Held::Vector(place)).into_iter();
        let holders = holders.map(|(call, cell)| {
            let name = script.cell(state, call, cell);
            match ownership(types_of(state, script.program, call), cell) {
                Some(word) => format!("{name} of call {call} ({word})"),
                None => format!("{name} of call {call}"),
            }
        });
        let holders: Vec<String> = holders.collect();
        streams.line(&format!("v{place} {items:?}: {}", holders.join(", ")))?;
    }
    Ok(())
}

/// Whether a register owns or borrows; none for shared ones and for names.
fn ownership(types: &[Type], cell: usize) -> Option<&'static str> {
    let ty = types.get(cell).filter(|_| cell < FIR_REGISTERS)?;
    match (ty.is_owned(), ty.is_borrowed()) {
        (true, _) => Some("own"),
        (_, true) => Some("borrow"),
        _ => None,
    }
}

/// The promises that are held or being forced, and what became of them.
pub fn promises(session: &Session, streams: &mut Streams) -> Result<(), Failure> {
    let (state, script) = (session.state(), session.script());
    let mut held = Holdings::of(state).promises;
    let activations = (0..usize::from(state.depth)).filter_map(|number| state.activation(number));
    let forces = activations.filter_map(|activation| match activation.opener {
        Opener::Force(place) => Some(place),
        Opener::Call => None,
    });
    let forces: Vec<usize> = forces.collect();
    for &place in forces.iter().filter(|&&place| place < FIR_PLACES) {
        held[place] = true;
    }
    let places: Vec<usize> = (0..FIR_PLACES).filter(|&place| held[place]).collect();
    streams.line(&format!("promises: {} of {FIR_PLACES}", places.len()))?;
    for place in places {
        let Some(promise) = state.promise(place) else {
            continue;
        };
        let (block, call) = (promise.block, promise.call);
        let became = match promise.cache {
            Some(integer) => format!("gave {integer}"),
            None if forces.contains(&place) => "is being forced".to_string(),
            None => "not forced yet".to_string(),
        };
        let holders = holders(state, Held::Promise(place)).into_iter();
        let holders = holders.map(|(call, cell)| {
            let name = script.cell(state, call, cell);
            format!("{name} of call {call}")
        });
        let holders: Vec<String> = holders.collect();
        let by = match holders.len() {
            0 => String::new(),
            _ => format!(": {}", holders.join(", ")),
        };
        streams.line(&format!(
            "p{place} block {block} of call {call}, {became}{by}"
        ))?;
    }
    Ok(())
}

/// The text around the line where the run stands.
pub fn list(session: &Session, streams: &mut Streams) -> Result<(), Failure> {
    let (Some(here), Some(text)) = (session.line(), &session.source().text) else {
        return streams.line("the run stands at no line");
    };
    let shown = here.saturating_sub(AROUND)..=here + AROUND;
    for (number, line) in (1..).zip(text.lines()) {
        let sign = if number == here { '>' } else { ' ' };
        if shown.contains(&number) {
            streams.line(format!("{sign}{number:>5}  {line}").trim_end())?;
        }
    }
    Ok(())
}
