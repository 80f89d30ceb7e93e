//! What a step changed: registers, names, vectors, promises, calls and forces.

use super::spot::{Script, Spot};
use library::{Held, Opener, State, CELLS, FIR_PLACES};
use reference::Instruction;

/// What changed from one state to the next, the step's own call first.
pub fn changes(before: &State, after: &State, spot: &Spot) -> String {
    let mut changes = Vec::new();
    changes.extend(opened(after, spot).filter(|_| after.depth > before.depth));
    changes.extend(ended(before, after, spot));
    let own = spot.activation.call;
    let kept = usize::from(before.calls.min(after.calls));
    changes.extend(cell_changes(before, after, spot.script, own, "").filter(|_| own < kept));
    for call in (0..kept).filter(|&call| call != own) {
        let prefix = format!("call {call}: ");
        changes.extend(cell_changes(before, after, spot.script, call, &prefix));
    }
    changes.extend(pool_changes(before, after));
    if changes.is_empty() {
        changes.push(unchanged(after, spot));
    }
    changes.join(", ")
}

/// Words for a step that changed nothing: whether a SKIP skips, or what d holds still.
fn unchanged(after: &State, spot: &Spot) -> String {
    if let Some(&Instruction::Skip { a, n }) = spot.instruction() {
        return match after.look(spot.activation.call, a.into()) {
            Some(Held::Integer(0)) => format!("skips {n}"),
            _ => "does not skip".to_string(),
        };
    }
    let d = spot.instruction().and_then(|item| item.destination());
    let still = d.and_then(|d| Some((d, after.look(spot.activation.call, d.into())?)));
    match still {
        Some((d, held)) => format!("{} stays {}", spot.called(d), value(after, held)),
        None => "nothing changes".to_string(),
    }
}

/// What a register or a name holds, in words.
pub fn value(state: &State, held: Held) -> String {
    match held {
        Held::Nothing => "nothing".to_string(),
        Held::Integer(integer) => integer.to_string(),
        Held::Vector(place) => match state.vector(place) {
            Some(items) => format!("v{place} {items:?}"),
            None => format!("v{place}"),
        },
        Held::Promise(place) => format!("p{place}"),
    }
}

/// What the newest call or force is, which a step opened.
fn opened(after: &State, spot: &Spot) -> Option<String> {
    let top = after.top()?;
    match top.opener {
        Opener::Call => {
            let (function, version) = after.owner(top.call)?;
            let held = (0..CELLS).filter_map(|place| {
                let held = after.look(top.call, place)?;
                let name = spot.script.cell(after, top.call, place);
                (held != Held::Nothing).then(|| format!("{name} = {}", value(after, held)))
            });
            let held: Vec<String> = held.collect();
            let with = match held.len() {
                0 => String::new(),
                _ => format!(" with {}", held.join(", ")),
            };
            Some(format!(
                "opens call {} of {function}.{version}{with}",
                top.call
            ))
        }
        Opener::Force(promise) => {
            let (call, block) = (top.call, top.block);
            Some(format!("forces p{promise} in block {block} of call {call}"))
        }
    }
}

/// What the call or the force that a step ended gave.
fn ended(before: &State, after: &State, spot: &Spot) -> Option<String> {
    let goes_on = after.status == 0;
    if spot.instruction().is_some() || (goes_on && after.depth >= before.depth) {
        return None;
    }
    let call = spot.activation.call;
    let given = value(before, before.look(call, spot.result().into())?);
    Some(match spot.activation.opener {
        Opener::Call => format!("ends call {call} with {given}"),
        Opener::Force(promise) => format!("ends the force of p{promise} with {given}"),
    })
}

/// The registers and names of a call that changed.
fn cell_changes<'s>(
    before: &'s State,
    after: &'s State,
    script: Script<'s>,
    call: usize,
    prefix: &'s str,
) -> impl Iterator<Item = String> + 's {
    (0..CELLS).filter_map(move |place| {
        let (old, new) = (before.look(call, place)?, after.look(call, place)?);
        let name = || script.cell(after, call, place);
        let words = || match new {
            Held::Nothing => format!("{prefix}{} empty", name()),
            _ => format!("{prefix}{} = {}", name(), value(after, new)),
        };
        (old != new).then(words)
    })
}

/// Which vectors and promises the registers and names of live calls hold, by place.
pub struct Holdings {
    /// The vectors.
    pub vectors: [bool; FIR_PLACES],
    /// The promises.
    pub promises: [bool; FIR_PLACES],
}

impl Holdings {
    /// Those of a state.
    pub fn of(state: &State) -> Holdings {
        let (mut vectors, mut promises) = ([false; FIR_PLACES], [false; FIR_PLACES]);
        let calls = 0..usize::from(state.calls);
        for (call, place) in calls.flat_map(|call| (0..CELLS).map(move |place| (call, place))) {
            match state.look(call, place) {
                Some(Held::Vector(place)) => vectors[place] = true,
                Some(Held::Promise(place)) => promises[place] = true,
                _ => {}
            }
        }
        Holdings { vectors, promises }
    }
}

/// The vectors that are held before and after, but with other items, and the
/// promises that are held after, and are new or were forced.
fn pool_changes(before: &State, after: &State) -> Vec<String> {
    let (old, new) = (Holdings::of(before), Holdings::of(after));
    let vectors = (0..FIR_PLACES).filter_map(|place| {
        let items = after.vector(place)?;
        let changed = before.vector(place) != Some(items);
        let held = old.vectors[place] && new.vectors[place];
        (changed && held).then(|| format!("v{place} = {items:?}"))
    });
    let promises = (0..FIR_PLACES).filter_map(|place| {
        let promise = after.promise(place)?;
        let changed = !old.promises[place] || before.promise(place) != Some(promise);
        let (block, call) = (promise.block, promise.call);
        let words = || match promise.cache {
            Some(given) => format!("p{place} gave {given}"),
            None => format!("p{place} is block {block} of call {call}"),
        };
        (changed && new.promises[place]).then(words)
    });
    vectors.chain(promises).collect()
}
