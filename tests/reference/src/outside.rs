//! "Stuck": does a state point outside itself or its image?

use crate::program::Program;
use crate::state::{Activation, Opener, State};

/// Does all that a running state points to lie in it and in its image?
pub fn points_inside(state: &State, program: &Program) -> bool {
    frames_belong_to_calls(state)
        && values_point_inside(state, program)
        && (0..state.activations.len()).all(|i| activation_points_inside(state, program, i))
}

/// Is there a first call, and has each call its own frame, in order?
fn frames_belong_to_calls(state: &State) -> bool {
    let is_call = |activation: &&Activation| activation.opener == Opener::Call;
    let opened = state.activations.iter().filter(is_call).map(|a| a.frame);
    state.activations.first().as_ref().is_some_and(is_call) && opened.eq(0..state.frames.len())
}

/// Are the vectors, promises, frames and blocks that values refer to all there?
fn values_point_inside(state: &State, program: &Program) -> bool {
    state.held().all(|v| state.kind(program, v).is_some())
}

/// Do an activation's frame with its version, block, next instruction, promise and d exist?
fn activation_points_inside(state: &State, program: &Program, index: usize) -> bool {
    let activation = &state.activations[index];
    let block = state.block(program, activation.frame, activation.block);
    let promise_exists = match activation.opener {
        Opener::Call => true,
        Opener::Force(place) => state.promises.get(place).is_some_and(Option::is_some),
    };
    let d_exists = index == 0 || {
        let below = state.activations[index - 1].frame;
        state
            .version(program, below)
            .is_some_and(|version| version.declares(activation.d))
    };
    block.is_some_and(|block| activation.next <= block.instructions.len())
        && promise_exists
        && d_exists
}
