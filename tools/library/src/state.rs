//! The state of a run, and a look at it.

#![allow(unsafe_code)] // The library is called across a C boundary.

use crate::answers::Held;
use crate::constants::{
    FIR_ACTIVATIONS, FIR_INTERFACE, FIR_ITEMS, FIR_NAMES, FIR_PLACES, FIR_REGISTERS,
    FIR_STATE_LAYOUT, FIR_STRIDE,
};
use crate::raw;
use std::sync::Once;

/// The registers and names of a call.
pub const CELLS: usize = FIR_REGISTERS + FIR_NAMES;
/// Where the function of a call stands among its places in [`State::tags`]; its version
/// stands behind it.
pub const OWNER: usize = CELLS;
/// The numbers of an activation in [`State::stack`], of which two are spare.
pub const ACTIVATION: usize = 8;
/// The numbers of a promise in [`State::promises`], of which one is spare.
pub const PROMISE: usize = 4;
/// The spare bytes at the end of a state.
pub const SPARE: usize = 4;

/// The state of a run: numbers alone, field for field the `fir_state` of
/// `fir.h`, which says what they mean. Every content is allowed. A state does
/// not say which image it goes on under: a [`Run`](crate::Run) holds both.
#[repr(C)]
#[derive(Clone, PartialEq, Eq)]
pub struct State {
    /// The integers of the cells.
    pub numbers: [i64; FIR_ACTIVATIONS * FIR_STRIDE],
    /// 16 items of each vector.
    pub items: [i64; FIR_PLACES * FIR_ITEMS],
    /// The integer of each promise that was forced.
    pub caches: [i64; FIR_PLACES],
    /// The items of a vector that the run is DONE with.
    pub result: [i64; FIR_ITEMS],
    /// The integer that the run is DONE with.
    pub value: i64,
    /// The tags of the cells, and behind them the function and the version of the call.
    pub tags: [u8; FIR_ACTIVATIONS * FIR_STRIDE],
    /// The places that the cells refer to.
    pub places: [u8; FIR_ACTIVATIONS * FIR_STRIDE],
    /// Of each activation: 0 call, else force, the promise, d, its call, block, next instruction.
    pub stack: [u8; FIR_ACTIVATIONS * ACTIVATION],
    /// Of each promise: its call, its block, 0 where it was not forced.
    pub promises: [u8; FIR_PLACES * PROMISE],
    /// Of each vector.
    pub lengths: [u8; FIR_PLACES],
    /// How many calls are live.
    pub calls: u8,
    /// How many activations are live.
    pub depth: u8,
    /// `FIR_STEPS` while the run goes on, else its end.
    pub status: u8,
    /// Of the vector that the run is DONE with.
    pub length: u8,
    /// For nothing.
    pub spare: [u8; SPARE],
}

impl State {
    /// A state without calls: that of no run.
    pub fn blank() -> State {
        State::filled(0)
    }

    /// A state of this byte alone.
    pub fn filled(byte: u8) -> State {
        let number = i64::from_le_bytes([byte; 8]);
        State {
            numbers: [number; FIR_ACTIVATIONS * FIR_STRIDE],
            items: [number; FIR_PLACES * FIR_ITEMS],
            caches: [number; FIR_PLACES],
            result: [number; FIR_ITEMS],
            value: number,
            tags: [byte; FIR_ACTIVATIONS * FIR_STRIDE],
            places: [byte; FIR_ACTIVATIONS * FIR_STRIDE],
            stack: [byte; FIR_ACTIVATIONS * ACTIVATION],
            promises: [byte; FIR_PLACES * PROMISE],
            lengths: [byte; FIR_PLACES],
            calls: byte,
            depth: byte,
            status: byte,
            length: byte,
            spare: [byte; SPARE],
        }
    }

    /// What a place of a live call holds: registers are the places 0 to 15,
    /// names the places 16 to 23. None where there is no such place.
    pub fn look(&self, call: usize, place: usize) -> Option<Held> {
        assert_layout();
        // SAFETY: the state is one of the library's layout, and is only read.
        unsafe { raw::fir_look(self, call, place) }.into()
    }
}

/// The numbers of a library: that of its interface, and that of the layout of a
/// stored state.
#[derive(Clone, Copy, PartialEq, Eq, Debug)]
pub struct Versions {
    /// `FIR_INTERFACE` where the library is the one of this crate.
    pub interface_number: u32,
    /// `FIR_STATE_LAYOUT` where it is.
    pub state_layout: u32,
}

/// The numbers that the library was built with.
pub fn version() -> Versions {
    // SAFETY: the function takes nothing.
    let built = unsafe { raw::fir_version() };
    Versions {
        interface_number: built.interface_number,
        state_layout: built.state_layout,
    }
}

/// Asserts, once, that the library was built with this interface and this layout of a
/// state.
pub(crate) fn assert_layout() {
    static ONCE: Once = Once::new();
    ONCE.call_once(|| {
        let own = Versions {
            interface_number: FIR_INTERFACE,
            state_layout: FIR_STATE_LAYOUT,
        };
        assert_eq!(version(), own, "the numbers of the library");
        // SAFETY: these functions take nothing.
        let theirs = unsafe { (raw::fir_state_size(), raw::fir_state_alignment()) };
        let own = (size_of::<State>(), align_of::<State>());
        assert_eq!(theirs, own, "size and alignment of a state, the library's");
    });
}
