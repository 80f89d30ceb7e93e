//! The registers of the topmost call of a run.

#![allow(unsafe_code)] // The library is called across a C boundary.

use crate::answers::Refusal;
use crate::constants::{FIR_ACCEPTED, FIR_ITEMS, FIR_REGISTERS};
use crate::raw;
use crate::run::Run;
use crate::state::assert_layout;

/// A register of the topmost call, field for field the `fir_row` of `fir.h`.
#[repr(C)]
#[derive(Clone, Copy, PartialEq, Eq, Debug)]
pub struct Register {
    /// The integer that is held, else 0.
    pub integer: i64,
    /// The items of the vector that is held; 0 behind them.
    pub items: [i64; FIR_ITEMS],
    /// The declared type.
    pub declared: u8,
    /// `FIR_NOTHING` to `FIR_IS_PROMISE`.
    pub holds: u8,
    /// How many items the vector has, else 0.
    pub length: u8,
    /// The mark of the promise's block, else 0.
    pub mark: u8,
}

impl Register {
    /// A record of nothing.
    pub const BLANK: Register = Register {
        integer: 0,
        items: [0; FIR_ITEMS],
        declared: 0,
        holds: 0,
        length: 0,
        mark: 0,
    };

    /// The items of the vector that is held.
    pub fn vector(&self) -> &[i64] {
        &self.items[..usize::from(self.length)]
    }
}

impl Run<'_> {
    /// Fills a list with the registers of the topmost call, and gives how many it has; those
    /// past the last one stay, and all of them where no call is live. A list that is too
    /// short is refused by 22, and stays.
    pub fn watch(&self, rows: &mut [Register]) -> Result<usize, Refusal> {
        assert_layout();
        let (image, table) = (self.program().image(), self.program().table());
        // SAFETY: the slices lend what their lengths say, and the state is one of the
        // library's layout; the records alone are written, which `&mut` lends.
        let watched = unsafe {
            raw::fir_watch(
                image.as_ptr(),
                image.len(),
                table.as_ptr(),
                table.len(),
                self.state(),
                rows.as_mut_ptr(),
                rows.len(),
            )
        };
        match watched.question {
            FIR_ACCEPTED => Ok(watched.filled.into()),
            question => Err(Refusal {
                question,
                offset: 0,
            }),
        }
    }

    /// The registers of the topmost call; none where no call is live.
    pub fn topmost(&self) -> Vec<Register> {
        let mut rows = vec![Register::BLANK; FIR_REGISTERS];
        let filled = self.watch(&mut rows);
        rows.truncate(filled.expect("a call has at most 16 registers"));
        rows
    }
}
