//! The smallest mend of a refused image.

#![allow(unsafe_code)] // The library is called across a C boundary.

use crate::answers::Refusal;
use crate::constants::{FIR_ACCEPTED, FIR_MENDED, FIR_NOT_MENDED, FIR_NOT_SOUGHT};
use crate::raw::{self, FirMended};

/// What can be done for an image.
#[derive(Clone, Copy, PartialEq, Eq, Debug)]
pub enum Mended {
    /// It is accepted, and has so many versions.
    Accepted {
        /// How many versions.
        versions: usize,
    },
    /// Another question refuses it than 6, 8, 9 and 10.
    Refused(Refusal),
    /// A register type byte, changed, makes it accepted.
    Byte {
        /// The refusal.
        refusal: Refusal,
        /// The offset of the byte.
        offset: usize,
        /// Its new value.
        value: u8,
    },
    /// No register type byte makes it accepted.
    Unmended(Refusal),
}

impl From<FirMended> for Mended {
    fn from(mended: FirMended) -> Mended {
        let refusal = Refusal {
            question: mended.question,
            offset: mended.detail,
        };
        match (mended.mend, mended.question) {
            (FIR_NOT_SOUGHT, FIR_ACCEPTED) => Mended::Accepted {
                versions: mended.detail,
            },
            (FIR_NOT_SOUGHT, _) => Mended::Refused(refusal),
            (FIR_MENDED, _) => Mended::Byte {
                refusal,
                offset: mended.place,
                value: mended.value,
            },
            (FIR_NOT_MENDED, _) => Mended::Unmended(refusal),
            (mend, _) => panic!("the library gives the mend {mend}, which fir.h does not list"),
        }
    }
}

/// The one register type byte whose change makes a refused image accepted: the lowest
/// offset, then the lowest new value.
pub fn mend(image: &[u8]) -> Mended {
    let (bytes, length) = (image.as_ptr(), image.len());
    // SAFETY: only the bytes of the image are read, and nothing is written.
    unsafe { raw::fir_mend(bytes, length) }.into()
}
