//! The functions of `fir.h` and the structs that they give, as C has them.

use crate::state::State;
use crate::store::Store;
use crate::trail::Kept;
use crate::watching::Register;

/// A verdict: `FIR_ACCEPTED` and the number of versions, of a move the length of the
/// moved image, of bounds the number of rows, or a question and its offset.
#[repr(C)]
pub struct FirVerdict {
    /// How many versions or rows, how long, or the offset.
    pub detail: usize,
    /// The question, or `FIR_ACCEPTED`.
    pub question: u8,
}

/// What joining two images comes to: `FIR_ACCEPTED` and the length of the joined
/// image, or a question, its offset and the image that it refuses.
#[repr(C)]
pub struct FirJoined {
    /// How long, or the offset.
    pub detail: usize,
    /// The question, or `FIR_ACCEPTED`.
    pub question: u8,
    /// `FIR_FIRST_IMAGE` or `FIR_SECOND_IMAGE` where that one is refused, else 0.
    pub image: u8,
}

/// What can be done for an image: `FIR_ACCEPTED` and the number of versions, or a question
/// and its offset, and beside it the change of a byte.
#[repr(C)]
pub struct FirMended {
    /// How many versions, or the offset.
    pub detail: usize,
    /// With `FIR_MENDED` the offset of the byte, else 0.
    pub place: usize,
    /// The question, or `FIR_ACCEPTED`.
    pub question: u8,
    /// `FIR_NOT_SOUGHT`, `FIR_MENDED` or `FIR_NOT_MENDED`.
    pub mend: u8,
    /// With `FIR_MENDED` the new value of the byte, else 0.
    pub value: u8,
}

/// What became of a load: `FIR_LOADED` and the number of versions, `FIR_REFUSED` and the
/// offset, or `FIR_SHORT` and the bytes that the table needs.
#[repr(C)]
pub struct FirLoaded {
    /// How many versions or bytes, or the offset.
    pub detail: usize,
    /// `FIR_LOADED`, `FIR_REFUSED` or `FIR_SHORT`.
    pub code: u8,
    /// The question of a refusal.
    pub question: u8,
}

/// Whether a run has begun, goes on under a new image or has gone back, or a pool is made:
/// `FIR_ACCEPTED`, or a question and its offset.
#[repr(C)]
pub struct FirEntry {
    /// The offset of a refusal.
    pub offset: u16,
    /// The question, or `FIR_ACCEPTED`.
    pub question: u8,
}

/// What a single step says.
#[repr(C)]
pub struct FirSaid {
    /// The integer that the run is DONE with.
    pub value: i64,
    /// `FIR_STEPS`, an end, or `FIR_STUCK`.
    pub code: u8,
    /// Of the vector that the run is DONE with.
    pub length: u8,
}

/// What a single step in a pool says.
#[repr(C)]
pub struct FirTurn {
    /// The integer that the run is DONE with.
    pub value: i64,
    /// The offset of a refusal.
    pub offset: u16,
    /// `FIR_STEPS`, an end, `FIR_STUCK` or `FIR_REFUSED`.
    pub code: u8,
    /// Of the vector that the run is DONE with.
    pub length: u8,
    /// The question of a refusal.
    pub question: u8,
}

/// The answer to a budget, and the steps taken under it.
#[repr(C)]
pub struct FirAnswer {
    /// The steps taken.
    pub steps: u32,
    /// The integer that the run is DONE with.
    pub value: i64,
    /// The offset of a refusal.
    pub offset: u16,
    /// `FIR_STEPS`, an end, `FIR_STUCK` or `FIR_REFUSED`.
    pub code: u8,
    /// Of the vector that the run is DONE with.
    pub length: u8,
    /// The question of a refusal.
    pub question: u8,
}

/// What a register or a name holds.
#[repr(C)]
pub struct FirValue {
    /// The integer.
    pub number: i64,
    /// `FIR_NOTHING`, `FIR_IS_...` or `FIR_OUTSIDE`.
    pub kind: u8,
    /// The place of the vector or promise.
    pub place: u8,
}

/// What the search of a DISPATCH comes to.
#[repr(C)]
pub struct FirSearched {
    /// 1 where the state stands at a DISPATCH; else 0, and the others are 0.
    pub dispatch: u8,
    /// How many versions are looked at.
    pub looked: u8,
    /// How many versions the function has.
    pub versions: u8,
}

/// How many records were filled, or 0 and the question that refuses.
#[repr(C)]
pub struct FirWatched {
    /// How many records were filled.
    pub filled: u8,
    /// `FIR_ACCEPTED` or `FIR_REFUSED_ROWS`.
    pub question: u8,
}

/// Where a state stands in its image.
#[repr(C)]
pub struct FirPosition {
    /// The offset of the instruction's record, or of the block's.
    pub offset: usize,
    /// `FIR_NOWHERE`, `FIR_AT_INSTRUCTION` or `FIR_AT_BLOCK_END`.
    pub kind: u8,
    /// The function of the call that is worked on.
    pub function: u8,
    /// Its version.
    pub version: u8,
    /// The block.
    pub block: u8,
    /// The number of the instruction; at the end of the block how many it has.
    pub instruction: u8,
}

/// The numbers that a library was built with.
#[repr(C)]
pub struct FirVersions {
    /// `FIR_INTERFACE`.
    pub interface_number: u32,
    /// `FIR_STATE_LAYOUT`.
    pub state_layout: u32,
}

extern "C" {
    pub fn fir_version() -> FirVersions;
    pub fn fir_question_text(question: u8, text: *mut u8, text_length: usize) -> usize;
    pub fn fir_answer_text(code: u8, text: *mut u8, text_length: usize) -> usize;
    pub fn fir_state_size() -> usize;
    pub fn fir_state_alignment() -> usize;
    pub fn fir_check(image: *const u8, image_length: usize) -> FirVerdict;
    pub fn fir_report(
        image: *const u8,
        image_length: usize,
        text: *mut u8,
        text_length: usize,
    ) -> usize;
    pub fn fir_check_in(image: *const u8, image_length: usize, form: u8) -> FirVerdict;
    pub fn fir_report_in(
        image: *const u8,
        image_length: usize,
        form: u8,
        text: *mut u8,
        text_length: usize,
    ) -> usize;
    pub fn fir_widen(
        image: *const u8,
        image_length: usize,
        out: *mut u8,
        out_length: usize,
    ) -> FirVerdict;
    pub fn fir_narrow(
        image: *const u8,
        image_length: usize,
        out: *mut u8,
        out_length: usize,
    ) -> FirVerdict;
    pub fn fir_join(
        first: *const u8,
        first_length: usize,
        second: *const u8,
        second_length: usize,
        out: *mut u8,
        out_length: usize,
    ) -> FirJoined;
    pub fn fir_mend(image: *const u8, image_length: usize) -> FirMended;
    pub fn fir_bounds(
        image: *const u8,
        image_length: usize,
        numbers: *mut u8,
        steps: *mut u64,
    ) -> FirVerdict;
    pub fn fir_table_size(image_length: usize) -> usize;
    pub fn fir_load(
        image: *const u8,
        image_length: usize,
        table: *mut u8,
        table_length: usize,
    ) -> FirLoaded;
    pub fn fir_begin(
        image: *const u8,
        image_length: usize,
        table: *const u8,
        table_length: usize,
        level: usize,
        function: usize,
        version: usize,
        words: *const i64,
        words_length: usize,
        buffer: *const i64,
        buffer_length: usize,
        state: *mut State,
    ) -> FirEntry;
    pub fn fir_step(
        image: *const u8,
        image_length: usize,
        table: *const u8,
        table_length: usize,
        state: *mut State,
    ) -> FirSaid;
    pub fn fir_budget(
        image: *const u8,
        image_length: usize,
        table: *const u8,
        table_length: usize,
        state: *mut State,
        budget: u32,
        buffer: *mut i64,
        buffer_length: usize,
    ) -> FirAnswer;
    pub fn fir_run(
        image: *const u8,
        image_length: usize,
        table: *const u8,
        table_length: usize,
        level: usize,
        function: usize,
        version: usize,
        words: *const i64,
        words_length: usize,
        budget: u32,
        buffer: *mut i64,
        buffer_length: usize,
        state: *mut State,
    ) -> FirAnswer;
    pub fn fir_change(
        old_image: *const u8,
        old_length: usize,
        new_image: *const u8,
        new_length: usize,
        state: *const State,
    ) -> FirEntry;
    pub fn fir_trail_start(state: *const State, trail: *mut Kept);
    pub fn fir_trail_step(
        image: *const u8,
        image_length: usize,
        table: *const u8,
        table_length: usize,
        state: *mut State,
        trail: *mut Kept,
    ) -> FirSaid;
    pub fn fir_trail_budget(
        image: *const u8,
        image_length: usize,
        table: *const u8,
        table_length: usize,
        state: *mut State,
        trail: *mut Kept,
        budget: u32,
        buffer: *mut i64,
        buffer_length: usize,
    ) -> FirAnswer;
    pub fn fir_trail_change(
        old_image: *const u8,
        old_length: usize,
        new_image: *const u8,
        new_length: usize,
        state: *const State,
        trail: *mut Kept,
    ) -> FirEntry;
    pub fn fir_trail_back(
        image: *const u8,
        image_length: usize,
        table: *const u8,
        table_length: usize,
        state: *mut State,
        trail: *mut Kept,
    ) -> FirEntry;
    pub fn fir_pool_make(reserves: *const u8, pool: *mut Store) -> FirEntry;
    pub fn fir_pool_begin(
        image: *const u8,
        image_length: usize,
        table: *const u8,
        table_length: usize,
        level: usize,
        function: usize,
        version: usize,
        words: *const i64,
        words_length: usize,
        buffer: *const i64,
        buffer_length: usize,
        state: *mut State,
        pool: *mut Store,
        number: usize,
    ) -> FirEntry;
    pub fn fir_pool_run(
        image: *const u8,
        image_length: usize,
        table: *const u8,
        table_length: usize,
        level: usize,
        function: usize,
        version: usize,
        words: *const i64,
        words_length: usize,
        budget: u32,
        buffer: *mut i64,
        buffer_length: usize,
        state: *mut State,
        pool: *mut Store,
        number: usize,
    ) -> FirAnswer;
    pub fn fir_pool_step(
        image: *const u8,
        image_length: usize,
        table: *const u8,
        table_length: usize,
        state: *mut State,
        pool: *mut Store,
        number: usize,
    ) -> FirTurn;
    pub fn fir_pool_budget(
        image: *const u8,
        image_length: usize,
        table: *const u8,
        table_length: usize,
        state: *mut State,
        pool: *mut Store,
        number: usize,
        budget: u32,
        buffer: *mut i64,
        buffer_length: usize,
    ) -> FirAnswer;
    pub fn fir_pool_change(
        old_image: *const u8,
        old_length: usize,
        new_image: *const u8,
        new_length: usize,
        state: *const State,
        pool: *const Store,
        number: usize,
    ) -> FirEntry;
    pub fn fir_pool_back(pool: *const Store, number: usize) -> FirEntry;
    pub fn fir_look(state: *const State, call: usize, place: usize) -> FirValue;
    pub fn fir_watch(
        image: *const u8,
        image_length: usize,
        table: *const u8,
        table_length: usize,
        state: *const State,
        rows: *mut Register,
        rows_length: usize,
    ) -> FirWatched;
    pub fn fir_search(
        image: *const u8,
        image_length: usize,
        table: *const u8,
        table_length: usize,
        state: *const State,
    ) -> FirSearched;
    pub fn fir_where(
        image: *const u8,
        image_length: usize,
        table: *const u8,
        table_length: usize,
        state: *const State,
    ) -> FirPosition;
}
