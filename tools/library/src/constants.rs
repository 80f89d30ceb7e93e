//! The numbers of `fir.h`, under its names.

/// The number of the interface.
pub const FIR_INTERFACE: u32 = 2;
/// The number of the layout of a stored state.
pub const FIR_STATE_LAYOUT: u32 = 2;

/// The longest image.
pub const FIR_IMAGE_BYTES: usize = 32_768;
/// Functions are numbered below this.
pub const FIR_FUNCTIONS: usize = 32;
/// Versions of a function are numbered below this.
pub const FIR_VERSIONS: usize = 4;
/// The registers of a call.
pub const FIR_REGISTERS: usize = 16;
/// The names of a call.
pub const FIR_NAMES: usize = 8;
/// The calls and forces that live at once.
pub const FIR_ACTIVATIONS: usize = 32;
/// The items of a vector, and the fewest places of a result buffer.
pub const FIR_ITEMS: usize = 16;
/// The places for vectors, and for promises.
pub const FIR_PLACES: usize = 64;
/// The places of a call in a state: registers, names, and some that are for neither.
pub const FIR_STRIDE: usize = 32;

/// The integers of a state, as a trail keeps them.
pub const FIR_TRAIL_NUMBERS: usize = 2_129;
/// The bytes of a state behind its integers, as a trail keeps them.
pub const FIR_TRAIL_BYTES: usize = 2_632;

/// The numbers of runs in a pool: 0 to 7.
pub const FIR_RUNS: usize = 8;

/// No question says no.
pub const FIR_ACCEPTED: u8 = 0;
/// The image has 1 to 32,768 bytes.
pub const FIR_REFUSED_SIZE: u8 = 1;
/// Each record has a full head, a length of at least 4, and ends inside the image.
pub const FIR_REFUSED_RECORDS: u8 = 2;
/// Each kind is known, its length the one its fields make.
pub const FIR_REFUSED_KINDS: u8 = 3;
/// Numbers, counts, marks, levels, op and n are in bounds, records in order.
pub const FIR_REFUSED_BOUNDS: u8 = 4;
/// The first version is 0.0, each next one follows on it.
pub const FIR_REFUSED_NUMBERING: u8 = 5;
/// Each type byte is allowed at its place.
pub const FIR_REFUSED_TYPE_BYTES: u8 = 6;
/// What is named exists, and every block but 0 is named by exactly one PROM.
pub const FIR_REFUSED_EXISTENCE: u8 = 7;
/// No SKIP goes past the end of its block, or of a skipped part that it stands in.
pub const FIR_REFUSED_SKIPS: u8 = 14;
/// Types fit.
pub const FIR_REFUSED_TYPES: u8 = 8;
/// No CALL names a version of a higher level.
pub const FIR_REFUSED_CALLS: u8 = 18;
/// Each block's mark covers its effect.
pub const FIR_REFUSED_EFFECTS: u8 = 9;
/// Flow holds.
pub const FIR_REFUSED_FLOW: u8 = 10;
/// The entry exists.
pub const FIR_REFUSED_ENTRY: u8 = 11;
/// The entry is of the run's level or lower.
pub const FIR_REFUSED_LEVEL: u8 = 19;
/// The argument words are used up, each argument matching its parameter.
pub const FIR_REFUSED_ARGUMENTS: u8 = 12;
/// The result buffer has at least 16 places.
pub const FIR_REFUSED_BUFFER: u8 = 13;
/// Every version with a live call has the same bytes and number in both images.
pub const FIR_REFUSED_CHANGE: u8 = 15;
/// Every literal of an image that is moved fits 32 bits.
pub const FIR_REFUSED_LITERAL: u8 = 16;
/// The moved image has at most 32,768 bytes and fits the buffer.
pub const FIR_REFUSED_ROOM: u8 = 17;
/// A step lies behind the state.
pub const FIR_REFUSED_BACK: u8 = 20;
/// The reserves of the pool sum to at most 64, and the number is 0 to 7.
pub const FIR_REFUSED_POOL: u8 = 21;
/// The list has a record for each register of the topmost call.
pub const FIR_REFUSED_ROWS: u8 = 22;
/// The joined image has at most 32,768 bytes, 32 functions and 64 versions and fits the
/// buffer.
pub const FIR_REFUSED_JOIN: u8 = 23;

/// Room for the words of every question.
pub const FIR_QUESTION_TEXT_BYTES: usize = 128;
/// Room for the words of every answer.
pub const FIR_ANSWER_TEXT_BYTES: usize = 64;
/// Room for every report.
pub const FIR_REPORT_BYTES: usize = 1_100;

/// The level of the tenants' portal.
pub const FIR_PORTAL: usize = 0;
/// The level of site staff.
pub const FIR_STAFF: usize = 1;
/// The level of the factory, which all higher numbers count as.
pub const FIR_FACTORY: usize = 2;

/// The form in force, whose literals have 64 bits.
pub const FIR_FORM_64: u8 = 0;
/// The form before, whose literals have 32 bits.
pub const FIR_FORM_32: u8 = 1;

/// Of two images that are to be joined, the first is refused.
pub const FIR_FIRST_IMAGE: u8 = 1;
/// Of two images that are to be joined, the second is refused.
pub const FIR_SECOND_IMAGE: u8 = 2;

/// No mend is looked for: the image is accepted, or refused by another question than 6, 8,
/// 9 and 10.
pub const FIR_NOT_SOUGHT: u8 = 0;
/// A register type byte, changed, makes the image accepted.
pub const FIR_MENDED: u8 = 1;
/// No register type byte does.
pub const FIR_NOT_MENDED: u8 = 2;

/// The rows of bounds that are lent: one for each version that an image may have.
pub const FIR_ROWS: usize = 64;
/// In place of a bound: it is above 4,294,967,295.
pub const FIR_LARGE: u64 = 4_294_967_296;
/// In place of a bound: none is given.
pub const FIR_NONE: u64 = 4_294_967_297;

/// The run goes on: the step was taken, or the budget is used up.
pub const FIR_STEPS: u8 = 0;
/// DONE with an integer.
pub const FIR_INTEGER: u8 = 1;
/// DONE with a vector.
pub const FIR_VECTOR: u8 = 2;
/// UNDEF.
pub const FIR_UNDEF: u8 = 3;
/// DEEP: a 33rd activation is needed.
pub const FIR_DEEP: u8 = 4;
/// VECTORS: a 65th vector is needed, or one more than the pool gives.
pub const FIR_VECTORS: u8 = 5;
/// PROMISES: a 65th promise is needed.
pub const FIR_PROMISES: u8 = 6;
/// The state is none of a begun run that this image is in force for.
pub const FIR_STUCK: u8 = 7;
/// Refused by a question at an offset.
pub const FIR_REFUSED: u8 = 8;

/// The table is filled.
pub const FIR_LOADED: u8 = 0;
/// The image is accepted, but the table is too short.
pub const FIR_SHORT: u8 = 9;

/// An empty register or an unset name.
pub const FIR_NOTHING: u8 = 0;
/// An integer.
pub const FIR_IS_INTEGER: u8 = 1;
/// A vector.
pub const FIR_IS_VECTOR: u8 = 2;
/// A promise.
pub const FIR_IS_PROMISE: u8 = 3;
/// No such place of a live call.
pub const FIR_OUTSIDE: u8 = 4;

/// A state stands at no record of its image.
pub const FIR_NOWHERE: u8 = 0;
/// A state stands at an instruction.
pub const FIR_AT_INSTRUCTION: u8 = 1;
/// A state stands at the end of a block.
pub const FIR_AT_BLOCK_END: u8 = 2;
