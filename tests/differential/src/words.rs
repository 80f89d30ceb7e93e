//! The words of the questions and of the answers, beside those of the proved library.

/// What a refusal by each question says, by its number; what 0 says of an image that
/// none refuses.
const QUESTIONS: [&str; 24] = [
    "accepted",
    "the image is empty or has more than 32768 bytes",
    "a record has no full head, a length below 4, or an end behind the image",
    "a kind is not known, or a length is not the one that its fields make",
    "a number, count, level, mark, op or n is out of bounds, or a record is missing or out of order",
    "the first version is not 0.0, or a version does not follow on the one before it",
    "a type byte is not allowed at its place",
    "something named does not exist, or a block is not named by exactly one PROM",
    "types do not fit",
    "a block's mark does not cover its effect",
    "a register may be empty where it is read, emptied or captured, or is emptied after a capture",
    "the entry does not exist",
    "the argument words do not match the parameters, or some are left over",
    "the result buffer has fewer than 16 places",
    "a SKIP goes past the end of its block, or of a skipped part that it stands in",
    "a version with a live call differs in the new image, or is missing there",
    "a literal does not fit 32 bits",
    "the moved image has more than 32768 bytes or does not fit the buffer",
    "a CALL goes to a version of a higher level",
    "the entry is above the level of the run",
    "no step lies behind",
    "the reserves of a pool sum above 64, or the number of a run is above 7",
    "the list of records is too short",
    "the joined image would break a bound of the layout, or does not fit the buffer",
];

/// What a refusal by a question says; nothing for a number that is no question's.
pub fn question_words(question: u8) -> &'static str {
    QUESTIONS.get(usize::from(question)).copied().unwrap_or("")
}

/// What an answer of each code says, by its number.
const ANSWERS: [&str; 9] = [
    "the run goes on",
    "DONE with an integer",
    "DONE with a vector",
    "UNDEF: an operation has no result",
    "DEEP: a 33rd activation is needed",
    "VECTORS: a 65th vector is needed, or one more than a pool gives",
    "PROMISES: a 65th promise is needed",
    "stuck: the state is none of a run of this image",
    "refused",
];

/// What an answer of a code says; nothing for a number that is no code.
pub fn answer_words(code: u8) -> &'static str {
    ANSWERS.get(usize::from(code)).copied().unwrap_or("")
}
