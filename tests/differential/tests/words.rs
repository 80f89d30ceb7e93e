//! The words of each question and of each answer, and of numbers that are neither.

use differential::comparison::compare_text;
use differential::words::{answer_words, question_words};
use library::FIR_QUESTION_TEXT_BYTES;

/// Asserts what is written for a number, with a buffer that has room for all words, with
/// one that is exactly long enough, and with one that is a place too short.
#[track_caller]
fn writes(number: u8, words: &str, write: fn(u8, &mut [u8]) -> Option<usize>) {
    let length = words.len();
    for places in [FIR_QUESTION_TEXT_BYTES, length, length.saturating_sub(1)] {
        let found = compare_text(words, places, |text: &mut [u8]| write(number, text));
        assert_eq!(found, Ok(()), "{number}, {places} places");
    }
}

#[test]
fn each_number_has_the_words_of_its_question_or_none() {
    for question in 0..=u8::MAX {
        writes(question, question_words(question), library::question_text);
    }
}

#[test]
fn each_number_has_the_words_of_its_answer_or_none() {
    for code in 0..=u8::MAX {
        writes(code, answer_words(code), library::answer_text);
    }
}
