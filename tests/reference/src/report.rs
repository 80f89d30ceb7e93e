//! "Program": what `check` prints.

use crate::flow::{body_action, Action};
use crate::form::Form;
use crate::program::{Program, Version};
use crate::questions::Refusal;
use std::fmt::Write;

/// The lines that `check` prints for an image, each with its newline.
pub fn report(image: &[u8]) -> String {
    report_in(Form::Wide, image)
}

/// The same for an image in a form.
pub fn report_in(form: Form, image: &[u8]) -> String {
    report_of(&Program::accept_in(form, image))
}

/// The lines that `check` prints for what the questions said of an image.
pub fn report_of(answer: &Result<Program, Refusal>) -> String {
    match answer {
        Ok(program) => accepted(program),
        Err(refusal) => format!("refused {} at {}\n", refusal.number, refusal.offset),
    }
}

/// One line per version, then how many there are.
fn accepted(program: &Program) -> String {
    let mut lines = String::new();
    for version in &program.versions {
        let action = body_action(program, version).expect("flow holds in an accepted image");
        writeln!(lines, "{}", line(version, &action)).expect("a string takes all");
    }
    lines + &format!("accepted {}\n", program.versions.len())
}

/// `f.v R W U C`, the counts of registers in each set of the body.
fn line(version: &Version, action: &Action) -> String {
    format!(
        "{}.{} {} {} {} {}",
        version.head.function,
        version.head.version,
        action.reads.len(),
        action.assigns.len(),
        action.empties.len(),
        action.captures.len()
    )
}
