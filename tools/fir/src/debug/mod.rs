//! `fir debug`: a run that is gone through by commands, forward and back.

mod condition;
mod order;
mod session;
mod show;
mod stops;

use crate::command::Call;
use crate::failure::{Failure, Status};
use crate::running::{answered, begin};
use crate::source::Source;
use crate::streams::Streams;
use crate::telling::{Format, Tried};
use crate::DONE;
use condition::Operand;
use order::Order;
use session::Session;

/// What a terminal shows where a command may be written.
const PROMPT: &str = "(fir) ";

/// What is printed for a command that is none.
const UNKNOWN: &str = "is no command; `help` lists them";

/// Goes through a run that is asked for; the exit status.
pub fn debug(call: &Call, streams: &mut Streams) -> Result<Status, Failure> {
    let source = Source::read(&call.file, streams)?.readable();
    let run = match begin(&source, call) {
        Ok(run) => run,
        Err(refused) => {
            let told = Format::Lines.refused(&source, &refused, streams);
            return answered(Status::No, told);
        }
    };
    let mut session = Session::new(source, run, call.budget);
    session.stand(streams)?;
    let mut last = None;
    while let Some(line) = next_line(streams)? {
        let order = match line.trim() {
            "" => last,
            words => match Order::parse(words) {
                Ok(order) => Some(order),
                Err(reason) => {
                    streams.line(&reason)?;
                    continue;
                }
            },
        };
        last = order;
        match &last {
            None => {}
            Some(Order::Quit) => break,
            Some(order) => obey(&mut session, order, streams)?,
        }
    }
    DONE
}

/// The next line of the input, behind a prompt where it is a terminal; none at its end.
fn next_line(streams: &mut Streams) -> Result<Option<String>, Failure> {
    if streams.interactive {
        streams.write(PROMPT.as_bytes())?;
    }
    streams.flush()?;
    streams.input_line()
}

/// Does what a command says.
fn obey(session: &mut Session, order: &Order, streams: &mut Streams) -> Result<(), Failure> {
    match order {
        Order::Step(count) => session.step(*count, streams)?,
        Order::Change(file) => change(session, file, streams)?,
        Order::Watch(operand) => {
            if !watch(session, operand, streams)? {
                return Ok(());
            }
        }
        Order::Next | Order::Out | Order::To(_) | Order::Run | Order::Back(_) | Order::At(_) => {
            if let Err(why) = go(session, order) {
                return streams.line(&why);
            }
        }
        _ => return look(session, order, streams),
    }
    if let Some(number) = session.take_hit() {
        streams.line(&format!("breakpoint {number}"))?;
    }
    session.stand(streams)
}

/// Goes where a command says, or says why not.
fn go(session: &mut Session, order: &Order) -> Result<(), String> {
    match *order {
        Order::Next => session.until_depth(session.depth()),
        Order::Out => session.until_depth(session.depth().saturating_sub(1)),
        Order::To(target) => return session.go_on_to(target),
        Order::Back(count) => return session.back(count).map_err(|refused| refused.plain()),
        Order::At(step) => return session.go_to(step).map_err(|refused| refused.plain()),
        _ => session.finish(),
    }
    Ok(())
}

/// Shows what a command asks for, or sets where the run stops; the run stays where it is.
fn look(session: &mut Session, order: &Order, streams: &mut Streams) -> Result<(), Failure> {
    match order {
        Order::Break(None) => list_breaks(session, streams),
        Order::Break(Some((target, condition))) => {
            let set = session.set_break(*target, condition.as_ref());
            streams.line(&set.unwrap_or_else(|why| why))
        }
        Order::Delete(number) => streams.line(&session.stops.delete(*number)),
        Order::Print(operand) => show::print(session, operand, streams),
        Order::Ask(condition) => show::ask(session, condition, streams),
        Order::Call => show::call(session, streams),
        Order::Stack => show::stack(session, streams),
        Order::Vectors => show::vectors(session, streams),
        Order::Promises => show::promises(session, streams),
        Order::List => show::list(session, streams),
        Order::Help => streams.write(order::help().as_bytes()),
        _ => Ok(()),
    }
}

/// Goes on until something holds another value, and says what became of it; whether it is
/// known.
fn watch(session: &mut Session, operand: &Operand, streams: &mut Streams) -> Result<bool, Failure> {
    if let Err(why) = operand.ask_known(&|word| session.ask_known(word)) {
        streams.line(&why)?;
        return Ok(false);
    }
    if let Some(words) = session.until_changed(operand) {
        streams.line(&words)?;
    }
    Ok(true)
}

/// Lists the breakpoints.
fn list_breaks(session: &Session, streams: &mut Streams) -> Result<(), Failure> {
    let lines = session.stops.lines();
    lines.iter().try_for_each(|line| streams.line(line))
}

/// Goes on under the image of a file, or says why not.
fn change(session: &mut Session, file: &str, streams: &mut Streams) -> Result<(), Failure> {
    let new = match Source::read(file.as_ref(), streams) {
        Ok(new) => new.readable(),
        Err(failure) => return failure.line().map_or(Ok(()), |line| streams.line(&line)),
    };
    let steps = session.steps();
    let changed = session.change(new.clone());
    let tried = Tried { steps, new: &new };
    Format::Lines.changed(&tried, changed.as_ref().err(), streams)
}
