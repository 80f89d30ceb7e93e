//! The debugger's commands.

use super::condition::{Condition, Operand};
use super::UNKNOWN;
use crate::manual;
use std::fmt;

/// What `to` goes to.
#[derive(Clone, Copy, PartialEq, Eq, Debug)]
pub enum Target {
    /// A line of the text.
    Line(usize),
    /// The beginning of a version.
    Version(u8, u8),
}

/// A command.
#[derive(Clone, PartialEq, Eq, Debug)]
pub enum Order {
    /// `step [N]`
    Step(u32),
    /// `next`
    Next,
    /// `out`
    Out,
    /// `to LINE` or `to F.V`
    To(Target),
    /// `watch WHAT`
    Watch(Operand),
    /// `break LINE [if CONDITION]` or `break F.V [if CONDITION]`; without either, all
    Break(Option<(Target, Option<Condition>)>),
    /// `delete [N]`
    Delete(Option<u32>),
    /// `print WHAT`
    Print(Operand),
    /// `print CONDITION`
    Ask(Condition),
    /// `run`
    Run,
    /// `back [N]`
    Back(u32),
    /// `at N`
    At(u32),
    /// `change FILE`
    Change(String),
    /// `call`
    Call,
    /// `stack`
    Stack,
    /// `vectors`
    Vectors,
    /// `promises`
    Promises,
    /// `list`
    List,
    /// `help`
    Help,
    /// `quit`
    Quit,
}

impl fmt::Display for Target {
    fn fmt(&self, formatter: &mut fmt::Formatter) -> fmt::Result {
        match self {
            Target::Line(line) => write!(formatter, "line {line}"),
            Target::Version(function, version) => write!(formatter, "version {function}.{version}"),
        }
    }
}

impl Order {
    /// The command that a line holds, or what is wrong with it.
    pub fn parse(line: &str) -> Result<Order, String> {
        if let Some(order) = long(line) {
            return order;
        }
        let mut words = line.split_whitespace();
        let name = words.next().unwrap_or_default();
        let given = words.next();
        if let Some(word) = words.next() {
            return Err(format!("`{word}` is one too many"));
        }
        match (name, given) {
            ("step" | "s", given) => count(given).map(Order::Step),
            ("back" | "b", given) => count(given).and_then(back),
            ("at", Some(word)) => number(word).map(Order::At),
            ("at", None) => Err("`at` needs a number of steps".to_string()),
            ("change" | "c", Some("-")) => Err("standard input holds the commands".to_string()),
            ("change" | "c", Some(file)) => Ok(Order::Change(file.to_string())),
            ("change" | "c", None) => Err("`change` needs a file with an image".to_string()),
            ("to", Some(word)) => target(word).map(Order::To),
            ("to", None) => {
                Err("`to` needs a line such as 12, or a version such as 1.0".to_string())
            }
            ("delete" | "d", None) => Ok(Order::Delete(None)),
            ("delete" | "d", Some(word)) => match word.parse() {
                Ok(number) => Ok(Order::Delete(Some(number))),
                Err(_) => Err(format!("`{word}` is no number of a breakpoint")),
            },
            (name, Some(word)) => match plain(name) {
                Some(_) => Err(format!("`{word}` is one too many")),
                None => Err(format!("`{name}` {UNKNOWN}")),
            },
            (name, None) => plain(name).ok_or_else(|| format!("`{name}` {UNKNOWN}")),
        }
    }
}

/// A command that takes more than a word; none where the line holds another.
fn long(line: &str) -> Option<Result<Order, String>> {
    let line = line.trim();
    let (name, rest) = line.split_once(char::is_whitespace).unwrap_or((line, ""));
    let rest = rest.trim();
    Some(match name {
        "watch" | "w" if rest.is_empty() => {
            Err("`watch` needs a register such as r3, or a name such as x0".to_string())
        }
        "watch" | "w" => match Operand::parse(rest) {
            Ok(Operand::Integer(integer)) => Err(format!("{integer} never changes")),
            operand => operand.map(Order::Watch),
        },
        "print" | "i" if rest.is_empty() => {
            Err("`print` needs a register such as r3, or a name such as x0".to_string())
        }
        "print" | "i" if rest.contains(['<', '>', '=', '!']) => {
            Condition::parse(rest).map(Order::Ask)
        }
        "print" | "i" => Operand::parse(rest).map(Order::Print),
        "break" | "br" if rest.is_empty() => Ok(Order::Break(None)),
        "break" | "br" => stop(rest).map(|stop| Order::Break(Some(stop))),
        _ => return None,
    })
}

/// A breakpoint: a line or a version, and its condition behind `if`.
fn stop(text: &str) -> Result<(Target, Option<Condition>), String> {
    let (word, rest) = text.split_once(char::is_whitespace).unwrap_or((text, ""));
    let target = target(word)?;
    let rest = rest.trim();
    if rest.is_empty() {
        return Ok((target, None));
    }
    let (word, condition) = rest.split_once(char::is_whitespace).unwrap_or((rest, ""));
    match word {
        "if" => Ok((target, Some(Condition::parse(condition)?))),
        _ => Err(format!("expected `if`, found `{word}`")),
    }
}

/// A command that takes nothing.
fn plain(name: &str) -> Option<Order> {
    Some(match name {
        "next" | "n" => Order::Next,
        "out" | "o" => Order::Out,
        "run" | "r" => Order::Run,
        "call" | "t" => Order::Call,
        "stack" | "k" | "where" | "registers" => Order::Stack,
        "vectors" | "v" => Order::Vectors,
        "promises" | "p" => Order::Promises,
        "list" | "l" => Order::List,
        "help" | "h" => Order::Help,
        "quit" | "q" => Order::Quit,
        _ => return None,
    })
}

/// A number of steps, 1 where none is given.
fn count(given: Option<&str>) -> Result<u32, String> {
    given.map_or(Ok(1), number)
}

/// A way back of so many steps.
fn back(count: u32) -> Result<Order, String> {
    match count {
        0 => Err("`back` goes back by at least 1 step".to_string()),
        count => Ok(Order::Back(count)),
    }
}

/// A number of steps.
fn number(word: &str) -> Result<u32, String> {
    let number = word.parse();
    number.map_err(|_| format!("`{word}` is no number of steps"))
}

/// A line such as 12, or a version such as 1.0.
fn target(word: &str) -> Result<Target, String> {
    let wrong = || format!("`{word}` is no line such as 12, and no version such as 1.0");
    match word.split_once('.') {
        None => word.parse().map(Target::Line).map_err(|_| wrong()),
        Some((function, version)) => {
            let numbers = function.parse().ok().zip(version.parse().ok());
            let (function, version) = numbers.ok_or_else(wrong)?;
            Ok(Target::Version(function, version))
        }
    }
}

/// The commands, as the help lists them.
pub fn help() -> String {
    let listed = manual::DEBUG.lines().filter(|line| line.starts_with("  "));
    listed.map(|line| format!("{line}\n")).collect()
}
