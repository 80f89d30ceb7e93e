//! `fir completion`: the scripts know every command and every option of the help.

mod support;

use std::process::Command;
use support::{file, fir};

/// The shells.
const SHELLS: [&str; 3] = ["bash", "zsh", "fish"];

/// The script for a shell.
fn script(shell: &str) -> String {
    let done = fir(&["completion", shell], b"");
    assert_eq!((done.status, done.errors.as_str()), (0, ""));
    done.text()
}

/// The commands that the help lists, and the options that each one's help lists.
fn commands() -> Vec<(String, Vec<String>)> {
    let help = fir(&["--help"], b"").text();
    let usage = help.lines().filter_map(|line| line.strip_prefix("  fir "));
    let names = usage.filter_map(|usage| usage.split(' ').next());
    let names = names.filter(|name| !name.starts_with('-') && *name != "help");
    let with_options = names.map(|name| (name.to_string(), options(name)));
    with_options.collect()
}

/// The options that a command's help lists.
fn options(command: &str) -> Vec<String> {
    let help = fir(&["help", command], b"").text();
    let listed = help.split("\noptions:\n").nth(1).unwrap_or_default();
    let lines = listed.lines().filter_map(|line| line.strip_prefix("  -"));
    let names = lines.filter_map(|line| line.split(' ').next());
    names.map(|name| format!("-{name}")).collect()
}

#[test]
fn each_shell_knows_every_command_and_option() {
    let commands = commands();
    assert!(commands.len() >= 7, "{commands:?}");
    for shell in SHELLS {
        let script = script(shell);
        for (command, options) in &commands {
            let lines = script
                .lines()
                .filter(|line| line.contains(command.as_str()));
            let of_command: Vec<&str> = lines.collect();
            assert!(!of_command.is_empty(), "{shell}: {command}");
            for option in options {
                let name = option.trim_start_matches('-');
                let forms = [
                    option.to_string(),
                    format!("-l {name} "),
                    format!("-s {name} "),
                ];
                let known = of_command
                    .iter()
                    .any(|line| forms.iter().any(|form| line.contains(form)));
                assert!(known, "{shell}: {command} {option}");
            }
        }
    }
}

#[test]
fn every_command_of_the_help_and_no_option_is_unknown_to_the_tool() {
    for (command, options) in commands() {
        for option in options {
            let done = fir(&[&command, &option], b"");
            assert!(!done.errors.contains("is no option"), "{command} {option}");
        }
        let done = fir(&[&command, "--none"], b"");
        assert!(
            done.errors.contains("`--none` is no option"),
            "{command}: {done:?}"
        );
    }
}

/// What bash offers for the words of a command line, the last of which is being written.
fn offered(words: &[&str]) -> Vec<String> {
    let file = file("completion", "fir.bash", script("bash").as_bytes());
    let (line, last) = (words.join(" "), words.len() - 1);
    let run = format!(
        "source {file}; COMP_WORDS=({line}); COMP_CWORD={last}; \
         _fir; printf '%s\\n' \"${{COMPREPLY[@]}}\""
    );
    let done = Command::new("bash").args(["-c", &run]).output();
    let done = done.expect("bash is there");
    assert_eq!(String::from_utf8_lossy(&done.stderr), "");
    let text = String::from_utf8_lossy(&done.stdout).into_owned();
    text.lines().map(String::from).collect()
}

#[test]
fn bash_offers_commands_options_and_their_values() {
    assert_eq!(offered(&["fir", "che"]), ["check"]);
    assert_eq!(offered(&["fir", "help", "tra"]), ["trace"]);
    assert_eq!(offered(&["fir", "me"]), ["mend"]);
    assert_eq!(offered(&["fir", "check", "--no"]), ["--no-mend"]);
    assert_eq!(offered(&["fir", "run", "--bud"]), ["--budget"]);
    assert_eq!(offered(&["fir", "move", "a", "--to", "3"]), ["32"]);
    assert_eq!(offered(&["fir", "completion", "z"]), ["zsh"]);
    assert_eq!(offered(&["fir", "explain", "U"]), ["UNDEF"]);
    assert_eq!(offered(&["fir", "explain", "14"]), ["14"]);
}

#[test]
fn a_shell_that_is_none_is_named() {
    let done = fir(&["completion", "csh"], b"");
    let reason = "fir completion: `csh` is no shell of bash, zsh or fish; see";
    assert!(done.errors.starts_with(reason), "{done:?}");
    assert_eq!(done.status, 2);
    let done = fir(&["completion"], b"");
    assert!(done.errors.contains("no shell is named"), "{done:?}");
}
