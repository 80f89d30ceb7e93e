//! `fir completion`: scripts by which shells complete, made from the table of the help.

use crate::explain;
use crate::help::{Topic, COMMANDS};
use crate::options::{Opt, Takes};

/// A shell.
#[derive(Clone, Copy, PartialEq, Eq, Debug)]
pub enum Shell {
    /// bash
    Bash,
    /// zsh
    Zsh,
    /// fish
    Fish,
}

impl Shell {
    /// The shell of a name.
    pub fn parse(name: &str) -> Option<Shell> {
        match name {
            "bash" => Some(Shell::Bash),
            "zsh" => Some(Shell::Zsh),
            "fish" => Some(Shell::Fish),
            _ => None,
        }
    }

    /// The script for the shell.
    pub fn script(self) -> String {
        match self {
            Shell::Bash => bash(),
            Shell::Zsh => zsh(),
            Shell::Fish => fish(),
        }
    }
}

/// The words that a command is given in place of a file.
fn choices(topic: &Topic) -> Option<String> {
    if topic.name == "explain" {
        return Some(explain::words().join(" "));
    }
    let word = topic.given.split(' ').next()?;
    word.contains('|').then(|| word.replace('|', " "))
}

/// The names of all commands, with what else may stand first.
fn first_words() -> String {
    let names: Vec<&str> = COMMANDS.iter().map(|topic| topic.name).collect();
    format!("{} help --help --version", names.join(" "))
}

/// The names of a command's options.
fn option_names(topic: &Topic) -> String {
    let names: Vec<&str> = topic.options.iter().map(|option| option.name).collect();
    let names = [&names[..], &["--help"]].concat();
    names.join(" ")
}

fn bash() -> String {
    let mut script = "\
# Completion of fir for bash.
_fir() {
  local word=${COMP_WORDS[COMP_CWORD]} before=${COMP_WORDS[COMP_CWORD-1]}
  local words='' files=yes
  if [ \"$COMP_CWORD\" -eq 1 ] || [ \"${COMP_WORDS[1]} $COMP_CWORD\" = 'help 2' ]; then
    COMPREPLY=($(compgen -W '"
        .to_string();
    script += &first_words();
    script += "' -- \"$word\"))\n    return\n  fi\n  case \"${COMP_WORDS[1]} $before\" in\n";
    for topic in &COMMANDS {
        for option in topic.options {
            script += &bash_value(topic.name, option);
        }
    }
    script += "  esac\n  case ${COMP_WORDS[1]} in\n";
    for topic in &COMMANDS {
        let (name, options) = (topic.name, option_names(topic));
        script += &match choices(topic) {
            Some(words) => format!("    {name}) words='{words} {options}' files= ;;\n"),
            None => format!("    {name}) words='{options}' ;;\n"),
        };
    }
    script
        + "\
  esac
  COMPREPLY=($(compgen -W \"$words\" -- \"$word\"))
  [ -n \"$files\" ] && COMPREPLY+=($(compgen -f -- \"$word\"))
}
complete -o filenames -F _fir fir
"
}

/// The case of bash for the value of an option.
fn bash_value(command: &str, option: &Opt) -> String {
    let reply = match option.takes {
        Takes::Nothing => return String::new(),
        Takes::One(words) => format!("$(compgen -W '{}' -- \"$word\")", words.join(" ")),
        Takes::File(_) => "$(compgen -f -- \"$word\")".to_string(),
        Takes::Value(_) => String::new(),
    };
    let name = option.name;
    format!("    '{command} {name}') COMPREPLY=({reply}); return ;;\n")
}

fn zsh() -> String {
    let mut script = "\
#compdef fir
# Completion of fir for zsh.
_fir() {
  local -a commands=(
"
    .to_string();
    for topic in &COMMANDS {
        let (name, summary) = (topic.name, quoted(topic.summary));
        script += &format!("    '{name}:{summary}'\n");
    }
    script += "\
    'help:says more of a command'
    '--help:says what there is'
    '--version:the version of fir'
  )
  if (( CURRENT == 2 )) || [[ $words[2] == help ]]; then
    _describe command commands
    return
  fi
  case $words[2] in
";
    for topic in &COMMANDS {
        script += &format!("    {}) _arguments -s '--help[says more]'", topic.name);
        for option in topic.options {
            script += &zsh_option(option);
        }
        script += &match choices(topic) {
            Some(words) => format!(" '2:word:({words})' ;;\n"),
            None => " '*:file:_files' ;;\n".to_string(),
        };
    }
    script + "  esac\n}\n_fir \"$@\"\n"
}

/// An option as zsh's `_arguments` has it.
fn zsh_option(option: &Opt) -> String {
    let (name, words) = (option.name, quoted(option.words));
    let name = match name.starts_with("--") && option.takes != Takes::Nothing {
        true => format!("{name}="),
        false => name.to_string(),
    };
    match option.takes {
        Takes::Nothing => format!(" '{name}[{words}]'"),
        Takes::One(choices) => format!(" '*{name}[{words}]:word:({})'", choices.join(" ")),
        Takes::File(_) => format!(" '*{name}[{words}]:file:_files'"),
        Takes::Value(value) => format!(" '*{name}[{words}]:{value}:'"),
    }
}

fn fish() -> String {
    let mut script = "# Completion of fir for fish.\n".to_string();
    let first = "complete -c fir -f -n __fish_use_subcommand";
    for topic in &COMMANDS {
        let (name, summary) = (topic.name, quoted(topic.summary));
        script += &format!("{first} -a {name} -d '{summary}'\n");
    }
    script += &format!("{first} -a help -d 'says more of a command'\n");
    script += &format!("{first} -l version -d 'the version of fir'\n");
    script += "complete -c fir -l help -d 'says more'\n";
    for topic in &COMMANDS {
        let inside = format!(
            "complete -c fir -n '__fish_seen_subcommand_from {}'",
            topic.name
        );
        for option in topic.options {
            script += &format!("{inside} {}\n", fish_option(option));
        }
        if let Some(words) = choices(topic) {
            script += &format!("{inside} -f -a '{words}'\n");
        }
    }
    script
}

/// An option as fish's `complete` has it.
fn fish_option(option: &Opt) -> String {
    let words = quoted(option.words);
    let name = match option.name.strip_prefix("--") {
        Some(long) => format!("-l {long}"),
        None => format!("-s {}", option.name.trim_start_matches('-')),
    };
    match option.takes {
        Takes::Nothing => format!("{name} -d '{words}'"),
        Takes::One(choices) => format!("{name} -x -a '{}' -d '{words}'", choices.join(" ")),
        Takes::File(_) => format!("{name} -r -F -d '{words}'"),
        Takes::Value(_) => format!("{name} -x -d '{words}'"),
    }
}

/// Words without the signs that end them in a script.
fn quoted(words: &str) -> String {
    words.replace('\'', "").replace([':', '[', ']'], " ")
}
