//! Places in the tree, and whether they are there.

use std::fs;
use std::path::{Path, PathBuf};

/// A column of the table.
#[derive(Clone, Copy, PartialEq, Eq, Debug)]
pub enum Column {
    /// What states the rule.
    Definition,
    /// What does it.
    Code,
    /// What proves that the code does it, or what rests on it.
    Proof,
    /// What tries it.
    Test,
    /// Wrong edits of it that the proofs refuse.
    Edit,
}

/// The columns in the order of the table.
pub const COLUMNS: [Column; 5] = [
    Column::Definition,
    Column::Code,
    Column::Proof,
    Column::Test,
    Column::Edit,
];

impl Column {
    /// The word that opens its lines.
    pub fn word(self) -> &'static str {
        match self {
            Column::Definition => "definition",
            Column::Code => "code",
            Column::Proof => "proof",
            Column::Test => "test",
            Column::Edit => "edit",
        }
    }

    /// What stands above it in the table.
    pub fn title(self) -> &'static str {
        match self {
            Column::Edit => "must-fail edit",
            _ => self.word(),
        }
    }

    /// What stands above the count of rules that have nothing in it.
    pub fn lack(self) -> &'static str {
        match self {
            Column::Definition => "without a definition",
            Column::Code => "without code",
            Column::Proof => "without a proof",
            Column::Test => "without a test",
            Column::Edit => "without a must-fail edit",
        }
    }
}

/// Where a rule is met.
#[derive(Clone, PartialEq, Eq, Debug)]
pub struct Place {
    /// The column that it belongs to.
    pub column: Column,
    /// The file or folder, or the crate of edits.
    pub path: String,
    /// What the file declares or the folder holds, or the edits.
    pub names: Vec<String>,
}

/// Where the tests of single rules stand.
const RULES: &str = "tests/reference/tests/rules";

/// The words that a declared name stands right behind.
const KEYWORDS: [&str; 6] = ["fn", "const", "struct", "enum", "record", "data"];

/// The words that may stand before a declared name with its type.
const OPENERS: [&str; 3] = ["pub", "abbrev", "unfoldable"];

impl Place {
    /// The file or folder, from the repository's root on.
    pub fn file(&self) -> String {
        match self.column {
            Column::Test if self.path.contains('/') => self.path.clone(),
            Column::Test => format!("{RULES}/{}", self.path),
            Column::Edit => format!("crates/{}/must-fail", self.path),
            _ => format!("crates/{}", self.path),
        }
    }

    /// Is it the functions of a file of code, whose proofs the check finds, and no folder of proofs?
    pub fn is_found(&self) -> bool {
        self.column == Column::Proof && self.path.ends_with(".rt")
    }

    /// The folder of proofs that a function of the file would have, from the repository's root on.
    fn folder(&self, name: &str) -> String {
        let file = self.file().replacen("/src/", "/proofs/", 1);
        let module = file.trim_end_matches(".rt");
        let module = module.strip_suffix("/lib").unwrap_or(module);
        let module = module.strip_suffix("/main").unwrap_or(module);
        format!("{module}/{name}")
    }

    /// What of it is not in the tree.
    pub fn missing(&self, root: &Path) -> Vec<String> {
        let file = root.join(self.file());
        if !file.exists() {
            return vec![self.file()];
        }
        let there = |name: &&String| match self.column {
            Column::Edit => file.join(format!("{name}.edit")).is_file(),
            _ if file.is_dir() => file.join(name).exists(),
            _ if self.is_found() => {
                fs::read_to_string(&file).is_ok_and(|text| promises(&text, name))
                    && !root.join(self.folder(name)).exists()
            }
            _ => fs::read_to_string(&file).is_ok_and(|text| declares(&text, name)),
        };
        let missing = self.names.iter().filter(|name| !there(name));
        missing
            .map(|name| format!("{}: {name}", self.file()))
            .collect()
    }
}

/// Does a line of the text declare the name?
fn declares(text: &str, name: &str) -> bool {
    text.lines().any(|line| {
        let words: Vec<&str> = line.split_whitespace().collect();
        let mut pairs = words.windows(2);
        let typed = words.iter().position(|word| !OPENERS.contains(word));
        let typed = typed.is_some_and(|first| words[first..].starts_with(&[name, ":"]));
        typed || pairs.any(|pair| KEYWORDS.contains(&pair[0]) && is_name(pair[1], name))
    })
}

/// Does a function of the text say what it ensures? Its clauses stand before its body, and the line of its body's
/// bracket ends with that.
fn promises(text: &str, name: &str) -> bool {
    let lines = text.lines().skip_while(|line| {
        let words: Vec<&str> = line.split_whitespace().collect();
        let mut pairs = words.windows(2);
        !pairs.any(|pair| pair[0] == "fn" && is_name(pair[1], name))
    });
    let mut clauses = lines.take_while(|line| !line.ends_with('{'));
    clauses.any(|line| line.trim_start().starts_with("ensures"))
}

/// Is the word the name, or the name and what follows it at once, as parameters?
fn is_name(word: &str, name: &str) -> bool {
    let rest = word.strip_prefix(name);
    rest.is_some_and(|rest| rest.is_empty() || rest.starts_with(['(', '<', ':', ';', '{']))
}

/// The must-fail edits of the tree, each with its crate.
pub fn edits(root: &Path) -> Vec<(String, String)> {
    let mut edits = Vec::new();
    for one in entries(&root.join("crates")) {
        for file in entries(&one.join("must-fail")) {
            if file
                .extension()
                .is_some_and(|extension| extension == "edit")
            {
                edits.push((stem(&one), stem(&file)));
            }
        }
    }
    edits.sort();
    edits
}

/// What stands in a folder; nothing where there is none.
fn entries(folder: &Path) -> Vec<PathBuf> {
    let entries = fs::read_dir(folder).into_iter().flatten();
    entries.flatten().map(|entry| entry.path()).collect()
}

/// A file's name without its ending.
fn stem(path: &Path) -> String {
    let stem = path.file_stem().unwrap_or_default();
    stem.to_string_lossy().into_owned()
}
