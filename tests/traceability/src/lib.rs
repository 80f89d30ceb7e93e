//! The table of rules, `docs/RULES.md`: from each rule of the papers to its definition,
//! code, proof, tests and must-fail edits.
//!
//! The rules stand in `rules`, one file for each paper and one for the C interface. A line opens with a word:
//!
//! ```text
//! section 01, Values and types            what the rules below belong to
//! rule type.byte a type byte is ..        a rule: its name, and its words
//! definition rules/specs/Types.antt kind_of ownership_of
//! code typing/src/types.rt owned_kind
//! proof typing/proofs/types
//! found typing/src/types.rt owned_kind    functions whose contracts the check proves with no folder of proofs
//! test types.rs type_byte_is_kind_and_16_times_ownership
//! edit typing borrowed_register
//! borrows USE a register is taken fresh   a rule of another paper: its name, and its words
//! is fit.USE step.USE                     the rules above that it comes to
//! ```
//!
//! A place is a file and the names that it declares, or a folder and what it holds. Definitions, code and proofs
//! stand in `crates`; a test without a folder in `tests/reference/tests/rules`, else below the
//! repository's root; an edit is that of a crate. `#` opens a comment line.

mod parse;
mod place;
mod table;

pub use parse::parse;
pub use place::{edits, Column, Place, COLUMNS};
pub use table::table;

use std::path::{Path, PathBuf};

/// The rules of each paper, and of the C interface beside them, in the order of the table.
pub const PAPERS: [&str; 4] = [
    include_str!("../rules/01.txt"),
    include_str!("../rules/02.txt"),
    include_str!("../rules/interface.txt"),
    include_str!("../rules/004.txt"),
];

/// A part of a paper.
#[derive(Clone, PartialEq, Eq, Debug)]
pub struct Section {
    /// Its paper and its name.
    pub title: String,
    /// Its rules.
    pub rules: Vec<Rule>,
    /// Its rules that come to rules of other sections.
    pub borrowed: Vec<Borrowed>,
}

/// A rule and where it is met.
#[derive(Clone, PartialEq, Eq, Debug)]
pub struct Rule {
    /// Its name.
    pub name: String,
    /// What it says.
    pub words: String,
    /// Where it is defined, done, proved, tested and tried.
    pub places: Vec<Place>,
}

impl Rule {
    /// The places of a column.
    pub fn of(&self, column: Column) -> impl Iterator<Item = &Place> {
        self.places
            .iter()
            .filter(move |place| place.column == column)
    }
}

/// A rule that comes to others.
#[derive(Clone, PartialEq, Eq, Debug)]
pub struct Borrowed {
    /// Its name in its own paper.
    pub name: String,
    /// What it says.
    pub words: String,
    /// The names of the rules that it comes to.
    pub rules: Vec<String>,
}

/// All sections of all papers, or what is wrong with a line.
pub fn sections() -> Result<Vec<Section>, String> {
    let papers: Result<Vec<Vec<Section>>, String> = PAPERS.iter().map(|text| parse(text)).collect();
    Ok(papers?.concat())
}

/// The repository's root.
pub fn root() -> PathBuf {
    Path::new(env!("CARGO_MANIFEST_DIR")).join("../..")
}
