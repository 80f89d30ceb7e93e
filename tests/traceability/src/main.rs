//! Makes `docs/RULES.md` of the rules.

use std::fs;

fn main() -> Result<(), String> {
    let document = traceability::table(&traceability::sections()?);
    let file = traceability::root().join("docs/RULES.md");
    fs::write(&file, document).map_err(|error| format!("{}: {error}", file.display()))
}
