//! What the stored files are made from, most of it texts.

use super::drills;
use crate::text;
use std::fs;
use std::path::Path;

/// A text's name and the network file that it makes; or what else a program reads.
#[derive(Clone, Debug, PartialEq, Eq)]
pub struct Case {
    pub name: String,
    pub file: Vec<u8>,
}

/// All texts of the repository, those of each folder in the order of their
/// names, and the requests.
#[derive(Clone, Debug)]
pub struct Cases {
    /// `tests/cases`: accepted files, with questions worth asking.
    pub networks: Vec<Case>,
    /// `tests/cases/reader`: files for the reader, most of them refused. Their
    /// names start with `reader/`.
    pub reader: Vec<Case>,
    /// `examples`: networks for a first try.
    pub examples: Vec<Case>,
    /// `examples/refused`: a refused file for each of the rows 1 to 9. Their
    /// names start with `refused/`.
    pub refused: Vec<Case>,
    /// The requests for drills, which are no text.
    pub drills: Case,
}

impl Cases {
    /// Reads all texts of the repository with this root.
    pub fn read(root: &Path) -> Result<Cases, String> {
        Ok(Cases {
            networks: folder(&root.join("tests/cases"), "")?,
            reader: folder(&root.join("tests/cases/reader"), "reader/")?,
            examples: folder(&root.join("examples"), "")?,
            refused: folder(&root.join("examples/refused"), "refused/")?,
            drills: drills::case(),
        })
    }
}

/// The texts of a folder, in the order of their names.
fn folder(folder: &Path, before_name: &str) -> Result<Vec<Case>, String> {
    let unreadable = |error| format!("{}: {error}", folder.display());
    let mut cases = Vec::new();
    for entry in fs::read_dir(folder).map_err(unreadable)? {
        let path = entry.map_err(unreadable)?.path();
        if path.extension().is_some_and(|ending| ending == "txt") {
            cases.push(case(&path, before_name)?);
        }
    }
    cases.sort_by(|one, other| one.name.cmp(&other.name));
    Ok(cases)
}

/// The case of one text.
fn case(path: &Path, before_name: &str) -> Result<Case, String> {
    let wrong = |what: String| format!("{}: {what}", path.display());
    let text = fs::read_to_string(path).map_err(|error| wrong(error.to_string()))?;
    let file = text::parse(&text).and_then(|recipe| recipe.file()).map_err(wrong)?;
    let stem = path.file_stem().unwrap_or_default().to_string_lossy();
    Ok(Case { name: format!("{before_name}{stem}"), file })
}
