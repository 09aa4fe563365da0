//! The sheets that are stored in the folder hard, with their verdicts.

use crate::families::Sample;
use crate::sheet;
use std::path::{Path, PathBuf};

pub const FAMILY: &str = "stored";

/// Pigeons whose holes another view tells apart: the time asked of hard sheets is not asked of these.
const TOLD_APART: &str = "pigeons_9_8_told_apart";

fn folder() -> PathBuf {
    Path::new(env!("CARGO_MANIFEST_DIR")).join("hard")
}

/// Names and verdicts, a line each: NAME VERDICT and some words.
fn verdicts(text: &str) -> Result<Vec<(String, u8)>, String> {
    let mut known: Vec<(String, u8)> = Vec::new();
    for line in text.lines() {
        let mut words = line.split_whitespace();
        let (Some(name), Some(verdict)) = (words.next(), words.next()) else {
            return Err(format!("verdicts.txt: no name and verdict in \"{line}\""));
        };
        let Some(verdict) = ["0", "1", "2"].iter().position(|v| *v == verdict) else {
            return Err(format!("verdicts.txt: {verdict} is no verdict, of {name}"));
        };
        if known.iter().any(|(other, _)| other == name) {
            return Err(format!("verdicts.txt: two lines of {name}"));
        }
        known.push((name.to_string(), verdict as u8));
    }
    Ok(known)
}

/// Every sheet of the folder, by name. A sheet without a verdict, a verdict without a sheet, and a sheet that is sent back are errors.
pub fn sheets() -> Result<Vec<Sample>, String> {
    let said = |error: std::io::Error| format!("{}: {error}", folder().display());
    let text = std::fs::read_to_string(folder().join("verdicts.txt")).map_err(said)?;
    let mut known = verdicts(&text)?;
    let mut names = Vec::new();
    for entry in std::fs::read_dir(folder()).map_err(said)? {
        let path = entry.map_err(said)?.path();
        if path.extension().is_some_and(|e| e == "sheet") {
            names.push(path.file_stem().unwrap().to_string_lossy().into_owned());
        }
    }
    names.sort();
    let mut samples = Vec::new();
    for name in names {
        let Some(at) = known.iter().position(|(other, _)| *other == name) else {
            return Err(format!("verdicts.txt: no line of {name}.sheet"));
        };
        let (_, verdict) = known.remove(at);
        let bytes = std::fs::read(folder().join(format!("{name}.sheet"))).map_err(said)?;
        let sheet = sheet::read(&bytes).map_err(|r| format!("{name}.sheet is sent back by {} in line {}", r.number, r.line))?;
        let excused = name == TOLD_APART;
        samples.push(Sample { verdict: Some(verdict), excused, ..Sample::new(FAMILY, name, sheet) });
    }
    match known.first() {
        Some((name, _)) => Err(format!("verdicts.txt: a line of {name}, and no such sheet")),
        None => Ok(samples),
    }
}
