//! Reads `assise.h`: its constants, and what it says of each fault.

use std::fs;
use std::path::Path;

const PREFIX: &str = "ASSISE_";
const UNUSED: &str = "#[allow(dead_code)]\n";

/// Each enum of the header, the module that has its numbers in Rust, and their type there.
const ENUMS: [(&str, &str, &str); 8] = [
    ("enum assise_call", "call", "u32"),
    ("enum assise_kind", "kind", "u32"),
    ("enum assise_durability", "durability", "u64"),
    ("enum assise_link", "link", "u32"),
    ("enum assise_phase", "phase", "u64"),
    ("enum assise_standing", "standing", "u64"),
    ("enum assise_stands", "stands", "u64"),
    ("enum assise_fault", "fault", "i64"),
];

/// The header's text without comments.
pub struct Header {
    text: String,
}

impl Header {
    /// Reads a header. The build runs again once it changes.
    pub fn read(path: &Path) -> Result<Header, String> {
        println!("cargo:rerun-if-changed={}", path.display());
        let text = fs::read_to_string(path).map_err(|why| format!("can't read {path:?}: {why}"))?;
        Ok(Header { text: without_comments(&text) })
    }

    /// All that the crate has of the header, as a module of Rust.
    pub fn in_rust(&self) -> Result<String, String> {
        let mut out = UNUSED.to_string() + &module("define", &self.defines()?);
        for (title, name, kind) in ENUMS {
            let rows: Vec<_> = self.members(title)?.into_iter().map(|(name, number)| constant(&name, kind, &number)).collect();
            // A call that the crate doesn't make is warned of.
            out += if name == "call" { "" } else { UNUSED };
            out += &module(name, &rows);
        }
        Ok(out + &self.faults()?)
    }

    /// The two structs that a request crosses in.
    pub fn desk(&self) -> Result<String, String> {
        let mut out = String::new();
        for title in ["struct assise_request {", "struct assise_desk {"] {
            out += &format!(" {title} {} }}", self.between(title, "}")?);
        }
        Ok(out.split_whitespace().collect::<Vec<_>>().join(" "))
    }

    /// Each `#define` of a value: a number, or a text in quotes.
    fn defines(&self) -> Result<Vec<String>, String> {
        let rows = self.text.lines().filter_map(|line| line.strip_prefix("#define ")?.trim().split_once(' '));
        let rows = rows.filter(|row| !row.0.contains('(')).map(|(name, value)| match value.trim() {
            text if text.starts_with('"') => Ok(constant(name, "&str", text)),
            number => Ok(constant(name, "u64", number_in(name, number)?)),
        });
        rows.collect()
    }

    /// The names of an enum with their numbers.
    fn members(&self, title: &str) -> Result<Vec<(String, String)>, String> {
        let body = self.between(&format!("{title} {{"), "}")?;
        let members = body.split(',').map(str::trim).filter(|member| !member.is_empty());
        let rows = members.map(|member| {
            let (name, number) = member.split_once('=').ok_or(format!("{member} has no number in the header"))?;
            Ok((name.trim().to_string(), number_in(name, number.trim())?.to_string()))
        });
        rows.collect()
    }

    /// A table of all faults, each with the system's number that is nearest to it and its text.
    fn faults(&self) -> Result<String, String> {
        let (numbers, texts) = (self.cases("int assise_errno(")?, self.cases("char *assise_text(")?);
        let mut out = "pub(crate) const FAULTS: &[crate::faults::Fault] = &[\n".to_string();
        for (name, code) in self.members("enum assise_fault")? {
            let text = texts.iter().find(|row| row.0 == name).ok_or(format!("assise_text has no {name}"))?;
            let number = numbers.iter().find(|row| row.0 == name || row.0.is_empty()).ok_or(format!("assise_errno has no {name}"))?;
            out += &format!("    crate::faults::Fault {{ code: {code}, errno: crate::errno::{}, text: {} }},\n", number.1, text.1);
        }
        Ok(out + "];\n")
    }

    /// What a function with one switch returns in each case, in the order of the cases. The last, without a name, is the default's for a
    /// number below 0.
    fn cases(&self, function: &str) -> Result<Vec<(String, String)>, String> {
        let mut rows = Vec::new();
        for statement in self.between(function, "\n}")?.split(';') {
            let Some((labels, value)) = statement.split_once("return ") else { continue };
            let labels = labels.split("case ").skip(1).filter_map(|label| label.split_once(':'));
            rows.extend(labels.map(|label| (label.0.trim().to_string(), value.trim().to_string())));
            if let Some((below, _)) = value.split_once('?').and_then(|parts| parts.1.split_once(':')) {
                rows.push((String::new(), below.trim().to_string()));
            }
        }
        Ok(rows)
    }

    fn between(&self, begin: &str, end: &str) -> Result<&str, String> {
        let behind = self.text.split_once(begin).and_then(|parts| parts.1.split_once(end));
        Ok(behind.ok_or(format!("the header has no {begin:?}"))?.0)
    }
}

fn without_comments(text: &str) -> String {
    let mut parts = text.split("/*");
    let first = parts.next().unwrap_or_default().to_string();
    parts.filter_map(|part| part.split_once("*/")).fold(first, |code, part| code + part.1)
}

/// The text of a number, if it is one.
fn number_in<'a>(name: &str, text: &'a str) -> Result<&'a str, String> {
    text.parse::<i64>().map(|_| text).map_err(|_| format!("{name} is no number in the header, but {text}"))
}

fn constant(name: &str, kind: &str, value: &str) -> String {
    format!("    pub(crate) const {}: {kind} = {value};\n", name.strip_prefix(PREFIX).unwrap_or(name))
}

fn module(name: &str, rows: &[String]) -> String {
    format!("pub(crate) mod {name} {{\n{}}}\n", rows.concat())
}
