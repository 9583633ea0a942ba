//! Derives lib.rs from the crate's own: without the modules that lean on files
//! that are not at hand, and with a way to two private functions of sdes.rs.

use std::path::{Path, PathBuf};
use std::{env, fs};

const LEFT_OUT: [&str; 3] = ["compound", "feedback", "xr"];

const WRAPPERS: &str = "
    /// Reaches `SdesItem::parse`.
    pub fn parse_item(data: &[u8]) -> Result<(SdesItem<'_>, usize), RtcpParseError> {
        SdesItem::parse(data)
    }

    /// Reaches `SdesChunk::parse`.
    pub fn parse_chunk(data: &[u8]) -> Result<(SdesChunk<'_>, usize), RtcpParseError> {
        SdesChunk::parse(data)
    }
";

fn main() {
    let folder = sources();
    println!("cargo::rerun-if-env-changed=RTCP_TYPES_SRC");
    println!("cargo::rerun-if-changed=build.rs");
    println!("cargo::rerun-if-changed={}", folder.display());
    let derived = match fs::read_to_string(folder.join("lib.rs")) {
        Ok(lib) => {
            println!("cargo::metadata=present=1");
            println!("cargo::metadata=folder={}", folder.display());
            derive(&lib, &folder)
        }
        Err(_) => String::new(),
    };
    let out = PathBuf::from(env::var_os("OUT_DIR").expect("cargo sets OUT_DIR"));
    fs::write(out.join("lib.rs"), derived).expect("OUT_DIR can be written");
}

/// The folder with the crate's lib.rs. A relative path counts from the
/// project's root.
fn sources() -> PathBuf {
    let package = env::var_os("CARGO_MANIFEST_DIR").expect("cargo sets CARGO_MANIFEST_DIR");
    let root = Path::new(&package).join("../..");
    let named = env::var_os("RTCP_TYPES_SRC").unwrap_or_else(|| "../shared/docs/src".into());
    root.join(named).join("src")
}

fn derive(lib: &str, folder: &Path) -> String {
    let mut derived = String::new();
    for statement in statements(lib) {
        if let Some(name) = module(&statement) {
            derived += &module_in(folder, name, &statement);
        } else if !is_left_out(&statement) {
            derived += &without_left_out_names(&statement);
        }
    }
    derived
}

/// The lines, with a `use` of several lines as one. Inner attributes and inner
/// documentation cannot stand in an included file and are dropped.
fn statements(lib: &str) -> Vec<String> {
    let mut statements: Vec<String> = Vec::new();
    let mut open = false;
    for line in lib.lines() {
        if line.starts_with("#![") || line.starts_with("//!") {
            continue;
        }
        if open {
            let last = statements.last_mut().expect("a statement is open");
            last.push_str(line);
            last.push('\n');
        } else {
            statements.push(format!("{line}\n"));
            open = line.trim_start().starts_with("pub use ");
        }
        open &= !line.trim_end().ends_with(';');
    }
    statements
}

/// The name in `mod name;`.
fn module(statement: &str) -> Option<&str> {
    statement
        .trim_start_matches("pub ")
        .strip_prefix("mod ")?
        .trim_end()
        .strip_suffix(';')
}

fn module_in(folder: &Path, name: &str, statement: &str) -> String {
    let path = folder.join(format!("{name}.rs"));
    if LEFT_OUT.contains(&name) {
        String::new()
    } else if name == "sdes" {
        format!(
            "/// The crate's sdes.rs.\npub mod sdes {{\n    include!({path:?});\n{WRAPPERS}}}\n"
        )
    } else {
        format!("#[path = {path:?}]\n{statement}")
    }
}

fn is_left_out(statement: &str) -> bool {
    LEFT_OUT
        .iter()
        .any(|name| statement.starts_with(&format!("pub use {name}::")))
}

/// The prelude also names traits of the modules left out.
fn without_left_out_names(statement: &str) -> String {
    let Some((before, names)) = statement.split_once("super::{") else {
        return statement.to_string();
    };
    let kept: Vec<&str> = names
        .split(|c: char| !c.is_alphanumeric() && c != '_')
        .filter(|name| !name.is_empty() && !name.starts_with("Fci") && !name.starts_with("Xr"))
        .collect();
    format!("{before}super::{{{}}};\n", kept.join(", "))
}
