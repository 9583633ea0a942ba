//! Real datagrams: the files of a folder that end in .hex, each line a name, a
//! tab and a datagram in hexadecimal. `RTCP_CAPTURES` names the folder (default
//! `../shared/captures`; a relative path counts from the project's root).

use crate::text::from_hex;
use std::path::Path;

pub struct Capture {
    pub name: String,
    pub bytes: Vec<u8>,
}

/// Nothing where the folder is not there.
pub fn captures() -> Option<Vec<Capture>> {
    let root = Path::new(env!("CARGO_MANIFEST_DIR")).join("../..");
    let named = std::env::var_os("RTCP_CAPTURES").unwrap_or_else(|| "../shared/captures".into());
    let folder = std::fs::read_dir(root.join(named)).ok()?;
    let mut files: Vec<_> = folder.filter_map(|file| Some(file.ok()?.path())).collect();
    files.sort();
    let captures = files
        .iter()
        .filter(|file| file.extension().is_some_and(|end| end == "hex"))
        .filter_map(|file| std::fs::read_to_string(file).ok())
        .flat_map(|text| text.lines().map(capture).collect::<Vec<_>>());
    Some(captures.collect())
}

fn capture(line: &str) -> Capture {
    let (name, bytes) = line.rsplit_once('\t').unwrap_or(("", line));
    Capture {
        name: name.to_string(),
        bytes: from_hex(bytes),
    }
}
