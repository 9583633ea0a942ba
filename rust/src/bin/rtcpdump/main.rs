//! Reads RTCP datagrams from files and prints every field of every packet, or
//! the refusal. All reading of RTCP is done by the crate `bokyjave`.

#![forbid(unsafe_code)]

mod brief;
mod datagram;
mod drawings;
mod dump;
mod fault;
mod fields;
mod fragments;
mod hex;
mod html;
mod input;
mod interface;
mod ip;
mod json;
mod kind;
mod lines;
mod link;
mod options;
mod order;
mod out;
mod pcap;
mod pcapng;
mod print;
mod record;
mod rules;
mod series;
mod sources;
mod summary;
mod svg;
mod tables;
mod text;
mod time;

use dump::Dump;
use options::{Asked, Options, USAGE};
use out::Out;
use std::ffi::OsStr;
use std::fs::File;
use std::io::{self, Read, Write};
use std::process::ExitCode;

fn main() -> ExitCode {
    let (version, commit) = (env!("CARGO_PKG_VERSION"), bokyjave::proved_from());
    let version = format!("rtcpdump {version}, library proved from commit {commit}\n");
    match Options::of(std::env::args_os().skip(1)) {
        Ok(Asked::Dump(options)) => ended(run(&options)),
        Ok(Asked::Usage) => ended(print(USAGE)),
        Ok(Asked::Version) => ended(print(&version)),
        Err(message) => {
            let _ = write!(io::stderr(), "rtcpdump: {message}\n\n{USAGE}");
            ExitCode::from(2)
        }
    }
}

fn print(text: &str) -> io::Result<bool> {
    io::stdout().write_all(text.as_bytes())?;
    Ok(true)
}

/// The exit status: whether all was read, and could be printed.
fn ended(run: io::Result<bool>) -> ExitCode {
    match run {
        Ok(true) => ExitCode::SUCCESS,
        Ok(false) => ExitCode::FAILURE,
        // Whoever reads the output has seen enough.
        Err(error) if error.kind() == io::ErrorKind::BrokenPipe => ExitCode::SUCCESS,
        Err(error) => {
            let _ = writeln!(io::stderr(), "rtcpdump: standard output: {error}");
            ExitCode::FAILURE
        }
    }
}

/// Whether all files are read whole.
fn run(options: &Options) -> io::Result<bool> {
    let out = Out::new();
    let mut dump = Dump::new(options, out.clone());
    for file in &options.files {
        let name = match file.to_str() {
            Some("-") => "standard input".into(),
            _ => text::escaped(file.as_encoded_bytes()),
        };
        match opened(file) {
            Ok(source) => dump.file(&name, out.before(source))?,
            Err(error) => dump.damage(&name, &error.to_string())?,
        }
    }
    dump.finish()
}

fn opened(file: &OsStr) -> io::Result<Box<dyn Read>> {
    match file.to_str() {
        Some("-") => Ok(Box::new(io::stdin().lock())),
        _ => Ok(Box::new(File::open(file)?)),
    }
}
