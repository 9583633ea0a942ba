//! A datagram, and where it comes from.

use crate::time::Time;
use std::fmt;
use std::net::SocketAddr;

pub struct Datagram<'a> {
    pub number: u64,
    pub from: &'a Origin<'a>,
    pub data: &'a [u8],
}

/// Where a datagram stands, and who sent it.
pub struct Origin<'a> {
    /// The name of the file, to print.
    pub file: &'a str,
    pub place: Place,
    /// What the file says of it, to print; empty where it says nothing.
    pub label: String,
    pub time: Option<Time>,
    pub addresses: Option<(SocketAddr, SocketAddr)>,
}

pub enum Place {
    /// The file is one datagram.
    Whole,
    Line(u64),
    /// The record's number from 1, and its offset.
    Record(u64, u64),
}

impl<'a> Origin<'a> {
    /// A place of which nothing else is said.
    pub fn of(file: &'a str, place: Place) -> Self {
        Origin {
            file,
            place,
            label: String::new(),
            time: None,
            addresses: None,
        }
    }

    /// The sender, as well as it is known: an address, a label or a file.
    pub fn sender(&self) -> String {
        match (&self.addresses, self.label.as_str()) {
            (Some((source, _)), _) => source.to_string(),
            (None, "") => self.file.into(),
            (None, label) => label.into(),
        }
    }
}

impl fmt::Display for Origin<'_> {
    fn fmt(&self, f: &mut fmt::Formatter<'_>) -> fmt::Result {
        write!(f, "{}", self.file)?;
        match self.place {
            Place::Whole => (),
            Place::Line(line) => write!(f, " line {line}")?,
            Place::Record(number, at) => write!(f, " record {number} at offset {at}")?,
        }
        if !self.label.is_empty() {
            write!(f, ", {}", self.label)?;
        }
        if let Some(time) = self.time {
            write!(f, ", {time}")?;
        }
        if let Some((source, destination)) = self.addresses {
            write!(f, ", {source} to {destination}")?;
        }
        Ok(())
    }
}
