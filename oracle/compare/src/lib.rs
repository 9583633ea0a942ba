//! Operations as data, inputs for them, the sides that answer
//! them, and the rows where the Rust is overridden.

pub mod antt;
pub mod calls;
pub mod captures;
pub mod generate;
pub mod histories;
pub mod library;
pub mod limits;
pub mod operation;
pub mod program;
pub mod reception;
pub mod rng;
pub mod rows;
#[cfg(rtcp_types)]
pub mod rust;
#[cfg(rtcp_types)]
pub mod sample;
pub mod side;
pub mod text;
pub mod view;

/// The next arguments of a command: how many, or so many, and the seed, or 1.
pub fn count_and_seed(arguments: &mut impl Iterator<Item = String>, many: u64) -> (usize, u64) {
    let mut number = |default| {
        arguments.next().map_or(default, |text| {
            text.parse().expect("how many and the seed are numbers")
        })
    };
    (number(many) as usize, number(1))
}
