//! Datagrams through the C functions.
//!
//!     compounds [COUNT] [SEED]
//!
//! COUNT lists of writer calls against the book; the real
//! datagrams (`compare::captures`) with the answer that each must get; and long
//! datagrams. The exit status is 1 where something differs.

mod long;
mod real;

use compare::calls;
use compare::library::about_library;
use std::process::ExitCode;

fn main() -> ExitCode {
    let (count, seed) = compare::count_and_seed(&mut std::env::args().skip(1), 100_000);
    println!("{}", about_library());
    if !library::present() {
        return ExitCode::SUCCESS;
    }
    let right = [calls::run(count, seed), real::run(), long::run()];
    ExitCode::from(u8::from(!right.iter().all(|right| *right)))
}
