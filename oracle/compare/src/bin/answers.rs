//! Prints the model's answers to the rows of the program `rows`:
//!
//!     answers < crates/rows/stdin | diff - crates/rows/stdout

use compare::program::lines;

fn main() {
    let input = std::io::read_to_string(std::io::stdin()).expect("text");
    for line in lines(&input) {
        println!("{line}");
    }
}
