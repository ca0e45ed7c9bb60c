//! The table of opcodes as the crate has it, in the lines of the program `opcodes`.
use carderwheel::opcodes::{row, Row};

fn main() {
    for b in 0..=255 {
        let Row { bytes, taken, pushed } = row(b);
        println!("{} {} {} {}", b, bytes, taken, pushed);
    }
}
