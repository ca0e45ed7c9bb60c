//! Prints the crate's limits, by the header's names, and the engine's bytes, as limits.c does.
use carderwheel::{limits, Engine};

macro_rules! print {
    ($($name:ident)*) => { $(println!("{} {}", stringify!($name), limits::$name);)* };
}

fn main() {
    print!(OPERANDS SLOTS FRAMES HANDLERS FUNCTIONS OBJECTS PROPERTIES GLOBALS CODE_BYTES IMAGES TEXT_BYTES OUTPUT_BYTES NUMBER_BYTES STEPS);
    println!("bytes {}", size_of::<Engine>());
}
