//! For the measurements of bench/run, beside crates/repeat: reads a count in decimal, a line end and an image from standard input; then runs the image that
//! many times, each time on a new JsVm, and prints the last run's end. document 000 keeps its step count to itself: `--steps` prints it, from one
//! run on the copy that is stepped.

use crate::plain::js_vm::JsVm;
use crate::limits;
use crate::runs::{Coverage, Judges};
use crate::sample::{Image, Sample};
use std::io::Read;

pub fn main() {
    let mut input = Vec::new();
    std::io::stdin().read_to_end(&mut input).expect("standard input");
    let end = input.iter().position(|b| *b == b'\n').expect("a line");
    let count: usize = std::str::from_utf8(&input[..end]).unwrap().parse().expect("a count");
    let image = Image::read(&input[end + 1..]).expect("an image");
    if std::env::args().nth(1).as_deref() == Some("--steps") {
        let told = Judges::new().run(&Sample::run_one("bench", image), 0, limits::STEPS, &mut Coverage::new());
        let told = told.expect("a run that ends");
        println!("end {} steps {}", told.end[0], told.steps);
        return;
    }
    let chunk = image.chunk(0);
    let mut last = None;
    for _ in 0..count {
        last = Some(JsVm::new().run_chunk(std::hint::black_box(&chunk)));
    }
    println!("{:?}", last);
}
