//! What the Rust of documents 000 to 002 prints for an image, in the form of `runimage`. Arguments: images. For each one NAME.img, its answer goes to
//! standard output, or with `--into FOLDER` to FOLDER/NAME.out.

use crate::limits;
use crate::runs::{Coverage, Judges};
use crate::sample::{Image, Sample};
use std::path::Path;

fn answer(bytes: &[u8]) -> Vec<u8> {
    let sample = Sample::run_one("example", Image::read(bytes).expect("an image"));
    let mut judges = Judges::new();
    let told = judges.run(&sample, 0, limits::STEPS, &mut Coverage::new()).expect("a run that ends");
    let vm = &judges.engine.vm;
    let (operands, frames) = (vm.stack.len(), vm.call_stack.len());
    let mut out = format!(
        "end {} steps {} operands {} frames {} handlers {} value {}",
        told.end[0], told.steps, operands, frames, told.handlers, told.value
    )
    .into_bytes();
    for line in &vm.output {
        out.extend_from_slice(format!("\n>{}", line).as_bytes());
    }
    out.push(b'\n');
    out
}

pub fn main() {
    let mut into = None;
    let mut args = std::env::args().skip(1);
    while let Some(a) = args.next() {
        if a == "--into" {
            into = args.next();
            continue;
        }
        let out = answer(&std::fs::read(&a).expect("an image"));
        match &into {
            Some(folder) => {
                let name = Path::new(&a).file_stem().unwrap().to_str().unwrap();
                std::fs::write(format!("{}/{}.out", folder, name), &out).expect("the file is written");
            }
            None => print!("{}", String::from_utf8(out).unwrap()),
        }
    }
}
