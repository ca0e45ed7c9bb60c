//! Heights below the datum: sets the surface's height for the routine that its argument names (examples/datum.img), runs it, and prints the height of the bed that
//! the routine leaves, as the engine writes it and as the host computes it, and the lines.
use carderwheel::{limits, Engine, Refusal, Value, CODE_BYTES};
use std::sync::Mutex;

static ENGINE: Mutex<Engine> = Mutex::new(Engine::zeroed());

/// A number of the engine is a signed count of 2^-32; below zero, too.
fn number_of(n: f64) -> Value {
    Value::Number((n * 4294967296.0) as i64)
}

fn shown(bytes: &[u8]) -> std::borrow::Cow<'_, str> {
    String::from_utf8_lossy(bytes)
}

fn survey(engine: &mut Engine, image: &[u8]) -> Result<(), Refusal> {
    let mut text = [0; limits::NUMBER_BYTES]; // any number's text
    let mut lines = [0; limits::OUTPUT_BYTES];
    engine.clear();
    let loaded = engine.load(image)?;
    engine.set_global(b"surface", number_of(-12.25))?;
    let ran = engine.run(loaded)?;
    assert_eq!(ran.number, 0, "the routine ends");

    let bed = engine.read_global(b"bed")?;
    let Value::Number(raw) = bed else { panic!("the routine leaves a number") };
    println!("bed {} m, {:.1} m", shown(engine.text(bed, &mut text)?), raw as f64 / 4294967296.0);

    for line in engine.drain(&mut lines)? {
        println!("> {}", shown(line));
    }
    Ok(())
}

fn main() {
    let path = std::env::args_os().nth(1).expect("usage: datum IMAGE");
    let image = std::fs::read(path).expect("the image can be read");
    assert!(image.len() <= CODE_BYTES, "no image is larger than the code store");
    let mut engine = ENGINE.lock().expect("no other thread panicked");
    survey(&mut engine, &image).expect("no call is refused");
}
