//! Loads the survey routine that its argument names, sets a global that the routine reads, runs it, and prints its value and its lines.
use carderwheel::{Engine, Refusal, Value, CODE_BYTES, TEXT_BYTES};
use std::sync::Mutex;

static ENGINE: Mutex<Engine> = Mutex::new(Engine::zeroed()); // all memory that the engine uses

/// A number of the engine: a signed count of 2^-32.
fn number_of(n: f64) -> Value {
    Value::Number((n * 4294967296.0) as i64)
}

fn shown(bytes: &[u8]) -> std::borrow::Cow<'_, str> {
    String::from_utf8_lossy(bytes)
}

fn survey(engine: &mut Engine, image: &[u8]) -> Result<(), Refusal> {
    let mut buffer = [0; TEXT_BYTES];
    engine.clear();
    let loaded = engine.load(image)?;
    engine.set_global(b"volts", number_of(12.25))?;

    let ran = engine.run(loaded)?;
    let text = engine.text(ran.value, &mut buffer)?;
    println!("end {} steps {} value {}", ran.number, ran.steps, shown(text));

    let spacing = engine.read_global(b"spacing")?;
    println!("spacing {}", shown(engine.text(spacing, &mut buffer)?));

    for line in engine.drain(&mut buffer)? {
        println!("> {}", shown(line));
    }
    Ok(())
}

fn main() {
    let path = std::env::args_os().nth(1).expect("usage: embed IMAGE");
    let image = std::fs::read(path).expect("the image can be read");
    assert!(image.len() <= CODE_BYTES, "no image is larger than the code store");
    let mut engine = ENGINE.lock().expect("no other thread panicked");
    survey(&mut engine, &image).expect("no call is refused");
}
