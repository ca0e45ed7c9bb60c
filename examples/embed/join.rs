//! Joins two routines to one image, as a logger does that has no compiler with it: writes the image call by call, loads it, sets a global that it reads,
//! runs it, and prints its value and its lines.
use carderwheel::{Constant, Engine, Refusal, Value, Writer, CODE_BYTES, TEXT_BYTES};
use std::sync::Mutex;

static ENGINE: Mutex<Engine> = Mutex::new(Engine::zeroed()); // all memory that the engine uses

// The opcodes used below. The number of a constant or a local follows in two bytes, high byte first, how many arguments a call has in one.
const LOAD_CONST: u8 = 0;
const LOAD_LOCAL: u8 = 1;
const LOAD_GLOBAL: u8 = 3;
const MUL: u8 = 12;
const CALL: u8 = 50;
const RETURN: u8 = 51;
const CREATE_CLOSURE: u8 = 52;
const POP: u8 = 80;
const HALT: u8 = 255;

// A function is pushed before its arguments; its call takes them all, and pushes what it returns.
const ENTRY_CODE: &[u8] = &[
    CREATE_CLOSURE, 0, 1, // log
    CREATE_CLOSURE, 0, 0, // depth
    LOAD_GLOBAL, 0, 2,    // echo
    CALL, 1,              // depth(echo)
    CALL, 1,              // log(depth(echo))
    HALT,
];

// A function's arguments are its first locals.
const DEPTH_CODE: &[u8] = &[
    LOAD_LOCAL, 0, 0, // time
    LOAD_CONST, 0, 0, // 84
    MUL, RETURN,
];

const LOG_CODE: &[u8] = &[
    LOAD_GLOBAL, 0, 0, // console
    LOAD_CONST, 0, 1,  // bed at
    LOAD_LOCAL, 0, 0,  // metres
    LOAD_CONST, 0, 2,  // m
    CALL, 3,           // prints all three
    POP,               // what console returns
    LOAD_LOCAL, 0, 0, RETURN,
];

/// A number of the engine: a signed count of 2^-32.
fn number_of(n: f64) -> i64 {
    (n * 4294967296.0) as i64
}

fn shown(bytes: &[u8]) -> std::borrow::Cow<'_, str> {
    String::from_utf8_lossy(bytes)
}

fn join<'w>(writer: &'w mut Writer<'_>) -> Result<&'w [u8], Refusal> {
    writer.begin()?;

    // template 0, where a run starts: log(depth(echo))
    writer.template(0, 0)?;
    writer.constant(Constant::Function(1))?; // its constant 0: depth, by its template
    writer.constant(Constant::Function(2))?; // 1: log
    writer.constant(Constant::Text(b"echo"))?;
    writer.code(ENTRY_CODE)?;

    // template 1, depth(time): half the two-way time in microseconds, at 168 metres a microsecond
    writer.template(1, 1)?.constant(Constant::Number(number_of(84.0)))?.code(DEPTH_CODE)?;

    // template 2, log(metres): prints them, and returns them
    writer.template(1, 1)?;
    for text in ["console", "bed at", "m"] {
        writer.constant(Constant::Text(text.as_bytes()))?;
    }
    writer.code(LOG_CODE)?;

    writer.finish()
}

fn survey(engine: &mut Engine) -> Result<(), Refusal> {
    let mut buffer = [0; CODE_BYTES];
    let mut writer = Writer::new(&mut buffer);
    let image = join(&mut writer)?;
    println!("image of {} bytes", image.len());

    engine.clear();
    let loaded = engine.load(image)?;
    engine.set_global(b"echo", Value::Number(number_of(12.5)))?; // a two-way time in microseconds, as measured

    let mut buffer = [0; TEXT_BYTES];
    let ran = engine.run(loaded)?;
    let text = engine.text(ran.value, &mut buffer)?;
    println!("end {} steps {} value {}", ran.number, ran.steps, shown(text));

    for line in engine.drain(&mut buffer)? {
        println!("> {}", shown(line));
    }
    Ok(())
}

fn main() {
    let mut engine = ENGINE.lock().expect("no other thread panicked");
    survey(&mut engine).expect("no call is refused");
}
