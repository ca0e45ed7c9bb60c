//! Every call of the Rust types, accepted and refused, with the numbers of documents 01 and 02; and that a refused call alters nothing. Prints nothing where
//! all is well.
use carderwheel::{limits, Constant, Counts, Engine, Ran, Refusal, Value, Writer, CODE_BYTES, OUTPUT_BYTES};
use std::sync::Mutex;

// Document 01's sample: a throw of 7 that is caught; a chunk whose only byte is no opcode, with an empty template after it; one that prints `ice` by a
// call of `console`, and ends; and one that enters a try for ever
const SAMPLE: [u8; 28] = [0, 1, 0, 0, 0, 0, 0, 1, 0, 0, 0, 0, 7, 0, 0, 0, 0, 0, 9, 0x4B, 0, 8, 0, 0, 0, 0x4A, 0xFF, 0xFF];
const UNKNOWN: [u8; 19] = [0, 2, 0, 0, 0, 0, 0, 0, 0, 1, 0xEE, 0, 0, 0, 0, 0, 0, 0, 0];
const PRINTING: &[u8] = b"\0\x01\0\0\0\0\0\x02\x01\0\x07console\x01\0\x03ice\0\x09\x03\0\0\0\0\x01\x32\x01\xFF";
const LEAK: [u8; 16] = [0, 1, 0, 0, 0, 0, 0, 0, 0, 6, 0x4B, 0, 0, 0x28, 0, 0];
const SEVEN: Value = Value::Number(7 << 32);
const OUTSIDE: Value = Value::CodeText(0, CODE_BYTES as u64);

static ENGINE: Mutex<Engine> = Mutex::new(Engine::zeroed());

fn bytes(engine: &Engine) -> Vec<u8> {
    // SAFETY: an engine is integers whose sizes add up to its own, so each of its bytes is written.
    unsafe { std::slice::from_raw_parts((engine as *const Engine).cast(), size_of::<Engine>()) }.to_vec()
}

// A call with this buffer is refused with this number, and alters neither.
macro_rules! refused {
    ($engine:ident, $buffer:ident, $call:expr, $number:expr) => {
        $buffer.fill(0xA5);
        let before = bytes(&$engine);
        assert_eq!($call.err(), Some(Refusal($number)));
        assert!(bytes(&$engine) == before, "a refused call altered the engine");
        assert!($buffer.iter().all(|b| *b == 0xA5), "a refused call altered the buffer");
    };
}

// All calls, from a clear on.
fn calls(engine: &mut Engine) {
    let mut buffer = [0; OUTPUT_BYTES];
    engine.clear();
    assert_eq!(engine.counts(), Counts { globals: 1, ..Engine::zeroed().counts() });
    refused!(engine, buffer, engine.load(&[]), 1);
    assert_eq!(engine.load(&SAMPLE), Ok(0));
    assert_eq!(engine.load(&UNKNOWN), Ok(1));
    assert_eq!(engine.load(PRINTING), Ok(2));

    refused!(engine, buffer, engine.run(3), 10);
    assert_eq!(engine.run(0), Ok(Ran { number: 0, steps: 4, opcode: 0, value: SEVEN }));
    assert_eq!(engine.run(1), Ok(Ran { number: 13, steps: 1, opcode: 0xEE, value: Value::Undefined }));

    assert_eq!(engine.text(SEVEN, &mut buffer), Ok(&b"7"[..]));
    refused!(engine, buffer, engine.text(SEVEN, &mut []), 31);
    assert_eq!(engine.text(Value::Number(-1 << 31), &mut buffer), Ok(&b"-0.5"[..]));
    refused!(engine, buffer, engine.text(OUTSIDE, &mut buffer), 30);
    assert_eq!(engine.text_of_bytes(b"ice", &mut buffer), Ok(&b"ice"[..]));
    refused!(engine, buffer, engine.text_of_bytes(b"\xE9", &mut buffer), 29);
    refused!(engine, buffer, engine.text_of_bytes(b"ice", &mut buffer[..2]), 31);

    refused!(engine, buffer, engine.register(0, 1), 32);
    let function = engine.register(1, 1);
    assert_eq!(function, Ok(Value::Function(0)));

    for value in [Value::Undefined, Value::Null, Value::Boolean(true), Value::Boolean(false), SEVEN, Value::Number(-1), Value::CodeText(0, 2), Value::Object(0), function.unwrap()] {
        assert_eq!(engine.set_global(b"depth", value), Ok(()));
        assert_eq!(engine.read_global(b"depth"), Ok(value));
    }
    refused!(engine, buffer, engine.set_global(b"depth", OUTSIDE), 30);
    assert_eq!(engine.set_global_text(b"line", b"line 7"), Ok(()));
    let line = engine.read_global(b"line").unwrap();
    assert_eq!(engine.text(line, &mut buffer), Ok(&b"line 7"[..]));
    refused!(engine, buffer, engine.set_global_text(b"line", b"\x80"), 29);
    refused!(engine, buffer, engine.read_global(b"\x80"), 29);
    assert_eq!(engine.read_global(b"nobody's"), Ok(Value::Undefined));

    assert_eq!(engine.drain(&mut []).unwrap().count(), 0);
    assert_eq!(engine.run(2).unwrap().number, 0);
    refused!(engine, buffer, engine.drain(&mut buffer[..4]), 31);
    assert!(engine.drain(&mut buffer).unwrap().eq([b"ice"]));
    assert_eq!(engine.drain(&mut buffer).unwrap().count(), 0);

    let leak = engine.load(&LEAK).unwrap();
    assert_eq!(engine.run(leak), Ok(Ran { number: 22, steps: 2 * limits::HANDLERS + 1, opcode: 0, value: Value::Undefined }));
    assert_eq!((engine.counts().handlers, engine.counts().ip), (limits::HANDLERS, 0));
}

// A call of the writer is refused with this number, and alters neither its state nor a byte of its buffer: its Debug shows both.
macro_rules! unwritten {
    ($writer:ident, $call:expr, $number:expr) => {
        let before = format!("{:?}", $writer);
        assert_eq!($call.err(), Some(Refusal($number)));
        assert!(format!("{:?}", $writer) == before, "a refused call altered the writer");
    };
}

const CONSTANTS: [(Constant, usize); 8] = [
    (Constant::Number(7 << 32), 9),
    (Constant::Text(b"ice"), 6),
    (Constant::Text(b""), 3),
    (Constant::Boolean(true), 2),
    (Constant::Boolean(false), 2),
    (Constant::Null, 1),
    (Constant::Undefined, 1),
    (Constant::Function(65535), 3),
];

fn no_item(writer: &mut Writer) {
    for (constant, _) in CONSTANTS {
        unwritten!(writer, writer.constant(constant), 34);
    }
    unwritten!(writer, writer.code(&[0xFF]), 34);
    unwritten!(writer, writer.code(&[]), 34);
}

fn nothing_but_begin(writer: &mut Writer) {
    no_item(writer);
    unwritten!(writer, writer.template(0, 0), 34);
    unwritten!(writer, writer.finish(), 34);
}

// All calls of the writer.
fn writes(engine: &mut Engine) -> Result<(), Refusal> {
    let mut empty = Writer::new(&mut []);
    nothing_but_begin(&mut empty);
    unwritten!(empty, empty.begin(), 31);
    assert_eq!(empty.written(), []);

    // document 01's sample, after an image that a begin leaves unfinished
    let mut buffer = [0xA5; 64];
    let mut writer = Writer::new(&mut buffer);
    nothing_but_begin(&mut writer);
    assert_eq!(writer.begin()?.written(), [0, 0]);
    no_item(&mut writer);
    writer.template(5, 6)?.constant(Constant::Text(b"ice"))?;
    assert_eq!(writer.begin()?.written(), [0, 0]);
    assert_eq!(writer.template(0, 0)?.written(), [0, 1, 0, 0, 0, 0, 0, 0, 0, 0]);
    writer.constant(Constant::Number(7 << 32))?;
    assert_eq!(writer.written(), [0, 1, 0, 0, 0, 0, 0, 1, 0, 0, 0, 0, 7, 0, 0, 0, 0, 0, 0]);
    writer.code(&SAMPLE[19..])?;
    no_item(&mut writer);
    assert_eq!(writer.finish()?, SAMPLE);
    nothing_but_begin(&mut writer);
    assert_eq!(writer.written(), SAMPLE);
    engine.clear();
    let loaded = engine.load(writer.written())?;
    assert_eq!(engine.run(loaded)?.value, SEVEN);
    assert_eq!(buffer[28..], [0xA5; 36]);

    // each kind of constant; code of no bytes is code
    let mut writer = Writer::new(&mut buffer);
    writer.begin()?.template(0x0102, 0x0304)?.constant(Constant::Number(-2))?.constant(Constant::Text(b"ice"))?.constant(Constant::Text(b""))?;
    writer.constant(Constant::Boolean(true))?.constant(Constant::Boolean(false))?.constant(Constant::Null)?.constant(Constant::Undefined)?;
    writer.constant(Constant::Function(1))?.template(0, 0)?.code(&[])?;
    no_item(&mut writer);
    let image = writer.finish()?;
    assert_eq!(image, b"\0\x02\x01\x02\x03\x04\0\x08\0\xFF\xFF\xFF\xFF\xFF\xFF\xFF\xFE\x01\0\x03ice\x01\0\0\x02\x01\x02\0\x03\x04\x05\0\x01\0\0\0\0\0\0\0\0\0\0");
    engine.load(image)?;

    // what load refuses is not the writer's to judge
    let mut writer = Writer::new(&mut buffer);
    assert_eq!(engine.load(writer.begin()?.finish()?), Err(Refusal(2)));
    assert_eq!(engine.load(writer.begin()?.template(0, 0)?.constant(Constant::Text(b"\xC8"))?.written()), Err(Refusal(5)));
    assert_eq!(engine.load(writer.begin()?.template(0, 0)?.constant(Constant::Function(0))?.written()), Err(Refusal(6)));

    // the bytes that each call takes
    let mut writer = Writer::new(&mut buffer[..1]);
    unwritten!(writer, writer.begin(), 31);
    let mut writer = Writer::new(&mut buffer[..2]);
    writer.begin()?;
    unwritten!(writer, writer.template(65535, 65535), 31);
    unwritten!(writer, writer.template(65536, 0), 34);
    unwritten!(writer, writer.template(0, 65536), 34);
    unwritten!(writer, writer.template(1 << 32, 0), 34);
    unwritten!(writer, writer.template(0, 1 << 32), 34);
    writer.finish()?;
    for (constant, bytes) in CONSTANTS {
        let mut writer = Writer::new(&mut buffer[..10 + bytes - 1]);
        writer.begin()?.template(65535, 65535)?;
        unwritten!(writer, writer.constant(constant), 31);
        let mut writer = Writer::new(&mut buffer[..10 + bytes]);
        assert_eq!(writer.begin()?.template(65535, 65535)?.constant(constant)?.code(&[])?.written().len(), 10 + bytes);
    }
    let mut writer = Writer::new(&mut buffer[..10]);
    writer.begin()?.template(0, 0)?;
    unwritten!(writer, writer.template(0, 0), 31);
    unwritten!(writer, writer.code(&[0xFF]), 31);
    unwritten!(writer, writer.code(&[0; 65535]), 31);
    unwritten!(writer, writer.code(&[0; 65536]), 34);
    unwritten!(writer, writer.constant(Constant::Text(&[0; 65535])), 31);
    unwritten!(writer, writer.constant(Constant::Text(&[0; 65536])), 34);
    unwritten!(writer, writer.constant(Constant::Function(65536)), 34);
    unwritten!(writer, writer.constant(Constant::Function(1 << 32)), 34);
    assert_eq!(writer.written(), [0, 1, 0, 0, 0, 0, 0, 0, 0, 0]);

    // counts and lengths up to 65,535, and no further
    let mut large = vec![0xA5; 2 + 8 * 65536];
    let mut writer = Writer::new(&mut large);
    writer.begin()?.template(65535, 65535)?.constant(Constant::Text(&[0; 65535]))?.code(&[0; 65535])?;
    let image = writer.finish()?;
    assert_eq!(image.len(), 10 + 65538 + 65535);
    assert_eq!(image[..11], [0, 1, 0xFF, 0xFF, 0xFF, 0xFF, 0, 1, 1, 0xFF, 0xFF]);
    assert_eq!(image[11 + 65535..][..3], [0xFF, 0xFF, 0]);
    writer.begin()?;
    for _ in 0..65535 {
        writer.template(0, 0)?;
    }
    unwritten!(writer, writer.template(0, 0), 34);
    assert_eq!(writer.written().len(), 2 + 8 * 65535);
    writer.begin()?.template(0, 0)?;
    for _ in 0..65535 {
        writer.constant(Constant::Null)?;
    }
    unwritten!(writer, writer.constant(Constant::Null), 34);
    assert_eq!(writer.finish()?[..8], [0, 1, 0, 0, 0, 0, 0xFF, 0xFF]);
    Ok(())
}

fn main() {
    let mut engine = ENGINE.lock().unwrap();
    let mut buffer = [0; 8];
    calls(&mut engine);

    // Memory that something has overwritten: its counts pass their stores, and clear makes a fresh engine of it.
    // SAFETY: an engine is integers, and these have no bytes that they could not be of.
    unsafe { std::ptr::write_bytes(&mut *engine, 0xFF, 1) };
    refused!(engine, buffer, engine.load(&SAMPLE), 33);
    refused!(engine, buffer, engine.run(0), 33);
    refused!(engine, buffer, engine.text(SEVEN, &mut buffer), 33);
    calls(&mut engine);

    writes(&mut engine).unwrap();
}
