//! The script engine of the ice-radar logger, as a safe type that owns its stores.
//!
//! [`Engine`] is a plain struct of some 350 KiB ([`limits`] says how much it holds): a `static` behind a lock, a field, or a box of the user's. [`Writer`]
//! makes images for it, in a buffer of the user's, and [`opcodes`] has the table of opcodes. Nothing is allocated. Every call answers with the number of document 01 or 02 where it is refused, and
//! then has altered nothing; a run that started is not refused, however it ends. docs/EMBEDDING.md has the calling order and what to do about each number.
#![no_std]
#![deny(missing_docs, unsafe_op_in_unsafe_fn, clippy::undocumented_unsafe_blocks)]

const _: () = assert!(usize::BITS == 64, "the library takes and gives sizes of 64 bits");

pub mod limits;
pub mod opcodes;
mod writer;

use limits::*;
pub use limits::{CODE_BYTES, OUTPUT_BYTES, TEXT_BYTES};
pub use writer::{Constant, Writer};

const STACK_WORDS: usize = 3 * OPERANDS + 3 * SLOTS + 5 * FRAMES + 3 * HANDLERS;
const HEAP_WORDS: usize = 2 * FUNCTIONS + OBJECTS + 6 * PROPERTIES + 6 * GLOBALS;

/// Why a call was refused: the number that document 01 or 02 has for it.
#[derive(Clone, Copy, Debug, PartialEq, Eq)]
pub struct Refusal(pub u64);

/// A value of a script. Texts are handles: a place in a store and a number of bytes.
#[derive(Clone, Copy, Debug, PartialEq, Eq)]
pub enum Value {
    /// `undefined`
    Undefined,
    /// `null`
    Null,
    /// `true` or `false`
    Boolean(bool),
    /// A signed count of 2^-32.
    Number(i64),
    /// A text of a loaded image: place and bytes.
    CodeText(u64, u64),
    /// A text that a script made or the host gave: place and bytes.
    MadeText(u64, u64),
    /// An object's number.
    Object(u64),
    /// A function's number.
    Function(u64),
}

/// What a run came to: how it ended (0: it finished), the steps that it made, the unknown byte of 13, and the result, or the thrown value of 17.
#[derive(Clone, Copy, Debug, PartialEq, Eq)]
pub struct Ran {
    /// 0, or 11 to 28
    pub number: u64,
    /// at most [`limits::STEPS`]
    pub steps: usize,
    /// the unknown byte of 13, else 0
    pub opcode: u8,
    /// the result of 0, the thrown value of 17, else undefined
    pub value: Value,
}

/// How much of each store is in use. [`limits`] has the most.
#[repr(C)]
#[derive(Clone, Copy, Debug, PartialEq, Eq)]
pub struct Counts {
    /// of [`limits::OPERANDS`]
    pub operands: usize,
    /// of [`limits::SLOTS`]
    pub slots: usize,
    /// of [`limits::FRAMES`]
    pub frames: usize,
    /// of [`limits::HANDLERS`]
    pub handlers: usize,
    /// the place of the newest frame in its code, 0 where none stands
    pub ip: usize,
    /// of [`limits::FUNCTIONS`]
    pub functions: usize,
    /// of [`limits::OBJECTS`]
    pub objects: usize,
    /// of [`limits::PROPERTIES`]
    pub properties: usize,
    /// of [`limits::GLOBALS`]
    pub globals: usize,
    /// of [`limits::CODE_BYTES`]
    pub code: usize,
    /// of [`limits::IMAGES`]
    pub images: usize,
    /// of [`limits::TEXT_BYTES`]
    pub text: usize,
    /// of [`limits::OUTPUT_BYTES`]
    pub output: usize,
}

/// An engine, with all memory that it uses.
pub struct Engine {
    counts: Counts,
    stacks: [u64; STACK_WORDS],
    heap: [u64; HEAP_WORDS],
    places: [u16; CODE_BYTES],
    rows: [u16; CODE_BYTES],
    starts: [u16; IMAGES],
    code: [u8; CODE_BYTES],
    text: [u8; TEXT_BYTES],
    output: [u8; OUTPUT_BYTES],
}

/// The lines that [`Engine::drain`] wrote, oldest first.
#[derive(Clone, Debug)]
pub struct Lines<'b>(&'b [u8]);

impl<'b> Iterator for Lines<'b> {
    type Item = &'b [u8];

    fn next(&mut self) -> Option<&'b [u8]> {
        let (&[high, low], rest) = self.0.split_first_chunk()?;
        let (line, rest) = rest.split_at_checked(usize::from(high) << 8 | usize::from(low))?;
        self.0 = rest;
        Some(line)
    }
}

// What the library exports for an engine. include/carderwheel.h declares the same.

#[repr(C)]
#[derive(Clone, Copy)]
struct Words {
    kind: u64,
    first: u64,
    second: u64,
}

#[repr(C)]
struct Answer {
    number: u64,
    amount: usize,
    counts: Counts,
}

#[repr(C)]
struct Valued {
    number: u64,
    value: Words,
}

#[repr(C)]
struct Told {
    number: u64,
    started: u64,
    steps: usize,
    opcode: u64,
    value: Words,
    counts: Counts,
}

#[link(name = "carderwheel", kind = "static")]
extern "C" {
    fn carderwheel_clear_in(
        code: *mut u8, code_size: usize, places: *mut u16, places_size: usize, rows: *mut u16,
        rows_size: usize, starts: *mut u16, starts_size: usize, stacks: *mut u64, stacks_size: usize,
        heap: *mut u64, heap_size: usize, text: *mut u8, text_size: usize, output: *mut u8,
        output_size: usize, counts: Counts,
    ) -> Answer;
    fn carderwheel_load_in(
        code: *mut u8, code_size: usize, places: *mut u16, places_size: usize, rows: *mut u16,
        rows_size: usize, starts: *mut u16, starts_size: usize, stacks: *const u64, stacks_size: usize,
        heap: *const u64, heap_size: usize, text: *const u8, text_size: usize, output: *const u8,
        output_size: usize, counts: Counts, image: *const u8, image_size: usize,
    ) -> Answer;
    fn carderwheel_register_in(
        code: *const u8, code_size: usize, places: *const u16, places_size: usize, rows: *const u16,
        rows_size: usize, starts: *const u16, starts_size: usize, stacks: *const u64, stacks_size: usize,
        heap: *mut u64, heap_size: usize, text: *const u8, text_size: usize, output: *const u8,
        output_size: usize, counts: Counts, image: usize, template: usize,
    ) -> Answer;
    fn carderwheel_set_global_in(
        code: *const u8, code_size: usize, places: *const u16, places_size: usize, rows: *const u16,
        rows_size: usize, starts: *const u16, starts_size: usize, stacks: *const u64, stacks_size: usize,
        heap: *mut u64, heap_size: usize, text: *mut u8, text_size: usize, output: *const u8,
        output_size: usize, counts: Counts, name: *const u8, name_size: usize, value: Words,
    ) -> Answer;
    fn carderwheel_set_global_text_in(
        code: *const u8, code_size: usize, places: *const u16, places_size: usize, rows: *const u16,
        rows_size: usize, starts: *const u16, starts_size: usize, stacks: *const u64, stacks_size: usize,
        heap: *mut u64, heap_size: usize, text: *mut u8, text_size: usize, output: *const u8,
        output_size: usize, counts: Counts, name: *const u8, name_size: usize, given: *const u8,
        given_size: usize,
    ) -> Answer;
    fn carderwheel_read_global_in(
        code: *const u8, code_size: usize, places: *const u16, places_size: usize, rows: *const u16,
        rows_size: usize, starts: *const u16, starts_size: usize, stacks: *const u64, stacks_size: usize,
        heap: *const u64, heap_size: usize, text: *const u8, text_size: usize, output: *const u8,
        output_size: usize, counts: Counts, name: *const u8, name_size: usize,
    ) -> Valued;
    fn carderwheel_run_in(
        code: *const u8, code_size: usize, places: *const u16, places_size: usize, rows: *const u16,
        rows_size: usize, starts: *const u16, starts_size: usize, stacks: *mut u64, stacks_size: usize,
        heap: *mut u64, heap_size: usize, text: *mut u8, text_size: usize, output: *mut u8,
        output_size: usize, counts: Counts, image: usize,
    ) -> Told;
    fn carderwheel_text_in(
        code: *const u8, code_size: usize, places: *const u16, places_size: usize, rows: *const u16,
        rows_size: usize, starts: *const u16, starts_size: usize, stacks: *const u64, stacks_size: usize,
        heap: *const u64, heap_size: usize, text: *const u8, text_size: usize, output: *const u8,
        output_size: usize, counts: Counts, value: Words, buffer: *mut u8, buffer_size: usize,
    ) -> Answer;
    fn carderwheel_text_bytes_in(
        code: *const u8, code_size: usize, places: *const u16, places_size: usize, rows: *const u16,
        rows_size: usize, starts: *const u16, starts_size: usize, stacks: *const u64, stacks_size: usize,
        heap: *const u64, heap_size: usize, text: *const u8, text_size: usize, output: *const u8,
        output_size: usize, counts: Counts, given: *const u8, given_size: usize, buffer: *mut u8,
        buffer_size: usize,
    ) -> Answer;
    fn carderwheel_drain_in(
        code: *const u8, code_size: usize, places: *const u16, places_size: usize, rows: *const u16,
        rows_size: usize, starts: *const u16, starts_size: usize, stacks: *const u64, stacks_size: usize,
        heap: *const u64, heap_size: usize, text: *const u8, text_size: usize, output: *const u8,
        output_size: usize, counts: Counts, buffer: *mut u8, buffer_size: usize,
    ) -> Answer;
}

// A call of the library over an engine's stores: `as_ptr` where it only reads them, else `as_mut_ptr`.
macro_rules! call {
    ($function:ident, $e:ident.$pointer:ident() $(, $more:expr)*) => {
        // SAFETY: each pointer goes with the length of the array or slice that it was taken from, and these do not overlap; the function stays
        // inside them whatever they hold, writes only where its declaration has `*mut`, and keeps none of them.
        unsafe {
            $function(
                $e.code.$pointer(), CODE_BYTES, $e.places.$pointer(), CODE_BYTES, $e.rows.$pointer(), CODE_BYTES, $e.starts.$pointer(), IMAGES,
                $e.stacks.$pointer(), STACK_WORDS, $e.heap.$pointer(), HEAP_WORDS, $e.text.$pointer(), TEXT_BYTES, $e.output.$pointer(), OUTPUT_BYTES,
                $e.counts $(, $more)*
            )
        }
    };
}

fn asked(number: u64) -> Result<(), Refusal> {
    match number {
        0 => Ok(()),
        n => Err(Refusal(n)),
    }
}

impl Engine {
    /// The stores, all zero. [`Engine::clear`] comes before the first use.
    pub const fn zeroed() -> Engine {
        Engine {
            counts: Counts {
                operands: 0,
                slots: 0,
                frames: 0,
                handlers: 0,
                ip: 0,
                functions: 0,
                objects: 0,
                properties: 0,
                globals: 0,
                code: 0,
                images: 0,
                text: 0,
                output: 0,
            },
            stacks: [0; STACK_WORDS],
            heap: [0; HEAP_WORDS],
            places: [0; CODE_BYTES],
            rows: [0; CODE_BYTES],
            starts: [0; IMAGES],
            code: [0; CODE_BYTES],
            text: [0; TEXT_BYTES],
            output: [0; OUTPUT_BYTES],
        }
    }

    // What a call left in use, and its amount.
    fn settle(&mut self, a: Answer) -> Result<usize, Refusal> {
        self.counts = a.counts;
        asked(a.number)?;
        Ok(a.amount)
    }

    /// The engine as new: no images, no texts, and `console` its only global.
    pub fn clear(&mut self) {
        // never refused: it asks for the stores' sizes, which an engine has, and for no counts
        let a = call!(carderwheel_clear_in, self.as_mut_ptr());
        self.counts = a.counts;
    }

    /// How much of each store is in use.
    pub fn counts(&self) -> Counts {
        self.counts
    }

    /// The image's number; images are numbered from 0 in the order of loading.
    pub fn load(&mut self, image: &[u8]) -> Result<usize, Refusal> {
        let a = call!(carderwheel_load_in, self.as_mut_ptr(), image.as_ptr(), image.len());
        self.settle(a)
    }

    /// A function of an image's template, 1 or above.
    pub fn register(&mut self, image: usize, template: usize) -> Result<Value, Refusal> {
        let a = call!(carderwheel_register_in, self.as_mut_ptr(), image, template);
        Ok(Value::Function(self.settle(a)? as u64))
    }

    /// Sets a global.
    pub fn set_global(&mut self, name: &[u8], value: Value) -> Result<(), Refusal> {
        let a = call!(carderwheel_set_global_in, self.as_mut_ptr(), name.as_ptr(), name.len(), value.words());
        self.settle(a).map(drop)
    }

    /// Sets a global to a text, whose bytes are copied into the text store.
    pub fn set_global_text(&mut self, name: &[u8], text: &[u8]) -> Result<(), Refusal> {
        let a = call!(carderwheel_set_global_text_in, self.as_mut_ptr(), name.as_ptr(), name.len(), text.as_ptr(), text.len());
        self.settle(a).map(drop)
    }

    /// A global's value; undefined where there is no such global.
    pub fn read_global(&self, name: &[u8]) -> Result<Value, Refusal> {
        let a = call!(carderwheel_read_global_in, self.as_ptr(), name.as_ptr(), name.len());
        asked(a.number)?;
        Ok(a.value.value())
    }

    /// Runs an image, at most [`limits::STEPS`] steps. A run that starts is answered with `Ok`, however it ends.
    pub fn run(&mut self, image: usize) -> Result<Ran, Refusal> {
        let t = call!(carderwheel_run_in, self.as_mut_ptr(), image);
        self.counts = t.counts;
        if t.started == 0 {
            return Err(Refusal(t.number));
        }
        Ok(Ran { number: t.number, steps: t.steps, opcode: t.opcode as u8, value: t.value.value() })
    }

    /// The value's text, as a script would print it, at the buffer's start.
    pub fn text<'b>(&self, value: Value, buffer: &'b mut [u8]) -> Result<&'b [u8], Refusal> {
        let a = call!(carderwheel_text_in, self.as_ptr(), value.words(), buffer.as_mut_ptr(), buffer.len());
        asked(a.number)?;
        Ok(&buffer[..a.amount])
    }

    /// The same of a text given as bytes.
    pub fn text_of_bytes<'b>(&self, text: &[u8], buffer: &'b mut [u8]) -> Result<&'b [u8], Refusal> {
        let a = call!(carderwheel_text_bytes_in, self.as_ptr(), text.as_ptr(), text.len(), buffer.as_mut_ptr(), buffer.len());
        asked(a.number)?;
        Ok(&buffer[..a.amount])
    }

    /// The lines printed since the last drain, which are taken out of the output.
    pub fn drain<'b>(&mut self, buffer: &'b mut [u8]) -> Result<Lines<'b>, Refusal> {
        let a = call!(carderwheel_drain_in, self.as_mut_ptr(), buffer.as_mut_ptr(), buffer.len());
        let written = self.settle(a)?;
        Ok(Lines(&buffer[..written]))
    }
}

impl Value {
    fn words(self) -> Words {
        let (kind, first, second) = match self {
            Value::Undefined => (0, 0, 0),
            Value::Null => (1, 0, 0),
            Value::Boolean(b) => (2, u64::from(b), 0),
            Value::Number(n) => (3, n as u64, 0),
            Value::CodeText(at, size) => (4, at, size),
            Value::MadeText(at, size) => (5, at, size),
            Value::Object(i) => (6, i, 0),
            Value::Function(i) => (7, i, 0),
        };
        Words { kind, first, second }
    }
}

impl Words {
    fn value(self) -> Value {
        match self.kind {
            1 => Value::Null,
            2 => Value::Boolean(self.first != 0),
            3 => Value::Number(self.first as i64),
            4 => Value::CodeText(self.first, self.second),
            5 => Value::MadeText(self.first, self.second),
            6 => Value::Object(self.first),
            7 => Value::Function(self.first),
            _ => Value::Undefined,
        }
    }
}
