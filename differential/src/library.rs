//! The engine behind its C interface (include/carderwheel.h): the calls, and what its stores hold, read off their words.

use crate::limits::*;
use crate::plain::engine::{counted, word};
use crate::rows::Rows;

use super::calls::{Answer, Call, Words};

/// Where each store begins in its array (crates/stacks/specs/Layout.antt, crates/heap/specs/Layout.antt).
const SLOTS_AT: usize = 3 * OPERANDS;
const FRAMES_AT: usize = SLOTS_AT + 3 * SLOTS;
const HANDLERS_AT: usize = FRAMES_AT + 5 * FRAMES;
const STACK_WORDS: usize = HANDLERS_AT + 3 * HANDLERS;
const OBJECTS_AT: usize = 2 * FUNCTIONS;
const PROPERTIES_AT: usize = OBJECTS_AT + OBJECTS;
const GLOBALS_AT: usize = PROPERTIES_AT + 6 * PROPERTIES;
const HEAP_WORDS: usize = GLOBALS_AT + 6 * GLOBALS;

/// `carderwheel_counts`: operands, slots, frames, handlers, place of the newest frame; functions, objects, properties, globals; code, images, text, output.
type Counts = [u64; 13];

/// The most of each, but of the place.
const LIMITS: [usize; 13] = [OPERANDS, SLOTS, FRAMES, HANDLERS, 65_535, FUNCTIONS, OBJECTS, PROPERTIES, GLOBALS, CODE_BYTES, IMAGES, TEXT_BYTES, OUTPUT_BYTES];

/// `carderwheel`
#[repr(C)]
#[derive(Clone, PartialEq)]
pub struct Stores {
    pub counts: Counts,
    stacks: [u64; STACK_WORDS],
    heap: [u64; HEAP_WORDS],
    places: [u16; CODE_BYTES],
    rows: [u16; CODE_BYTES],
    starts: [u16; IMAGES],
    code: [u8; CODE_BYTES],
    text: [u8; TEXT_BYTES],
    output: [u8; OUTPUT_BYTES],
}

/// `carderwheel_ran`
#[repr(C)]
#[derive(Default)]
struct Ran {
    number: u64,
    started: u64,
    steps: u64,
    opcode: u64,
    value: Words,
}

extern "C" {
    fn face_size() -> usize;
    fn face_clear(e: *mut Stores) -> u64;
    fn face_load(e: *mut Stores, image: *const u8, size: usize, number: *mut u64) -> u64;
    fn face_register(e: *mut Stores, image: u64, template: u64, function: *mut u64) -> u64;
    fn face_set_global(e: *mut Stores, name: *const u8, size: usize, v: *const Words) -> u64;
    fn face_set_global_text(e: *mut Stores, name: *const u8, size: usize, bytes: *const u8, count: usize) -> u64;
    fn face_read_global(e: *const Stores, name: *const u8, size: usize, v: *mut Words) -> u64;
    fn face_run(e: *mut Stores, image: u64, ran: *mut Ran);
    fn face_text(e: *const Stores, v: *const Words, buffer: *mut u8, size: usize, written: *mut usize) -> u64;
    fn face_text_bytes(e: *const Stores, bytes: *const u8, count: usize, buffer: *mut u8, size: usize, written: *mut usize) -> u64;
    fn face_drain(e: *mut Stores, buffer: *mut u8, size: usize, written: *mut usize) -> u64;
    fn face_sized(e: *mut Stores, call: usize, lengths: *const usize) -> u64;
    fn face_opcode(byte: u8) -> u32;
}

/// What a byte of a buffer is before a call.
const UNTOUCHED: u8 = 0xa5;

pub struct Library {
    pub stores: Box<Stores>,
}

impl Library {
    /// Stores as nobody left them; clear comes first.
    pub fn new() -> Library {
        assert_eq!(unsafe { face_size() }, std::mem::size_of::<Stores>(), "the header has another struct");
        // SAFETY: every field is an array of integers, for which all bytes are fine.
        let mut stores: Box<Stores> = unsafe { Box::new_zeroed().assume_init() };
        stores.stacks.fill(0x5555_5555_5555_5555);
        stores.heap.fill(0x5555_5555_5555_5555);
        stores.text.fill(0xff);
        Library { stores }
    }

    /// The answer, or what is wrong with it.
    pub fn call(&mut self, call: &Call) -> Result<Answer, String> {
        let e: *mut Stores = &mut *self.stores;
        let mut number = 0;
        // SAFETY, here and below: the pointers are to what each call's declaration says, with its size, and nothing else is lent meanwhile.
        let (n, done) = unsafe {
            match call {
                Call::Clear => (face_clear(e), Answer::Done),
                Call::Load(b) => (face_load(e, b.as_ptr(), b.len(), &mut number), Answer::Number(number)),
                Call::Register(i, t) => (face_register(e, *i, *t, &mut number), Answer::Number(number)),
                Call::SetGlobal(name, w) => (face_set_global(e, name.as_ptr(), name.len(), w), Answer::Done),
                Call::SetGlobalText(name, b) => (face_set_global_text(e, name.as_ptr(), name.len(), b.as_ptr(), b.len()), Answer::Done),
                Call::ReadGlobal(name) => {
                    let mut w = [u64::MAX; 3];
                    let n = face_read_global(e, name.as_ptr(), name.len(), &mut w);
                    (n, if n == 0 { self.valued(w) } else { Answer::Done })
                }
                Call::Run(i) => return self.run(*i),
                Call::Text(w, room) => return buffered(*room, |b, size, written| face_text(e, w, b, size, written)),
                Call::TextBytes(s, room) => return buffered(*room, |b, size, written| face_text_bytes(e, s.as_ptr(), s.len(), b, size, written)),
                Call::Drain(room) => return buffered(*room, |b, size, written| face_drain(e, b, size, written)),
            }
        };
        if n != 0 && number != 0 {
            return Err("a refused call writes a number".into());
        }
        Ok(match (n, done) {
            (0, Answer::Number(_)) => Answer::Number(number),
            (0, done) => done,
            (n, _) => Answer::Refused(n),
        })
    }

    fn run(&mut self, image: u64) -> Result<Answer, String> {
        let mut r = Ran::default();
        unsafe { face_run(&mut *self.stores, image, &mut r) };
        let plain = (r.opcode, r.value) == (0, [0; 3]);
        if r.started == 0 {
            return if plain && r.steps == 0 { Ok(Answer::Refused(r.number)) } else { Err("a refused run with an answer".into()) };
        }
        let mut end = vec![r.number as u8];
        match r.number {
            0 | 17 if r.opcode == 0 => self.value(&mut end, r.value),
            13 if r.value == [0; 3] && r.opcode < 256 => end.push(r.opcode as u8),
            1..=255 if plain => {}
            n => return Err(format!("an end {} with opcode {} and value {:?}", n, r.opcode, r.value)),
        }
        Ok(Answer::Ran(end, r.steps))
    }

    /// Each call over stores of which one has another length: 33, whichever it is. For counts beyond the stores too, and not for counts at their limits. The
    /// failures.
    pub fn sizes(&mut self) -> Vec<String> {
        let listed = [CODE_BYTES, CODE_BYTES, CODE_BYTES, IMAGES, STACK_WORDS, HEAP_WORDS, TEXT_BYTES, OUTPUT_BYTES];
        let mut wrong = Vec::new();
        for call in 0..10 {
            for k in 0..8 {
                for length in [0, 1, listed[k] - 1] {
                    let mut n = listed;
                    n[k] = length;
                    let before = self.stores.clone();
                    let told = unsafe { face_sized(&mut *self.stores, call, n.as_ptr()) };
                    if told != 33 || self.stores != before {
                        wrong.push(format!("call {} with store {} of {}: {}", call, k, length, told));
                    }
                }
            }
        }
        for k in 0..13 {
            if k == 4 {
                continue;
            }
            for call in 1..10 {
                for over in [0, 1] {
                    let before = self.stores.clone();
                    self.stores.counts[k] = LIMITS[k] as u64 + over;
                    let told = unsafe { face_sized(&mut *self.stores, call, listed.as_ptr()) };
                    self.stores = before;
                    if (told == 33) != (over == 1) {
                        wrong.push(format!("call {} with count {} of {}: {}", call, k, LIMITS[k] as u64 + over, told));
                    }
                }
            }
        }
        wrong
    }

    /// The bytes whose row is not what the program `opcodes` prints.
    pub fn opcodes(&self) -> Vec<String> {
        let row = |b: u8| {
            let packed = unsafe { face_opcode(b) };
            [packed >> 16, packed >> 8 & 255, packed & 255].map(|n| n as usize)
        };
        (0..=255).filter(|b| row(*b) != Rows::all().row(*b)).map(|b| format!("opcode {}: {:?}", b, row(b))).collect()
    }

    pub fn code(&self) -> &[u8] {
        &self.stores.code[..self.stores.counts[9] as usize]
    }

    pub fn texts(&self) -> &[u8] {
        &self.stores.text[..self.stores.counts[11] as usize]
    }

    pub fn images(&self) -> usize {
        self.stores.counts[10] as usize
    }

    fn valued(&self, w: Words) -> Answer {
        let mut out = Vec::new();
        self.value(&mut out, w);
        Answer::Value(out)
    }

    /// A value as the Rust's are written; 254 and its words where it is none.
    fn value(&self, out: &mut Vec<u8>, w: Words) {
        let text = |store: &[u8]| store.get(w[1] as usize..(w[1].saturating_add(w[2])) as usize).map(|s| s.to_vec());
        match w[0] {
            0 | 1 => out.push(w[0] as u8),
            2 if w[1] < 2 => out.extend_from_slice(&[2, w[1] as u8]),
            3 | 6 | 7 => {
                out.push([3, 0, 0, 5, 6][w[0] as usize - 3]);
                out.extend_from_slice(&w[1].to_be_bytes());
            }
            4 | 5 => match text(if w[0] == 4 { self.code() } else { self.texts() }) {
                Some(bytes) => {
                    out.push(4);
                    counted(out, &bytes);
                }
                None => out.extend_from_slice(format!("\u{fe}{:?}", w).as_bytes()),
            },
            _ => out.extend_from_slice(format!("\u{fe}{:?}", w).as_bytes()),
        }
    }

    fn value_at(&self, out: &mut Vec<u8>, store: &[u64], k: usize) {
        self.value(out, [store[k], store[k + 1], store[k + 2]]);
    }

    /// The rows of properties or globals: what each belongs to, its key or name, and its value.
    fn rows(&self, at: usize, count: u64) -> Result<Vec<(u64, Vec<u8>, Vec<u8>)>, String> {
        (0..count as usize)
            .map(|i| {
                let row = &self.stores.heap[at + 6 * i..at + 6 * i + 6];
                let key = self.texts().get(row[1] as usize..(row[1].saturating_add(row[2])) as usize).ok_or("a key outside the text")?;
                let mut v = Vec::new();
                self.value_at(&mut v, row, 3);
                Ok((row[0], key.to_vec(), v))
            })
            .collect()
    }

    /// Everything held, part by part, in the order of tests/oracle/engine.rs.
    pub fn state(&self) -> Result<Vec<(&'static str, Vec<u8>)>, String> {
        let c = &self.stores.counts;
        if let Some(k) = (0..13).find(|k| c[*k] > LIMITS[*k] as u64) {
            return Err(format!("count {} is {}", k, c[k]));
        }
        let n = |k: usize| c[k] as usize;
        let s = &self.stores.stacks;
        let mut parts = Vec::new();
        let part = |count: usize| {
            let mut out = Vec::new();
            word(&mut out, count);
            out
        };

        let mut out = part(n(0));
        for i in (0..n(0)).rev() {
            self.value_at(&mut out, s, 3 * i);
        }
        parts.push(("operands", out));

        let mut out = part(n(2));
        let mut top = n(1);
        for i in (0..n(2)).rev() {
            let f = &s[FRAMES_AT + 5 * i..FRAMES_AT + 5 * i + 5];
            let ip = if i + 1 == n(2) { c[4] } else { f[2] };
            // a frame's slots end where those of the next one begin
            if f[0] > 15 || f[1] > 255 || ip > 65_535 || f[3].checked_add(f[4]) != Some(top as u64) {
                return Err(format!("frame {} is {:?} below slot {}", i, f, top));
            }
            top = f[3] as usize;
            out.extend_from_slice(&[f[0] as u8, f[1] as u8]);
            word(&mut out, ip as usize);
            word(&mut out, f[4] as usize);
            for k in 0..f[4] as usize {
                self.value_at(&mut out, s, SLOTS_AT + 3 * (top + k));
            }
        }
        if top != 0 {
            return Err(format!("{} slots belong to no frame", top));
        }
        if n(2) == 0 && c[4] != 0 {
            return Err(format!("no frame stands, and the place is {}", c[4]));
        }
        parts.push(("frames", out));

        let mut out = part(n(3));
        for i in (0..n(3)).rev() {
            for w in &s[HANDLERS_AT + 3 * i..HANDLERS_AT + 3 * i + 3] {
                word(&mut out, (*w).min(65_535) as usize);
            }
        }
        parts.push(("handlers", out));

        let h = &self.stores.heap;
        let mut out = part(n(5));
        for f in h[..2 * n(5)].chunks(2) {
            out.extend_from_slice(&[f[0].min(255) as u8, f[1].min(255) as u8]);
        }
        parts.push(("functions", out));

        let mut properties = self.rows(PROPERTIES_AT, c[7])?;
        if let Some(p) = properties.iter().find(|p| p.0 >= c[6]) {
            return Err(format!("a property of object {}", p.0));
        }
        properties.sort_by(|a, b| (a.0, &a.1).cmp(&(b.0, &b.1)));
        let mut out = part(n(6));
        for o in 0..n(6) {
            out.push(h[OBJECTS_AT + o].min(255) as u8);
            let from = properties.partition_point(|p| p.0 < o as u64);
            let own = &properties[from..properties.partition_point(|p| p.0 <= o as u64)];
            word(&mut out, own.len());
            for (_, key, v) in own {
                counted(&mut out, key);
                out.extend_from_slice(v);
            }
        }
        parts.push(("objects", out));

        let mut globals = self.rows(GLOBALS_AT, c[8])?;
        for g in &mut globals {
            if g.0 == 1 {
                g.1 = b"console".to_vec();
            }
        }
        globals.sort_by(|a, b| a.1.cmp(&b.1));
        let mut out = part(n(8));
        for (_, name, v) in &globals {
            counted(&mut out, name);
            out.extend_from_slice(v);
        }
        parts.push(("globals", out));

        let mut out = part(n(12));
        out.extend_from_slice(&self.stores.output[..n(12)]);
        parts.push(("output", out));
        let mut out = part(n(1));
        word(&mut out, n(11));
        parts.push(("slots and text in use", out));
        Ok(parts)
    }
}

/// A call that writes to a buffer of `room` bytes; what stands behind the bytes written must be left as it was.
fn buffered(room: usize, call: impl Fn(*mut u8, usize, *mut usize) -> u64) -> Result<Answer, String> {
    let mut buffer = vec![UNTOUCHED; room + 8];
    let mut written = usize::MAX;
    let n = call(buffer.as_mut_ptr(), room, &mut written);
    let own = if n == 0 { written } else { 0 };
    if own > room || (n != 0 && written != usize::MAX) || buffer[own..].iter().any(|b| *b != UNTOUCHED) {
        return Err(format!("a buffer of {} with {} written and answer {} is changed elsewhere", room, written, n));
    }
    buffer.truncate(own);
    Ok(if n == 0 { Answer::Bytes(buffer) } else { Answer::Refused(n) })
}
