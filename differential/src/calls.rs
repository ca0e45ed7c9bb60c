//! Host calls with any arguments, what they are answered, and lists of them to run.

use crate::images::OPCODES;
use crate::limits;
use crate::plain::js_compiler::Opcode;
use crate::rows::Rows;
use crate::sample::{Action, Given, Image, Plain, Sample};

/// A value's kind and two numbers, as carderwheel.h has them.
pub type Words = [u64; 3];

#[derive(Clone, PartialEq, Debug)]
pub enum Call {
    Clear,
    Load(Vec<u8>),
    Register(u64, u64),
    SetGlobal(Vec<u8>, Words),
    SetGlobalText(Vec<u8>, Vec<u8>),
    ReadGlobal(Vec<u8>),
    Run(u64),
    /// The last number is the buffer's size, here and below.
    Text(Words, usize),
    TextBytes(Vec<u8>, usize),
    Drain(usize),
}

/// The calls' names, as the coverage is printed.
pub const NAMES: [&str; 10] = ["clear", "load", "register", "set global", "set global text", "read global", "run", "text", "text of bytes", "drain"];

/// Values and bytes are written as tests/oracle/engine.rs does.
#[derive(Clone, PartialEq, Debug)]
pub enum Answer {
    Refused(u64),
    Done,
    Number(u64),
    Value(Vec<u8>),
    Bytes(Vec<u8>),
    /// How a run ended, and its steps.
    Ran(Vec<u8>, u64),
}

#[derive(Clone, Debug)]
pub struct Program {
    pub kind: &'static str,
    pub calls: Vec<Call>,
}

impl Call {
    /// Its place in NAMES.
    pub fn which(&self) -> usize {
        match self {
            Call::Clear => 0,
            Call::Load(..) => 1,
            Call::Register(..) => 2,
            Call::SetGlobal(..) => 3,
            Call::SetGlobalText(..) => 4,
            Call::ReadGlobal(..) => 5,
            Call::Run(..) => 6,
            Call::Text(..) => 7,
            Call::TextBytes(..) => 8,
            Call::Drain(..) => 9,
        }
    }

    fn set(name: &[u8], g: &Given) -> Call {
        let words = match g {
            Given::Fresh(bytes) => return Call::SetGlobalText(name.to_vec(), bytes.clone()),
            Given::Plain(p) => match p {
                Plain::Undefined => [0, 0, 0],
                Plain::Null => [1, 0, 0],
                Plain::Boolean(b) => [2, *b as u64, 0],
                Plain::Number(n) => [3, *n as u64, 0],
                Plain::InCode(at, bytes) => [4, *at as u64, bytes.len() as u64],
                Plain::Object(o) => [6, *o, 0],
                Plain::Function(f) => [7, *f, 0],
            },
        };
        Call::SetGlobal(name.to_vec(), words)
    }

    pub fn of(sample: &Sample) -> Vec<Call> {
        let mut images = sample.images.iter();
        let call = |a: &Action| match a {
            Action::Load => Call::Load(images.next().unwrap().bytes().0),
            Action::Run(i) => Call::Run(*i as u64),
            Action::Register(i, t) => Call::Register(*i as u64, *t as u64),
            Action::SetGlobal(name, g) => Call::set(name, g),
            Action::ReadGlobal(name) => Call::ReadGlobal(name.clone()),
            Action::Drain => Call::Drain(limits::OUTPUT_BYTES),
        };
        sample.actions.iter().map(call).collect()
    }

    /// The call in one line, which `read` takes; behind a load, what the image says.
    pub fn line(&self) -> String {
        match self {
            Call::Clear => "clear".into(),
            Call::Load(image) => format!("load {}{}", hex(image), listing(image)),
            Call::Register(i, t) => format!("register {} {}", i, t),
            Call::SetGlobal(name, w) => format!("set {} {} {} {}", hex(name), w[0], w[1], w[2]),
            Call::SetGlobalText(name, bytes) => format!("set-text {} {}", hex(name), hex(bytes)),
            Call::ReadGlobal(name) => format!("read {}", hex(name)),
            Call::Run(i) => format!("run {}", i),
            Call::Text(w, room) => format!("text {} {} {} {}", w[0], w[1], w[2], room),
            Call::TextBytes(bytes, room) => format!("text-bytes {} {}", hex(bytes), room),
            Call::Drain(room) => format!("drain {}", room),
        }
    }

    /// The call as fuzz/calls.c reads it; numbers that do not fit there are cut.
    pub fn input(&self) -> Vec<u8> {
        let mut out = vec![self.which() as u8];
        let short = |out: &mut Vec<u8>, b: &[u8]| {
            let n = b.len().min(255);
            out.push(n as u8);
            out.extend_from_slice(&b[..n]);
        };
        let long = |out: &mut Vec<u8>, b: &[u8]| {
            let n = b.len().min(65_535);
            out.extend_from_slice(&(n as u16).to_be_bytes());
            out.extend_from_slice(&b[..n]);
        };
        let value = |out: &mut Vec<u8>, w: &Words| {
            out.push(w[0] as u8);
            out.extend_from_slice(&w[1].to_be_bytes());
            out.extend_from_slice(&w[2].to_be_bytes());
        };
        match self {
            Call::Clear => {}
            Call::Load(image) => long(&mut out, image),
            Call::Register(i, t) => out.extend_from_slice(&[*i as u8, *t as u8]),
            Call::SetGlobal(name, w) => {
                short(&mut out, name);
                value(&mut out, w);
            }
            Call::SetGlobalText(name, b) => {
                short(&mut out, name);
                long(&mut out, b);
            }
            Call::ReadGlobal(name) => short(&mut out, name),
            Call::Run(i) => out.push(*i as u8),
            Call::Text(w, _) => value(&mut out, w),
            Call::TextBytes(b, _) => long(&mut out, b),
            Call::Drain(_) => {}
        }
        if let Call::Text(_, room) | Call::TextBytes(_, room) | Call::Drain(room) = self {
            out.extend_from_slice(&(*room as u16).to_be_bytes());
        }
        out
    }

    /// A call from its line; None for an empty line and a comment.
    pub fn read(line: &str) -> Option<Call> {
        let words: Vec<&str> = line.split(';').next().unwrap().split_whitespace().collect();
        let n = |i: usize| words[i].parse::<u64>().expect("a number");
        let bytes = |i: usize| unhex(words[i]);
        Some(match *words.first()? {
            "clear" => Call::Clear,
            "load" => Call::Load(bytes(1)),
            "register" => Call::Register(n(1), n(2)),
            "set" => Call::SetGlobal(bytes(1), [n(2), n(3), n(4)]),
            "set-text" => Call::SetGlobalText(bytes(1), bytes(2)),
            "read" => Call::ReadGlobal(bytes(1)),
            "run" => Call::Run(n(1)),
            "text" => Call::Text([n(1), n(2), n(3)], n(4) as usize),
            "text-bytes" => Call::TextBytes(bytes(1), n(2) as usize),
            "drain" => Call::Drain(n(1) as usize),
            w => panic!("unknown call {}", w),
        })
    }
}

/// Bytes in hexadecimal, with `*N.` behind a byte that comes N times; `-` where there is none.
pub fn hex(bytes: &[u8]) -> String {
    if bytes.is_empty() {
        return "-".into();
    }
    let mut s = String::new();
    let mut at = 0;
    while at < bytes.len() {
        let n = bytes[at..].iter().take_while(|b| **b == bytes[at]).count();
        if n > 20 {
            s += &format!("{:02x}*{}.", bytes[at], n);
            at += n;
        } else {
            s += &format!("{:02x}", bytes[at]);
            at += 1;
        }
    }
    s
}

pub fn unhex(s: &str) -> Vec<u8> {
    let mut out = Vec::new();
    let mut rest = s.trim_start_matches('-');
    while !rest.is_empty() {
        let b = u8::from_str_radix(&rest[..2], 16).expect("hexadecimal");
        rest = &rest[2..];
        let mut n = 1;
        if let Some(times) = rest.strip_prefix('*') {
            let (count, after) = times.split_once('.').expect("a count and a point");
            n = count.parse().expect("a count");
            rest = after;
        }
        out.extend(std::iter::repeat(b).take(n));
    }
    out
}

/// An image's templates, a line of comment for each thing; nothing where the bytes are no image.
fn listing(bytes: &[u8]) -> String {
    let Ok(image) = Image::read(bytes) else { return String::new() };
    let mut s = String::new();
    for (n, t) in image.templates.iter().enumerate() {
        s += &format!("\n    ; template {} parameters {} locals {}", n, t.parameters, t.locals);
        for (i, c) in t.constants.iter().enumerate() {
            s += &format!("\n    ;   constant {}: {:?}", i, c);
        }
        let mut at = 0;
        while at < t.code.len() {
            let op = t.code[at];
            let rest = &t.code[at + 1..(at + 1 + Rows::all().bytes(op)).min(t.code.len())];
            let name = if OPCODES.contains(&op) { format!("{:?}", Opcode::from_byte(op).unwrap()) } else { format!("byte {:02x}", op) };
            let operand = if rest.is_empty() { String::new() } else { rest.iter().fold(0usize, |n, b| n << 8 | usize::from(*b)).to_string() };
            s += &format!("\n    ;   {}: {} {}", at, name, operand);
            at += 1 + rest.len();
        }
    }
    s
}
