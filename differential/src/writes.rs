//! The image writer's calls (change 2 of document 02), their lines, and lists of them from a seed.

use crate::images::OPCODES;
use crate::limits;
use crate::rows::Rows;
use crate::sample::{Const, Image, Rng, Template};

use super::calls::{hex, unhex};
use super::making;

#[derive(Clone, PartialEq, Debug)]
pub enum Write {
    /// In one of two buffers, of which so many bytes are lent.
    Begin(usize, usize),
    Template(u64, u64),
    Number(i64),
    Text(Vec<u8>),
    Boolean(i32),
    Null,
    Undefined,
    Function(u64),
    Code(Vec<u8>),
    Finish,
}

pub const NAMES: [&str; 10] = ["begin", "template", "number", "text", "boolean", "null", "undefined", "function", "code", "finish"];

/// The greatest count and length.
pub const MOST: usize = 65_535;

impl Write {
    /// Its place in NAMES.
    pub fn which(&self) -> usize {
        match self {
            Write::Begin(..) => 0,
            Write::Template(..) => 1,
            Write::Number(_) => 2,
            Write::Text(_) => 3,
            Write::Boolean(_) => 4,
            Write::Null => 5,
            Write::Undefined => 6,
            Write::Function(_) => 7,
            Write::Code(_) => 8,
            Write::Finish => 9,
        }
    }

    /// The bytes that it needs.
    pub fn size(&self) -> usize {
        match self {
            Write::Begin(..) => 2,
            Write::Template(..) => 8,
            Write::Number(_) => 1 + 8,
            Write::Text(s) => 1 + 2 + s.len(),
            Write::Boolean(_) => 1 + 1,
            Write::Null | Write::Undefined => 1,
            Write::Function(_) => 1 + 2,
            Write::Code(c) => c.len(),
            Write::Finish => 0,
        }
    }

    fn of(c: &Const) -> Write {
        match c {
            Const::Number(n) => Write::Number(*n),
            Const::Text(s) => Write::Text(s.clone()),
            Const::Boolean(b) => Write::Boolean(*b as i32),
            Const::Null => Write::Null,
            Const::Undefined => Write::Undefined,
            Const::Function(t) => Write::Function(*t as u64),
        }
    }

    pub fn constant(&self) -> Option<Const> {
        Some(match self {
            Write::Number(n) => Const::Number(*n),
            Write::Text(s) => Const::Text(s.clone()),
            Write::Boolean(b) => Const::Boolean(*b != 0),
            Write::Null => Const::Null,
            Write::Undefined => Const::Undefined,
            Write::Function(t) => Const::Function(*t as usize),
            _ => return None,
        })
    }

    /// The call in one line.
    pub fn line(&self) -> String {
        let rest = match self {
            Write::Begin(buffer, room) => format!(" {} {}", buffer, room),
            Write::Template(p, l) => format!(" {} {}", p, l),
            Write::Number(n) => format!(" {}", n),
            Write::Text(b) | Write::Code(b) => format!(" {}", hex(b)),
            Write::Boolean(b) => format!(" {}", b),
            Write::Function(t) => format!(" {}", t),
            Write::Null | Write::Undefined | Write::Finish => String::new(),
        };
        format!("write {}{}", NAMES[self.which()], rest)
    }

    fn read(line: &str) -> Write {
        let words: Vec<&str> = line.split_whitespace().collect();
        let n = |i: usize| words[i].parse::<u64>().expect("a number");
        match words[1] {
            "begin" => Write::Begin(n(2) as usize % 2, n(3) as usize),
            "template" => Write::Template(n(2), n(3)),
            "number" => Write::Number(words[2].parse().expect("a number")),
            "text" => Write::Text(unhex(words[2])),
            "boolean" => Write::Boolean(words[2].parse().expect("a number")),
            "null" => Write::Null,
            "undefined" => Write::Undefined,
            "function" => Write::Function(n(2)),
            "code" => Write::Code(unhex(words[2])),
            "finish" => Write::Finish,
            w => panic!("unknown call write {}", w),
        }
    }

    /// The call as fuzz/calls.c reads it; numbers that do not fit there are cut.
    fn input(&self) -> Vec<u8> {
        let mut out = vec![14, self.which() as u8];
        let three = |out: &mut Vec<u8>, n: u64| out.extend_from_slice(&(n.min(0xff_ffff) as u32).to_be_bytes()[1..]);
        match self {
            Write::Begin(_, room) => out.extend_from_slice(&((*room).min(MOST) as u16).to_be_bytes()),
            Write::Template(p, l) => {
                three(&mut out, *p);
                three(&mut out, *l);
            }
            Write::Number(n) => out.extend_from_slice(&n.to_be_bytes()),
            // all ones stands there for a length of 65,536, with no bytes behind
            Write::Text(b) | Write::Code(b) => {
                out.extend_from_slice(&(b.len().min(MOST) as u16).to_be_bytes());
                out.extend_from_slice(if b.len() < MOST { b } else { &[] });
            }
            Write::Boolean(b) => out.push((*b).clamp(0, 255) as u8),
            Write::Function(t) => three(&mut out, *t),
            Write::Null | Write::Undefined | Write::Finish => {}
        }
        out
    }
}

/// A list in lines, which `read` takes; calls that come again and again are in one.
pub fn lines(list: &[Write]) -> Vec<String> {
    let line = |same: &[Write]| if same.len() > 1 { format!("{} times {}", same[0].line(), same.len()) } else { same[0].line() };
    list.chunk_by(|a, b| a == b).map(line).collect()
}

/// The calls of the image writer in a file of calls.
pub fn read(text: &str) -> Vec<Write> {
    let call = |line: &str| {
        let (one, times) = line.split_once(" times ").unwrap_or((line, "1"));
        vec![Write::read(one); times.trim().parse().expect("a number")]
    };
    text.lines().filter(|l| l.starts_with("write ")).flat_map(call).collect()
}

/// A list as an input of the fuzzer.
pub fn input(list: &[Write]) -> Vec<u8> {
    list.iter().flat_map(Write::input).collect()
}

fn bytes(r: &mut Rng, n: usize) -> Vec<u8> {
    (0..n).map(|_| r.below(128) as u8).collect()
}

/// Small as a rule, else at an edge of what two bytes hold.
fn count(r: &mut Rng) -> u64 {
    if r.once_in(10) {
        r.pick(&[255, 256, 65_534, 65_535])
    } else {
        r.below(5) as u64
    }
}

/// A constant of template `own` of `of`, which now and then makes the image bad.
fn constant(r: &mut Rng, own: usize, of: usize) -> Const {
    match r.below(7) {
        0 => Const::Number(r.next() as i64 >> r.below(64)),
        1 | 2 => {
            let n = if r.once_in(8) { r.pick(&[0, 255, 256, 300]) } else { r.below(9) };
            let mut s = bytes(r, n);
            if n > 0 && r.once_in(24) {
                s[r.below(n)] |= 128;
            }
            Const::Text(s)
        }
        3 => Const::Boolean(r.once_in(2)),
        4 => Const::Null,
        5 if r.once_in(24) => Const::Function(r.pick(&[0, own, of, of + 1, 256, MOST])),
        5 if own + 1 < of => Const::Function(own + 1 + r.below(of - own - 1)),
        _ => Const::Undefined,
    }
}

/// Known opcodes with their operands; jumps go forward, so that it ends.
fn code(r: &mut Rng, most: usize) -> Vec<u8> {
    let mut code = Vec::new();
    for _ in 0..r.below(most + 1) {
        let op = if r.once_in(20) { r.below(256) as u8 } else { r.pick(&OPCODES) };
        code.push(op);
        match Rows::all().bytes(op) {
            1 => code.push(r.below(3) as u8),
            2 => {
                let n = if op >= 40 && op != 52 { code.len() + 2 + r.below(6) } else { r.below(5) };
                code.extend_from_slice(&(n as u16).to_be_bytes());
            }
            _ => {}
        }
    }
    code
}

fn templates(r: &mut Rng) -> Image {
    match r.below(60) {
        0 => return Image::default(),
        1 => {
            // about the 256 that an image may have; a function here and there, since the Rust has whole templates inside constants
            let of = r.pick(&[255, 256, 257, 258]);
            let template = |own: usize| {
                let constants = if own + 1 < of && r.once_in(40) { vec![Const::Function(own + 1 + r.below(of - own - 1))] } else { Vec::new() };
                Template { parameters: r.below(3), locals: r.below(3), constants, code: code(r, 1) }
            };
            return Image { templates: (0..of).map(template).collect() };
        }
        2..=34 => {
            let mut image = making::sample(r).images.swap_remove(0);
            let of = image.templates.len();
            for (own, t) in image.templates.iter_mut().enumerate() {
                t.constants.extend((0..r.below(3)).map(|_| constant(r, own, of)));
            }
            return image;
        }
        _ => {}
    }
    let of = 1 + r.below(4);
    let mut template = |own: usize| Template {
        parameters: count(r) as usize,
        locals: count(r) as usize,
        constants: (0..r.below(6)).map(|_| constant(r, own, of)).collect(),
        code: if r.once_in(4) { Vec::new() } else { code(r, 12) },
    };
    let mut image = Image { templates: (0..of).map(&mut template).collect() };
    if r.once_in(12) {
        // longer than the code store, or about as long
        let long = limits::CODE_BYTES - image.bytes().0.len() - r.below(8) + r.below(8);
        let t = &mut image.templates[r.below(of)];
        if r.once_in(2) {
            t.constants.push(Const::Text(bytes(r, long)));
        } else {
            t.code.resize(t.code.len() + long, 255);
        }
    }
    image
}

/// The image with one thing changed, as a rule so that its bytes stay nearly the same.
fn neighbour(r: &mut Rng, image: &Image) -> Image {
    let mut image = image.clone();
    if image.templates.is_empty() {
        return Image { templates: vec![Template::default()] };
    }
    let n = r.below(image.templates.len());
    let t = &mut image.templates[n];
    match r.below(8) {
        0 => std::mem::swap(&mut t.parameters, &mut t.locals),
        1 => t.locals ^= 1,
        2 => t.code.push(0),
        3 => t.constants.push(r.pick(&[Const::Null, Const::Undefined, Const::Boolean(false)])),
        4 => t.constants.reverse(),
        5 => {
            // the bytes of the last constant as code
            if let Some(Const::Text(s)) = t.constants.pop() {
                t.code.splice(0..0, s);
            }
        }
        6 => {
            t.code.pop();
        }
        _ => image.templates.push(Template::default()),
    }
    image
}

/// The calls that write an image.
fn plain(r: &mut Rng, image: &Image, buffer: usize, room: usize) -> Vec<Write> {
    let mut calls = vec![Write::Begin(buffer, room)];
    for t in &image.templates {
        calls.push(Write::Template(t.parameters as u64, t.locals as u64));
        calls.extend(t.constants.iter().map(|c| match Write::of(c) {
            Write::Boolean(1) if r.once_in(3) => Write::Boolean(r.pick(&[2, -1, 256, i32::MIN])),
            call => call,
        }));
        if !t.code.is_empty() || r.once_in(2) {
            calls.push(Write::Code(t.code.clone()));
        }
    }
    calls.push(Write::Finish);
    calls
}

/// About what an image of so many bytes needs.
fn room(r: &mut Rng, size: usize) -> usize {
    match r.below(10) {
        0..=2 => size,
        3 | 4 => size + r.below(40),
        5 => size.saturating_sub(1 + r.below(12)),
        6 => r.below(size + 1),
        _ => size + 100,
    }
}

/// Any call, as a rule one that is refused at most places.
fn any(r: &mut Rng, size: usize) -> Write {
    let large = [65_536, 1 << 16 | 5, 1 << 32, u64::MAX];
    match r.below(20) {
        0 | 1 => Write::Begin(r.below(2), r.below(2)),
        2 if r.once_in(3) => Write::Begin(r.below(2), room(r, size)),
        3 => Write::Template(r.pick(&large), r.below(3) as u64),
        4 => Write::Template(r.below(3) as u64, r.pick(&large)),
        5 if r.once_in(3) => Write::Template(count(r), count(r)),
        6 => Write::Function(r.pick(&large)),
        7 if r.once_in(8) => Write::Text(vec![b't'; MOST + 1]),
        8 if r.once_in(8) => Write::Code(vec![255; MOST + 1]),
        9 if r.once_in(4) => Write::Finish,
        10..=13 => Write::Code(code(r, 3)),
        _ => Write::of(&constant(r, 0, 1)),
    }
}

/// The list with this number of a seed's; it depends on nothing else.
pub fn list(seed: u64, number: u64) -> Vec<Write> {
    let mut r = Rng(!Rng(seed).next() ^ number.wrapping_mul(0xd134_2543_de82_ef95));
    let r = &mut r;
    let mut image = templates(r);
    let mut list = Vec::new();
    for _ in 0..if r.once_in(3) { 2 } else { 1 } {
        let size = image.bytes().0.len();
        let buffer = r.below(2);
        let room = room(r, size);
        let mut calls = plain(r, &image, buffer, room);
        if r.once_in(2) {
            for _ in 0..1 + r.below(8) {
                // half of them before the begin, behind the finish or behind a code, where most are wrong
                let codes: Vec<usize> = (0..calls.len()).filter(|k| matches!(calls[*k], Write::Code(_))).map(|k| k + 1).collect();
                let at = match r.below(6) {
                    0 => 0,
                    1 => calls.len(),
                    2 if !codes.is_empty() => r.pick(&codes),
                    _ => r.below(calls.len() + 1),
                };
                calls.insert(at, any(r, size));
            }
        }
        list.extend(calls);
        if r.once_in(2) {
            image = neighbour(r, &image);
        }
    }
    list
}

/// Every count and length at its greatest and one above it; a template more than an image may have; an image more than an engine takes, for the fuzzer, whose
/// engine keeps them.
pub fn edges() -> Vec<Vec<Write>> {
    let begin = |room: usize| Write::Begin(0, room);
    let open = || Write::Template(0, 0);
    let mut constants = vec![begin(MOST + 20), open()];
    constants.extend(vec![Write::Null; MOST]);
    constants.extend([Write::Undefined, Write::Text(Vec::new()), Write::Code(vec![255]), Write::Finish]);
    let mut templates = vec![begin(8 * MOST + 20)];
    templates.extend(vec![open(); MOST]);
    templates.extend([open(), Write::Null, Write::Code(Vec::new()), Write::Null, open(), Write::Finish]);
    let lengths = [
        begin(2 * MOST + 40),
        open(),
        Write::Text(vec![b't'; MOST + 1]),
        Write::Text(vec![b't'; MOST]),
        Write::Code(vec![255; MOST + 1]),
        Write::Code(vec![255; MOST]),
        Write::Template(65_536, 0),
        Write::Template(0, 65_536),
        Write::Template(65_535, 65_535),
        Write::Function(65_536),
        Write::Function(65_535),
        Write::Finish,
    ];
    let mut many = vec![begin(2 + 8 * 257)];
    many.extend(vec![open(); 257]);
    many.push(Write::Finish);
    let again = vec![[begin(10), open(), Write::Finish]; limits::IMAGES + 1].concat();
    vec![constants, templates, lengths.to_vec(), many, again]
}
