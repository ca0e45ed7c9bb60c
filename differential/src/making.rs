//! Programs from a seed: those of tests/oracle and tests/replay, joined and with host calls between; damaged images; stores filled by the host.

use crate::images;
use crate::limits;
use crate::sample::{Action, Const, Image, Rng, Sample, Template};

use super::calls::{Call, Program, Words};
use super::programs;

/// Names that programs use, and some that they do not.
const NAMES: [&str; 10] = ["a", "b", "f", "g", "n", "", "console", "report", "x y", "length"];

fn bytes(r: &mut Rng, most: usize) -> Vec<u8> {
    let n = r.below(most + 1);
    let top = if r.once_in(6) { 256 } else { 128 };
    (0..n).map(|_| r.below(top) as u8).collect()
}

fn name(r: &mut Rng) -> Vec<u8> {
    if r.once_in(4) {
        bytes(r, 6)
    } else {
        r.pick(&NAMES).as_bytes().to_vec()
    }
}

fn words(r: &mut Rng) -> Words {
    let kind = if r.once_in(20) { r.pick(&[8, 9, 255, u64::MAX]) } else { r.below(8) as u64 };
    match kind {
        2 => [2, r.below(2) as u64, 0],
        3 => [3, r.next() >> r.below(64), 0],
        // a handle: near the start as a rule, so that it is inside
        4 | 5 => {
            let at = if r.once_in(8) { r.pick(&[32_767, 32_768, u64::MAX]) } else { r.below(60) as u64 };
            let size = if r.once_in(8) { r.pick(&[32_768, u64::MAX, 1 << 63]) } else { r.below(12) as u64 };
            [kind, at, size]
        }
        6 | 7 => [kind, if r.once_in(3) { r.next() >> r.below(64) } else { r.below(3) as u64 }, 0],
        _ => [kind, 0, 0],
    }
}

/// Any host call.
fn any(r: &mut Rng) -> Call {
    let room = |r: &mut Rng| if r.once_in(2) { r.below(24) } else { 40_000 };
    match r.below(24) {
        0 => Call::Clear,
        1 => Call::Load(damaged(r)),
        2..=4 => Call::Register(number(r), number(r)),
        5..=8 => Call::SetGlobal(name(r), words(r)),
        9..=11 => Call::SetGlobalText(name(r), bytes(r, 20)),
        12..=14 => Call::ReadGlobal(name(r)),
        15..=17 => Call::Run(number(r)),
        18 | 19 => Call::Text(words(r), room(r)),
        20 => Call::TextBytes(bytes(r, 20), room(r)),
        _ => Call::Drain(if r.once_in(2) { r.below(60) } else { limits::OUTPUT_BYTES }),
    }
}

/// An image's or a template's number, or one that nothing has.
fn number(r: &mut Rng) -> u64 {
    match r.below(12) {
        0 => r.pick(&[16, 255, 256, 1 << 32, u64::MAX]),
        1 => r.below(20) as u64,
        _ => r.below(3) as u64,
    }
}

fn sprinkle(r: &mut Rng, calls: &mut Vec<Call>) {
    for _ in 0..1 + r.below(5) {
        let at = r.below(calls.len() + 1);
        let call = any(r);
        calls.insert(at, call);
    }
}

pub fn sample(r: &mut Rng) -> Sample {
    match r.below(10) {
        0..=2 => programs::sample(r),
        3 | 4 => images::sample(r, 60),
        _ => {
            let room = 13 + r.below(26) as isize;
            images::sample(r, room)
        }
    }
}

/// A sample, whose images come after others.
fn sample_after(r: &mut Rng, images: usize) -> Sample {
    let mut s = sample(r);
    for a in &mut s.actions {
        if let Action::Run(i) | Action::Register(i, _) = a {
            *i += images;
        }
    }
    s
}

/// Two samples on one engine, their calls riffled: all loads come first, so that each keeps its images.
fn several(r: &mut Rng) -> Program {
    let a = sample(r);
    let b = sample_after(r, a.images.len());
    let (mut loads, mut left): (Vec<Action>, Vec<Action>) = a.actions.into_iter().partition(|x| matches!(x, Action::Load));
    let (more, mut right): (Vec<Action>, Vec<Action>) = b.actions.into_iter().partition(|x| matches!(x, Action::Load));
    loads.extend(more);
    while !left.is_empty() || !right.is_empty() {
        let from = if right.is_empty() || (!left.is_empty() && r.once_in(2)) { &mut left } else { &mut right };
        loads.push(from.remove(0));
    }
    let joined = Sample { kind: "several", images: [a.images, b.images].concat(), actions: loads };
    Program { kind: "several", calls: Call::of(&joined) }
}

/// Large numbers: many templates, constants, parameters and locals, arguments, elements; places and indexes of two bytes.
fn wide(r: &mut Rng) -> Program {
    let count = r.pick(&[2, 3, 17, 130, 255, 256]);
    let templates = (0..count)
        .map(|own| {
            // so that all templates fit the code store
            let roomy = own == 0 || count < 20;
            let mut constants: Vec<Const> = (0..r.pick(&[0, 2, 300, 600]) / (1 + own)).map(|i| Const::Number((i as i64) << 32)).collect();
            // the Rust has whole templates inside constants: of several in each there would be too many
            if own + 1 < count {
                constants.extend((0..if own == 0 { 3 } else { 1 }).map(|_| Const::Function(own + 1 + r.below(count - own - 1))));
            }
            let last = constants.len();
            let mut code: Vec<u8> = Vec::new();
            let with = |code: &mut Vec<u8>, op: u8, n: usize| {
                code.push(op);
                code.extend_from_slice(&(n as u16).to_be_bytes());
            };
            for _ in 0..1 + r.below(if own == 0 { 6 } else { 3 }) {
                match r.below(7) {
                    0 => with(&mut code, 0, r.below(last + 4)),
                    1 | 2 => {
                        // a call with some arguments, or with more than stand
                        let n = r.pick(&[0, 1, 3, 40, 255][..if roomy { 5 } else { 3 }]);
                        with(&mut code, r.pick(&[0, 52]), last.saturating_sub(1 + r.below(3)));
                        let given = if r.once_in(8) { n / 2 } else { n };
                        code.extend((0..given).map(|k| if k % 3 == 0 { 70 } else { 81 }));
                        code.extend_from_slice(&[50, n as u8]);
                    }
                    3 => {
                        let n = r.pick(&[9, 10, 11, 99, 101, 255][..if roomy { 6 } else { 3 }]);
                        code.extend(std::iter::repeat(81).take(r.below(n + 1)));
                        code.extend_from_slice(&[61, n as u8]);
                    }
                    4 | 5 => {
                        // over bytes that are not run; forward, so that it ends
                        let over = r.pick(&[1, 2, 250, 255, 256, 300, 700][..if roomy { 7 } else { 2 }]);
                        let place = code.len() + 3 + over;
                        let op = r.pick(&[40, 41, 42, 75]);
                        if op != 40 {
                            code.push(81);
                        }
                        with(&mut code, op, place + (op != 40) as usize);
                        if op != 40 {
                            code.push(74);
                        }
                        code.resize(place + (op != 40) as usize, 255);
                    }
                    _ => {
                        code.push(81);
                        with(&mut code, 2, r.pick(&[0, 5, 255, 256, 700]));
                        with(&mut code, 1, r.pick(&[0, 5, 255, 256, 700]));
                    }
                }
            }
            code.extend_from_slice(r.pick(&[&[51][..], &[255], &[], &[81, 74]]));
            let large = |r: &mut Rng| if r.once_in(12) { r.pick(&[255, 256, 2048, 65_535]) } else { r.below(5) };
            Template { parameters: large(r), locals: large(r), constants, code }
        })
        .collect();
    let image = Image { templates }.bytes().0;
    let mut calls = vec![Call::Load(image), Call::Run(0), Call::Register(0, r.pick(&[1, count as u64 - 1, count as u64]))];
    for _ in 0..r.below(3) {
        calls.push(Call::Run(0));
    }
    Program { kind: "wide", calls }
}

/// Where an image's items stand that a question is asked of: the question, and the item's first byte.
fn items(image: &Image) -> Vec<(u8, usize)> {
    let mut found = vec![(2, 0)];
    let mut at = 2;
    for t in &image.templates {
        found.extend([(0, at), (0, at + 2), (0, at + 4)]);
        at += 6;
        for c in &t.constants {
            found.push((3, at));
            at += 1;
            match c {
                Const::Number(_) => at += 8,
                Const::Text(s) => {
                    found.push((0, at));
                    found.extend((0..s.len()).map(|i| (5, at + 2 + i)));
                    at += 2 + s.len();
                }
                Const::Boolean(_) => {
                    found.push((4, at));
                    at += 1;
                }
                Const::Null | Const::Undefined => {}
                Const::Function(_) => {
                    found.push((6, at));
                    at += 2;
                }
            }
        }
        found.push((0, at));
        at += 2 + t.code.len();
    }
    found
}

/// An image with constants of every kind, now and then longer than the code store, in which something is wrong as a rule.
fn damaged(r: &mut Rng) -> Vec<u8> {
    if r.once_in(12) {
        return bytes(r, 40);
    }
    let mut image = sample(r).images.swap_remove(0);
    let own = &mut image.templates[0];
    own.constants.extend([Const::Text(b"text".to_vec()), Const::Boolean(true), Const::Null]);
    if r.once_in(24) {
        own.constants.push(Const::Text(vec![b'm'; 32_000 + r.below(900)]));
    }
    if image.templates.len() > 1 {
        image.templates[0].constants.push(Const::Function(1));
    }
    let count = image.templates.len();
    let items = items(&image);
    let mut out = image.bytes().0;
    for _ in 0..r.pick(&[1, 1, 1, 2, 0]) {
        let question = r.below(11) as u8;
        let of: Vec<usize> = items.iter().filter(|i| i.0 == question).map(|i| i.1).collect();
        let at = if of.is_empty() { r.below(out.len() + 1) } else { r.pick(&of) };
        let put = |out: &mut Vec<u8>, n: usize| {
            if at + 2 <= out.len() {
                out[at..at + 2].copy_from_slice(&(n as u16).to_be_bytes());
            }
        };
        match question {
            0 => {
                let n = r.pick(&[0, 1, 2, 3, 255, 256, 65_535]);
                put(&mut out, n);
            }
            1 => out.truncate(at),
            2 => {
                let n = r.pick(&[0, 256, 257, 513, 65_535, count + 1, count - 1]);
                put(&mut out, n);
            }
            6 => {
                let n = r.pick(&[0, 1, count, count - 1, 256, 65_535]);
                put(&mut out, n);
            }
            7 => out.extend(bytes(r, 3)),
            8 => out.insert(at.min(out.len()), r.below(256) as u8),
            9 if at < out.len() => {
                out.remove(at);
            }
            _ => {
                if let Some(b) = out.get_mut(at) {
                    *b = match question {
                        5 => *b | 128,
                        3 | 4 => r.pick(&[2, 3, 6, 7, 255]),
                        _ => r.below(256) as u8,
                    };
                }
            }
        }
    }
    out
}

/// Loads of damaged and whole images, and runs of what was loaded.
fn damages(r: &mut Rng) -> Program {
    let mut calls = Vec::new();
    for _ in 0..1 + r.below(8) {
        calls.push(Call::Load(damaged(r)));
        if r.once_in(3) {
            calls.push(Call::Run(r.below(3) as u64));
        }
    }
    calls.push(Call::Run(r.below(2) as u64));
    Program { kind: "damaged", calls }
}

fn chunk(constants: Vec<Const>, code: &[u8]) -> Image {
    Image { templates: vec![Template { parameters: 0, locals: 0, constants, code: code.to_vec() }, Template { code: vec![70, 51], ..Template::default() }] }
}

/// A store filled by host calls and short runs, to about its limit.
fn hosting(r: &mut Rng) -> Program {
    let about = |r: &mut Rng, limit: usize| limit - r.below(4) + r.below(6);
    let text = |s: &str| Const::Text(s.as_bytes().to_vec());
    let mut calls = Vec::new();
    match r.below(9) {
        0 => {
            // functions; then one more by code
            calls.push(Call::Load(chunk(vec![Const::Function(1)], &[52, 0, 0, 0, 0, 0, 50, 0]).bytes().0));
            calls.extend((0..about(r, limits::FUNCTIONS)).map(|_| Call::Register(0, 1)));
        }
        1 => {
            // globals; then more by code
            calls.push(Call::Load(chunk(vec![text("n"), text("m")], &[70, 4, 0, 0, 70, 4, 0, 1, 70, 4, 0, 0]).bytes().0));
            for i in 0..about(r, limits::GLOBALS - 1) {
                let w = words(r);
                calls.push(Call::SetGlobal(format!("g{}", i).into_bytes(), [w[0].min(3), w[1], 0]));
            }
        }
        2 | 3 => {
            // text, by names and by bytes; then more by code
            let code = [0, 0, 0, 0, 0, 1, 10, 71, 80, 70, 4, 0, 0, 60, 70, 6, 0, 1];
            calls.push(Call::Load(chunk(vec![text("long name"), text("k")], &code).bytes().0));
            let mut left = about(r, limits::TEXT_BYTES) - 14;
            while left > 0 {
                let n = (1 + r.below(6000)).min(left);
                left -= n;
                if r.once_in(4) {
                    calls.push(Call::SetGlobal(vec![b'a' + r.below(26) as u8; n], [5, 0, r.below(12) as u64]));
                } else {
                    calls.push(Call::SetGlobalText(b"t".to_vec(), vec![b'0' + r.below(10) as u8; n]));
                }
            }
            // a new name for what may be left
            calls.push(Call::SetGlobal(vec![b'z'; 1 + r.below(16)], [1, 0, 0]));
        }
        4 => {
            // images, small ones to the last number or longer ones to the last byte
            let size = if r.once_in(2) { 1 } else { 1000 + r.below(2500) };
            for k in 0..limits::IMAGES as u64 + 2 {
                calls.push(Call::Load(chunk(vec![Const::Text(vec![b'i'; size])], &[0, 0, 0, 255]).bytes().0));
                if r.once_in(5) {
                    calls.push(Call::Run(k));
                }
            }
        }
        5 | 6 => {
            // frames and handlers that runs leave, and operands
            let code: &[u8] = r.pick(&[&[255][..], &[75, 0, 0, 255], &[70, 81, 75, 0, 3, 255], &[70, 2, 0, 30, 255], &[75, 0, 4, 255, 80, 255]]);
            calls.push(Call::Load(chunk(Vec::new(), code).bytes().0));
            calls.push(Call::Load(chunk(vec![text("t")], &[0, 0, 0, 74]).bytes().0));
            let most = r.pick(&[limits::FRAMES, limits::HANDLERS]);
            for _ in 0..about(r, most) {
                calls.push(Call::Run(r.once_in(30) as u64));
            }
        }
        _ => {
            // output, drained into short buffers
            let line = r.below(700);
            let code = [3, 0, 0, 0, 0, 1, 50, 1, 80];
            calls.push(Call::Load(chunk(vec![text("console"), Const::Text(vec![b'o'; line])], &code).bytes().0));
            for _ in 0..limits::OUTPUT_BYTES / (line + 20) + r.below(12) {
                calls.push(Call::Run(0));
                if r.once_in(9) {
                    calls.push(Call::Drain(r.pick(&[0, line, line + 2, 4 * (line + 2), limits::OUTPUT_BYTES])));
                }
            }
        }
    }
    for _ in 0..1 + r.below(4) {
        calls.push(Call::Run(0));
        calls.push(any(r));
    }
    Program { kind: "hosting", calls }
}

/// A program that fills a store by its code, run on after the refusal.
fn overfull(r: &mut Rng) -> Program {
    let kind = r.below(programs::OVERFULL);
    let mut calls = Call::of(&programs::overfull(r, kind));
    for _ in 0..r.below(3) {
        calls.push(any(r));
        calls.push(Call::Run(0));
    }
    Program { kind: "overfull", calls }
}

/// Code that fills a store with n things; what it leaves stands when it ends.
fn filling(store: usize, n: usize) -> Vec<u8> {
    let each = |of: &dyn Fn([u8; 2]) -> Vec<u8>| -> Vec<u8> { (0..n).flat_map(|i| of((1000 + i as u16).to_be_bytes())).collect() };
    match store {
        // an unknown byte ends it, so that nothing is popped
        0 => [vec![70; n], vec![9]].concat(),
        1 if n > 0 => [vec![70, 2], (n as u16 - 1).to_be_bytes().to_vec(), vec![255]].concat(),
        2 => [each(&|_| vec![75, 0, 0]), vec![255]].concat(),
        3 => each(&|_| vec![60, 80]),
        // keys and names that are their indexes
        4 => [vec![60, 2, 0, 0], each(&|i| vec![1, 0, 0, 70, 6, i[0], i[1]])].concat(),
        5 => each(&|i| vec![70, 4, i[0], i[1]]),
        // lines of 100 bytes, and a last one
        _ => [each(&|_| vec![3, 0, 0, 0, 0, 1, 50, 1, 80]), vec![3, 0, 0, 0, 0, 2, 50, 1, 80]].concat(),
    }
}

/// A store filled but for a few places, then a sample on what is left.
fn brink(r: &mut Rng) -> Program {
    let few = |r: &mut Rng, most: usize| if r.once_in(2) { r.below(3) } else { r.below(most) };
    let mut calls = Vec::new();
    let store = r.below(10);
    let mut images = 1;
    let load = |constants: Vec<Const>, code: &[u8]| Call::Load(chunk(constants, code).bytes().0);
    match store {
        0..=5 => {
            let limit = [limits::OPERANDS, limits::SLOTS, limits::HANDLERS, limits::OBJECTS, limits::PROPERTIES, limits::GLOBALS - 1][store];
            calls.extend([load(Vec::new(), &filling(store, limit - few(r, 8))), Call::Run(0)]);
        }
        6 => {
            let left = limits::OUTPUT_BYTES - few(r, 50) - 2;
            let texts = [b"console".to_vec(), vec![b'l'; 98], vec![b'e'; left % 100]];
            calls.extend([load(texts.map(Const::Text).to_vec(), &filling(6, left / 100)), Call::Run(0)]);
        }
        7 => {
            calls.push(load(Vec::new(), &[255]));
            calls.extend((0..limits::FRAMES - few(r, 8)).map(|_| Call::Run(0)));
        }
        8 => {
            calls.push(load(Vec::new(), &[255]));
            calls.extend((0..limits::FUNCTIONS - few(r, 8)).map(|_| Call::Register(0, 1)));
        }
        _ => {
            images = 0;
            calls.push(Call::SetGlobalText(b"t".to_vec(), vec![b'7'; limits::TEXT_BYTES - 1 - few(r, 80)]));
        }
    }
    let s = sample_after(r, images);
    calls.extend(Call::of(&s));
    Program { kind: "brink", calls }
}

fn rare(r: &mut Rng) -> Program {
    let all = if r.once_in(2) { programs::endless() } else { programs::brimful() };
    let s = r.pick(&all);
    Program { kind: s.kind, calls: Call::of(&s) }
}

/// The program with this number of a seed's; it depends on nothing else.
pub fn program(seed: u64, number: u64) -> Program {
    let mut r = Rng(Rng(seed).next() ^ number.wrapping_mul(0xd134_2543_de82_ef95));
    let r = &mut r;
    let mut p = match r.below(1000) {
        0 => rare(r),
        1..=25 => overfull(r),
        26..=55 => hosting(r),
        56..=155 => damages(r),
        156..=255 => several(r),
        256..=355 => brink(r),
        356..=385 => wide(r),
        _ => {
            let s = sample(r);
            Program { kind: s.kind, calls: Call::of(&s) }
        }
    };
    if r.once_in(2) {
        sprinkle(r, &mut p.calls);
    }
    p
}
