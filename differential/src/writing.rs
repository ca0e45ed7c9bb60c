//! The image writer (change 2 of document 02): each call of a list compared with a plain model, each finished image read back, loaded and run. The model is the
//! papers': the templates so far, laid out by the encoder of tests/oracle, and the two questions.

use crate::limits;
use crate::sample::{Const, Image, Template};
use crate::words::Words;

use super::calls::{hex, Answer, Call};
use super::library::Library;
use super::writes::{self, Write, MOST, NAMES};
use super::{compare, dying, shrinking};
use std::collections::{BTreeMap, HashMap};
use std::time::Instant;

/// `carderwheel_writer`; the state is stage, bytes written, templates, where the newest one starts, its constants.
#[repr(C)]
#[derive(Clone, PartialEq)]
struct Writer {
    buffer: *mut u8,
    capacity: usize,
    state: [u64; 5],
}

extern "C" {
    fn face_writer_size() -> usize;
    fn face_write_begin(w: *mut Writer, buffer: *mut u8, capacity: usize) -> u64;
    fn face_write_template(w: *mut Writer, parameters: u64, locals: u64) -> u64;
    fn face_write_number(w: *mut Writer, bits: u64) -> u64;
    fn face_write_text(w: *mut Writer, bytes: *const u8, size: usize) -> u64;
    fn face_write_boolean(w: *mut Writer, value: i32) -> u64;
    fn face_write_null(w: *mut Writer) -> u64;
    fn face_write_undefined(w: *mut Writer) -> u64;
    fn face_write_function(w: *mut Writer, template: u64) -> u64;
    fn face_write_code(w: *mut Writer, bytes: *const u8, size: usize) -> u64;
    fn face_write_finish(w: *mut Writer, size: *mut usize) -> u64;
}

/// Bytes before, between and behind the two buffers, which no call may touch.
const GUARD: usize = 32;

/// A writer of the engine's, and the memory that has its buffers.
struct Lent {
    writer: Writer,
    /// Where each buffer begins.
    places: [usize; 2],
    /// Reached by this pointer alone, since the writer has a pointer into it.
    memory: *mut u8,
    size: usize,
}

impl Lent {
    /// With room for the greatest buffers of a list.
    fn new(list: &[Write]) -> Lent {
        let most = |which: usize| list.iter().map(|c| if let Write::Begin(b, room) = c { (*b == which) as usize * room } else { 0 }).max().unwrap_or(0);
        let second = GUARD + most(0) + GUARD;
        let size = second + most(1) + GUARD;
        // the same for each list; no two bytes in a row are alike, so that one left or moved by mistake shows
        let filled: Box<[u8]> = (0..size as u64).map(|i| (i.wrapping_mul(0x9e37_79b9_7f4a_7c15) >> 56) as u8).collect();
        // zeros are a writer before a begin; a begin takes any
        let first = if matches!(list.first(), Some(Write::Begin(_, 2..))) { 0x5555_5555 } else { 0 };
        let writer = Writer { buffer: first as *mut u8, capacity: first, state: [first as u64; 5] };
        Lent { writer, places: [GUARD, second], memory: Box::into_raw(filled) as *mut u8, size }
    }

    fn memory(&self) -> &[u8] {
        // SAFETY, here and below: it has so many bytes, and no call is under way
        unsafe { std::slice::from_raw_parts(self.memory, self.size) }
    }

    /// Where a place of the memory is, for the engine.
    fn at(&self, place: usize) -> *mut u8 {
        self.memory.wrapping_add(place)
    }

    /// The number, and the bytes that a finish tells.
    fn call(&mut self, call: &Write) -> (u64, usize) {
        let mut told = usize::MAX;
        // where there are no bytes, C may have no pointer either
        let given = |b: &[u8]| if b.is_empty() { std::ptr::null() } else { b.as_ptr() };
        let buffer = |b: usize, room: usize| if (b, room) == (1, 0) { std::ptr::null_mut() } else { self.at(self.places[b]) };
        let begun = if let Write::Begin(b, room) = call { buffer(*b, *room) } else { std::ptr::null_mut() };
        let w: *mut Writer = &mut self.writer;
        // SAFETY: the pointers are to what each call's declaration says, with its size
        let number = unsafe {
            match call {
                Write::Begin(_, room) => face_write_begin(w, begun, *room),
                Write::Template(p, l) => face_write_template(w, *p, *l),
                Write::Number(n) => face_write_number(w, *n as u64),
                Write::Text(s) => face_write_text(w, given(s), s.len()),
                Write::Boolean(b) => face_write_boolean(w, *b),
                Write::Null => face_write_null(w),
                Write::Undefined => face_write_undefined(w),
                Write::Function(t) => face_write_function(w, *t),
                Write::Code(c) => face_write_code(w, given(c), c.len()),
                Write::Finish => face_write_finish(w, &mut told),
            }
        };
        (number, told)
    }
}

impl Drop for Lent {
    fn drop(&mut self) {
        // SAFETY: made so in `new`
        drop(unsafe { Box::from_raw(std::ptr::slice_from_raw_parts_mut(self.memory, self.size)) });
    }
}

/// What the papers say of a writer.
struct Model {
    /// Between a begin and its finish.
    under_way: bool,
    image: Image,
    /// The newest template's code has come.
    coded: bool,
    /// Bytes written, and where the newest template starts.
    size: usize,
    at: usize,
    /// The buffer's place, and how much of it is lent.
    place: usize,
    room: usize,
    memory: Vec<u8>,
}

impl Model {
    fn new(memory: Vec<u8>) -> Model {
        Model { under_way: false, image: Image::default(), coded: false, size: 0, at: 0, place: 0, room: 0, memory }
    }

    /// 34: the order, the counts and the lengths.
    fn in_order(&self, call: &Write) -> bool {
        let newest = self.image.templates.last();
        let open = self.under_way && newest.is_some() && !self.coded;
        let small = |n: u64| n <= MOST as u64;
        match call {
            Write::Begin(..) => true,
            Write::Template(p, l) => self.under_way && self.image.templates.len() < MOST && small(*p) && small(*l),
            Write::Code(c) => open && c.len() <= MOST,
            Write::Finish => self.under_way,
            constant => {
                let fits = match constant {
                    Write::Text(s) => s.len() <= MOST,
                    Write::Function(t) => small(*t),
                    _ => true,
                };
                open && fits && newest.unwrap().constants.len() < MOST
            }
        }
    }

    fn answer(&mut self, call: &Write, places: [usize; 2]) -> u64 {
        if !self.in_order(call) {
            return 34;
        }
        let (before, room) = if let Write::Begin(_, room) = call { (0, *room) } else { (self.size, self.room) };
        if before + call.size() > room {
            return 31;
        }
        match call {
            Write::Begin(b, _) => {
                (self.under_way, self.coded, self.image) = (true, false, Image::default());
                (self.place, self.room) = (places[*b], room);
            }
            Write::Template(p, l) => {
                self.image.templates.push(Template { parameters: *p as usize, locals: *l as usize, ..Template::default() });
                (self.coded, self.at) = (false, self.size);
            }
            Write::Code(c) => {
                self.image.templates.last_mut().unwrap().code = c.clone();
                self.coded = true;
            }
            Write::Finish => self.under_way = false,
            constant => self.image.templates.last_mut().unwrap().constants.push(constant.constant().unwrap()),
        }
        self.size = before + call.size();
        0
    }

    /// The image so far, put where it is to stand, if there was a begin.
    fn lay_out(&mut self) {
        if self.room == 0 {
            return;
        }
        let bytes = self.image.bytes().0;
        assert_eq!(bytes.len(), self.size, "the model's sizes are not those of its encoder");
        self.memory[self.place..self.place + self.size].copy_from_slice(&bytes);
    }

    /// The state's words, as the header names them; with no template the last two say nothing.
    fn words(&self) -> Vec<u64> {
        let stage = match (self.under_way, self.coded, self.image.templates.len()) {
            (false, ..) => 4,
            (_, true, _) => 3,
            (_, _, 0) => 1,
            _ => 2,
        };
        let mut words = vec![stage, self.size as u64, self.image.templates.len() as u64];
        words.extend(self.image.templates.last().iter().flat_map(|t| [self.at as u64, t.constants.len() as u64]));
        words
    }

    fn finished(&self) -> &[u8] {
        &self.memory[self.place..self.place + self.size]
    }
}

fn alike(a: &Image, b: &Image) -> bool {
    let parts = |t: &Template| (t.parameters, t.locals);
    a.templates.len() == b.templates.len()
        && a.templates.iter().zip(&b.templates).all(|(s, t)| parts(s) == parts(t) && s.constants == t.constants && s.code == t.code)
}

/// What the lists of a run made happen.
pub struct Seen {
    lists: usize,
    calls: [usize; 10],
    /// How often each call was refused with each number.
    refusals: BTreeMap<(usize, u64), usize>,
    /// The loader's answers to finished images.
    answers: BTreeMap<u64, usize>,
    /// What came of the loads and runs.
    programs: super::Seen,
    /// Short finished images with their templates, for others that give the same bytes; and how often bytes came again.
    images: HashMap<Vec<u8>, Image>,
    again: usize,
}

impl Seen {
    pub fn new() -> Seen {
        Seen { lists: 0, calls: [0; 10], refusals: BTreeMap::new(), answers: BTreeMap::new(), programs: super::Seen::new(), images: HashMap::new(), again: 0 }
    }

    fn refused(&self, call: usize, number: u64) -> usize {
        self.refusals.get(&(call, number)).copied().unwrap_or(0)
    }

    /// What a run must have met, and how often it did.
    pub fn all(&self) -> Vec<(String, usize)> {
        let mut all = Vec::new();
        for (call, name) in NAMES.iter().enumerate() {
            // begin is never out of order, finish needs no byte
            for number in [31, 34] {
                if (call, number) != (0, 34) && (call, number) != (9, 31) {
                    all.push((format!("write {} refused with {}", name, number), self.refused(call, number)));
                }
            }
        }
        for number in [0, 2, 5, 6, 8, 9] {
            all.push((format!("a written image's load answered with {}", number), self.answers.get(&number).copied().unwrap_or(0)));
        }
        all
    }

    pub fn print(&self) {
        println!("{} lists of calls of the image writer (number:times):", self.lists);
        for (call, name) in NAMES.iter().enumerate() {
            let refused: Vec<String> = [31, 34].iter().filter(|n| self.refused(call, **n) > 0).map(|n| format!("{}:{}", n, self.refused(call, *n))).collect();
            println!("  {} {} (refused {})", name, self.calls[call], if refused.is_empty() { "never".into() } else { refused.join(" ") });
        }
        let answers: Vec<String> = self.answers.iter().map(|(n, times)| format!("{}:{}", n, times)).collect();
        let (runs, steps) = (self.programs.code.runs, self.programs.code.steps);
        let finished: usize = self.answers.values().sum();
        println!("  {} images finished, {} with the bytes of an earlier one; their loads were answered {}", finished, self.again, answers.join(" "));
        println!("  {} runs of them, {} steps", runs, steps);
    }
}

/// Each call of a list compared with the model, and each finished image's way back; the first difference, with the number of its call.
pub fn check(library: &mut Library, list: &[Write], seen: &mut Seen) -> Result<(), (usize, String)> {
    assert_eq!(unsafe { face_writer_size() }, std::mem::size_of::<Writer>(), "the header has another struct");
    let mut lent = Lent::new(list);
    let mut model = Model::new(lent.memory().to_vec());
    let mut finished = Vec::new();
    seen.lists += 1;
    for (n, call) in list.iter().enumerate() {
        let expected = model.answer(call, lent.places);
        seen.calls[call.which()] += 1;
        if expected != 0 {
            *seen.refusals.entry((call.which(), expected)).or_default() += 1;
        }
        // of the longest lists the bytes after some calls only, since they grow with the list
        let looked = list.len() < 2000 || n % 4096 == 0 || n + 20 > list.len() || matches!(list.get(n + 1), Some(Write::Begin(..)));
        let mut told = one(&mut lent, &mut model, call, expected, looked);
        if told.is_ok() && expected == 0 && *call == Write::Finish {
            told = way_back(library, &model, &mut finished, seen);
        }
        told.map_err(|e| (n, format!("{}: {}", start(call.line()), e)))?;
    }
    Ok(())
}

/// One call: its number, the writer, and, where they are looked at, all bytes.
fn one(lent: &mut Lent, model: &mut Model, call: &Write, expected: u64, looked: bool) -> Result<(), String> {
    let before = lent.writer.clone();
    let (number, told) = lent.call(call);
    if number != expected {
        return Err(format!("the papers say {}, the engine answers {}", expected, number));
    }
    if number != 0 && lent.writer != before {
        return Err("a refused call alters the writer".into());
    }
    if number == 0 {
        let words = model.words();
        if lent.writer.state[..words.len()] != words {
            return Err(format!("the writer's words are {:?}, not {:?}", lent.writer.state, words));
        }
        if (lent.writer.buffer, lent.writer.capacity) != (lent.at(model.place), model.room) {
            return Err("the writer has another buffer".into());
        }
    }
    if told != if number == 0 && *call == Write::Finish { model.size } else { usize::MAX } {
        return Err(format!("it tells {} bytes", told));
    }
    if !looked {
        return Ok(());
    }
    model.lay_out();
    let (is, to_be) = (lent.memory(), &model.memory[..]);
    if is != to_be {
        let at = (0..is.len()).find(|k| is[*k] != to_be[*k]).unwrap();
        let near = |b: &[u8]| hex(&b[at.saturating_sub(8)..b.len().min(at + 24)]);
        let place = at as isize - model.place as isize;
        let which = format!("byte {} of a buffer of {}, {} of them written", place, model.room, model.size);
        return Err(format!("{}: to be ..{}.., is ..{}..", which, near(to_be), near(is)));
    }
    Ok(())
}

/// The first letters of a line that may be long.
fn start(line: String) -> String {
    line.chars().take(60).collect()
}

/// An image that was just finished: loaded, run, and held against the others.
fn way_back(library: &mut Library, model: &Model, finished: &mut Vec<(Image, Vec<u8>)>, seen: &mut Seen) -> Result<(), String> {
    let (image, bytes) = (&model.image, model.finished());
    trip(library, image, bytes, seen).map_err(|e| format!("the image {}: {}", start(hex(bytes)), e))?;
    if let Some(other) = finished.iter().find(|f| alike(&f.0, image) != (f.1 == bytes)) {
        return Err(format!("an earlier image has equal templates or equal bytes, and not both: {}", start(hex(&other.1))));
    }
    match seen.images.get(bytes) {
        Some(known) if !alike(known, image) => return Err(format!("other templates gave these bytes: {:?}", known)),
        Some(_) => seen.again += 1,
        None if bytes.len() <= 64 => {
            seen.images.insert(bytes.to_vec(), image.clone());
        }
        None => {}
    }
    finished.push((image.clone(), bytes.to_vec()));
    Ok(())
}

/// The loader's answer to an image of these templates and bytes, where so many bytes and images are loaded.
fn rule(image: &Image, size: usize, bytes: usize, images: usize) -> u64 {
    let count = image.templates.len();
    if count < 1 || count > 256 {
        return 2;
    }
    for (own, t) in image.templates.iter().enumerate() {
        for c in &t.constants {
            match c {
                Const::Text(s) if s.iter().any(|b| *b >= 128) => return 5,
                Const::Function(u) if *u <= own || *u >= count => return 6,
                _ => {}
            }
        }
    }
    if bytes + size > limits::CODE_BYTES {
        8
    } else if images == limits::IMAGES {
        9
    } else {
        0
    }
}

/// An image of so many bytes, 10 or more.
fn filler(size: usize) -> Vec<u8> {
    Image { templates: vec![Template { code: vec![255; size - 10], ..Template::default() }] }.bytes().0
}

/// A finished image on its way back: read by the harness's reader, loaded, and where it is accepted run beside the Rust.
fn trip(library: &mut Library, image: &Image, bytes: &[u8], seen: &mut Seen) -> Result<(), String> {
    // What is loaded before it hangs on its bytes, so that the calls alone tell all: nothing as a rule; images up to the last number; one that leaves the
    // room it needs, or a byte less.
    let turn = bytes.iter().map(|b| usize::from(*b)).sum::<usize>() % 16;
    let first = match turn {
        0 => vec![filler(10); limits::IMAGES],
        1 | 2 if bytes.len() + 10 <= limits::CODE_BYTES => vec![filler(limits::CODE_BYTES - bytes.len() + turn - 1)],
        _ => Vec::new(),
    };
    let own = first.len() as u64;
    let expected = rule(image, bytes.len(), first.iter().map(Vec::len).sum(), first.len());
    match Image::read(bytes) {
        Ok(read) if !alike(&read, image) => return Err(format!("other templates are read from it: {:?}", read)),
        Ok(_) if ![0, 8, 9].contains(&expected) => return Err(format!("its templates say {}, and it is read", expected)),
        Err(n) if u64::from(n) != expected => return Err(format!("its templates say {}, and reading it {}", expected, n)),
        _ => {}
    }
    let mut calls: Vec<Call> = first.into_iter().chain([bytes.to_vec()]).map(Call::Load).collect();
    library.call(&Call::Clear)?;
    let mut answer = Answer::Done;
    for call in &calls {
        answer = library.call(call)?;
    }
    let told = match answer {
        Answer::Number(n) if n == own => 0,
        Answer::Refused(n) => n,
        other => return Err(format!("a load answered with {:?}", other)),
    };
    if told != expected {
        return Err(format!("its templates say {}, and the loader {}", expected, told));
    }
    *seen.answers.entry(told).or_default() += 1;
    if told == 0 {
        calls.extend([Call::Run(own), Call::Register(own, 1), Call::Run(own)]);
    }
    compare(library, &calls, &mut seen.programs).map_err(|(n, e)| format!("{}: {}", start(calls[n].line()), e))
}

/// The lists that the words ask for, with their names: with every fourth program's number, and at the start the edges.
pub fn asked(words: &Words) -> Box<dyn Iterator<Item = (String, Vec<Write>)>> {
    let (seed, count, from) = (words.number("seed", 1u64), words.number("count", 20_000u64), words.number("from", 0u64));
    if let Some(file) = words.text("calls") {
        let text = std::fs::read_to_string(file).expect("a file of calls");
        let named = (format!("{}, the image writer", file), writes::read(&text));
        return Box::new(std::iter::once(named).filter(|l| !l.1.is_empty()).map(|l| (dying::note(l.0), l.1)));
    }
    let by_hand = if from == 0 { writes::edges() } else { Vec::new() };
    let named = |(n, list): (usize, Vec<Write>)| (dying::note(format!("list {} of the image writer by hand", n)), list);
    let made = (from..from + count).filter(|n| n % 4 == 0);
    let made = made.map(move |n| (dying::note(format!("seed {} list {} of the image writer", seed, n)), writes::list(seed, n)));
    Box::new(by_hand.into_iter().enumerate().map(named).chain(made))
}

/// The list made smaller as long as it differs: calls, then their bytes. Equal ones in a row go together, by halves, since there can be very many.
fn smaller(list: &[Write], differs: &mut dyn FnMut(&[Write]) -> bool) -> Vec<Write> {
    let rows: Vec<Vec<Write>> = list.chunk_by(|a, b| a == b).map(<[Write]>::to_vec).collect();
    let mut rows = shrinking::cut(rows, &|r: &[Vec<Write>]| r.concat(), differs);
    for n in 0..rows.len() {
        while rows[n].len() > 1 {
            let mut left = rows.clone();
            left[n].truncate(rows[n].len() / 2);
            if !differs(&left.concat()) {
                break;
            }
            rows = left;
        }
    }
    let mut list = rows.concat();
    for n in 0..list.len() {
        let (of, bytes): (fn(Vec<u8>) -> Write, _) = match list[n].clone() {
            Write::Text(b) => (Write::Text, b),
            Write::Code(b) => (Write::Code, b),
            _ => continue,
        };
        let put = |b: &[u8]| {
            let mut list = list.clone();
            list[n] = of(b.to_vec());
            list
        };
        let bytes = shrinking::cut(bytes, &put, differs);
        list[n] = of(bytes);
    }
    list
}

/// A list that differs is made small and printed.
pub fn tell(library: &mut Library, what: &str, list: &[Write], at: usize, why: &str) {
    println!("DIFFERENT: {}, call {}: {}", what, at, why);
    let begun = Instant::now();
    let mut differs = |l: &[Write]| begun.elapsed() < super::SHRINKING && check(library, l, &mut Seen::new()).is_err();
    let small = smaller(list, &mut differs);
    println!("the smallest list of calls that was found, for --calls:");
    for line in writes::lines(&small) {
        println!("{}", line);
    }
    if let Err((n, e)) = check(library, &small, &mut Seen::new()) {
        println!("; call {}: {}", n, e);
    }
}
