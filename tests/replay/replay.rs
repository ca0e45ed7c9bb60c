//! Writes the list of crates/replay: programs, and what the Rust of documents 000 to 002 came to on each. README.md has the format.

use crate::amended::engine::{counted, given, value, word};
use crate::limits;
use crate::runs::{Coverage, Judges};
use crate::sample::{Action, Const, Given, Plain, Rng, Sample};
use crate::words::Words;
use crate::{images, specials};

#[path = "programs.rs"]
mod programs;

/// The bytes of a program that the reader holds at once.
const MOST: usize = 65_536;

/// A program's calls with their answers, as far as they were made.
struct Program<'a> {
    sample: &'a Sample,
    host: bool,
    judges: Judges,
    out: Vec<u8>,
    images: usize,
    /// Of the images that were loaded, and their bytes.
    loaded: usize,
    code: usize,
}

impl<'a> Program<'a> {
    fn new(sample: &'a Sample, host: bool) -> Program<'a> {
        Program { sample, host, judges: Judges::new(), out: Vec::new(), images: 0, loaded: 0, code: 0 }
    }

    fn load(&mut self) {
        let bytes = self.sample.images[self.images].bytes().0;
        self.images += 1;
        let refused = if self.code + bytes.len() > limits::CODE_BYTES {
            Some(8)
        } else if self.loaded == limits::IMAGES {
            Some(9)
        } else {
            None
        };
        self.out.push(if refused.is_some() { 8 } else { 1 });
        counted(&mut self.out, &bytes);
        if let Some(q) = refused {
            self.out.push(q);
        } else {
            self.loaded += 1;
            self.code += bytes.len();
        }
    }

    /// False where nothing can follow: the run is refused for space.
    fn run(&mut self, image: usize, cap: usize, seen: &mut Coverage) -> Option<bool> {
        if self.judges.engine.vm.call_stack.len() == limits::FRAMES {
            self.out.extend_from_slice(&[7, image as u8, 11]);
            return Some(true);
        }
        let told = self.judges.run(self.sample, image, cap, seen)?;
        self.out.extend_from_slice(&[2, image as u8]);
        self.out.extend_from_slice(&told.bytes());
        Some(!told.refused)
    }

    /// Registration and globals of the host are left out unless they are asked for. None where a run is too long, false where nothing can follow.
    fn call(&mut self, action: &Action, cap: usize, seen: &mut Coverage) -> Option<bool> {
        match action {
            Action::Load => self.load(),
            Action::Run(i) => return self.run(*i, cap, seen),
            Action::Drain => {
                self.out.push(3);
                self.out.extend_from_slice(&self.judges.drain());
            }
            Action::Register(i, t) if self.host => {
                self.out.extend_from_slice(&[4, *i as u8]);
                word(&mut self.out, *t);
                word(&mut self.out, self.judges.register(self.sample, *i, *t));
            }
            Action::SetGlobal(name, g) if self.host => {
                self.out.push(5);
                counted(&mut self.out, name);
                match g {
                    Given::Plain(Plain::InCode(at, bytes)) => {
                        self.out.push(7);
                        word(&mut self.out, *at);
                        word(&mut self.out, bytes.len());
                    }
                    _ => value(&mut self.out, &given(g)),
                }
                self.judges.set_global(name, g);
            }
            Action::ReadGlobal(name) if self.host => {
                self.out.push(6);
                counted(&mut self.out, name);
                value(&mut self.out, &self.judges.engine.read_global(name));
            }
            Action::Register(..) | Action::SetGlobal(..) | Action::ReadGlobal(..) => {}
        }
        Some(true)
    }
}

/// A program with its answers; None where a run is too long. A run that is refused for space is its last call.
fn program(sample: &Sample, cap: usize, host: bool, seen: &mut Coverage) -> Option<Vec<u8>> {
    let mut p = Program::new(sample, host);
    for action in &sample.actions {
        if !p.call(action, cap, seen)? {
            break;
        }
    }
    (p.out.len() <= MOST).then_some(p.out)
}

#[derive(Default)]
struct List {
    host: bool,
    programs: Vec<(&'static str, Vec<u8>)>,
    constants: [usize; 6],
    dropped: usize,
}

impl List {
    fn add(&mut self, sample: &Sample, cap: usize, seen: &mut Coverage) {
        let mut c = Coverage::new();
        let Some(bytes) = program(sample, cap, self.host, &mut c) else {
            self.dropped += 1;
            return;
        };
        seen.add(&c);
        for k in sample.images.iter().flat_map(|i| &i.templates).flat_map(|t| &t.constants) {
            let kind = match k {
                Const::Number(_) => 0,
                Const::Text(_) => 1,
                Const::Boolean(_) => 2,
                Const::Null => 3,
                Const::Undefined => 4,
                Const::Function(_) => 5,
            };
            self.constants[kind] += 1;
        }
        self.programs.push((sample.kind, bytes));
    }

    fn bytes(&self, runs: usize) -> Vec<u8> {
        let mut out = b"CWR1".to_vec();
        out.extend_from_slice(&(self.programs.len() as u32).to_be_bytes());
        out.extend_from_slice(&(runs as u32).to_be_bytes());
        for (_, p) in &self.programs {
            out.extend_from_slice(&(p.len() as u32).to_be_bytes());
            out.extend_from_slice(p);
        }
        out
    }
}

pub fn main() {
    let words = Words::read(&["seed", "count", "host", "out"]);
    let (seed, count) = (words.number("seed", 1u64), words.number("count", 3000usize));
    let (host, out) = (words.text("host") == Some("1"), words.text("out").expect("--out FILE"));
    let mut seen = Coverage::new();
    let mut list = List { host, ..List::default() };
    for s in specials::long().iter().chain(&specials::short()) {
        list.add(s, 2000, &mut seen);
    }
    for s in programs::brimful() {
        list.add(&s, limits::STEPS, &mut seen);
    }
    let mut r = Rng(seed ^ 0x5eed);
    for kind in 0..programs::OVERFULL * 7 {
        list.add(&programs::overfull(&mut r, kind % programs::OVERFULL), limits::STEPS, &mut seen);
    }
    for s in programs::endless() {
        list.add(&s, limits::STEPS, &mut seen);
    }
    let mut r = Rng(seed);
    while list.programs.len() < count {
        let s = match r.below(4) {
            0 => programs::sample(&mut r),
            1 => images::sample(&mut r, 60),
            _ => {
                let room = 13 + r.below(26) as isize;
                images::sample(&mut r, room)
            }
        };
        list.add(&s, 3000, &mut seen);
    }
    let bytes = list.bytes(seen.runs);
    std::fs::write(out, &bytes).expect("the file is written");
    // what crates/replay is to print
    println!("{} programs, {} runs, 0 differ", list.programs.len(), seen.runs);
    let mut kinds: Vec<&str> = list.programs.iter().map(|p| p.0).collect();
    kinds.sort();
    kinds.dedup();
    let of = |kind: &&str| format!("{} {}", list.programs.iter().filter(|p| p.0 == *kind).count(), kind);
    let kinds: Vec<String> = kinds.iter().map(of).collect();
    let longest = list.programs.iter().map(|p| p.1.len()).max().unwrap_or(0);
    eprintln!("{} programs ({}; {} thrown away), {} runs, {} steps; {} bytes, the longest program {}", list.programs.len(), kinds.join(", "), list.dropped, seen.runs, seen.steps, bytes.len(), longest);
    eprintln!("constants (kind:times): {}", list.constants.iter().enumerate().map(|(k, n)| format!("{}:{}", k, n)).collect::<Vec<_>>().join(" "));
    seen.print();
}
