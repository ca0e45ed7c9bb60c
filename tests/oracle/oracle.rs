//! Runs samples through the Rust of documents 000 to 002, and writes them with what came of them as a module of antt.

use crate::images;
use crate::limits;
use crate::runs::{Coverage, Judges};
use crate::sample::{Action, Given, Plain, Rng, Sample};
use crate::words::Words;
use crate::{amended, specials};
use std::fmt::Write;

/// The bytes that the sample comes to, as Summary.antt writes them; None where it cannot be compared.
fn expected(sample: &Sample, cap: usize, seen: &mut Coverage) -> Option<Vec<u8>> {
    let mut judges = Judges::new();
    let mut out = Vec::new();
    let mut loaded = 0;
    for action in &sample.actions {
        match action {
            Action::Load => {
                out.push(2);
                amended::engine::word(&mut out, loaded);
                loaded += 1;
            }
            Action::Register(i, t) => {
                out.push(2);
                amended::engine::word(&mut out, judges.register(sample, *i, *t));
            }
            Action::SetGlobal(name, g) => {
                judges.set_global(name, g);
                out.push(3);
            }
            Action::ReadGlobal(name) => {
                out.push(4);
                amended::engine::value(&mut out, &judges.engine.read_global(name));
            }
            Action::Drain => {
                out.push(6);
                out.extend_from_slice(&judges.drain());
            }
            Action::Run(i) => {
                out.push(5);
                out.extend_from_slice(&judges.run(sample, *i, cap, seen).filter(|t| !t.refused)?.bytes());
            }
        }
    }
    Some(out)
}

/// Bytes as `hex` of Summary.antt takes them: their count, and rows of 16, the last one filled with zeros.
fn hex(bytes: &[u8]) -> String {
    let mut s = format!("(hex {} (", bytes.len());
    for row in bytes.chunks(16) {
        s.push_str("0x");
        for i in 0..16 {
            write!(s, "{:02x}", row.get(i).unwrap_or(&0)).unwrap();
        }
        s.push_str(" ∷ ");
    }
    s.push_str("[]))");
    s
}

fn given(g: &Given) -> String {
    match g {
        Given::Fresh(bs) => format!("(Given.as_bytes {})", hex(bs)),
        Given::Plain(p) => match p {
            Plain::Undefined => "(Given.plain Value.undefined)".into(),
            Plain::Null => "(Given.plain Value.null)".into(),
            Plain::Boolean(b) => format!("(Given.plain (Value.boolean {}))", b),
            Plain::Number(n) => format!("(Given.plain (Value.number {:#x}))", *n as u64),
            Plain::Object(o) => format!("(Given.plain (Value.object {:#x}))", o),
            Plain::Function(f) => format!("(Given.plain (Value.function {:#x}))", f),
            Plain::InCode(at, bs) => {
                format!("(Given.plain (Value.text (record {{ store = Home.in_code; at = {}; size = {} }})))", at, bs.len())
            }
        },
    }
}

fn calls(sample: &Sample) -> Vec<String> {
    let mut images = sample.images.iter();
    sample
        .actions
        .iter()
        .map(|a| match a {
            Action::Load => format!("Call.load {}", hex(&images.next().unwrap().bytes().0)),
            Action::Run(i) => format!("Call.run {}", i),
            Action::Register(i, t) => format!("Call.register {} {}", i, t),
            Action::ReadGlobal(n) => format!("Call.read_global {}", hex(n)),
            Action::Drain => format!("Call.drain {}", limits::OUTPUT_BYTES),
            Action::SetGlobal(n, g) => format!("Call.set_global {} {}", hex(n), given(g)),
        })
        .collect()
}

const HEAD: &str = "\
-- Made by tests/oracle/make: do not edit. Each sample is a list of host calls and what the Rust of documents 000 to 002 came to on it.
use Rattle.std.specs.Prelude.{◌≡◌, refl, true, false, List, [], ◌∷◌}
use Rattle.machine.specs.Value.{Value, Home}
use Rattle.machine.specs.Act.{Given}
use Rattle.machine.specs.Run.{step_limit}
use Rattle.machine.specs.Host.{Call}
use Rattle.oracle.specs.Summary.{hex, agrees}
";

fn module(samples: &[(Sample, Vec<u8>)]) -> String {
    let mut s = String::from(HEAD);
    for (i, (sample, bytes)) in samples.iter().enumerate() {
        let n = i + 1;
        write!(s, "\nabbrev calls{} : List Call\ncalls{} =\n    ", n, n).unwrap();
        for c in calls(sample) {
            write!(s, "{}\n    ∷ ", c).unwrap();
        }
        write!(s, "[]\n\nsample{} : agrees calls{} {} ≡ true\nunfolding step_limit\nsample{} = refl\n", n, n, hex(bytes), n).unwrap();
    }
    s
}

pub fn main() {
    let words = Words::read(&["seed", "count", "long", "short", "cap", "room", "show", "only", "out"]);
    let (seed, count, out) = (words.number("seed", 1u64), words.number("count", 100usize), words.text("out"));
    let (long, short) = (words.number("long", usize::MAX), words.number("short", usize::MAX));
    let (cap, room, show) = (words.number("cap", 150usize), words.number("room", 26usize), words.number("show", 0usize));
    let only: Vec<usize> = words.text("only").map_or(Vec::new(), |v| v.split(',').map(|n| n.parse().expect("a number")).collect());
    let mut seen = Coverage::new();
    let mut samples: Vec<(Sample, Vec<u8>)> = Vec::new();
    let mut dropped = 0;
    for s in specials::long().into_iter().take(long) {
        let mut c = Coverage::new();
        let bytes = expected(&s, 2000, &mut c).expect("a sample written by hand");
        seen.add(&c);
        samples.push((s, bytes));
    }
    for s in specials::short().into_iter().take(short) {
        let mut c = Coverage::new();
        let bytes = expected(&s, 300, &mut c).expect("a sample written by hand");
        seen.add(&c);
        samples.push((s, bytes));
    }
    let mut r = Rng(seed);
    let (mut made, mut most, mut brief) = (0, 0, 0);
    while made < count {
        let size = room / 2 + r.below(room);
        let s = images::sample(&mut r, size as isize);
        let mut c = Coverage::new();
        match expected(&s, cap, &mut c) {
            Some(bytes) => {
                most = most.max(c.steps);
                brief += (c.steps < 60) as usize;
                seen.add(&c);
                samples.push((s, bytes));
                made += 1;
            }
            None => dropped += 1,
        }
    }
    if show > 0 {
        let (s, bytes) = &samples[show - 1];
        eprintln!("{:#?}\n{}", s, hex(bytes));
    }
    if !only.is_empty() {
        samples = only.iter().map(|n| samples[n - 1].clone()).collect();
    }
    let text = module(&samples);
    match out {
        Some(file) => std::fs::write(file, &text).expect("the file is written"),
        None => print!("{}", text),
    }
    let of = |kind: &str| samples.iter().filter(|s| s.0.kind == kind).count();
    eprintln!(
        "{} samples ({} by hand, {} of code, {} tables, {} of arrays, {} of random bytes; {} thrown away), {} runs, {} steps; of the random ones {} have less than 60 steps, none more than {}; {} bytes",
        samples.len(),
        of("special") + of("full"),
        of("code"),
        of("table"),
        of("array"),
        of("bytes"),
        dropped,
        seen.runs,
        seen.steps,
        brief,
        most,
        text.len()
    );
    seen.print();
}
