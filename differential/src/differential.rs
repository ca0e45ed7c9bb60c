//! Runs programs by the engine's static library and by the Rust of documents 000 to 002, and compares what both answer and hold after every call; then lists of
//! calls of the image writer. README.md says how, and what is compared.

use crate::images::OPCODES;
use crate::rows::Rows;
use crate::runs::Coverage;
use crate::sample::Sample;
use crate::specials;
use crate::words::Words;

#[path = "calls.rs"]
mod calls;
#[path = "dying.rs"]
mod dying;
#[path = "library.rs"]
mod library;
#[path = "making.rs"]
mod making;
#[path = "../../tests/replay/programs.rs"]
mod programs;
#[path = "reference.rs"]
mod reference;
#[path = "shrinking.rs"]
mod shrinking;
#[path = "writes.rs"]
mod writes;
#[path = "writing.rs"]
mod writing;

use calls::{Answer, Call, Program};
use library::Library;
use reference::Reference;
use std::collections::BTreeMap;
use std::time::{Duration, Instant};

/// What the programs of a run made happen.
struct Seen {
    code: Coverage,
    kinds: BTreeMap<&'static str, usize>,
    calls: [usize; 10],
    /// How often each call was refused with each number.
    refusals: BTreeMap<(usize, u64), usize>,
}

impl Seen {
    fn new() -> Seen {
        Seen { code: Coverage::new(), kinds: BTreeMap::new(), calls: [0; 10], refusals: BTreeMap::new() }
    }
}

/// Each call's answer and all that is held after it, compared; the first difference, with the number of its call.
fn compare(library: &mut Library, calls: &[Call], seen: &mut Seen) -> Result<(), (usize, String)> {
    let mut reference = Reference::new();
    if let Err(e) = one(library, &mut reference, &Call::Clear, seen) {
        return Err((0, format!("clear: {}", e)));
    }
    for (n, call) in calls.iter().enumerate() {
        one(library, &mut reference, call, seen).map_err(|e| (n, e))?;
    }
    Ok(())
}

fn one(library: &mut Library, reference: &mut Reference, call: &Call, seen: &mut Seen) -> Result<(), String> {
    let expected = reference.call(call, &mut seen.code);
    seen.calls[call.which()] += 1;
    let before = match &expected {
        Answer::Refused(n) => {
            *seen.refusals.entry((call.which(), *n)).or_default() += 1;
            Some(library.stores.clone())
        }
        _ => None,
    };
    let answer = library.call(call)?;
    if answer != expected {
        return Err(format!("the Rust answers {:?}, the engine {:?}", expected, answer));
    }
    if before.map_or(false, |b| b != library.stores) {
        return Err("a refused call alters a store".into());
    }
    let parts = library.state()?;
    let mut rest = &reference.state()[..];
    for (name, part) in &parts {
        if !rest.starts_with(part) {
            // from a little before the first byte that differs
            let same = rest.iter().zip(part).take_while(|(a, b)| a == b).count();
            let near = |bytes: &[u8]| calls::hex(&bytes[same.saturating_sub(8)..bytes.len().min(same + 24)]);
            return Err(format!("{} from byte {} on: the Rust has ..{}.., the engine ..{}..", name, same, near(rest), near(part)));
        }
        rest = &rest[part.len()..];
    }
    assert!(rest.is_empty(), "the Rust has further parts");
    if (library.texts(), library.code(), library.images()) != (reference.texts(), reference.code(), reference.images()) {
        return Err("the text store or the code store holds other bytes".into());
    }
    Ok(())
}

/// What a run of these numbers must have met, each at least so often.
fn missing(seen: &Seen, written: &writing::Seen, least: usize) -> Vec<String> {
    let mut all = written.all();
    for b in OPCODES {
        all.push((format!("opcode {}", b), seen.code.opcodes[b as usize]));
    }
    // 20 cannot be met
    for end in (11..=19).chain(21..=28).chain([0]) {
        all.push((format!("a run's end {}", end), seen.code.ends[end]));
    }
    // change 4: number texts that 000 writes otherwise, in each place where a text is made; and runs that make none, which 000 judges unchanged
    for b in [7, 8, 10, 50, 74] {
        all.push((format!("opcode {} with a number's text as change 4 has it", b), seen.code.amending[b]));
    }
    all.push(("a text call of such a number".into(), seen.code.amended_calls));
    // change 5: handlers that go with their function; runs in which 000, that keeps them, takes another; and runs in which it does not come to that
    all.push(("a handler dropped by Return".into(), seen.code.dropped[0]));
    all.push(("a handler dropped at the end of the code".into(), seen.code.dropped[1]));
    all.push(("a run in which 000 takes a dropped handler".into(), seen.code.stale));
    all.push(("a run that drops a handler, compared with 000 unchanged".into(), seen.code.dropping));
    all.push(("a run compared with 000 unchanged".into(), seen.code.unchanged));
    // change 6: each opcode that has operand bytes with too few of them, and each that takes operands with too few of these
    for b in OPCODES {
        let [bytes, taken, _] = Rows::all().row(b);
        if bytes > 0 {
            all.push((format!("opcode {} that gives 14", b), seen.code.cut[b as usize]));
        }
        if taken > 0 && b != 61 {
            all.push((format!("opcode {} that gives 15", b), seen.code.short[b as usize]));
        }
    }
    let questions: [&[u64]; 10] =
        [&[], &[1, 2, 3, 4, 5, 6, 7, 8, 9], &[10, 23, 32], &[26, 27, 29, 30], &[26, 27, 29], &[29], &[10, 11], &[30, 31], &[29, 31], &[31]];
    for (call, numbers) in questions.iter().enumerate() {
        all.push((calls::NAMES[call].to_string(), seen.calls[call]));
        for n in *numbers {
            all.push((format!("{} refused with {}", calls::NAMES[call], n), seen.refusals.get(&(call, *n)).copied().unwrap_or(0)));
        }
    }
    all.iter().filter(|m| m.1 < least).map(|m| format!("{}: {} times", m.0, m.1)).collect()
}

fn report(programs: usize, seen: &Seen) {
    let kinds: Vec<String> = seen.kinds.iter().map(|(k, n)| format!("{} {}", n, k)).collect();
    println!("{} programs ({}), {} runs, {} steps", programs, kinds.join(", "), seen.code.runs, seen.code.steps);
    let calls: Vec<String> = (0..10)
        .map(|c| {
            let refused: Vec<String> = seen.refusals.iter().filter(|r| r.0 .0 == c).map(|r| format!("{}:{}", r.0 .1, r.1)).collect();
            format!("  {} {} (refused {})", calls::NAMES[c], seen.calls[c], if refused.is_empty() { "never".into() } else { refused.join(" ") })
        })
        .collect();
    println!("calls (number:times):\n{}", calls.join("\n"));
    seen.code.print();
}

/// How long a difference is made smaller.
const SHRINKING: Duration = Duration::from_secs(20);

/// A program that differs is made small and printed.
fn tell(library: &mut Library, what: &str, program: &Program, at: usize, why: &str) {
    println!("DIFFERENT: {} ({}), call {}: {}", what, program.kind, at, why);
    let begun = Instant::now();
    let mut differs = |calls: &[Call]| begun.elapsed() < SHRINKING && compare(library, calls, &mut Seen::new()).is_err();
    let small = shrinking::shrink(program.calls.clone(), &mut differs);
    println!("the smallest list of calls that was found, for --calls:");
    for c in &small {
        println!("{}", c.line());
    }
    if let Err((n, e)) = compare(library, &small, &mut Seen::new()) {
        println!("; call {}: {}", n, e);
    }
}

/// The programs that the words ask for, with their names.
fn asked(words: &Words) -> Box<dyn Iterator<Item = (String, Program)>> {
    let (seed, count, from) = (words.number("seed", 1u64), words.number("count", 20_000u64), words.number("from", 0u64));
    if let Some(file) = words.text("calls") {
        let text = std::fs::read_to_string(file).expect("a file of calls");
        let lines = text.lines().filter(|l| !l.starts_with("write "));
        let given = Program { kind: "given", calls: lines.filter_map(Call::read).collect() };
        return Box::new(std::iter::once((dying::note(file.to_string()), given)));
    }
    let all = specials::long().into_iter().chain(specials::short()).chain(specials::opcodes()).chain(programs::brimful()).chain(programs::endless());
    let by_hand: Vec<Sample> = if from == 0 { all.collect() } else { Vec::new() };
    let named = |(n, s): (usize, Sample)| (dying::note(format!("program {} by hand", n)), Program { kind: s.kind, calls: Call::of(&s) });
    let made = (from..from + count).map(move |n| (dying::note(format!("seed {} program {}", seed, n)), making::program(seed, n)));
    Box::new(by_hand.into_iter().enumerate().map(named).chain(made))
}

/// An input of the fuzzer, where it is not too long for one.
fn write_input(folder: &str, kind: &str, number: usize, input: Vec<u8>) {
    if input.len() <= 4096 {
        std::fs::write(format!("{}/{}-{}", folder, kind, number), input).expect("the file is written");
    }
}

pub fn main() {
    let words = Words::read(&["seed", "count", "from", "least", "calls", "most", "inputs"]);
    let (least, most) = (words.number("least", 0usize), words.number("most", 5usize));
    let mut library = Library::new();
    let mut seen = Seen::new();
    let (mut programs, mut different) = (0, 0);
    dying::watch();
    for (what, p) in asked(&words) {
        programs += 1;
        *seen.kinds.entry(p.kind).or_default() += 1;
        if let Some(folder) = words.text("inputs") {
            write_input(folder, p.kind, programs, p.calls.iter().flat_map(Call::input).collect());
        }
        if let Err((at, why)) = compare(&mut library, &p.calls, &mut seen) {
            different += 1;
            if different <= most {
                tell(&mut library, &what, &p, at, &why);
            }
        }
    }
    let sizes = library.sizes();
    for s in &sizes {
        println!("DIFFERENT: question 33: {}", s);
    }
    let opcodes = library.opcodes();
    for o in &opcodes {
        println!("DIFFERENT: the table of opcodes: {}", o);
    }
    different += opcodes.len();
    let mut written = writing::Seen::new();
    let mut lists = 0;
    for (what, list) in writing::asked(&words) {
        lists += 1;
        if let Some(folder) = words.text("inputs") {
            write_input(folder, "writer", lists, writes::input(&list));
        }
        if let Err((at, why)) = writing::check(&mut library, &list, &mut written) {
            different += 1;
            if different <= most {
                writing::tell(&mut library, &what, &list, at, &why);
            }
        }
    }
    report(programs, &seen);
    written.print();
    let missing = if least > 0 { missing(&seen, &written, least) } else { Vec::new() };
    for m in &missing {
        println!("NOT MET {} times: {}", least, m);
    }
    let seed = words.number("seed", 1u64);
    println!("differential: seed {}, {} programs, {} lists of the image writer, {} differ", seed, programs, lists, different + sizes.len());
    if different + sizes.len() + missing.len() > 0 {
        std::process::exit(1);
    }
}
