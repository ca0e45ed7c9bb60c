//! A sample's runs on js_vm and on its copies, and what they come to. Used by the oracle, by the list that the engine is held to (tests/replay) and by the
//! differential runs.

use crate::amended::js_vm::{is_amended, number_texts};
use crate::images::OPCODES;
use crate::limits;
use crate::plain::js_compiler::Constant;
use crate::rows::Rows;
use crate::sample::{Given, Plain, Sample};
use crate::stepped::js_vm::{self, JsValue, JsVmError};
use crate::{amended, plain, stepped};

/// What the samples of a set made happen.
pub struct Coverage {
    pub opcodes: Vec<usize>,
    pub ends: Vec<usize>,
    pub run_out: usize,
    pub caught: usize,
    pub steps: usize,
    pub most: usize,
    pub runs: usize,
    /// Texts of numbers that the runs made, and those of them that 000 writes otherwise.
    pub texts: [usize; 2],
    /// Handlers that a Return dropped, and those that went where a frame ran off the end of its code.
    pub dropped: [usize; 2],
    /// The runs that are compared with 000 unchanged, those in which a change is met (a text that 000 writes otherwise; a handler that it would still have), and
    /// those that an added limit ended.
    pub unchanged: usize,
    pub amended: usize,
    pub limited: usize,
    /// Of the first, those that dropped a handler; of the second, those in which 000 would take a handler that was dropped.
    pub dropping: usize,
    pub stale: usize,
    /// The instructions that gave 14, and those that gave 15, by their opcodes. Each one begun is held to the table of opcodes.
    pub cut: Vec<usize>,
    pub short: Vec<usize>,
    /// The instructions that made such a text, by their opcodes, and the text calls.
    pub amending: Vec<usize>,
    pub amended_calls: usize,
}

impl Coverage {
    pub fn new() -> Coverage {
        Coverage { opcodes: vec![0; 256], ends: vec![0; 64], run_out: 0, caught: 0, steps: 0, most: 0, runs: 0, texts: [0; 2], dropped: [0; 2], unchanged: 0, amended: 0, limited: 0, dropping: 0, stale: 0, cut: vec![0; 256], short: vec![0; 256], amending: vec![0; 256], amended_calls: 0 }
    }

    pub fn add(&mut self, c: &Coverage) {
        for i in 0..256 {
            self.opcodes[i] += c.opcodes[i];
            self.cut[i] += c.cut[i];
            self.short[i] += c.short[i];
            self.amending[i] += c.amending[i];
        }
        for i in 0..64 {
            self.ends[i] += c.ends[i];
        }
        self.run_out += c.run_out;
        self.caught += c.caught;
        self.steps += c.steps;
        self.runs += c.runs;
        self.most = self.most.max(c.steps);
        self.texts = [self.texts[0] + c.texts[0], self.texts[1] + c.texts[1]];
        self.dropped = [self.dropped[0] + c.dropped[0], self.dropped[1] + c.dropped[1]];
        self.dropping += c.dropping;
        self.stale += c.stale;
        self.unchanged += c.unchanged;
        self.amended += c.amended;
        self.limited += c.limited;
        self.amended_calls += c.amended_calls;
    }

    /// What was executed and how the runs ended, on standard error.
    pub fn print(&self) {
        let missed: Vec<u8> = OPCODES.iter().copied().filter(|b| self.opcodes[*b as usize] == 0).collect();
        let known: Vec<String> = OPCODES.iter().map(|b| format!("{}:{}", b, self.opcodes[*b as usize])).collect();
        let unknown: usize = (0..256).filter(|b| !OPCODES.contains(&(*b as u8))).map(|b| self.opcodes[b]).sum();
        eprintln!("opcodes executed (byte:times): {}", known.join(" "));
        eprintln!("opcodes never executed: {:?}; unknown bytes met: {}; frames run out: {}; throws caught: {}", missed, unknown, self.run_out, self.caught);
        let ends: Vec<String> = (0..64).filter(|e| self.ends[*e] > 0).map(|e| format!("{}:{}", e, self.ends[e])).collect();
        eprintln!("ends (number:times): {}", ends.join(" "));
        let by_opcode = |times: &[usize]| (0..256).filter(|b| times[*b] > 0).map(|b| format!("{}:{}", b, times[b])).collect::<Vec<String>>().join(" ");
        eprintln!("14 (opcode:times): {}", by_opcode(&self.cut));
        eprintln!("15 (opcode:times): {}", by_opcode(&self.short));
        eprintln!(
            "texts of numbers: {}, of which 000 writes {} otherwise (opcode:times): {}; text calls of such a number: {}",
            self.texts[0],
            self.texts[1],
            by_opcode(&self.amending),
            self.amended_calls
        );
        eprintln!("handlers dropped by Return: {}, at the end of the code: {}", self.dropped[0], self.dropped[1]);
        eprintln!(
            "runs: {}; {} compared with 000 unchanged, of which {} dropped a handler; {} that met a change, of which {} where 000 takes a dropped handler; {} at an added limit",
            self.runs, self.unchanged, self.dropping, self.amended, self.stale, self.limited
        );
    }
}

/// The instructions that can add to a store with an added limit.
const ADDING: [u8; 12] = [0, 2, 4, 6, 8, 10, 50, 52, 60, 61, 71, 75];

/// Why a run is not observed to its end: it makes too many steps, or a step passes an added limit of document 01. The step's number is given, counted from 1,
/// and the question that document 01 answers there.
enum Stopped {
    Long,
    Past(usize, u8),
}

/// What a run is said to come to, beside what it gives in one go.
struct Observed {
    steps: usize,
    thrown: (Vec<u8>, String),
    end: Vec<u8>,
    handlers: Handlers,
}

/// The handlers that 000 would have, which drops none, beside those that are pending.
struct Handlers {
    original: Vec<[usize; 3]>,
    /// By Return, and at the end of the code.
    dropped: [usize; 2],
    /// A Throw went by another handler than 000 goes by: from there on they need not agree.
    stale: bool,
}

impl Handlers {
    /// An instruction, or the end of the code, that can change them; a Throw that has a value.
    fn step(&mut self, op: Option<u8>, before: &[[usize; 3]], now: &[[usize; 3]]) {
        match op {
            Some(75) => self.original.extend_from_slice(&now[before.len()..]),
            Some(76) => drop(self.original.pop()),
            Some(74) => self.stale |= self.original.pop() != before.last().copied(),
            Some(_) => self.dropped[0] += before.len() - now.len(),
            None => self.dropped[1] += before.len() - now.len(),
        }
    }
}

/// The copy that makes one step at a time.
struct Stepper {
    engine: stepped::engine::Engine,
    whose: Vec<(usize, usize)>,
    /// The text store by document 01's rule: texts that Add and Typeof pushed, texts that the host gave, new keys and names, in the order of making.
    texts: Vec<u8>,
}

impl Stepper {
    fn copy(&self) -> Stepper {
        let engine = stepped::engine::Engine { vm: self.engine.vm.copy() };
        Stepper { engine, whose: self.whose.clone(), texts: self.texts.clone() }
    }

    /// The question of the first added limit of document 01 that is passed, in the order in which it asks.
    fn past(&self) -> Option<u8> {
        let vm = &self.engine.vm;
        let use_and_limit = [
            (11, vm.call_stack.len(), limits::FRAMES),
            (21, self.engine.slots(), limits::SLOTS),
            (22, vm.handler_count(), limits::HANDLERS),
            (23, vm.function_arena.len(), limits::FUNCTIONS),
            (24, vm.object_arena.len(), limits::OBJECTS),
            (25, self.engine.properties(), limits::PROPERTIES),
            (26, vm.globals.len(), limits::GLOBALS),
            (27, self.texts.len(), limits::TEXT_BYTES),
            (28, self.engine.output_bytes(), limits::OUTPUT_BYTES),
        ];
        use_and_limit.iter().find(|(_, n, limit)| n > limit).map(|q| q.0)
    }

    /// The key or name by which the instruction that is next would store.
    fn key(&self, op: Option<u8>) -> Option<String> {
        let vm = &self.engine.vm;
        match op? {
            4 | 6 => {
                let f = vm.call_stack.last()?;
                let i = usize::from(*f.bytecode.get(f.ip + 1)?) << 8 | usize::from(*f.bytecode.get(f.ip + 2)?);
                Some(match f.constants.get(i) {
                    Some(Constant::Str(s)) => s.clone(),
                    _ => i.to_string(),
                })
            }
            8 => Some(vm.stack.get(vm.stack.len().checked_sub(2)?)?.to_js_string()),
            _ => None,
        }
    }

    /// How many rows stand that have a key or a name of their own in the text store.
    fn rows(&self) -> usize {
        self.engine.properties() + self.engine.vm.globals.len()
    }

    fn set_global(&mut self, name: &[u8], g: &Given) {
        let rows = self.rows();
        self.engine.set_global(name, g);
        if self.rows() > rows {
            self.texts.extend_from_slice(name);
        }
        if let Given::Fresh(bytes) = g {
            self.texts.extend_from_slice(bytes);
        }
    }

    /// One step; the text that it keeps goes to the text store.
    fn step(&mut self, op: Option<u8>, seen: &mut Coverage) -> Result<JsValue, JsVmError> {
        let key = self.key(op);
        let rows = if key.is_some() { self.rows() } else { 0 };
        let objects = self.engine.vm.object_arena.len();
        let texts = js_vm::number_texts();
        let r = self.engine.vm.go_on();
        if js_vm::number_texts()[1] > texts[1] {
            seen.amending[usize::from(op.expect("an instruction"))] += 1;
        }
        if let Some(k) = key {
            if self.rows() > rows {
                self.texts.extend_from_slice(k.as_bytes());
            }
        }
        let vm = &self.engine.vm;
        if op == Some(61) && vm.object_arena.len() > objects {
            for i in 0..vm.object_arena[objects].properties.len() - 1 {
                self.texts.extend_from_slice(i.to_string().as_bytes());
            }
            self.texts.extend_from_slice(b"length");
        }
        if matches!((op, &r), (Some(10 | 71), Err(JsVmError::ExecutionLimitExceeded))) {
            if let Some(JsValue::String(s)) = vm.stack.last() {
                self.texts.extend_from_slice(s.as_bytes());
            }
        }
        r
    }

    /// A run, or its first `stop` steps.
    fn run(&mut self, sample: &Sample, image: usize, cap: usize, stop: usize, seen: &mut Coverage) -> Result<Observed, Stopped> {
        // its frame, and no step
        self.engine.vm.limit_steps(0);
        let mut end = self.engine.run(&sample.images[image].chunk(image));
        self.engine.vm.limit_steps(1);
        self.whose.push((image, 0));
        let mut steps = 0;
        let mut thrown = (Vec::new(), String::new());
        let mut handlers = Handlers { original: self.engine.vm.handlers(), dropped: [0; 2], stale: false };
        while steps < stop {
            let next = self.engine.vm.call_stack.last().and_then(|f| f.bytecode.get(f.ip)).copied();
            let following = self.engine.vm.call_stack.last().map_or(0, |f| f.bytecode.len().saturating_sub(f.ip + 1));
            let (frames, operands) = (self.engine.vm.call_stack.len(), self.engine.vm.stack.len());
            let changing = matches!(next, None | Some(51 | 75 | 76)) || next == Some(74) && !self.engine.vm.stack.is_empty();
            let pending = if changing { self.engine.vm.handlers() } else { Vec::new() };
            if next == Some(74) {
                if let Some(v) = self.engine.vm.stack.last() {
                    thrown = (Vec::new(), v.to_js_string());
                    stepped::engine::value(&mut thrown.0, v);
                }
            }
            end = self.step(next, seen);
            steps += 1;
            match next {
                Some(b) => {
                    seen.opcodes[b as usize] += 1;
                    let error = end.as_ref().err().filter(|e| !matches!(e, JsVmError::ExecutionLimitExceeded));
                    seen.cut[b as usize] += usize::from(matches!(error, Some(JsVmError::IpOutOfBounds)));
                    seen.short[b as usize] += usize::from(matches!(error, Some(JsVmError::StackUnderflow)));
                    Rows::all().hold(b, following, operands, self.engine.vm.stack.len(), error);
                }
                None => seen.run_out += (frames > 0) as usize,
            }
            let went = matches!(end, Err(JsVmError::ExecutionLimitExceeded));
            let vm = &self.engine.vm;
            if next == Some(74) && went && !pending.is_empty() {
                seen.caught += 1;
            }
            if changing {
                handlers.step(next, &pending, &vm.handlers());
            }
            let now = vm.call_stack.len();
            if now > self.whose.len() {
                let f = &vm.call_stack[now - 1];
                self.whose.push(stepped::engine::numbers(&vm.function_arena[f.function_id].name));
            }
            self.whose.truncate(now);
            if next.map_or(false, |b| ADDING.contains(&b)) {
                if let Some(q) = self.past() {
                    return Err(Stopped::Past(steps, q));
                }
            }
            if steps > cap {
                return Err(Stopped::Long);
            }
            if !went || steps == limits::STEPS {
                break;
            }
        }
        let end = stepped::engine::end(&end, &thrown);
        Ok(Observed { steps, thrown, end, handlers })
    }

    fn state(&self) -> Vec<u8> {
        self.engine.state(&self.whose, &self.engine.vm.handlers(), self.texts.len())
    }
}

/// What a run came to: its end, its steps, and all that is held after it; and some of that by itself.
pub struct Told {
    /// The run is refused for space: the number and the steps are by document 01's rule, and the state is that before the refused instruction.
    pub refused: bool,
    pub end: Vec<u8>,
    pub steps: usize,
    pub state: Vec<u8>,
    pub handlers: usize,
    /// The text of the result or of the thrown value, else `undefined`.
    pub value: String,
}

impl Told {
    /// The end, the steps in three bytes, the state.
    pub fn bytes(&self) -> Vec<u8> {
        [&self.end, &(self.steps as u32).to_be_bytes()[1..], &self.state].concat()
    }
}

/// The text of a value that the host gives, by the rule; where both are to agree, also 000's own.
pub fn text(g: &Given, seen: &mut Coverage) -> String {
    let amended = matches!(g, Given::Plain(Plain::Number(n)) if is_amended(*n));
    let text = amended::engine::given(g).to_js_string();
    assert_eq!(plain::engine::given(g).to_js_string() != text, amended, "the text call: {}", text);
    seen.amended_calls += usize::from(amended);
    text
}

/// js_vm and its copies, doing the same. The copy with document 02's changes judges; 000 unchanged must agree with it wherever no change is met, and the copy that is
/// stepped always.
pub struct Judges {
    pub engine: amended::engine::Engine,
    unchanged: plain::engine::Engine,
    stepper: Stepper,
}

impl Judges {
    pub fn new() -> Judges {
        let stepper = Stepper { engine: stepped::engine::Engine::new(), whose: Vec::new(), texts: Vec::new() };
        Judges { engine: amended::engine::Engine::new(), unchanged: plain::engine::Engine::new(), stepper }
    }

    pub fn register(&mut self, sample: &Sample, image: usize, t: usize) -> usize {
        let template = sample.images[image].template(image, t);
        self.stepper.engine.register(template.clone());
        self.unchanged.register(template.clone());
        self.engine.register(template)
    }

    pub fn set_global(&mut self, name: &[u8], g: &Given) {
        self.stepper.set_global(name, g);
        self.unchanged.set_global(name, g);
        self.engine.set_global(name, g);
    }

    pub fn drain(&mut self) -> Vec<u8> {
        self.stepper.engine.drain();
        self.unchanged.drain();
        self.engine.drain()
    }

    /// The text store, by document 01's rule.
    pub fn texts(&self) -> &[u8] {
        &self.stepper.texts
    }

    pub fn state(&self) -> Vec<u8> {
        self.engine.state(&self.stepper.whose, &self.stepper.engine.vm.handlers(), self.stepper.texts.len())
    }

    fn unchanged_state(&self) -> Vec<u8> {
        self.unchanged.state(&self.stepper.whose, &self.stepper.engine.vm.handlers(), self.stepper.texts.len())
    }

    /// None where the run makes more steps than `cap`; then nothing can follow.
    pub fn run(&mut self, sample: &Sample, image: usize, cap: usize, seen: &mut Coverage) -> Option<Told> {
        let before = self.stepper.copy();
        let told = match self.stepper.run(sample, image, cap, usize::MAX, seen) {
            Ok(o) => self.ended(sample, image, o, seen),
            Err(Stopped::Past(step, question)) => {
                self.stepper = before;
                seen.limited += 1;
                self.refused(sample, image, step, question)
            }
            Err(Stopped::Long) => return None,
        };
        seen.ends[told.end[0] as usize] += 1;
        seen.steps += told.steps;
        seen.runs += 1;
        Some(told)
    }

    fn ended(&mut self, sample: &Sample, image: usize, o: Observed, seen: &mut Coverage) -> Told {
        let chunk = sample.images[image].chunk(image);
        let texts = number_texts();
        let r = self.engine.run(&chunk);
        let made = [number_texts()[0] - texts[0], number_texts()[1] - texts[1]];
        seen.texts = [seen.texts[0] + made[0], seen.texts[1] + made[1]];
        let end = amended::engine::end(&r, &o.thrown);
        let state = self.state();
        assert_eq!(end, o.end, "the copy that is stepped ends otherwise");
        assert_eq!(state, self.stepper.state(), "the copy that is stepped leaves something else");
        let dropped = o.handlers.dropped;
        seen.dropped = [seen.dropped[0] + dropped[0], seen.dropped[1] + dropped[1]];
        if made[1] == 0 && !o.handlers.stale {
            seen.unchanged += 1;
            assert_eq!(plain::engine::end(&self.unchanged.run(&chunk), &o.thrown), end, "000 unchanged ends otherwise");
            assert_eq!(self.unchanged_state(), state, "000 unchanged holds something else");
            if dropped != [0; 2] {
                seen.dropping += 1;
                self.unchanged = plain::engine::Engine::holding(&self.stepper.engine.vm);
            }
        } else {
            seen.amended += 1;
            seen.stale += usize::from(o.handlers.stale);
            self.unchanged = plain::engine::Engine::holding(&self.stepper.engine.vm);
        }
        assert_eq!(self.unchanged_state(), state, "000 unchanged takes something else");
        let value = match r {
            Ok(v) => v.to_js_string(),
            Err(amended::js_vm::JsVmError::UncaughtException { message }) => message,
            Err(_) => "undefined".into(),
        };
        Told { refused: false, end, steps: o.steps, state, handlers: self.stepper.engine.vm.handler_count(), value }
    }

    /// A run whose step with this number is refused. All stand again as before that step.
    fn refused(&mut self, sample: &Sample, image: usize, step: usize, question: u8) -> Told {
        self.stepper.run(sample, image, limits::STEPS, step - 1, &mut Coverage::new()).ok().expect("the steps before a refusal");
        self.engine = amended::engine::Engine::holding(&self.stepper.engine.vm);
        self.unchanged = plain::engine::Engine::holding(&self.stepper.engine.vm);
        let state = self.state();
        assert_eq!(state, self.stepper.state(), "the copy with the changes takes something else");
        assert_eq!(state, self.unchanged_state(), "000 unchanged takes something else");
        let handlers = self.stepper.engine.vm.handler_count();
        Told { refused: true, end: vec![question], steps: step, state, handlers, value: "undefined".into() }
    }
}
