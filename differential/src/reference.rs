//! What every call is to answer and to leave: the Rust of documents 000 to 002, and document 01's rules for what it adds to them.

use crate::amended::engine::value;
use crate::limits;
use crate::runs::{text, Coverage, Judges};
use crate::sample::{Given, Image, Plain, Sample};

use super::calls::{Answer, Call, Words};

pub struct Reference {
    judges: Judges,
    /// The images that were loaded, and their bytes one after the other.
    loaded: Sample,
    code: Vec<u8>,
}

impl Reference {
    pub fn new() -> Reference {
        Reference { judges: Judges::new(), loaded: Sample { kind: "", images: Vec::new(), actions: Vec::new() }, code: Vec::new() }
    }

    pub fn state(&self) -> Vec<u8> {
        self.judges.state()
    }

    pub fn code(&self) -> &[u8] {
        &self.code
    }

    pub fn texts(&self) -> &[u8] {
        self.judges.texts()
    }

    pub fn images(&self) -> usize {
        self.loaded.images.len()
    }

    pub fn call(&mut self, call: &Call, seen: &mut Coverage) -> Answer {
        self.answer(call, seen).unwrap_or_else(Answer::Refused)
    }

    fn answer(&mut self, call: &Call, seen: &mut Coverage) -> Result<Answer, u64> {
        match call {
            Call::Clear => {
                *self = Reference::new();
                Ok(Answer::Done)
            }
            Call::Load(bytes) => self.load(bytes),
            Call::Register(i, t) => self.register(*i, *t),
            Call::SetGlobal(name, w) => {
                ask(name.is_ascii(), 29)?;
                let g = self.value(*w)?;
                self.set(name, &g)
            }
            Call::SetGlobalText(name, bytes) => {
                ask(name.is_ascii() && bytes.is_ascii(), 29)?;
                self.set(name, &Given::Fresh(bytes.clone()))
            }
            Call::ReadGlobal(name) => {
                ask(name.is_ascii(), 29)?;
                let mut out = Vec::new();
                value(&mut out, &self.judges.engine.read_global(name));
                Ok(Answer::Value(out))
            }
            Call::Run(i) => self.run(*i, seen),
            Call::Text(w, room) => {
                buffered(text(&self.value(*w)?, seen).into_bytes(), *room)
            }
            Call::TextBytes(bytes, room) => {
                ask(bytes.is_ascii(), 29)?;
                buffered(bytes.clone(), *room)
            }
            Call::Drain(room) => {
                ask(self.judges.engine.output_bytes() <= *room, 31)?;
                // without the count in front
                Ok(Answer::Bytes(self.judges.drain().split_off(2)))
            }
        }
    }

    fn load(&mut self, bytes: &[u8]) -> Result<Answer, u64> {
        let image = Image::read(bytes).map_err(u64::from)?;
        ask(self.code.len() + bytes.len() <= limits::CODE_BYTES, 8)?;
        ask(self.images() < limits::IMAGES, 9)?;
        self.code.extend_from_slice(bytes);
        self.loaded.images.push(image);
        Ok(Answer::Number(self.images() as u64 - 1))
    }

    fn register(&mut self, image: u64, template: u64) -> Result<Answer, u64> {
        ask(image < self.images() as u64, 10)?;
        let i = image as usize;
        ask(1 <= template && template < self.loaded.images[i].templates.len() as u64, 32)?;
        ask(self.judges.engine.vm.function_arena.len() < limits::FUNCTIONS, 23)?;
        Ok(Answer::Number(self.judges.register(&self.loaded, i, template as usize) as u64))
    }

    fn run(&mut self, image: u64, seen: &mut Coverage) -> Result<Answer, u64> {
        ask(image < self.images() as u64, 10)?;
        ask(self.judges.engine.vm.call_stack.len() < limits::FRAMES, 11)?;
        let told = self.judges.run(&self.loaded, image as usize, limits::STEPS, seen).expect("a run that ends");
        Ok(Answer::Ran(told.end, told.steps as u64))
    }

    /// The value that a host gives, by question 30.
    fn value(&self, w: Words) -> Result<Given, u64> {
        Ok(Given::Plain(match w[0] {
            1 => Plain::Null,
            2 => Plain::Boolean(w[1] != 0),
            3 => Plain::Number(w[1] as i64),
            4 => handle(&self.code, w)?,
            5 => handle(self.texts(), w)?,
            6 => Plain::Object(w[1]),
            7 => Plain::Function(w[1]),
            _ => Plain::Undefined,
        }))
    }

    fn set(&mut self, name: &[u8], g: &Given) -> Result<Answer, u64> {
        let globals = &self.judges.engine.vm.globals;
        let known = globals.contains_key(std::str::from_utf8(name).unwrap());
        ask(known || globals.len() < limits::GLOBALS, 26)?;
        let given = if let Given::Fresh(bytes) = g { bytes.len() } else { 0 };
        let added = given + if known { 0 } else { name.len() };
        ask(self.texts().len() + added <= limits::TEXT_BYTES, 27)?;
        self.judges.set_global(name, g);
        Ok(Answer::Done)
    }
}

/// A question, and the number of a no.
fn ask(yes: bool, number: u64) -> Result<(), u64> {
    if yes {
        Ok(())
    } else {
        Err(number)
    }
}

fn handle(store: &[u8], w: Words) -> Result<Plain, u64> {
    ask(u128::from(w[1]) + u128::from(w[2]) <= store.len() as u128, 30)?;
    let bytes = &store[w[1] as usize..(w[1] + w[2]) as usize];
    ask(bytes.is_ascii(), 30)?;
    Ok(Plain::InCode(w[1] as usize, bytes.to_vec()))
}

fn buffered(bytes: Vec<u8>, room: usize) -> Result<Answer, u64> {
    ask(bytes.len() <= room, 31)?;
    Ok(Answer::Bytes(bytes))
}
