//! A JsVm as the samples use it, and what it holds as bytes. Compiled over each of the three: js_vm unchanged, the copy with document 02's changes, and the
//! one that is run step by step.

use super::js_compiler::{Chunk, FunctionTemplate};
use super::js_vm::{CallFrame, JsObject, JsValue, JsVm, JsVmError, ObjectType};
use crate::sample::{Given, Plain};
use crate::stepped::js_vm as stepped;
use alloc::{string::String, vec::Vec};

pub fn word(out: &mut Vec<u8>, n: usize) {
    assert!(n < 65536);
    out.extend_from_slice(&(n as u16).to_be_bytes());
}

pub fn counted(out: &mut Vec<u8>, bytes: &[u8]) {
    word(out, bytes.len());
    out.extend_from_slice(bytes);
}

pub fn value(out: &mut Vec<u8>, v: &JsValue) {
    match v {
        JsValue::Undefined => out.push(0),
        JsValue::Null => out.push(1),
        JsValue::Boolean(b) => out.extend_from_slice(&[2, *b as u8]),
        JsValue::Number(n) => {
            out.push(3);
            out.extend_from_slice(&n.to_be_bytes());
        }
        JsValue::String(s) => {
            out.push(4);
            counted(out, s.as_bytes());
        }
        JsValue::Object(o) => {
            out.push(5);
            out.extend_from_slice(&(*o as u64).to_be_bytes());
        }
        JsValue::Function(f) => {
            out.push(6);
            out.extend_from_slice(&(*f as u64).to_be_bytes());
        }
    }
}

/// A template's image and its number there, which stand in its name.
pub fn numbers(name: &str) -> (usize, usize) {
    let (i, t) = name.split_once(':').expect("a template's name");
    (i.parse().unwrap(), t.parse().unwrap())
}

/// How a run ended: 0 and the value, or document 01's number of the error. The error has the text of a thrown value alone; the value is given, with its text.
pub fn end(r: &Result<JsValue, JsVmError>, thrown: &(Vec<u8>, String)) -> Vec<u8> {
    let mut out = Vec::new();
    match r {
        Ok(v) => {
            out.push(0);
            value(&mut out, v);
        }
        Err(JsVmError::ExecutionLimitExceeded) => out.push(12),
        Err(JsVmError::UnknownOpcode { byte }) => out.extend_from_slice(&[13, *byte]),
        Err(JsVmError::IpOutOfBounds) => out.push(14),
        Err(JsVmError::StackUnderflow) => out.push(15),
        Err(JsVmError::StackOverflow) => out.push(16),
        Err(JsVmError::UncaughtException { message }) => {
            assert_eq!(*message, thrown.1);
            out.push(17);
            out.extend_from_slice(&thrown.0);
        }
        Err(JsVmError::NotCallable) => out.push(18),
        Err(JsVmError::InvalidFunctionId) => out.push(19),
        Err(JsVmError::NoCallFrame) => out.push(20),
    }
    out
}

pub fn given(g: &Given) -> JsValue {
    match g {
        Given::Fresh(bytes) => JsValue::String(String::from_utf8(bytes.clone()).unwrap()),
        Given::Plain(p) => match p {
            Plain::Undefined => JsValue::Undefined,
            Plain::Null => JsValue::Null,
            Plain::Boolean(b) => JsValue::Boolean(*b),
            Plain::Number(n) => JsValue::Number(*n),
            Plain::Object(o) => JsValue::Object(*o as usize),
            Plain::Function(f) => JsValue::Function(*f as usize),
            Plain::InCode(_, bytes) => JsValue::String(String::from_utf8(bytes.clone()).unwrap()),
        },
    }
}

/// A value of the copy that is stepped.
fn same(v: &stepped::JsValue) -> JsValue {
    match v {
        stepped::JsValue::Undefined => JsValue::Undefined,
        stepped::JsValue::Null => JsValue::Null,
        stepped::JsValue::Boolean(b) => JsValue::Boolean(*b),
        stepped::JsValue::Number(n) => JsValue::Number(*n),
        stepped::JsValue::String(s) => JsValue::String(s.clone()),
        stepped::JsValue::Object(o) => JsValue::Object(*o),
        stepped::JsValue::Function(f) => JsValue::Function(*f),
    }
}

pub struct Engine {
    pub vm: JsVm,
}

impl Engine {
    pub fn new() -> Engine {
        Engine { vm: JsVm::new() }
    }

    /// What the copy that is stepped holds. A js_vm keeps its handlers to itself, so they are entered anew, each over as many operands and frames as it saved.
    pub fn holding(from: &stepped::JsVm) -> Engine {
        let mut vm = JsVm::new();
        let frame = |f: &stepped::CallFrame| CallFrame {
            function_id: f.function_id,
            ip: f.ip,
            base_slot: f.base_slot,
            locals: f.locals.iter().map(same).collect(),
            bytecode: f.bytecode.clone(),
            constants: f.constants.clone(),
        };
        let empty = CallFrame { function_id: usize::MAX, ip: 0, base_slot: 0, locals: Vec::new(), bytecode: Vec::new(), constants: Vec::new() };
        for [place, operands, frames] in from.handlers() {
            vm.stack = vec![JsValue::Undefined; operands];
            vm.call_stack = vec![empty.clone(); frames - 1];
            let bytecode = vec![75, (place >> 8) as u8, place as u8, 255];
            vm.run_chunk(&Chunk { bytecode, constants: Vec::new(), line_numbers: Vec::new() }).ok().expect("a try is entered");
        }
        vm.stack = from.stack.iter().map(same).collect();
        vm.call_stack = from.call_stack.iter().map(frame).collect();
        vm.globals = from.globals.iter().map(|(n, v)| (n.clone(), same(v))).collect();
        vm.object_arena = from
            .object_arena
            .iter()
            .map(|o| JsObject {
                properties: o.properties.iter().map(|(k, v)| (k.clone(), same(v))).collect(),
                prototype: o.prototype,
                internal_type: match o.internal_type {
                    stepped::ObjectType::Array => ObjectType::Array,
                    _ => ObjectType::Ordinary,
                },
            })
            .collect();
        vm.function_arena = from.function_arena.clone();
        vm.output = from.output.clone();
        Engine { vm }
    }

    pub fn register(&mut self, template: FunctionTemplate) -> usize {
        self.vm.register_function(template)
    }

    pub fn set_global(&mut self, name: &[u8], g: &Given) {
        self.vm.globals.insert(String::from_utf8(name.to_vec()).unwrap(), given(g));
    }

    pub fn read_global(&self, name: &[u8]) -> JsValue {
        self.vm.globals.get(core::str::from_utf8(name).unwrap()).cloned().unwrap_or(JsValue::Undefined)
    }

    /// The output as drain writes it; then there is none.
    pub fn drain(&mut self) -> Vec<u8> {
        let mut out = Vec::new();
        self.output(&mut out);
        self.vm.output.clear();
        out
    }

    fn output(&self, out: &mut Vec<u8>) {
        word(out, self.output_bytes());
        for l in &self.vm.output {
            counted(out, l.as_bytes());
        }
    }

    pub fn run(&mut self, chunk: &Chunk) -> Result<JsValue, JsVmError> {
        self.vm.run_chunk(chunk)
    }

    pub fn slots(&self) -> usize {
        self.vm.call_stack.iter().map(|f| f.locals.len()).sum()
    }

    pub fn properties(&self) -> usize {
        self.vm.object_arena.iter().map(|o| o.properties.len()).sum()
    }

    pub fn output_bytes(&self) -> usize {
        self.vm.output.iter().map(|l| l.len() + 2).sum()
    }

    /// Everything held: see Summary.antt. `whose` has the image and template of each frame, the oldest first; a frame that a call made is held to
    /// the name of its function.
    pub fn state(&self, whose: &[(usize, usize)], handlers: &[[usize; 3]], text: usize) -> Vec<u8> {
        let vm = &self.vm;
        let mut out = Vec::new();
        word(&mut out, vm.stack.len());
        for v in vm.stack.iter().rev() {
            value(&mut out, v);
        }
        word(&mut out, vm.call_stack.len());
        assert_eq!(whose.len(), vm.call_stack.len());
        for (f, w) in vm.call_stack.iter().zip(whose).rev() {
            if f.function_id != usize::MAX {
                assert_eq!(numbers(&vm.function_arena[f.function_id].name), *w);
            }
            out.extend_from_slice(&[w.0 as u8, w.1 as u8]);
            word(&mut out, f.ip);
            word(&mut out, f.locals.len());
            for v in &f.locals {
                value(&mut out, v);
            }
        }
        word(&mut out, handlers.len());
        for h in handlers.iter().rev() {
            for n in h {
                word(&mut out, *n);
            }
        }
        word(&mut out, vm.function_arena.len());
        for f in &vm.function_arena {
            let (i, t) = numbers(&f.name);
            out.extend_from_slice(&[i as u8, t as u8]);
        }
        word(&mut out, vm.object_arena.len());
        for o in &vm.object_arena {
            out.push(match o.internal_type {
                ObjectType::Ordinary => 0,
                ObjectType::Array => 1,
                ObjectType::Function | ObjectType::Error => unreachable!(),
            });
            assert!(o.prototype.is_none());
            word(&mut out, o.properties.len());
            for (k, v) in &o.properties {
                counted(&mut out, k.as_bytes());
                value(&mut out, v);
            }
        }
        word(&mut out, vm.globals.len());
        for (n, v) in &vm.globals {
            counted(&mut out, n.as_bytes());
            value(&mut out, v);
        }
        self.output(&mut out);
        word(&mut out, self.slots());
        word(&mut out, text);
        out
    }
}
