//! The table of opcodes as the Rust gives it: each byte is tried on a js_vm of one frame with so many operand bytes left and so many operands, by the rule of
//! machine/specs/Opcodes. Prints what the program `opcodes` is to print.

use crate::plain::js_compiler::Opcode;
use crate::stepped::js_vm::{CallFrame, JsValue, JsVm, JsVmError};

/// The number that a byte gives with n bytes behind it, each of them b, over m operands; and the operands that stand afterwards, 0 where it does not go on in its
/// frame.
fn attempt(op: u8, b: u8, n: usize, m: usize) -> (u8, usize) {
    let mut vm = JsVm::new();
    let bytecode = [vec![op], vec![b; n]].concat();
    vm.call_stack.push(CallFrame { function_id: usize::MAX, ip: 0, base_slot: 0, locals: Vec::new(), bytecode, constants: Vec::new() });
    vm.stack = vec![JsValue::Object(0); m];
    vm.limit_steps(1);
    match vm.go_on() {
        Err(JsVmError::ExecutionLimitExceeded) => (0, if vm.call_stack.len() == 1 { vm.stack.len() } else { 0 }),
        Err(JsVmError::UnknownOpcode { .. }) => (13, 0),
        Err(JsVmError::IpOutOfBounds) => (14, 0),
        Err(JsVmError::StackUnderflow) => (15, 0),
        Ok(_) | Err(JsVmError::UncaughtException { .. }) => (0, 0),
        Err(e) => panic!("{} gives {:?}", op, e),
    }
}

fn row(op: u8) -> [usize; 3] {
    let (number, standing) = attempt(op, 0, 2, 4);
    assert_eq!(number == 13, Opcode::from_byte(op).is_none());
    if number == 13 {
        return [255; 3];
    }
    let bytes = (0..2).find(|n| attempt(op, 0, *n, 4).0 != 14).unwrap_or(2);
    let least = (0..3).find(|m| attempt(op, 0, 2, *m).0 != 15).unwrap_or(3);
    let taken = if standing != attempt(op, 1, 2, 4).1 { 254 } else { least };
    [bytes, taken, (standing + least).saturating_sub(4)]
}

pub fn main() {
    for op in 0..=255 {
        let [bytes, taken, pushed] = row(op);
        println!("{} {} {} {}", op, bytes, taken, pushed);
    }
}
