//! Walks the code of a routine by the table of opcodes, as a tool does before it hands code to `Writer::code`: prints where each instruction is and how many
//! operands stand behind it, and says where one is unknown, is cut off or takes too many. It follows no jump.
use carderwheel::opcodes::{self, Row};

const LOAD_CONST: u8 = 0;
const LOAD_GLOBAL: u8 = 3;
const MUL: u8 = 12;
const CALL: u8 = 50;
const HALT: u8 = 255;

// console(echo * 84), and the same with less in it: without the echo, and with a byte of the last operand missing.
const WHOLE: &[u8] = &[LOAD_GLOBAL, 0, 0, LOAD_GLOBAL, 0, 1, LOAD_CONST, 0, 2, MUL, CALL, 1, HALT];
const SHORT_OF_ONE: &[u8] = &[LOAD_CONST, 0, 2, MUL, HALT];
const CUT_OFF: &[u8] = &[LOAD_GLOBAL, 0, 0, LOAD_GLOBAL, 0];

/// An operand byte that is a count says how many are taken; a Call takes what it calls too.
fn taken(row: Row, instruction: &[u8]) -> usize {
    match row.taken {
        opcodes::COUNTED => usize::from(instruction[1]) + usize::from(instruction[0] == CALL),
        n => usize::from(n),
    }
}

fn walk(name: &str, code: &[u8]) {
    let (mut at, mut operands) = (0, 0);
    println!("{}", name);
    while at < code.len() {
        let row = opcodes::row(code[at]);
        let (bytes, follow) = (usize::from(row.bytes), code.len() - at - 1);
        print!("{:3}: opcode {}", at, code[at]);
        if row.bytes == opcodes::UNKNOWN {
            println!(" is unknown: 13");
            return;
        }
        if follow < bytes {
            println!(" has {} operand bytes, and {} follow: 14", bytes, follow);
            return;
        }
        let takes = taken(row, &code[at..]);
        if operands < takes {
            println!(" takes {} operands, and {} stand: 15", takes, operands);
            return;
        }
        operands = operands - takes + usize::from(row.pushed);
        println!(", then {} operands", operands);
        at += 1 + bytes;
    }
}

fn main() {
    walk("whole", WHOLE);
    walk("short of one", SHORT_OF_ONE);
    walk("cut off", CUT_OFF);
}
