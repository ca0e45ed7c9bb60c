//! The table of opcodes, for those who write routines: docs/OPCODES.md has it with names. It needs no engine.

/// Of an opcode byte: the operand bytes that follow it, the least operands that it takes, and the operands that it pushes.
///
/// ```no_run
/// use carderwheel::opcodes::{row, Row};
/// assert_eq!(row(0), Row { bytes: 2, taken: 0, pushed: 1 }); // LoadConst
/// ```
#[derive(Clone, Copy, Debug, PartialEq, Eq)]
pub struct Row {
    /// operand bytes that follow; with fewer a run ends with 14
    pub bytes: u8,
    /// least operands taken, or [`COUNTED`]; past 14, with fewer it ends with 15
    pub taken: u8,
    /// operands pushed; 0 where the instruction does not go on in its frame (Throw, Return, Halt)
    pub pushed: u8,
}

/// Each number of an unknown opcode, with which a run ends with 13.
pub const UNKNOWN: u8 = 255;
/// As taken, of Call and CreateArray: the operand byte says how many.
pub const COUNTED: u8 = 254;

// What the library exports for it; lib.rs has it linked. include/carderwheel.h declares the same.

#[repr(C)]
struct Numbers {
    bytes: u64,
    taken: u64,
    pushed: u64,
}

extern "C" {
    fn carderwheel_opcode_in(byte: u64) -> Numbers;
}

/// The row of an opcode byte.
pub fn row(byte: u8) -> Row {
    // SAFETY: the function takes a number and gives numbers.
    let n = unsafe { carderwheel_opcode_in(byte.into()) };
    Row { bytes: n.bytes as u8, taken: n.taken as u8, pushed: n.pushed as u8 }
}
