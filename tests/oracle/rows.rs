//! The table of opcodes, and what it says of a step of the Rust: change 6 of document 02.

use crate::stepped::js_vm::JsVmError;
use crate::OPCODE_TABLE;
use std::sync::OnceLock;

/// Of each byte: the operand bytes that follow, the least operands taken, the operands pushed.
pub struct Rows([[usize; 3]; 256]);

/// CreateArray and Call, whose operand byte says how many are taken; Throw, Return and Halt, which do not go on in their frame.
const COUNTING: [u8; 2] = [61, 50];
const LEAVING: [u8; 3] = [74, 51, 255];

impl Rows {
    pub fn all() -> &'static Rows {
        static ROWS: OnceLock<Rows> = OnceLock::new();
        ROWS.get_or_init(|| Rows::read(OPCODE_TABLE))
    }

    /// From lines of a byte and its three numbers.
    fn read(table: &str) -> Rows {
        let mut rows = [[0; 3]; 256];
        let mut lines = table.lines();
        for (b, row) in rows.iter_mut().enumerate() {
            let numbers: Vec<usize> = lines.next().expect("a line for each byte").split(' ').map(|n| n.parse().expect("a number")).collect();
            assert_eq!((numbers.len(), numbers[0]), (4, b), "a byte and three numbers");
            row.copy_from_slice(&numbers[1..]);
        }
        assert_eq!(lines.next(), None, "a line for each byte");
        Rows(rows)
    }

    pub fn row(&self, op: u8) -> [usize; 3] {
        self.0[usize::from(op)]
    }

    /// The operand bytes of an opcode; an unknown one has none.
    pub fn bytes(&self, op: u8) -> usize {
        self.row(op)[0] % 255
    }

    /// A step that began an opcode, with so many bytes behind it and so many operands before and after, and the error that it gave, if it gave one.
    pub fn hold(&self, op: u8, following: usize, before: usize, after: usize, error: Option<&JsVmError>) {
        let [bytes, taken, pushed] = self.row(op);
        let unknown = matches!(error, Some(JsVmError::UnknownOpcode { .. }));
        assert_eq!(unknown, bytes == 255, "opcode {}: 13", op);
        if unknown {
            return;
        }
        let cut = matches!(error, Some(JsVmError::IpOutOfBounds));
        assert_eq!(cut, following < bytes, "opcode {}: 14, {} bytes follow", op, following);
        if cut || COUNTING.contains(&op) {
            return;
        }
        assert_eq!(matches!(error, Some(JsVmError::StackUnderflow)), before < taken, "opcode {}: 15, {} operands stand", op, before);
        if error.is_none() && !LEAVING.contains(&op) {
            assert_eq!(after + taken, before + pushed, "opcode {}: from {} operands to {}", op, before, after);
        }
    }
}
