// Prints the rows of crates/number_rows/stdin: answers of documents 000 and 002, which are compiled in unchanged; of the texts of numbers, those of 000 with change 4.
// Arithmetic runs as bytecode through run_chunk; texts go through to_number and to_js_string.
//
// A row has 87 bytes: operation, blank, number (16 hex digits), blank, count of bytes (2), blank, 32 bytes (64, `.` past the count), newline.
// The number is the result and the bytes the two operands, big-endian; of `p` the bytes are the text read; of `f` the number is the operand and
// the bytes the text written.
extern crate alloc;
mod amended;
mod js_compiler;
mod js_lexer;
mod js_vm;
// Names that the imports of document 001 mention; the part of 001 in use has no parser.
mod js_parser {
    pub struct AstArena;
    pub struct AstNode;
    pub struct AstNodeId;
    pub struct BinOp;
    pub struct UnaryOp;
}

use js_compiler::{Chunk, Constant, Opcode};
use js_lexer::{JS_NAN, JS_ONE};
use js_vm::{JsValue, JsVm};

const OPERATIONS: [(char, Opcode); 12] = [
    ('*', Opcode::Mul),
    ('/', Opcode::Div),
    ('%', Opcode::Mod),
    ('+', Opcode::Add),
    ('-', Opcode::Sub),
    ('&', Opcode::BitAnd),
    ('|', Opcode::BitOr),
    ('^', Opcode::BitXor),
    ('<', Opcode::ShiftLeft),
    ('>', Opcode::ShiftRight),
    ('l', Opcode::Lt),
    ('e', Opcode::LtEq),
];

const EDGES: [i64; 9] = [0, 1, -1, JS_ONE, -JS_ONE - 1, 0x1_8000_0000, JS_NAN, i64::MIN, JS_NAN - 1];

fn row(op: char, number: i64, bytes: &[u8]) {
    assert!(bytes.len() <= 32);
    let hex: String = bytes.iter().map(|b| format!("{:02x}", b)).collect();
    println!("{} {:016x} {:02x} {:.<64}", op, number, bytes.len(), hex);
}

fn run(op: Opcode, operands: &[i64]) -> i64 {
    let mut code = Vec::new();
    for i in 0..operands.len() {
        code.extend_from_slice(&[Opcode::LoadConst as u8, 0, i as u8]);
    }
    code.extend_from_slice(&[op as u8, Opcode::Halt as u8]);
    let chunk = Chunk {
        bytecode: code,
        constants: operands.iter().map(|n| Constant::Number(*n)).collect(),
        line_numbers: Vec::new(),
    };
    match JsVm::new().run_chunk(&chunk) {
        Ok(JsValue::Number(n)) => n,
        Ok(JsValue::Boolean(b)) => b as i64,
        other => panic!("{:?} gives {:?}", op, other),
    }
}

fn pair(op: (char, Opcode), a: i64, b: i64) {
    let mut bytes = a.to_be_bytes().to_vec();
    bytes.extend_from_slice(&b.to_be_bytes());
    row(op.0, run(op.1, &[a, b]), &bytes);
}

fn text(s: &str) {
    row('p', JsValue::String(s.to_string()).to_number(), s.as_bytes());
}

fn written(n: i64) -> String {
    amended::JsValue::Number(n).to_js_string()
}

fn number(n: i64) {
    row('f', n, written(n).as_bytes());
}

// Number::toString of ECMA-262 of the same number, where a double has it; from a millionth on it has no exponent, and Rust writes the same digits.
fn ecma(n: i64) -> String {
    format!("{}", n as f64 / JS_ONE as f64)
}

// docs/DIFFERENCES.md: where the text is that of ECMA-262.
fn as_ecma(random: &mut Random) {
    for _ in 0..100_000 {
        // whole 64ths, of any size
        let n = random.number() >> 26 << 26;
        assert_eq!(written(n), ecma(n));
        // below 256, nothing else
        let n = random.number() % (256 * JS_ONE);
        assert_eq!(written(n) == ecma(n), n % (JS_ONE / 64) == 0, "raw {}", n);
    }
    // The smallest other: a fraction whose digits behind the sixth are the least that there are, where the doubles lie twice as far apart.
    let n = 256 * JS_ONE + 12_738_873;
    assert_eq!((written(n), ecma(n)), ("256.002966".into(), "256.002966".into()));
    assert_ne!(written(n - JS_ONE), ecma(n - JS_ONE));
}

// xorshift64, a fixed seed
struct Random(u64);

impl Random {
    fn bits(&mut self) -> u64 {
        self.0 ^= self.0 << 13;
        self.0 ^= self.0 >> 7;
        self.0 ^= self.0 << 17;
        self.0
    }

    // Any size, any sign: uniform bits would leave small numbers out.
    fn number(&mut self) -> i64 {
        let n = (self.bits() >> 1 >> (self.bits() % 63)) as i64;
        if self.bits() % 2 == 0 { n } else { n.wrapping_neg() }
    }
}

// By how much the upper half of the aligned divisor overestimates the digit below the point: the branches of `wide::digit`.
fn overestimate(a: i64, b: i64) -> u128 {
    let (a, b) = (a.unsigned_abs(), b.unsigned_abs());
    let (n, d) = ((a % b) << b.leading_zeros(), b << b.leading_zeros());
    (n / (d >> 32)) as u128 - ((n as u128) << 32) / d as u128
}

fn main() {
    let mut random = Random(0x5ca1_ab1e_0ddb_a115);
    for op in &OPERATIONS[..3] {
        for a in EDGES {
            for b in EDGES {
                pair(*op, a, b);
            }
        }
    }
    for op in OPERATIONS {
        for _ in 0..12 {
            pair(op, random.number(), random.number());
        }
    }
    // Divisors with a full lower half, and numbers just below them
    let mut seen = [0; 3];
    for b in [0x4000_0000_7fff_ffff, 0x4000_0001_ffff_ffff, 0x1_0000_ffff, -0x2000_0000_3fff_ffff, 0x7000_0000_ffff_fffe_i64] {
        for _ in 0..6 {
            let a = b - (b >> 31) - (random.bits() % 0x8000_0000) as i64;
            seen[overestimate(a, b) as usize] += 1;
            pair(OPERATIONS[1], a, b);
        }
    }
    assert!(seen.iter().all(|n| *n >= 3), "a branch of the digit is not met: {:?}", seen);
    for n in EDGES {
        row('n', run(Opcode::Neg, &[n]), &n.to_be_bytes());
        number(n);
    }
    // Shift counts on both sides of 32, and negative ones
    for count in [0, 1, 31, 32, 33, 63, 64, -1, -31] {
        for op in &OPERATIONS[8..10] {
            pair(*op, -0x1234_5678_0000_0001, count * JS_ONE);
        }
    }
    for s in [
        "", " ", "\t\n\x0b\x0c\r 12 \r\x0c\x0b\n\t", "-", "--1", "+5", "-0", "0", "7", "-7", "00000000000000000000000000000012", "1 2", "- 1", "1-", "1.5",
        "4294967296", "4294967297", "-4294967297", "2147483647", "2147483648", "-2147483648", "-2147483649", "18446744073709551615", "18446744073709551616",
        "-18446744073709551617", "99999999999999999999999999999999", "-9999999999999999999999999999999", "0x10", "1e3", "NaN", "/", ":", "a", "12a", "\x0812", "\x0e12",
        "12\x1f", "\x7f", "!", " -3", "-3 ", "  4294967295  ", "-  ", " - ", "- 5", "5 5", "12 \t 3", "5  -", "5 x", "x ", " \t -", "          -4107           ",
    ] {
        text(s);
    }
    for _ in 0..20 {
        let n = random.number();
        text(&format!("{}{}", if n % 3 == 0 { " " } else { "" }, n));
        number(n);
    }
    as_ecma(&mut random);
    // Change 4: negative fractions, points that no digit follows, and their neighbours
    for n in [4294, 4295, 8590, JS_ONE - 1, JS_ONE, 2 * JS_ONE + 1, 7 * JS_ONE + 4294, 7 * JS_ONE + 4295, 0x4000_0000, 3 * JS_ONE / 2, 67_108_864, 255 * JS_ONE + 0x8000_0000] {
        number(-n);
        number(n);
    }
    for n in [i64::MIN + 1, i64::MIN + 4294, i64::MIN + 4295, i64::MIN + 0x8000_0000, JS_NAN - 4294, JS_NAN - 4295, 1 - JS_ONE, -1 - JS_ONE] {
        number(n);
    }
    let mut met = [0; 2];
    for _ in 0..40 {
        let n = -(random.number().unsigned_abs() as i64 >> 16);
        met[usize::from(amended::is_amended(n))] += 1;
        number(n);
    }
    assert!(met[1] >= 20, "few negative fractions: {:?}", met);
    for n in [0x1_8000_0000, -0x8000_0000, 4294, 4295, 429_496_730, 0xffff_ffff, -0xffff_ffff, i64::MIN + 0xffff_ffff, i64::MIN + JS_ONE, 0x7fff_fffe_ffff_ffff, 0x1_2000_0000, 10 * JS_ONE, -10 * JS_ONE, 100_000 * JS_ONE + 1] {
        number(n);
    }
}
