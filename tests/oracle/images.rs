//! The generator: random images in which every opcode is met with operands that mean something, and images of random bytes.

use crate::sample::{Action, Const, Given, Image, Plain, Rng, Sample, Template};

const ONE: i64 = 1 << 32;
const NAN: i64 = i64::MAX;

pub const OPCODES: [u8; 49] = [
    0, 1, 2, 3, 4, 5, 6, 7, 8, 10, 11, 12, 13, 14, 15, 20, 21, 22, 23, 24, 25, 30, 31, 32, 33, 34, 35, 36, 37, 38, 39, 40, 41, 42, 50, 51, 52, 60, 61, 70, 71, 72,
    73, 74, 75, 76, 80, 81, 255,
];

const TEXTS: [&str; 40] = [
    "", "a", "b", "5", "+5", "007", "-3", " 12 ", "\t9\n", "1.5", "length", "0", "1", "2", "3", "00", "+0", "+", "-", "--1", "-0", "+-1", "NaN", "x y", "true",
    "undefined", "18446744073709551615", "18446744073709551616", "+18446744073709551615", "4294967295", "4294967296", "4294967297", "-2147483648", "2147483648",
    "99999999999999999999", "0000000000000000000000007", "9223372036854775807", "1 2", "console", "7e1",
];

/// Those of the texts that are numeric keys, or nearly so.
const NUMERIC: [usize; 18] = [3, 4, 5, 15, 16, 17, 18, 20, 26, 27, 28, 29, 30, 31, 33, 34, 35, 36];

const ENDS: [i64; 16] =
    [0, 1, -1, ONE, -ONE, NAN, NAN - 1, i64::MIN, i64::MIN + 1, ONE / 2, -ONE / 2, 31 * ONE, 32 * ONE, 33 * ONE, -5 * ONE / 2, 0x7fff_ffff << 32];

const NAMES: [&str; 7] = ["a", "b", "f", "g", "n", "", "console"];

fn text(s: &str) -> Const {
    Const::Text(s.as_bytes().to_vec())
}

fn random_text(r: &mut Rng) -> Vec<u8> {
    let n = r.below(7);
    if r.once_in(2) {
        (0..n).map(|_| r.pick(b" \t\x0b\x0c\r-+0123456789")).collect()
    } else {
        (0..n).map(|_| r.below(128) as u8).collect()
    }
}

fn any_text(r: &mut Rng) -> Vec<u8> {
    if r.once_in(4) {
        random_text(r)
    } else {
        r.pick(&TEXTS).as_bytes().to_vec()
    }
}

fn number(r: &mut Rng) -> i64 {
    match r.below(12) {
        0 => r.pick(&[0, 1, -1, NAN, i64::MIN, NAN - 1, i64::MIN + 1]),
        1 => r.pick(&[ONE, -ONE, ONE + 1, ONE - 1, -ONE - 1, ONE / 2, -ONE / 2, 3 * ONE / 2, -3 * ONE / 2]),
        2 => r.next() as i64,
        3 => (r.next() as i64) >> (r.below(62) as u32),
        4 => (r.below(4000) as i64 - 2000) * ONE,
        5 => (r.below(1 << 20) as i64 - (1 << 19)) << r.below(33),
        6 => r.pick(&[31, 32, 33, 63, -1, -32]) * ONE,
        7 => r.pick(&[10, 100, 1000, 1000000]) * ONE / r.pick(&[3, 7, 10, 1000]),
        _ => (r.below(9) as i64 - 2) * ONE,
    }
}

fn constant(r: &mut Rng) -> Const {
    match r.below(12) {
        0 => Const::Boolean(true),
        1 => Const::Boolean(false),
        2 => Const::Null,
        3 => Const::Undefined,
        4..=6 => Const::Text(any_text(r)),
        _ => Const::Number(number(r)),
    }
}

/// The code of one template, as it is written.
struct Writer<'a> {
    r: &'a mut Rng,
    own: usize,
    count: usize,
    constants: Vec<Const>,
    code: Vec<u8>,
    /// How much more may be written.
    room: isize,
}

impl<'a> Writer<'a> {
    fn op(&mut self, b: u8) {
        self.code.push(b);
        self.room -= 1;
    }

    fn word(&mut self, n: usize) {
        self.code.extend_from_slice(&(n as u16).to_be_bytes());
    }

    fn with(&mut self, b: u8, n: usize) {
        self.op(b);
        self.word(n);
    }

    fn index(&mut self, c: Const) -> usize {
        if let Some(i) = self.constants.iter().position(|d| *d == c) {
            return i;
        }
        self.constants.push(c);
        self.constants.len() - 1
    }

    fn load(&mut self, c: Const) {
        let i = self.index(c);
        self.with(0, i);
    }

    fn from(&mut self, pool: &[Const]) {
        let c = self.r.pick(pool);
        self.load(c);
    }

    fn jump(&mut self, b: u8) -> usize {
        self.with(b, 0);
        self.code.len() - 2
    }

    fn land(&mut self, at: usize) {
        let here = self.code.len();
        self.aim(at, here);
    }

    fn aim(&mut self, at: usize, place: usize) {
        self.code[at..at + 2].copy_from_slice(&(place as u16).to_be_bytes());
    }

    /// The index of a name: a text constant as a rule, else an index that stands for its own digits.
    fn name(&mut self) -> usize {
        if self.r.once_in(8) {
            return self.r.below(14);
        }
        let n = self.r.pick(&NAMES[..6]);
        self.index(text(n))
    }

    fn key(&mut self) -> usize {
        match self.r.below(8) {
            0 => self.r.below(12),
            1 | 2 => self.index(text("length")),
            3 => {
                let t = random_text(self.r);
                self.index(Const::Text(t))
            }
            _ => {
                let t = any_text(self.r);
                self.index(Const::Text(t))
            }
        }
    }

    fn simple(&mut self) {
        match self.r.below(10) {
            0 | 1 => {
                let i = self.r.below(4);
                self.with(1, i);
            }
            2 => {
                let n = self.name();
                self.with(3, n);
            }
            3 => {
                if self.r.once_in(3) {
                    let i = 30 + self.r.below(400);
                    self.with(0, i);
                } else {
                    self.op(70);
                }
            }
            4 if self.own + 1 < self.count => {
                let u = self.own + 1 + self.r.below(self.count - self.own - 1);
                let i = self.index(Const::Function(u));
                let b = self.r.pick(&[0, 52]);
                self.with(b, i);
            }
            _ => {
                let c = constant(self.r);
                self.load(c);
            }
        }
    }

    /// Something that may have properties.
    fn holder(&mut self, depth: usize) {
        match self.r.below(8) {
            0..=2 => {
                let n = self.r.below(4);
                for _ in 0..n {
                    self.simple();
                }
                self.op(61);
                self.code.push(n as u8);
            }
            3 | 4 => self.op(60),
            5 => {
                let n = self.name();
                self.with(3, n);
            }
            6 => {
                let i = self.r.below(3);
                self.with(1, i);
            }
            _ => self.value(depth),
        }
    }

    fn value(&mut self, depth: usize) {
        if depth == 0 || self.room < 4 {
            return self.simple();
        }
        match self.r.below(21) {
            0..=2 => self.simple(),
            17 => self.alike(),
            18 | 19 => self.edges(),
            3..=7 => {
                self.value(depth - 1);
                if self.r.once_in(10) {
                    self.op(81);
                } else {
                    self.value(depth - 1);
                }
                let b = self.r.pick(&[10, 10, 10, 11, 11, 12, 12, 13, 13, 14, 14, 21, 22, 23, 24, 24, 25, 25, 30, 30, 31, 32, 33, 34, 35, 36, 37, 38, 39, 72, 73]);
                self.op(b);
            }
            8 => {
                self.value(depth - 1);
                let b = self.r.pick(&[15, 20, 71]);
                self.op(b);
            }
            9 => {
                let n = self.r.below(4);
                for _ in 0..n {
                    self.value(depth - 1);
                }
                self.op(61);
                self.code.push(n as u8);
            }
            10 => {
                self.op(60);
                for _ in 0..self.r.below(3) {
                    self.op(81);
                    self.value(depth - 1);
                    let k = self.key();
                    self.with(6, k);
                }
            }
            11 => {
                self.holder(depth - 1);
                let k = self.key();
                self.with(5, k);
            }
            12 => {
                self.holder(depth - 1);
                self.value(depth - 1);
                self.op(7);
            }
            13 | 14 if self.own + 1 < self.count => self.call(depth),
            15 => self.print(depth),
            16 => {
                self.value(depth - 1);
                let b = self.r.pick(&[41, 42]);
                let other = self.jump(b);
                self.value(depth - 1);
                let end = self.jump(40);
                self.land(other);
                self.value(depth - 1);
                self.land(end);
            }
            _ => {
                if self.r.once_in(5) {
                    // a global that may hold a function
                    let n = self.index(text("f"));
                    self.with(3, n);
                    self.arguments(depth);
                } else {
                    self.simple()
                }
            }
        }
    }

    fn arguments(&mut self, depth: usize) {
        let n = self.r.below(4);
        for _ in 0..n {
            self.value(depth - 1);
        }
        self.op(50);
        self.code.push(n as u8);
    }

    fn call(&mut self, depth: usize) {
        let u = self.own + 1 + self.r.below(self.count - self.own - 1);
        let i = self.index(Const::Function(u));
        let b = self.r.pick(&[0, 52]);
        self.with(b, i);
        self.arguments(depth);
    }

    fn print(&mut self, depth: usize) {
        if self.r.once_in(6) {
            self.op(60);
        } else {
            let i = self.index(text("console"));
            self.with(3, i);
        }
        self.arguments(depth);
    }

    fn put_away(&mut self) {
        match self.r.below(4) {
            0 => self.op(80),
            1 => {
                let i = if self.r.once_in(8) { 4 + self.r.below(6) } else { self.r.below(3) };
                self.with(2, i);
            }
            2 => {
                let n = self.name();
                self.with(4, n);
            }
            _ => {}
        }
    }

    fn block(&mut self, depth: usize) {
        for _ in 0..1 + self.r.below(2) {
            self.statement(depth);
        }
    }

    fn statement(&mut self, depth: usize) {
        if self.room <= 0 {
            return;
        }
        if depth == 0 {
            self.value(1);
            return self.put_away();
        }
        match self.r.below(30) {
            0..=3 => {
                self.value(2);
                self.put_away();
            }
            4 | 5 => {
                self.value(2);
                let i = self.r.below(4);
                self.with(2, i);
            }
            6 | 7 => {
                self.value(2);
                let n = self.name();
                self.with(4, n);
            }
            8 | 9 => {
                self.holder(1);
                if self.r.once_in(2) {
                    self.op(81);
                    let n = self.name();
                    self.with(4, n);
                }
                self.value(1);
                let k = self.key();
                self.with(6, k);
            }
            10 | 11 => {
                self.holder(1);
                self.value(1);
                self.value(1);
                self.op(8);
            }
            12 | 13 => self.array(),
            14 | 15 => {
                self.value(2);
                let b = self.r.pick(&[41, 42]);
                let over = self.jump(b);
                self.block(depth - 1);
                self.land(over);
            }
            16 => {
                // a loop of a few rounds, counted in a local
                let k = self.r.below(3);
                let rounds = 1 + self.r.below(3) as i64;
                self.load(Const::Number(0));
                self.with(2, k);
                let start = self.code.len();
                self.with(1, k);
                self.load(Const::Number(rounds * ONE));
                self.op(34);
                let out = self.jump(41);
                self.block(0);
                self.with(1, k);
                self.load(Const::Number(ONE));
                self.op(10);
                self.with(2, k);
                self.with(40, start);
                self.land(out);
            }
            17..=20 => {
                let place = self.jump(75);
                self.block(depth - 1);
                if self.r.once_in(2) {
                    self.value(1);
                    self.op(74);
                }
                if !self.r.once_in(6) {
                    self.op(76);
                }
                let end = self.jump(40);
                self.land(place);
                self.put_away();
                if self.r.once_in(3) {
                    self.block(depth - 1);
                }
                self.land(end);
            }
            21 => {
                self.value(1);
                self.op(74);
            }
            22 => {
                self.value(2);
                self.op(51);
            }
            23 | 24 => {
                self.print(2);
                self.put_away();
            }
            25 => {
                let n = self.r.below(6);
                self.op(61);
                self.code.push(n as u8);
                self.put_away();
            }
            26 => self.loose(),
            27 if self.own + 1 < self.count => {
                let place = self.jump(75);
                self.call(2);
                self.put_away();
                self.op(76);
                self.land(place);
                self.put_away();
            }
            28 if self.own + 1 < self.count => {
                let u = self.own + 1 + self.r.below(self.count - self.own - 1);
                self.load(Const::Function(u));
                let n = self.index(text("f"));
                self.with(4, n);
            }
            _ => self.value(2),
        }
    }

    /// Two values that are equal in some way, compared.
    fn alike(&mut self) {
        let k = self.r.below(12) as i64 - 3;
        let n = Const::Number(k * ONE);
        let (a, b) = match self.r.below(10) {
            0 => (n, text(&format!("{}", k))),
            1 => (n, text(&format!(" {}\r", k))),
            2 => (Const::Null, Const::Undefined),
            3 => (Const::Boolean(true), Const::Number(ONE)),
            4 => (text("ab"), text("ab")),
            5 => (Const::Number(NAN), text("q")),
            6 => (Const::Null, Const::Number(0)),
            7 => (text(""), Const::Number(0)),
            8 => (n.clone(), n),
            _ => (text("1"), text("01")),
        };
        let (a, b) = if self.r.once_in(2) { (b, a) } else { (a, b) };
        if self.r.once_in(8) {
            self.op(60);
            self.op(81);
        } else {
            self.load(a);
            self.load(b);
        }
        let b = self.r.pick(&[30, 30, 31, 31, 32, 32, 33, 33, 34, 35, 36, 37, 38, 39]);
        self.op(b);
    }

    /// Arithmetic on numbers at the ends of their range.
    fn edges(&mut self) {
        for _ in 0..2 {
            let n = if self.r.once_in(3) { number(self.r) } else { self.r.pick(&ENDS) };
            self.load(Const::Number(n));
        }
        let b = self.r.pick(&[10, 11, 12, 12, 13, 13, 13, 14, 14, 21, 22, 23, 24, 25, 25, 34, 35, 36, 37, 38, 39]);
        self.op(b);
        if self.r.once_in(6) {
            self.op(15);
        }
    }

    /// An array whose length and numeric keys are set and read.
    fn array(&mut self) {
        let n = self.r.below(3);
        for _ in 0..n {
            self.simple();
        }
        self.op(61);
        self.code.push(n as u8);
        let i = self.r.below(3);
        self.with(2, i);
        for _ in 0..1 + self.r.below(3) {
            self.with(1, i);
            match self.r.below(4) {
                0 => {
                    let c = constant(self.r);
                    self.load(c);
                    let k = self.index(text("length"));
                    self.with(6, k);
                }
                1 => {
                    let k = number(self.r);
                    self.load(Const::Number(k));
                    self.simple();
                    self.op(8);
                }
                2 => {
                    self.simple();
                    let k = self.key();
                    self.with(6, k);
                }
                _ => {
                    let k = self.r.pick(&NUMERIC);
                    self.load(text(TEXTS[k]));
                    self.simple();
                    self.op(8);
                }
            }
        }
        if self.r.once_in(2) {
            self.with(1, i);
            let k = self.index(text("length"));
            self.with(5, k);
        }
    }

    /// An opcode with no care for what stands.
    fn loose(&mut self) {
        match self.r.below(12) {
            0 => {
                let b = self.r.below(256) as u8;
                self.op(b);
            }
            1 => {
                let past = self.code.len() + self.r.below(40);
                self.with(40, past);
            }
            2 => self.op(76),
            3 => self.op(255),
            _ => {
                let b = self.r.pick(&OPCODES);
                self.op(b);
                if matches!(b, 0..=6 | 52) {
                    let i = self.r.below(6);
                    self.word(i);
                } else if matches!(b, 40..=42 | 75) {
                    let past = self.code.len() + 2 + self.r.below(12);
                    self.word(past);
                } else if b == 50 || b == 61 {
                    let n = self.r.below(4) as u8;
                    self.code.push(n);
                }
            }
        }
    }
}

/// Many small operations on a few constants, whose results are left on the operand stack.
fn table(r: &mut Rng) -> Image {
    let mut w = Writer { r, own: 0, count: 2, constants: Vec::new(), code: Vec::new(), room: 1000 };
    let mut pool: Vec<Const> = vec![Const::Function(1)];
    for _ in 0..9 {
        let c = match w.r.below(8) {
            0..=2 => Const::Number(if w.r.once_in(2) { w.r.pick(&ENDS) } else { number(w.r) }),
            3..=5 => Const::Text(any_text(w.r)),
            6 => w.r.pick(&[Const::Null, Const::Undefined, Const::Boolean(true), Const::Boolean(false), text("")]),
            _ => {
                let k = w.r.below(12) as i64 - 3;
                pool.push(Const::Number(k * ONE));
                text(&format!("{}{}{}", w.r.pick(&["", " ", "\t", "\r", "0"]), k, w.r.pick(&["", " ", "\n", "\x0b"])))
            }
        };
        pool.push(c);
    }
    for _ in 0..8 + w.r.below(16) {
        match w.r.below(10) {
            0..=5 => {
                for _ in 0..2 {
                    w.from(&pool);
                }
                let b = w.r.pick(&[10, 11, 12, 12, 13, 13, 14, 14, 21, 22, 23, 24, 25, 25, 30, 30, 30, 31, 32, 33, 34, 35, 36, 37, 38, 39, 7, 72, 73]);
                w.op(b);
            }
            6 | 7 => {
                w.from(&pool);
                let b = w.r.pick(&[15, 15, 20, 20, 71, 71]);
                w.op(b);
            }
            8 => {
                w.from(&pool);
                let key = if w.r.once_in(4) { "size" } else { "length" };
                let k = w.index(text(key));
                w.with(5, k);
            }
            _ => {
                let i = w.index(text("console"));
                w.with(3, i);
                let n = w.r.below(4);
                for _ in 0..n {
                    w.from(&pool);
                }
                w.op(50);
                w.code.push(n as u8);
            }
        }
    }
    let (constants, code) = (w.constants, w.code);
    let other = Template { parameters: r.below(2), locals: r.below(3), constants: Vec::new(), code: vec![70, 51] };
    Image { templates: vec![Template { parameters: 0, locals: 0, constants, code }, other] }
}

/// An array whose length and elements are set; its length is left on the operand stack each time.
fn arrays(r: &mut Rng) -> Image {
    let mut w = Writer { r, own: 0, count: 1, constants: Vec::new(), code: Vec::new(), room: 1000 };
    for _ in 0..1 + w.r.below(2) {
        let n = w.r.below(3);
        for _ in 0..n {
            w.simple();
        }
        // now and then more elements than stand
        let count = if w.r.once_in(4) { n + w.r.below(12) } else { n };
        w.op(61);
        w.code.push(count as u8);
        w.with(2, 0);
        for _ in 0..2 + w.r.below(4) {
            w.with(1, 0);
            let c = match w.r.below(4) {
                0 => constant(w.r),
                1 => Const::Number(w.r.below(8) as i64 * ONE),
                _ => {
                    let k = w.r.pick(&NUMERIC);
                    text(TEXTS[k])
                }
            };
            let l = w.index(text("length"));
            let again = c.clone();
            match w.r.below(5) {
                0 => {
                    let n = Const::Number(w.r.pick(&ENDS));
                    let length = if w.r.once_in(2) { n } else { c };
                    w.load(length);
                    w.with(6, l);
                }
                1 | 2 => {
                    let k = w.index(c);
                    w.simple();
                    w.with(6, k);
                }
                _ => {
                    w.load(c);
                    w.simple();
                    w.op(8);
                }
            }
            if w.r.once_in(2) {
                w.with(1, 0);
                w.load(again);
                w.op(7);
            }
            w.with(1, 0);
            w.with(5, l);
        }
    }
    let (constants, code) = (w.constants, w.code);
    Image { templates: vec![Template { parameters: 0, locals: 0, constants, code }] }
}

fn template(r: &mut Rng, own: usize, count: usize, room: isize) -> Template {
    let mut w = Writer { r, own, count, constants: Vec::new(), code: Vec::new(), room };
    // so that indexes of names meet constants of other kinds too
    if w.r.once_in(3) {
        for _ in 0..w.r.below(4) {
            let c = constant(w.r);
            w.constants.push(c);
        }
    }
    let statements = 1 + w.r.below(4);
    for _ in 0..statements {
        w.statement(2);
    }
    if own == 0 {
        match w.r.below(5) {
            0 => {}
            1 => w.op(255),
            _ => {
                w.value(1);
                w.op(255);
            }
        }
    } else if !w.r.once_in(5) {
        w.value(1);
        w.op(51);
    }
    if w.r.once_in(25) {
        let keep = w.code.len().saturating_sub(1 + w.r.below(2));
        w.code.truncate(keep);
    }
    let (constants, code) = (w.constants, w.code);
    let parameters = r.below(4);
    let locals = if r.once_in(3) { r.below(6) } else { parameters };
    Template { parameters, locals, constants, code }
}

fn image(r: &mut Rng, room: isize) -> Image {
    let count = r.pick(&[1, 1, 2, 2, 3, 4]);
    let templates = (0..count).map(|t| template(r, t, count, if t == 0 { room } else { room / 2 })).collect();
    Image { templates }
}

/// Code of random bytes: known opcodes as a rule, small operands, cut anywhere.
fn bytes(r: &mut Rng) -> Image {
    let count = 1 + r.below(3);
    let templates = (0..count)
        .map(|own| {
            let mut constants: Vec<Const> = (0..r.below(6)).map(|_| constant(r)).collect();
            if own + 1 < count {
                constants.push(Const::Function(own + 1 + r.below(count - own - 1)));
            }
            let wild = r.once_in(4);
            let mut code = Vec::new();
            for _ in 0..r.below(60) {
                if wild || r.once_in(12) {
                    code.push(r.below(256) as u8);
                } else if r.once_in(3) {
                    let i = r.below(8) as u8;
                    code.extend_from_slice(&[r.pick(&[0, 0, 0, 1, 3, 52, 70, 81]), 0, i]);
                } else {
                    code.push(r.pick(&OPCODES));
                    if r.once_in(2) {
                        let i = r.below(16) as u8;
                        code.extend_from_slice(&[0, i]);
                    }
                }
            }
            Template { parameters: r.below(3), locals: r.below(4), constants, code }
        })
        .collect();
    Image { templates }
}

fn given(r: &mut Rng, functions: usize, texts: &[(usize, Vec<u8>)]) -> Given {
    Given::Plain(match r.below(9) {
        0 => Plain::Undefined,
        1 => Plain::Null,
        2 => Plain::Boolean(r.once_in(2)),
        3 => Plain::Number(number(r)),
        4 => Plain::Object(r.pick(&[0, 1, 2, 511, u64::MAX, 1 << 63])),
        5 => Plain::Function(r.pick(&[0, 1, functions as u64, 1023, u64::MAX])),
        6 if !texts.is_empty() => {
            let (at, bs) = r.pick(texts);
            Plain::InCode(at, bs)
        }
        _ => return Given::Fresh(any_text(r)),
    })
}

/// A sample: one or two images are loaded and run, and between runs the host may register a template and set globals.
pub fn sample(r: &mut Rng, room: isize) -> Sample {
    match r.below(8) {
        0 | 1 => return Sample::run_one("table", table(r)),
        2 => return Sample::run_one("array", arrays(r)),
        _ => {}
    }
    let wild = r.once_in(7);
    let number = if r.once_in(4) { 2 } else { 1 };
    let images: Vec<Image> = (0..number).map(|_| if wild { bytes(r) } else { image(r, room) }).collect();
    let mut texts = Vec::new();
    let mut base = 0;
    for i in &images {
        let (bs, ts) = i.bytes();
        texts.extend(ts.into_iter().map(|(at, t)| (base + at, t)));
        base += bs.len();
    }
    let mut actions: Vec<Action> = images.iter().map(|_| Action::Load).collect();
    let mut registered = 0;
    let runs = if number == 2 { 2 + r.below(2) } else { r.pick(&[1, 1, 1, 2, 2, 3]) };
    for n in 0..runs {
        while r.once_in(if n == 0 { 5 } else { 2 }) {
            let i = r.below(number);
            if images[i].templates.len() > 1 && r.once_in(2) {
                let t = 1 + r.below(images[i].templates.len() - 1);
                actions.push(Action::Register(i, t));
                if n == 0 {
                    actions.push(Action::SetGlobal(b"f".to_vec(), Given::Plain(Plain::Function(registered))));
                }
                registered += 1;
            } else {
                let name = r.pick(&NAMES).as_bytes().to_vec();
                let g = given(r, registered as usize, &texts);
                actions.push(Action::SetGlobal(name, g));
            }
        }
        actions.push(Action::Run(if n < number { n } else { r.below(number) }));
        if r.once_in(4) {
            actions.push(Action::Drain);
        }
        if r.once_in(6) {
            actions.push(Action::ReadGlobal(r.pick(&NAMES).as_bytes().to_vec()));
        }
    }
    Sample { kind: if wild { "bytes" } else { "code" }, images, actions }
}
