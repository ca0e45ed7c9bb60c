//! Samples: images and what a host does with them. `images.rs` and `specials.rs` make them.

use crate::plain::js_compiler::{Chunk, Constant, FunctionTemplate};

/// splitmix64
pub struct Rng(pub u64);

impl Rng {
    pub fn next(&mut self) -> u64 {
        self.0 = self.0.wrapping_add(0x9e37_79b9_7f4a_7c15);
        let mut z = self.0;
        z = (z ^ (z >> 30)).wrapping_mul(0xbf58_476d_1ce4_e5b9);
        z = (z ^ (z >> 27)).wrapping_mul(0x94d0_49bb_1331_11eb);
        z ^ (z >> 31)
    }

    pub fn below(&mut self, n: usize) -> usize {
        (self.next() % n as u64) as usize
    }

    /// True once in n times.
    pub fn once_in(&mut self, n: usize) -> bool {
        self.below(n) == 0
    }

    pub fn pick<T: Clone>(&mut self, of: &[T]) -> T {
        of[self.below(of.len())].clone()
    }
}

#[derive(Clone, PartialEq, Debug)]
pub enum Const {
    Number(i64),
    Text(Vec<u8>),
    Boolean(bool),
    Null,
    Undefined,
    Function(usize),
}

#[derive(Clone, Default, Debug)]
pub struct Template {
    pub parameters: usize,
    pub locals: usize,
    pub constants: Vec<Const>,
    pub code: Vec<u8>,
}

#[derive(Clone, Default, Debug)]
pub struct Image {
    pub templates: Vec<Template>,
}

fn word(out: &mut Vec<u8>, n: usize) {
    out.extend_from_slice(&(n as u16).to_be_bytes());
}

/// An image's bytes, from the front. A read answers with document 01's number where the item is not good.
struct Reader<'a>(&'a [u8]);

impl<'a> Reader<'a> {
    fn bytes(&mut self, n: usize) -> Result<&'a [u8], u8> {
        if self.0.len() < n {
            return Err(1);
        }
        let (now, later) = self.0.split_at(n);
        self.0 = later;
        Ok(now)
    }

    fn byte(&mut self) -> Result<u8, u8> {
        Ok(self.bytes(1)?[0])
    }

    fn word(&mut self) -> Result<usize, u8> {
        let b = self.bytes(2)?;
        Ok(usize::from(b[0]) << 8 | usize::from(b[1]))
    }

    /// A constant of template `own` of `count`.
    fn constant(&mut self, own: usize, count: usize) -> Result<Const, u8> {
        Ok(match self.byte()? {
            0 => Const::Number(i64::from_be_bytes(self.bytes(8)?.try_into().unwrap())),
            1 => {
                let n = self.word()?;
                let s = self.bytes(n)?;
                if !s.is_ascii() {
                    return Err(5);
                }
                Const::Text(s.to_vec())
            }
            2 => match self.byte()? {
                0 => Const::Boolean(false),
                1 => Const::Boolean(true),
                _ => return Err(4),
            },
            3 => Const::Null,
            4 => Const::Undefined,
            5 => match self.word()? {
                t if own < t && t < count => Const::Function(t),
                _ => return Err(6),
            },
            _ => return Err(3),
        })
    }

    fn template(&mut self, own: usize, count: usize) -> Result<Template, u8> {
        let (parameters, locals, n) = (self.word()?, self.word()?, self.word()?);
        let constants = (0..n).map(|_| self.constant(own, count)).collect::<Result<_, _>>()?;
        let n = self.word()?;
        Ok(Template { parameters, locals, constants, code: self.bytes(n)?.to_vec() })
    }
}

impl Image {
    /// The image that these bytes are, or document 01's number, 1 to 7, of the first question that they fail.
    pub fn read(bytes: &[u8]) -> Result<Image, u8> {
        let mut r = Reader(bytes);
        let count = r.word()?;
        if count < 1 || count > 256 {
            return Err(2);
        }
        let templates = (0..count).map(|own| r.template(own, count)).collect::<Result<_, _>>()?;
        if !r.0.is_empty() {
            return Err(7);
        }
        Ok(Image { templates })
    }

    /// The image as document 01 lays it out, and the place and bytes of each text constant in it.
    pub fn bytes(&self) -> (Vec<u8>, Vec<(usize, Vec<u8>)>) {
        let mut out = Vec::new();
        let mut texts = Vec::new();
        word(&mut out, self.templates.len());
        for t in &self.templates {
            word(&mut out, t.parameters);
            word(&mut out, t.locals);
            word(&mut out, t.constants.len());
            for c in &t.constants {
                match c {
                    Const::Number(n) => {
                        out.push(0);
                        out.extend_from_slice(&n.to_be_bytes());
                    }
                    Const::Text(s) => {
                        out.push(1);
                        word(&mut out, s.len());
                        texts.push((out.len(), s.clone()));
                        out.extend_from_slice(s);
                    }
                    Const::Boolean(b) => out.extend_from_slice(&[2, *b as u8]),
                    Const::Null => out.push(3),
                    Const::Undefined => out.push(4),
                    Const::Function(u) => {
                        out.push(5);
                        word(&mut out, *u);
                    }
                }
            }
            word(&mut out, t.code.len());
            out.extend_from_slice(&t.code);
        }
        (out, texts)
    }

    fn constants(&self, number: usize, t: usize) -> Vec<Constant> {
        self.templates[t]
            .constants
            .iter()
            .map(|c| match c {
                Const::Number(n) => Constant::Number(*n),
                Const::Text(s) => Constant::Str(String::from_utf8(s.clone()).unwrap()),
                Const::Boolean(b) => Constant::Bool(*b),
                Const::Null => Constant::Null,
                Const::Undefined => Constant::Undefined,
                Const::Function(u) => Constant::Function(self.template(number, *u)),
            })
            .collect()
    }

    /// Template t as 001 has it, with the image's number and its own for a name.
    pub fn template(&self, number: usize, t: usize) -> FunctionTemplate {
        let own = &self.templates[t];
        FunctionTemplate {
            name: format!("{}:{}", number, t),
            param_count: own.parameters,
            bytecode: own.code.clone(),
            constants: self.constants(number, t),
            local_count: own.locals,
            upvalue_count: 0,
            line_numbers: Vec::new(),
        }
    }

    pub fn chunk(&self, number: usize) -> Chunk {
        Chunk { bytecode: self.templates[0].code.clone(), constants: self.constants(number, 0), line_numbers: Vec::new() }
    }
}

#[derive(Clone, Debug)]
pub enum Plain {
    Undefined,
    Null,
    Boolean(bool),
    Number(i64),
    Object(u64),
    Function(u64),
    /// A text of the code store: its place there and its bytes.
    InCode(usize, Vec<u8>),
}

#[derive(Clone, Debug)]
pub enum Given {
    Plain(Plain),
    Fresh(Vec<u8>),
}

/// What the host does. Images are loaded in their order.
#[derive(Clone, Debug)]
pub enum Action {
    Load,
    Run(usize),
    Register(usize, usize),
    SetGlobal(Vec<u8>, Given),
    ReadGlobal(Vec<u8>),
    Drain,
}

#[derive(Clone, Debug)]
pub struct Sample {
    pub kind: &'static str,
    pub images: Vec<Image>,
    pub actions: Vec<Action>,
}

impl Sample {
    /// A sample that loads one image and runs it.
    pub fn run_one(kind: &'static str, image: Image) -> Sample {
        Sample { kind, images: vec![image], actions: vec![Action::Load, Action::Run(0)] }
    }
}
