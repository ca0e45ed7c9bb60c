//! Programs that the oracle's generator seldom makes: longer loops, texts built piece by piece, recursion, closures handed on, throws from deep
//! inside, guarded blocks left in every way, arrays filled by numeric keys, the step limit, and code of nothing but random bytes.

use crate::limits;
use crate::sample::{Action, Const, Image, Rng, Sample, Template};

const ONE: i64 = 1 << 32;

fn text(s: &str) -> Const {
    Const::Text(s.as_bytes().to_vec())
}

fn whole(n: i64) -> Const {
    Const::Number(n * ONE)
}

/// A template as it is written.
#[derive(Default)]
struct Code {
    constants: Vec<Const>,
    bytes: Vec<u8>,
}

impl Code {
    fn op(&mut self, b: u8) -> &mut Code {
        self.bytes.push(b);
        self
    }

    fn with(&mut self, b: u8, n: usize) -> &mut Code {
        self.bytes.push(b);
        self.bytes.extend_from_slice(&(n as u16).to_be_bytes());
        self
    }

    fn index(&mut self, c: Const) -> usize {
        if let Some(i) = self.constants.iter().position(|d| *d == c) {
            return i;
        }
        self.constants.push(c);
        self.constants.len() - 1
    }

    /// An opcode whose operand is a constant's index.
    fn of(&mut self, b: u8, c: Const) -> &mut Code {
        let i = self.index(c);
        self.with(b, i)
    }

    fn load(&mut self, c: Const) -> &mut Code {
        self.of(0, c)
    }

    fn call(&mut self, n: u8) -> &mut Code {
        self.bytes.extend_from_slice(&[50, n]);
        self
    }

    fn jump(&mut self, b: u8) -> usize {
        self.with(b, 0);
        self.bytes.len() - 2
    }

    fn land(&mut self, at: usize) {
        let here = self.bytes.len() as u16;
        self.bytes[at..at + 2].copy_from_slice(&here.to_be_bytes());
    }

    /// The start of a loop while local k is below n; `again` ends it, adding one.
    fn below(&mut self, k: usize, n: i64) -> (usize, usize) {
        self.load(whole(0)).with(2, k);
        let start = self.bytes.len();
        self.with(1, k).load(whole(n)).op(34);
        (start, self.jump(41))
    }

    fn again(&mut self, k: usize, (start, out): (usize, usize)) {
        self.with(1, k).load(whole(1)).op(10).with(2, k).with(40, start);
        self.land(out);
    }

    fn print(&mut self, locals: &[usize]) -> &mut Code {
        self.of(3, text("console"));
        for k in locals {
            self.with(1, *k);
        }
        self.call(locals.len() as u8).op(80)
    }

    fn template(&self, parameters: usize, locals: usize) -> Template {
        Template { parameters, locals, constants: self.constants.clone(), code: self.bytes.clone() }
    }
}

fn one(kind: &'static str, templates: Vec<Template>) -> Sample {
    Sample::run_one(kind, Image { templates })
}

/// A text grown in a loop, started anew where it is long, and printed now and then.
fn building(r: &mut Rng) -> Sample {
    let mut c = Code::default();
    let start = r.pick(&["", "pick", "0", " "]);
    c.load(text(start)).with(2, 1);
    let round = c.below(0, 3 + r.below(30) as i64);
    c.with(1, 1);
    match r.below(5) {
        0 => c.with(1, 0),
        1 => c.with(1, 0).load(Const::Number(r.next() as i64 >> r.below(40))).op(12),
        2 => c.with(1, 1).op(71),
        3 => c.load(r.pick(&[text("-"), Const::Null, Const::Boolean(true), Const::Undefined, text("ab")])),
        _ => c.op(60),
    };
    c.op(10).with(2, 1);
    let most = 10 + r.below(120) as i64;
    c.with(1, 1).of(5, text("length")).load(whole(most)).op(35);
    let short = c.jump(41);
    if r.once_in(2) {
        c.print(&[1, 0]);
    }
    c.load(text(start)).with(2, 1);
    c.land(short);
    c.again(0, round);
    c.with(1, 1).op(81).of(4, text("report"));
    if r.once_in(2) {
        c.with(1, 1).with(1, 1).op(10).with(1, 1).op(r.pick(&[30, 31, 34, 37]));
    }
    c.op(255);
    one("building", vec![c.template(0, 0)])
}

/// A function that calls itself through a global, with tries on the way in and a throw or a value at the bottom.
fn recursion(r: &mut Rng) -> Sample {
    let mut f = Code::default();
    f.with(1, 0).load(whole(1)).op(34);
    let deep = f.jump(41);
    match r.below(4) {
        0 => f.load(text("bottom")).op(74),
        1 => f.load(whole(7)).op(51),
        2 => f.load(whole(1)).of(3, text("nothing")).call(0).op(51),
        _ => f.with(1, 1).op(51),
    };
    f.land(deep);
    // a try at every k-th level, or none
    let levels = r.below(4) as i64;
    let place = if levels > 0 {
        f.with(1, 0).load(whole(levels)).op(14);
        let plain = f.jump(42);
        let place = f.jump(75);
        f.land(plain);
        Some(place)
    } else {
        None
    };
    f.of(3, text("f")).with(1, 0).load(whole(1)).op(11);
    if r.once_in(2) {
        f.with(1, 0);
        f.call(2);
    } else {
        f.call(1);
    }
    f.with(1, 0).op(r.pick(&[10, 11, 12, 10]));
    if r.once_in(3) {
        f.with(2, 2 + r.below(3)).with(1, 2);
    }
    if r.once_in(8) {
        f.op(255);
    }
    f.op(51);
    if let Some(place) = place {
        f.land(place);
        if r.once_in(2) {
            f.load(text("+")).op(10);
        }
        f.op(if r.once_in(3) { 74 } else { 51 });
    }
    let mut c = Code::default();
    c.of(52, Const::Function(1)).of(4, text("f"));
    let place = if r.once_in(2) { Some(c.jump(75)) } else { None };
    // so deep that its tries have handlers, and the chunk's too; those that an earlier run left come on top
    let deepest = if levels > 0 { 30.min(levels * (limits::HANDLERS as i64 - 1)) } else { 30 };
    c.of(3, text("f")).load(whole(1 + r.below(deepest as usize) as i64)).call(1);
    if let Some(place) = place {
        c.land(place);
    }
    c.op(255);
    let locals = r.below(5);
    let mut s = one("recursion", vec![c.template(0, 0), f.template(1 + r.below(2), locals)]);
    if r.once_in(3) {
        s.actions.push(Action::Run(0));
    }
    s
}

/// Functions that leave their guarded blocks in every way, and throws after that: which handler is pending then, if any.
fn guarding(r: &mut Rng) -> Sample {
    let count = 2 + r.below(4);
    let mut templates: Vec<Template> = Vec::new();
    for own in 0..count {
        let mut c = Code::default();
        let mut places = Vec::new();
        for _ in 0..1 + r.below(5) {
            match r.below(7) {
                0 | 1 => places.push(c.jump(75)),
                2 => drop(c.op(76)),
                3 => drop(c.load(whole(own as i64)).op(74)),
                _ if own + 1 < count => drop(c.of(52, Const::Function(own + 1 + r.below(count - own - 1))).call(0).with(2, 0).print(&[0])),
                _ => drop(c.load(text("echo")).with(2, 0)),
            }
        }
        // a Return, the end of the code, a Halt; what is thrown is printed first
        let mut ends = Vec::new();
        let mut leave = |c: &mut Code, r: &mut Rng| match r.below(8) {
            0..=3 => drop(c.load(whole(own as i64)).op(51)),
            4 | 5 => ends.push(c.jump(40)),
            6 => drop(c.load(text("again")).op(74)),
            _ => drop(c.op(255)),
        };
        leave(&mut c, r);
        for place in places {
            c.land(place);
            c.with(2, 1).print(&[1]);
            leave(&mut c, r);
        }
        for end in ends {
            c.land(end);
        }
        templates.push(c.template(0, r.below(3)));
    }
    let mut s = one("guarding", templates);
    for _ in 0..r.below(3) {
        s.actions.push(Action::Run(0));
    }
    s
}

/// An array filled and read in a loop, by numbers and by texts that are nearly numbers.
fn filling(r: &mut Rng) -> Sample {
    let mut c = Code::default();
    c.op(61).op(0).with(2, 1);
    let round = c.below(0, 2 + r.below(14) as i64);
    c.with(1, 1);
    match r.below(6) {
        0 => c.with(1, 0),
        1 => c.load(text("+")).with(1, 0).op(10),
        2 => c.load(text("00")).with(1, 0).op(10),
        3 => c.with(1, 0).load(whole(r.pick(&[3, 7, -1, 1 << 20]))).op(12),
        4 => c.with(1, 0).load(whole(2)).op(13),
        _ => c.load(text("1844674407370955161")).with(1, 0).op(10),
    };
    match r.below(3) {
        0 => c.with(1, 0).with(1, 0).op(12),
        1 => c.with(1, 1),
        _ => c.load(text("echo")),
    };
    c.op(8);
    if r.once_in(3) {
        c.with(1, 1).of(5, text("length")).with(1, 1).with(1, 0).op(7);
    }
    c.again(0, round);
    if r.once_in(3) {
        c.with(1, 1).load(r.pick(&[whole(2), whole(-3), Const::Null, Const::Number(ONE / 2 * 9), text("4")])).of(6, text("length"));
        c.with(1, 1).load(whole(4)).load(Const::Boolean(true)).op(8);
    }
    c.load(whole(0)).with(2, 2);
    let round = c.below(0, 4 + r.below(9) as i64);
    c.with(1, 2).with(1, 1).with(1, 0).op(7).op(10).with(2, 2);
    c.again(0, round);
    c.print(&[2, 1]);
    c.with(1, 1).of(5, text("length")).op(255);
    one("filling", vec![c.template(0, 0)])
}

/// Closures made in one function, handed back and called in another.
fn handing(r: &mut Rng) -> Sample {
    let depth = 2 + r.below(3);
    let mut templates = Vec::new();
    for own in 0..depth {
        let mut c = Code::default();
        if own + 1 < depth {
            c.of(r.pick(&[0, 52]), Const::Function(own + 1));
            if r.once_in(3) {
                c.with(2, r.below(4)).with(1, r.below(4));
            }
            match r.below(4) {
                0 => c.op(51),
                1 => c.load(whole(own as i64)).with(1, 0).call(2).op(51),
                2 => c.op(81).of(4, text("g")).with(1, 0).call(1),
                _ => c.op(81).call(0).op(81).of(4, text("h")),
            };
            if r.once_in(3) {
                c.op(80);
            }
        } else {
            c.with(1, 0).with(1, 1).op(10).print(&[0, 1]).of(3, text("g")).op(71).op(r.pick(&[51, 74, 10, 255]));
        }
        if r.once_in(2) {
            c.op(r.pick(&[51, 255, 80, 81]));
        }
        templates.push(c.template(r.below(4), r.below(5)));
    }
    let mut s = one("handing", templates);
    for _ in 0..r.below(3) {
        s.actions.push(Action::Run(0));
    }
    s
}

/// Operands pushed until there is no room, in the chunk or in a function; then once more.
fn piling(r: &mut Rng) -> Sample {
    let mut f = Code::default();
    if r.once_in(2) {
        f.with(75, 3);
    }
    let start = f.bytes.len();
    for _ in 0..1 + r.below(3) {
        match r.below(5) {
            0 => f.op(70),
            1 => f.op(81),
            2 => f.load(Const::Null),
            3 => f.load(Const::Boolean(true)).op(81).op(31),
            _ => f.with(1, 0),
        };
    }
    f.op(r.pick(&[70, 81])).with(40, start);
    let mut c = Code::default();
    c.of(0, Const::Function(1)).load(text("p")).call(1).op(255);
    let mut s = one("piling", vec![c.template(0, 0), f.template(1, 2)]);
    s.images.push(Image { templates: vec![Template { code: vec![r.pick(&[61, 60, 70, 81, 52, 0]), 0, 0, 10], ..Template::default() }] });
    s.actions = vec![Action::Load, Action::Load, Action::Run(0), Action::Run(1)];
    s
}

/// Code of nothing but random bytes, over constants of every kind.
fn noise(r: &mut Rng) -> Sample {
    let count = 1 + r.below(3);
    let templates = (0..count)
        .map(|own| {
            let mut constants = vec![whole(r.below(5) as i64), text("length"), Const::Boolean(r.once_in(2)), Const::Null, Const::Undefined, text("console")];
            if own + 1 < count {
                constants.push(Const::Function(count - 1));
            }
            constants.truncate(1 + r.below(8));
            let code = (0..r.below(90)).map(|_| if r.once_in(4) { r.below(256) } else { r.below(82) } as u8).collect();
            Template { parameters: r.below(3), locals: r.below(4), constants, code }
        })
        .collect();
    let mut s = one("noise", templates);
    for _ in 0..r.below(4) {
        s.actions.push(Action::Run(0));
        if r.once_in(4) {
            s.actions.push(Action::Drain);
        }
    }
    s
}

/// Each store filled to its last place, where the engine must not refuse yet; then what can still be done.
pub fn brimful() -> Vec<Sample> {
    let mut all = Vec::new();
    let rounds = |n: usize, body: &dyn Fn(&mut Code)| {
        let mut c = Code::default();
        let round = c.below(0, n as i64);
        body(&mut c);
        c.again(0, round);
        c
    };

    // every frame: the chunk's, and a function that calls itself until it halts
    let mut f = Code::default();
    f.with(1, 0).load(whole(1)).op(34);
    let deeper = f.jump(41);
    f.with(1, 0).op(255);
    f.land(deeper);
    f.of(3, text("f")).with(1, 0).load(whole(1)).op(11).call(1).op(51);
    let mut c = Code::default();
    c.of(52, Const::Function(1)).of(4, text("f")).of(3, text("f")).load(whole(limits::FRAMES as i64 - 2)).call(1).op(255);
    let mut s = one("brimful", vec![c.template(0, 0), f.template(1, 1)]);
    // a run that is refused, for want of a frame, twice
    s.actions.extend([Action::Run(0), Action::Drain, Action::Run(0)]);
    all.push(s);
    // every frame and every slot: each call and the chunk have equally many
    let each = limits::SLOTS / limits::FRAMES;
    let mut own = Code::default();
    own.load(Const::Null).with(2, each - 1);
    let mut c = Code { constants: own.constants.clone(), bytes: own.bytes.clone() };
    c.of(52, Const::Function(1)).of(4, text("f")).of(3, text("f")).load(whole(limits::FRAMES as i64 - 2)).call(1).op(255);
    all.push(one("brimful", vec![c.template(0, 0), f.template(1, each)]));
    // every slot by one frame
    let mut c = Code::default();
    c.load(whole(5)).with(2, limits::SLOTS - 1).with(1, limits::SLOTS - 1).op(255);
    all.push(one("brimful", vec![c.template(0, 0)]));
    // every handler stands; the next run's throw takes one, and its catch enters another
    let mut c = Code::default();
    let round = c.below(0, limits::HANDLERS as i64);
    let place = c.jump(75);
    c.again(0, round);
    c.op(255);
    c.land(place);
    c.with(75, 0).op(255);
    let mut s = one("brimful", vec![c.template(0, 0)]);
    s.images.push(Image { templates: vec![{ let mut c = Code::default(); c.load(text("t")).op(74); c.template(0, 0) }] });
    s.actions = vec![Action::Load, Action::Load, Action::Run(0), Action::Run(1)];
    all.push(s);
    // every function; the last of them is called
    let mut c = rounds(limits::FUNCTIONS, &|c| {
        c.of(52, Const::Function(1)).with(2, 1);
    });
    c.with(1, 1).load(whole(3)).call(1).op(255);
    all.push(one("brimful", vec![c.template(0, 0), { let mut g = Code::default(); g.with(1, 0).op(81).op(12).op(51); g.template(1, 1) }]));
    // every object; the last one still takes a property
    let mut c = rounds(limits::OBJECTS, &|c| {
        c.op(60).with(2, 1);
    });
    c.with(1, 1).with(1, 1).load(whole(3)).of(6, text("k")).of(5, text("k")).op(255);
    all.push(one("brimful", vec![c.template(0, 0)]));
    // every property by one array; then one that is there is changed
    let mut c = Code::default();
    c.op(61).op(0).with(2, 1);
    let round = c.below(0, limits::PROPERTIES as i64 - 1);
    c.with(1, 1).with(1, 0).with(1, 0).op(8);
    c.again(0, round);
    c.with(1, 1).load(whole(limits::PROPERTIES as i64 - 2)).load(text("last")).op(8).with(1, 1).of(5, text("length")).op(255);
    all.push(one("brimful", vec![c.template(0, 0)]));
    // every global; then one that is there is changed
    let mut c = Code::default();
    let last = 1000 + limits::GLOBALS - 2;
    for k in 1000..last + 1 {
        c.load(Const::Null).with(4, k);
    }
    c.load(whole(2)).with(4, last).load(whole(3)).of(4, text("console")).with(3, last).op(255);
    all.push(one("brimful", vec![c.template(0, 0)]));
    // every byte of text, a power of two: 2, 4, .. to a half of it, and 2; then an empty one
    let mut c = Code::default();
    c.load(text("x"));
    for _ in 1..limits::TEXT_BYTES.ilog2() {
        c.op(81).op(10);
    }
    c.load(text("a")).load(text("b")).op(10).with(2, 0);
    c.load(text("")).load(text("")).op(10).of(5, text("length")).op(255);
    all.push(one("brimful", vec![c.template(0, 0)]));
    // every byte of output, drained, and filled again by the next run
    let line: String = "0123456789".chars().cycle().take(limits::OUTPUT_BYTES / 8 - 2).collect();
    let mut c = Code::default();
    for _ in 0..8 {
        c.of(3, text("console")).load(text(&line)).call(1).op(80);
    }
    let mut s = one("brimful", vec![c.template(0, 0)]);
    s.actions.extend([Action::Drain, Action::Run(0), Action::Drain]);
    all.push(s);
    // every image, and every byte of them
    let last = limits::IMAGES - 1;
    let mut images: Vec<Image> = (0..last as i64).map(|k| Image { templates: vec![{ let mut c = Code::default(); c.load(whole(k)).op(255); c.template(0, 0) }] }).collect();
    let used: usize = images.iter().map(|i| i.bytes().0.len()).sum();
    let mut c = Code::default();
    c.load(text("")).of(5, text("length")).op(255);
    let small = Image { templates: vec![c.template(0, 0)] }.bytes().0.len();
    c.constants[0] = text(&"m".repeat(limits::CODE_BYTES - used - small));
    images.push(Image { templates: vec![c.template(0, 0)] });
    let mut actions: Vec<Action> = images.iter().map(|_| Action::Load).collect();
    actions.extend([last, 0, last - 1, last].map(Action::Run));
    // a load that is refused: no byte is free; and where bytes are free, no number
    let more = images[0].clone();
    images.push(more.clone());
    actions.extend([Action::Load, Action::Run(last)]);
    all.push(Sample { kind: "brimful", images, actions });
    let images = vec![more; limits::IMAGES + 1];
    let mut actions = vec![Action::Load; limits::IMAGES + 1];
    actions.extend([last, 3].map(Action::Run));
    all.push(Sample { kind: "brimful", images, actions });
    all
}

/// How many kinds of `overfull` there are.
pub const OVERFULL: usize = 10;

/// A store asked for more than it has. `kind` says which, as a rule: another may be full before.
pub fn overfull(r: &mut Rng, kind: usize) -> Sample {
    let mut f = Code::default();
    let mut c = Code::default();
    // something stands already
    for _ in 0..r.below(4) {
        c.load(r.pick(&[whole(4), Const::Null, text("t"), Const::Boolean(true)]));
    }
    if r.once_in(2) {
        c.with(75, r.below(20));
    }
    let (mut parameters, mut locals) = (1, 1 + r.below(4));
    let many = |r: &mut Rng, limit: usize| (limit - r.below(4) + r.below(9)) as i64;
    match kind {
        0 | 1 => {
            // frames, or slots where each call has many
            if kind == 1 {
                parameters = r.below(40);
                locals = 30 + r.below(400);
            }
            // with a handler each, which are fewer
            if r.once_in(4) {
                f.with(75, r.below(9));
            }
            f.of(3, text("f")).with(1, 0).load(whole(1)).op(10).with(1, 0).call(2).op(51);
        }
        2 => {
            // slots of the newest frame
            f.with(1, 0).with(2, r.below(900)).with(1, 0).with(2, limits::SLOTS - 148 + r.below(200)).with(1, 0).with(2, r.pick(&[limits::SLOTS - 2, limits::SLOTS - 1, limits::SLOTS, 65535]));
        }
        3 => {
            let round = f.below(0, many(r, limits::HANDLERS));
            f.with(75, r.below(9));
            f.again(0, round);
        }
        4 => {
            let round = f.below(0, many(r, limits::FUNCTIONS));
            f.of(r.pick(&[0, 52]), Const::Function(2)).with(2, 1);
            f.again(0, round);
        }
        5 => {
            let round = f.below(0, many(r, limits::OBJECTS));
            f.op(60).with(2, 1);
            f.again(0, round);
        }
        6 => {
            // properties: arrays of c elements, or keys of one object
            if r.once_in(2) {
                let count = 40 + r.below(200);
                let round = f.below(0, 30);
                f.op(61).op(count as u8).with(2, 1);
                f.again(0, round);
            } else {
                f.op(r.pick(&[60, 60, 61]));
                f.op(81);
                f.with(2, 1);
                let round = f.below(0, many(r, limits::PROPERTIES));
                f.with(1, 1).load(text(r.pick(&["", "k", "+"]))).with(1, 0).op(10).with(1, 0).op(8);
                f.again(0, round);
            }
        }
        7 => {
            for k in 0..many(r, limits::GLOBALS) as usize {
                f.with(1, 0).with(4, 500 + k);
            }
        }
        8 => {
            // text: doubled, then a key, a name, a type, an array
            f.load(text(&"x".repeat(1 + r.below(300))));
            let times = 5 + r.below(11);
            for _ in 0..times {
                f.op(81).op(10);
            }
            f.with(2, 1).op(60).with(2, 2);
            let long = text(&"key".repeat(1 + r.below(60)));
            let round = f.below(0, 400);
            match r.below(4) {
                0 => f.with(1, 0).op(71).op(80),
                1 => f.with(1, 2).load(long).with(1, 0).op(10).with(1, 0).op(8),
                2 => f.op(61).op(9).op(80),
                _ => f.load(long.clone()).load(long).op(10).op(80),
            };
            f.again(0, round);
        }
        _ => {
            let line = text(&"0123456789".repeat(1 + r.below(90)));
            let round = f.below(0, 3000);
            f.of(3, text("console")).load(line).with(1, 0).call(2).op(80);
            f.again(0, round);
        }
    }
    f.op(255);
    let mut g = Code::default();
    g.op(70).op(51);
    c.of(52, Const::Function(1)).op(81).of(4, text("f")).load(whole(0)).call(1).op(255);
    one("overfull", vec![c.template(0, 0), f.template(parameters, locals), g.template(0, 0)])
}

/// Runs that do not end.
pub fn endless() -> Vec<Sample> {
    let loops: [fn(&mut Code); 6] = [
        |_| {},
        |c| {
            c.with(1, 0).load(whole(3)).op(12).load(whole(1)).op(10).with(2, 0);
        },
        |c| {
            c.of(3, text("n")).load(whole(1)).op(10).of(4, text("n"));
        },
        |c| {
            let place = c.jump(75);
            c.load(text("echo")).op(74);
            c.land(place);
            c.with(2, 1);
        },
        |c| {
            c.with(1, 2).with(1, 2).of(5, text("length")).load(whole(1)).op(14).load(whole(6)).op(8);
        },
        |c| {
            c.of(3, text("f")).load(whole(2)).call(1).with(2, 0);
        },
    ];
    loops
        .iter()
        .map(|body| {
            let mut f = Code::default();
            f.with(1, 0).op(15).op(51);
            let mut c = Code::default();
            c.of(52, Const::Function(1)).of(4, text("f")).op(61).op(0).with(2, 2);
            let start = c.bytes.len();
            body(&mut c);
            c.with(40, start);
            one("endless", vec![c.template(0, 0), f.template(1, 1)])
        })
        .collect()
}

pub fn sample(r: &mut Rng) -> Sample {
    if r.once_in(64) {
        return piling(r);
    }
    match r.below(7) {
        0 => building(r),
        1 | 2 => recursion(r),
        3 => filling(r),
        4 => handing(r),
        5 => guarding(r),
        _ => noise(r),
    }
}
