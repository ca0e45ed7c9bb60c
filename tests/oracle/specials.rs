//! Samples written by hand: what random code seldom meets. They come first, in every set.

use crate::sample::{Action, Const, Given, Image, Plain, Sample, Template};

const ONE: i64 = 1 << 32;

fn text(s: &str) -> Const {
    Const::Text(s.as_bytes().to_vec())
}

fn chunk(constants: &[Const], code: &[u8]) -> Image {
    Image { templates: vec![Template { parameters: 0, locals: 0, constants: constants.to_vec(), code: code.to_vec() }] }
}

/// The operand stack full, over a thousand steps: a push at 1,024 operands is refused, and what was to be pushed is kept.
pub fn long() -> Vec<Sample> {
    let mut code = vec![70];
    code.extend(std::iter::repeat(81).take(31));
    code.extend_from_slice(&[40, 0, 1]);
    let mut function = chunk(&[Const::Function(1)], &[0, 0, 0, 255]);
    function.templates.push(Template { parameters: 1, locals: 2, constants: Vec::new(), code: vec![51] });
    // an object, a function, an array of no elements; an array of two takes its operands off first
    let images = vec![chunk(&[], &code), chunk(&[], &[60]), function, chunk(&[], &[61, 0]), chunk(&[], &[61, 2, 52, 0, 9, 71, 255])];
    let mut actions: Vec<Action> = images.iter().map(|_| Action::Load).collect();
    actions.extend((0..images.len()).map(Action::Run));
    vec![Sample { kind: "full", images, actions }]
}

/// Every byte with no, one and two bytes behind it over no to seven operands, which are objects: what change 6 says of 13, 14 and 15, at its edges.
pub fn opcodes() -> Vec<Sample> {
    let edges = (0..=2).flat_map(|n| (0..=7).map(move |m| (n, m)));
    let code = |b: u8, (n, m): (usize, usize)| [vec![60; m], vec![b], vec![0; n]].concat();
    (0..=255).flat_map(|b| edges.clone().map(move |e| Sample::run_one("opcodes", chunk(&[], &code(b, e))))).collect()
}

pub fn short() -> Vec<Sample> {
    let mut all = Vec::new();
    let mut one = |constants: &[Const], code: &[u8]| all.push(Sample::run_one("special", chunk(constants, code)));

    // the bench sheet's keys: into an empty array, then the length
    for key in ["+5", "4294967296", "18446744073709551615", "18446744073709551616", "007", "+", "-1"] {
        one(&[text(key), text("length"), Const::Number(7 * ONE)], &[61, 0, 81, 81, 0, 0, 2, 6, 0, 0, 5, 0, 1, 255]);
    }
    // a length that is negative, a text, NaN; then a key
    for length in [Const::Number(-ONE / 2), text("9"), Const::Number(i64::MAX), Const::Number(5 * ONE / 2), Const::Null] {
        one(&[length, text("length"), text("2")], &[61, 0, 81, 81, 0, 0, 0, 6, 0, 1, 0, 0, 2, 6, 0, 2, 255]);
    }
    // a negative length counts as unsigned 64 bits
    one(&[Const::Number(-ONE), text("length"), text("4294967296")], &[61, 0, 81, 81, 0, 0, 0, 6, 0, 1, 0, 0, 2, 6, 0, 2, 255]);
    // CreateArray 3 over one operand; CreateArray 0 over one
    one(&[Const::Number(5 * ONE)], &[0, 0, 0, 61, 3, 255]);
    one(&[Const::Number(5 * ONE)], &[0, 0, 0, 61, 0, 255]);
    // the sample image of document 01, and the empty code
    one(&[Const::Number(7 * ONE)], &[75, 0, 8, 0, 0, 0, 74, 255, 255]);
    one(&[], &[]);
    // 13; 14 with no operand byte and with one; 15 with no operand and with one
    one(&[], &[70, 9]);
    one(&[], &[70, 0]);
    one(&[], &[70, 0, 0]);
    one(&[], &[10]);
    one(&[Const::Null], &[0, 0, 0, 10]);
    one(&[Const::Null], &[0, 0, 0, 50, 2]);
    // 17 with a text, a number, an object; 18 with an argument popped
    one(&[text("lost")], &[70, 0, 0, 0, 74]);
    one(&[Const::Number(-3 * ONE / 2)], &[0, 0, 0, 74]);
    one(&[], &[60, 74]);
    one(&[Const::Boolean(true)], &[70, 0, 0, 0, 70, 70, 50, 2]);
    // a Return of the chunk, then a finish with no frame; a Return of nothing
    one(&[], &[81, 51]);
    one(&[], &[51]);
    // a jump past the end, and one to the end
    one(&[], &[70, 40, 255, 255]);
    one(&[], &[70, 40, 0, 4]);

    // an operand cut off before anything is popped
    for op in [2, 4, 5, 6, 41, 42] {
        one(&[], &[60, 70, op, 0]);
    }
    one(&[], &[60, 70, 50]);
    // elements read by number, by text, and past the end
    let keys = [Const::Number(7 * ONE), text("x"), Const::Number(ONE), text("0"), Const::Number(2 * ONE), Const::Number(ONE / 2)];
    one(&keys, &[0, 0, 0, 0, 0, 1, 61, 2, 2, 0, 0, 1, 0, 0, 0, 0, 2, 7, 1, 0, 0, 0, 0, 3, 7, 1, 0, 0, 0, 0, 4, 7, 1, 0, 0, 0, 0, 5, 7]);
    // change 4: numbers whose text 000 writes otherwise, joined to a text, stored by and read by in an array, printed
    for n in [1, -1, 4294, -4295, -ONE / 2, -3 * ONE / 2, 5 * ONE + 1, i64::MIN + 1] {
        let constants = [Const::Number(n), text(""), text("console"), Const::Number(7 * ONE)];
        one(&constants, &[0, 0, 0, 0, 0, 1, 10, 61, 0, 81, 81, 0, 0, 0, 0, 0, 3, 8, 0, 0, 0, 7, 3, 0, 2, 0, 0, 0, 50, 1, 255]);
    }
    // a line of more than 255 bytes
    one(&[text("console"), text(&"ab".repeat(70)), text("length")], &[3, 0, 0, 0, 0, 1, 0, 0, 1, 10, 0, 0, 0, 50, 2, 0, 0, 1, 5, 0, 2, 255]);
    // constants of each kind made a closure, and used for names
    let kinds = [Const::Null, Const::Undefined, Const::Boolean(false), Const::Number(ONE), text("t")];
    one(&kinds, &[52, 0, 0, 52, 0, 1, 52, 0, 2, 52, 0, 3, 52, 0, 4, 52, 0, 5, 4, 0, 0, 4, 0, 1, 4, 0, 2, 4, 0, 3, 4, 0, 4, 4, 1, 0, 60, 5, 0, 1, 70, 5, 0, 1]);

    // one operation on every pair of values, one of each sort, and each unary one on every value; the results stand
    let values =
        [Const::Undefined, Const::Null, Const::Boolean(true), Const::Number(0), Const::Number(ONE), text(""), text("1"), Const::Function(1), text("console")];
    let push = |i: usize| if i == 8 { [3, 0, 8] } else { [0, 0, i as u8] };
    let other = Template { parameters: 0, locals: 0, constants: vec![], code: vec![] };
    let pairs = |op: u8, least: usize| {
        let mut code = Vec::new();
        for i in least..9 {
            for j in least..9 {
                code.extend_from_slice(&push(i));
                code.extend_from_slice(&push(j));
                code.push(op);
            }
        }
        code
    };
    let mut tables: Vec<Vec<u8>> = vec![pairs(30, 0), pairs(31, 0), pairs(10, 3), pairs(38, 4)];
    tables.push([15, 20, 71].iter().flat_map(|op| (0..9).flat_map(move |i| { let p = push(i); [p[0], p[1], p[2], *op] })).collect());
    for code in tables {
        let own = Template { parameters: 0, locals: 0, constants: values.to_vec(), code };
        all.push(Sample::run_one("special", Image { templates: vec![own, other.clone()] }));
    }
    // object 0 and function 0 differ
    let own = Template { parameters: 0, locals: 0, constants: vec![Const::Function(1)], code: vec![60, 52, 0, 0, 31, 60, 52, 0, 0, 30, 255] };
    all.push(Sample::run_one("special", Image { templates: vec![own, other.clone()] }));
    // 19: functions that the host made up
    for id in [0, 7, u64::MAX] {
        let code = [70, 3, 0, 0, 70, 50, 1, 255];
        all.push(Sample {
            kind: "special",
            images: vec![chunk(&[text("f")], &code)],
            actions: vec![Action::Load, Action::SetGlobal(b"f".to_vec(), Given::Plain(Plain::Function(id))), Action::Run(0)],
        });
    }
    // objects that the host made up are called, read and written
    for id in [0, 7, u64::MAX] {
        let code = [3, 0, 0, 81, 70, 6, 0, 0, 81, 5, 0, 0, 80, 0, 0, 1, 0, 0, 2, 50, 2, 255];
        all.push(Sample {
            kind: "special",
            images: vec![chunk(&[text("console"), text("a b"), Const::Number(ONE / 3)], &code)],
            actions: vec![Action::Load, Action::SetGlobal(b"console".to_vec(), Given::Plain(Plain::Object(id))), Action::Run(0)],
        });
    }
    // change 5: a function that returns out of one guarded block, out of three, runs off the end in one, leaves it first, returns nothing; then a throw where the
    // caller has no handler, has one, has left it
    for callee in [&[70, 75, 0, 0, 51][..], &[75, 0, 0, 75, 0, 1, 75, 0, 2, 70, 51], &[75, 0, 0], &[70, 75, 0, 0, 76, 51], &[75, 0, 0, 80, 51]] {
        for caller in [&[70, 0, 0, 0, 50, 0, 74][..], &[75, 0, 10, 70, 0, 0, 0, 50, 0, 74, 255], &[75, 0, 11, 70, 0, 0, 0, 50, 0, 76, 74, 255]] {
            let own = Template { parameters: 0, locals: 0, constants: vec![Const::Function(1)], code: caller.to_vec() };
            let called = Template { parameters: 0, locals: 0, constants: vec![], code: callee.to_vec() };
            all.push(Sample::run_one("special", Image { templates: vec![own, called] }));
        }
    }
    // handlers, frames and operands that a run leaves, met by the next: Halt in a function inside a try; a throw in the second image
    let inner = Template { parameters: 2, locals: 3, constants: vec![], code: vec![75, 0, 9, 1, 0, 0, 1, 0, 1, 255, 2, 0, 2, 1, 0, 1, 51] };
    let outer = Template {
        parameters: 5,
        locals: 5,
        constants: vec![Const::Function(1), Const::Number(ONE), text("t")],
        code: vec![75, 0, 17, 70, 52, 0, 0, 0, 0, 1, 0, 0, 2, 50, 2, 2, 0, 1, 4, 0, 2, 255],
    };
    for second in [&[0, 0, 0, 74][..], &[0, 0, 0, 81, 75, 0, 9, 76, 74], &[76, 0, 0, 0, 74], &[70, 255]] {
        all.push(Sample {
            kind: "special",
            images: vec![Image { templates: vec![outer.clone(), inner.clone()] }, chunk(&[Const::Number(9 * ONE)], second)],
            actions: vec![Action::Load, Action::Load, Action::Run(0), Action::Run(1), Action::Run(1), Action::Run(0)],
        });
    }
    all
}
