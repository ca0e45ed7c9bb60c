//! A list of calls that shows a difference, made smaller as long as it still does.

use crate::sample::{Const, Image};

use super::calls::Call;

type Differs<'a> = &'a mut dyn FnMut(&[Call]) -> bool;

/// Parts of a list taken out, large ones first; `put` makes the calls from what is left.
pub fn cut<T: Clone, C>(mut list: Vec<T>, put: &dyn Fn(&[T]) -> Vec<C>, differs: &mut dyn FnMut(&[C]) -> bool) -> Vec<T> {
    let mut size = list.len();
    while size > 0 {
        let mut at = 0;
        while at < list.len() {
            let end = (at + size).min(list.len());
            let left = [&list[..at], &list[end..]].concat();
            if differs(&put(&left)) {
                list = left;
            } else {
                at += size;
            }
        }
        size /= 2;
    }
    list
}

/// The calls with another one at place n.
fn with(calls: &[Call], n: usize, call: Call) -> Vec<Call> {
    let mut calls = calls.to_vec();
    calls[n] = call;
    calls
}

/// The calls without the load at place n, the later images' numbers being one less.
fn without_image(calls: &[Call], n: usize) -> Vec<Call> {
    let own = calls[..n].iter().filter(|c| matches!(c, Call::Load(_))).count() as u64;
    let mut calls = calls.to_vec();
    calls.remove(n);
    for c in &mut calls[n..] {
        if let Call::Run(i) | Call::Register(i, _) = c {
            *i -= (*i > own) as u64;
        }
    }
    calls
}

fn smaller_image(calls: &[Call], n: usize, mut image: Image, differs: Differs) -> Call {
    let put = |image: &Image, change: &dyn Fn(&mut Image)| {
        let mut image = image.clone();
        change(&mut image);
        with(calls, n, Call::Load(image.bytes().0))
    };
    for t in 0..image.templates.len() {
        let own = image.templates[t].clone();
        image.templates[t].code = cut(own.code, &|c| put(&image, &|i| i.templates[t].code = c.to_vec()), differs);
        for (k, c) in own.constants.iter().enumerate() {
            let Const::Text(s) = c else { continue };
            let s = cut(s.clone(), &|s| put(&image, &|i| i.templates[t].constants[k] = Const::Text(s.to_vec())), differs);
            image.templates[t].constants[k] = Const::Text(s);
        }
        let constants = image.templates[t].constants.clone();
        image.templates[t].constants = cut(constants, &|c| put(&image, &|i| i.templates[t].constants = c.to_vec()), differs);
    }
    Call::Load(image.bytes().0)
}

fn smaller_call(calls: &[Call], n: usize, differs: Differs) -> Call {
    match calls[n].clone() {
        Call::Load(bytes) => match Image::read(&bytes) {
            Ok(image) => smaller_image(calls, n, image, differs),
            Err(_) => Call::Load(cut(bytes, &|b| with(calls, n, Call::Load(b.to_vec())), differs)),
        },
        Call::SetGlobal(name, w) => Call::SetGlobal(cut(name, &|b| with(calls, n, Call::SetGlobal(b.to_vec(), w)), differs), w),
        Call::SetGlobalText(name, text) => {
            let name = cut(name, &|b| with(calls, n, Call::SetGlobalText(b.to_vec(), text.clone())), differs);
            let text = cut(text, &|b| with(calls, n, Call::SetGlobalText(name.clone(), b.to_vec())), differs);
            Call::SetGlobalText(name, text)
        }
        call => call,
    }
}

pub fn shrink(mut calls: Vec<Call>, differs: Differs) -> Vec<Call> {
    for _ in 0..3 {
        let before = calls.clone();
        calls = cut(calls, &|c| c.to_vec(), differs);
        for n in (0..calls.len()).rev() {
            if matches!(calls[n], Call::Load(_)) {
                let left = without_image(&calls, n);
                if differs(&left) {
                    calls = left;
                }
            }
        }
        // the last ones first: what fills a store comes first, and can hardly be made smaller
        for n in (0..calls.len()).rev() {
            let call = smaller_call(&calls, n, differs);
            calls[n] = call;
        }
        if calls == before {
            break;
        }
    }
    calls
}
