
// Put after the text of document 000 in the copy that has document 02's changes (tests/oracle/amend); 000's own function is `original_format_js_number` there.

std::thread_local! {
    static NUMBER_TEXTS: core::cell::Cell<[usize; 2]> = const { core::cell::Cell::new([0; 2]) };
}

/// How many texts of numbers this copy has made, and how many of them 000 writes otherwise.
pub fn number_texts() -> [usize; 2] {
    NUMBER_TEXTS.with(|n| n.get())
}

/// Change 4 of document 02: a minus for a negative number, the whole part of its size, a point and six digits cut, trailing zeros removed. The point goes when
/// no digit follows it. When whole part and digits are all zero, the text is 0 with no minus.
fn rule(n: JsNumber) -> String {
    if n == JS_NAN {
        return "NaN".to_string();
    }
    let size = i128::from(n).abs();
    let (whole, millionths) = (size >> 32, (size % (1 << 32) * 1_000_000) >> 32);
    let text = format!("{}{}.{:06}", if n < 0 { "-" } else { "" }, whole, millionths);
    let text = text.trim_end_matches('0').trim_end_matches('.');
    if whole == 0 && millionths == 0 { "0".to_string() } else { text.to_string() }
}

/// Decision 93: which numbers leave the comparison with 000.
pub fn is_amended(n: JsNumber) -> bool {
    let part = n & 0xffff_ffff;
    n != JS_NAN && part != 0 && (n < 0 || (part * 1_000_000) >> 32 == 0)
}

/// 000 itself judges each number on which both are to agree; on the others they are to differ.
fn format_js_number(n: JsNumber) -> String {
    let text = rule(n);
    assert_eq!(is_amended(n), text != original_format_js_number(n), "raw {}: {}", n, text);
    let [all, amended] = number_texts();
    NUMBER_TEXTS.with(|c| c.set([all + 1, amended + usize::from(is_amended(n))]));
    text
}

impl JsVm {
    /// Change 5 of document 02: a handler is dropped when the frames standing fall below the number it saved. Each one is asked.
    fn drop_handlers(&mut self) {
        let standing = self.call_stack.len();
        self.try_stack.retain(|t| t.call_depth <= standing);
    }
}
