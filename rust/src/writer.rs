//! The image writer of document 02.
use crate::{asked, Refusal};

/// A constant of a template.
#[derive(Clone, Copy, Debug, PartialEq, Eq)]
pub enum Constant<'a> {
    /// A signed count of 2^-32.
    Number(i64),
    /// A text, by its bytes.
    Text(&'a [u8]),
    /// `true` or `false`
    Boolean(bool),
    /// `null`
    Null,
    /// `undefined`
    Undefined,
    /// The function of a template that comes later, by the template's number; wide enough that one above 65,535 is refused.
    Function(u64),
}

/// Writes an image, call by call, into a buffer that is lent to it: [`begin`](Writer::begin), then of each template its counts, its constants and its code,
/// then [`finish`](Writer::finish).
///
/// A call is refused with 34 where it comes at the wrong time, or a count or a length would pass 65,535, else with 31 where the buffer is too short; then it
/// has altered neither the writer nor the buffer. The buffer's bytes past those written stay as they were. The writer also takes what
/// [`Engine::load`](crate::Engine::load) then refuses with 2, 5 or 6, and images larger than the code store.
///
/// ```no_run
/// use carderwheel::{Constant, Writer};
/// # fn image() -> Result<(), carderwheel::Refusal> {
/// let mut buffer = [0; 64];
/// let mut writer = Writer::new(&mut buffer);
/// writer.begin()?.template(0, 0)?.constant(Constant::Number(7 << 32))?.code(&[0, 0, 0, 255])?; // LoadConst 0, Halt
/// let image = writer.finish()?;
/// # let _ = image;
/// # Ok(())
/// # }
/// ```
#[derive(Debug)]
pub struct Writer<'b> {
    buffer: &'b mut [u8],
    state: State,
}

// What the library exports for it; lib.rs has it linked. include/carderwheel.h declares the same, and says what a state has.

#[repr(C)]
#[derive(Clone, Copy, Debug)]
struct State {
    stage: u64,
    size: usize,
    templates: usize,
    at: usize,
    constants: usize,
}

#[repr(C)]
struct Wrote {
    number: u64,
    state: State,
}

extern "C" {
    fn carderwheel_write_begin_in(buffer: *mut u8, buffer_size: usize, state: State) -> Wrote;
    fn carderwheel_write_template_in(buffer: *mut u8, buffer_size: usize, state: State, parameters: u64, locals: u64) -> Wrote;
    fn carderwheel_write_number_in(buffer: *mut u8, buffer_size: usize, state: State, bits: u64) -> Wrote;
    fn carderwheel_write_text_in(buffer: *mut u8, buffer_size: usize, state: State, bytes: *const u8, bytes_size: usize) -> Wrote;
    fn carderwheel_write_boolean_in(buffer: *mut u8, buffer_size: usize, state: State, value: u64) -> Wrote;
    fn carderwheel_write_null_in(buffer: *mut u8, buffer_size: usize, state: State) -> Wrote;
    fn carderwheel_write_undefined_in(buffer: *mut u8, buffer_size: usize, state: State) -> Wrote;
    fn carderwheel_write_function_in(buffer: *mut u8, buffer_size: usize, state: State, template: u64) -> Wrote;
    fn carderwheel_write_code_in(buffer: *mut u8, buffer_size: usize, state: State, bytes: *const u8, bytes_size: usize) -> Wrote;
    fn carderwheel_write_finish_in(state: State) -> Wrote;
}

// A call of the library over a writer's buffer and state.
macro_rules! call {
    ($function:ident, $w:ident $(, $more:expr)*) => {
        // SAFETY: each pointer goes with the length of the slice that it was taken from, and these do not overlap, since the buffer is lent to the writer
        // alone; the function stays inside them whatever the state, writes only where its declaration has `*mut`, and keeps none of them.
        unsafe { $function($w.buffer.as_mut_ptr(), $w.buffer.len(), $w.state $(, $more)*) }
    };
}

impl<'b> Writer<'b> {
    /// A writer before a begin.
    pub const fn new(buffer: &'b mut [u8]) -> Writer<'b> {
        Writer { buffer, state: State { stage: 0, size: 0, templates: 0, at: 0, constants: 0 } }
    }

    // What a call left.
    fn settle(&mut self, a: Wrote) -> Result<&mut Self, Refusal> {
        self.state = a.state;
        asked(a.number)?;
        Ok(self)
    }

    /// Starts an image, whatever was written before. Takes 2 bytes.
    pub fn begin(&mut self) -> Result<&mut Self, Refusal> {
        let a = call!(carderwheel_write_begin_in, self);
        self.settle(a)
    }

    /// Opens a template; templates are numbered from 0, which is the one that a run starts with. Takes 8 bytes. Both numbers are wider than their places in
    /// the image, so that one above 65,535 is refused.
    pub fn template(&mut self, parameters: u64, locals: u64) -> Result<&mut Self, Refusal> {
        let a = call!(carderwheel_write_template_in, self, parameters, locals);
        self.settle(a)
    }

    /// A constant of the open template; constants are numbered from 0. A number takes 9 bytes, a text 3 and its own, a boolean 2, null and undefined 1, a
    /// function 3.
    pub fn constant(&mut self, constant: Constant<'_>) -> Result<&mut Self, Refusal> {
        let a = match constant {
            Constant::Number(n) => call!(carderwheel_write_number_in, self, n as u64),
            Constant::Text(bytes) => call!(carderwheel_write_text_in, self, bytes.as_ptr(), bytes.len()),
            Constant::Boolean(b) => call!(carderwheel_write_boolean_in, self, u64::from(b)),
            Constant::Null => call!(carderwheel_write_null_in, self),
            Constant::Undefined => call!(carderwheel_write_undefined_in, self),
            Constant::Function(template) => call!(carderwheel_write_function_in, self, template),
        };
        self.settle(a)
    }

    /// The open template's code, whole and once; a template without has empty code. Takes its own bytes.
    pub fn code(&mut self, bytes: &[u8]) -> Result<&mut Self, Refusal> {
        let a = call!(carderwheel_write_code_in, self, bytes.as_ptr(), bytes.len());
        self.settle(a)
    }

    /// Ends the image, and gives it. Takes no bytes; [`written`](Writer::written) gives it again.
    pub fn finish(&mut self) -> Result<&[u8], Refusal> {
        // SAFETY: the function is given no pointer, and takes any state.
        let a = unsafe { carderwheel_write_finish_in(self.state) };
        Ok(self.settle(a)?.written())
    }

    /// The bytes written since the last begin. Their counts are right after each call.
    pub fn written(&self) -> &[u8] {
        // never past the buffer: the size is 0 before a begin, and a call that makes it larger is refused where the buffer is too short
        &self.buffer[..self.state.size]
    }
}
