//! How much of each store there is: the limits of documents 01 and 02. The names are those of include/carderwheel.h.

/// Operands that stand.
pub const OPERANDS: usize = 1024;
/// Local slots of all frames.
pub const SLOTS: usize = 2048;
/// Frames: a run's own, and one for each call in it.
pub const FRAMES: usize = 64;
/// Handlers that are pending: tries entered and not left, by functions that have not ended.
pub const HANDLERS: usize = 12;
/// Functions made or registered.
pub const FUNCTIONS: usize = 1024;
/// Objects and arrays made.
pub const OBJECTS: usize = 512;
/// Properties of all objects, and elements of all arrays.
pub const PROPERTIES: usize = 1024;
/// Globals, `console` among them.
pub const GLOBALS: usize = 128;
/// The bytes that all loaded images have together.
pub const CODE_BYTES: usize = 32768;
/// Loaded images.
pub const IMAGES: usize = 16;
/// The bytes that texts have together; so also a value's text.
pub const TEXT_BYTES: usize = 32768;
/// The bytes of output that wait; so also the most that a drain writes.
pub const OUTPUT_BYTES: usize = 8192;
/// The longest text of a number: `-2147483647.999999`.
pub const NUMBER_BYTES: usize = 18;
/// The steps of a run.
pub const STEPS: usize = 100_000;
