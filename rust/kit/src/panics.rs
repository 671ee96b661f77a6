//! Panics of functions that a caller gives, kept until its call is over: one within `mem::replace_with` ends the
//! program.
use ::std::any::Any;
use ::std::boxed::Box;
use ::std::cell::Cell;
use ::std::panic::{AssertUnwindSafe, catch_unwind};

type Why = Box<dyn Any + Send>;
thread_local! {
    // Apart, since to ask for it must take no memory.
    static IS_KEPT: Cell<bool> = const { Cell::new(false) };
    static WHY: Cell<Option<Why>> = const { Cell::new(None) };
}

/// What a function gives; `None` where it panics.
pub fn caught<T>(call: impl FnOnce() -> T) -> Option<T> {
    catch_unwind(AssertUnwindSafe(call))
        .map_err(|why| {
            WHY.set(Some(why));
            IS_KEPT.set(true);
        })
        .ok()
}
/// Whether this thread keeps a panic.
pub fn is_kept() -> bool {
    IS_KEPT.get()
}
/// Why a function panicked in this thread, once.
pub fn taken() -> Option<Why> {
    if IS_KEPT.replace(false) { WHY.take() } else { None }
}
