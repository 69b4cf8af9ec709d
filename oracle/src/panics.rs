//! Panics of the ported code, caught without a word on standard error and without a backtrace.
use std::any::Any;
use std::cell::{Cell, RefCell};
use std::panic::{AssertUnwindSafe, catch_unwind, set_hook, take_hook};
use std::sync::Once;

/// A panic that was caught.
pub struct Caught {
    /// What the panic was raised with, if that is a plain text.
    pub message: &'static str,
    /// The message with its place.
    pub report: String,
}

static HOOK: Once = Once::new();

thread_local! {
    static QUIET: Cell<bool> = const { Cell::new(false) };
    static REPORT: RefCell<String> = const { RefCell::new(String::new()) };
}

pub fn catch<R>(work: impl FnOnce() -> R) -> Result<R, Caught> {
    HOOK.call_once(keep_quiet);

    QUIET.set(true);
    let result = catch_unwind(AssertUnwindSafe(work));
    QUIET.set(false);

    result.map_err(|payload: Box<dyn Any + Send>| Caught {
        message: payload.downcast_ref::<&'static str>().copied().unwrap_or_default(),
        report: REPORT.take(),
    })
}

/// Lets the usual hook speak only of panics that are not being caught here.
fn keep_quiet() {
    let usual = take_hook();
    set_hook(Box::new(move |panic| {
        if QUIET.get() {
            REPORT.set(panic.to_string());
        } else {
            usual(panic);
        }
    }));
}
