//! openjp2's assertions, and the faults of a build with overflow checks, as values.

use std::any::Any;
use std::cell::Cell;
use std::panic::{catch_unwind, set_hook, take_hook, AssertUnwindSafe};

thread_local! {
    static EXPECTED: Cell<bool> = const { Cell::new(false) };
}

/// Keeps expected faults off the terminal; to be called once, at the start.
pub fn keep_quiet() {
    let usual = take_hook();
    set_hook(Box::new(move |panic| {
        if !EXPECTED.get() {
            usual(panic);
        }
    }));
}

/// What the function answers, or what it said when it faulted.
pub(crate) fn caught<T>(function: impl FnOnce() -> T) -> Result<T, String> {
    EXPECTED.set(true);
    let result = catch_unwind(AssertUnwindSafe(function));
    EXPECTED.set(false);
    result.map_err(|panic| text_of(panic.as_ref()))
}

fn text_of(panic: &(dyn Any + Send)) -> String {
    let text = panic.downcast_ref::<&str>().map(|text| text.to_string());
    text.or_else(|| panic.downcast_ref::<String>().cloned()).unwrap_or_default()
}
