//! A panic of the original, such as a sum that overflows, as an answer among others.

use std::cell::Cell;
use std::panic::{self, AssertUnwindSafe, PanicHookInfo};
use std::sync::Once;

/// The original panicked, and said this.
#[derive(Clone, Debug, PartialEq, Eq)]
pub struct Panicked(pub String);

thread_local! {
    static QUIET: Cell<bool> = const { Cell::new(false) };
}

/// What `call` answers, or its panic, which is not printed.
pub fn caught<T>(call: impl FnOnce() -> T) -> Result<T, Panicked> {
    static HOOK: Once = Once::new();
    HOOK.call_once(|| {
        let printing = panic::take_hook();
        panic::set_hook(Box::new(move |info: &PanicHookInfo<'_>| {
            if !QUIET.get() {
                printing(info);
            }
        }));
    });
    QUIET.set(true);
    let answer = panic::catch_unwind(AssertUnwindSafe(call));
    QUIET.set(false);
    answer.map_err(|said| {
        let text = said.downcast_ref::<&str>().map(ToString::to_string);
        Panicked(text.or_else(|| said.downcast_ref::<String>().cloned()).unwrap_or_default())
    })
}
