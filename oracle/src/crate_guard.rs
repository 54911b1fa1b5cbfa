//! Runs one call of the crate so that a panic inside it becomes a message, since a stop is also a way to part.

use std::cell::Cell;
use std::panic::{self, AssertUnwindSafe};
use std::sync::Once;

thread_local! {
    static ASKING: Cell<bool> = const { Cell::new(false) };
}

static QUIET_HOOK: Once = Once::new();

/// Keeps the panic text of a guarded call off standard error, and that of every other panic on it.
fn install_quiet_hook() {
    QUIET_HOOK.call_once(|| {
        let before = panic::take_hook();
        panic::set_hook(Box::new(move |panic| {
            if !ASKING.get() {
                before(panic);
            }
        }));
    });
}

/// The result of the call, or the message with which it panicked.
pub fn guarded<R>(call: impl FnOnce() -> R) -> Result<R, String> {
    install_quiet_hook();
    ASKING.set(true);
    let result = panic::catch_unwind(AssertUnwindSafe(call));
    ASKING.set(false);
    result.map_err(|payload| match payload.downcast_ref::<String>() {
        Some(text) => text.clone(),
        None => payload
            .downcast_ref::<&str>()
            .unwrap_or(&"panic")
            .to_string(),
    })
}
