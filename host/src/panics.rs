//! A panic of the Rust is an answer of the Rust; any other one is a fault here and is shown.
use std::{
    cell::Cell,
    panic::{self, UnwindSafe},
    sync::Once,
};

thread_local! {
    static EXPECTED: Cell<bool> = const { Cell::new(false) };
}

static HOOK: Once = Once::new();

/// What the call answers, or nothing where it panicked.
pub fn caught<T>(call: impl FnOnce() -> T + UnwindSafe) -> Option<T> {
    HOOK.call_once(|| {
        let shown = panic::take_hook();
        panic::set_hook(Box::new(move |info| {
            if !EXPECTED.get() {
                shown(info);
            }
        }));
    });
    EXPECTED.set(true);
    let answer = panic::catch_unwind(call);
    EXPECTED.set(false);
    answer.ok()
}
