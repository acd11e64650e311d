//! The crate's panics.

use std::{
    any::Any,
    cell::Cell,
    panic::{self, AssertUnwindSafe},
    sync::Once,
};

use crate::Failure;

thread_local!(static IN_THE_CRATE: Cell<bool> = const { Cell::new(false) });

/// Keeps the crate's panics, which come back as [Failure::Panic], from being printed. Other panics still are.
pub fn quiet() {
    static ONCE: Once = Once::new();
    ONCE.call_once(|| {
        let print = panic::take_hook();
        panic::set_hook(Box::new(move |info| {
            if !IN_THE_CRATE.get() {
                print(info);
            }
        }));
    });
}

/// Calls the crate. What it would leave behind in a panic is thrown away.
pub fn caught<T>(call: impl FnOnce() -> T) -> Result<T, Failure> {
    IN_THE_CRATE.set(true);
    let result = panic::catch_unwind(AssertUnwindSafe(call));
    IN_THE_CRATE.set(false);
    result.map_err(|payload| Failure::Panic(message(&*payload)))
}

fn message(payload: &(dyn Any + Send)) -> String {
    let text = payload.downcast_ref::<&str>().copied();
    let string = || payload.downcast_ref::<String>().map(String::as_str);
    text.or_else(string).unwrap_or("without text").to_string()
}
