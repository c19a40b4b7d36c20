//! Panics turned into document 01's numbers, by the source line that stopped.

use std::{
    cell::Cell,
    panic::{self, AssertUnwindSafe},
};

/// The judged file as compiled, to look a stopping line up in.
const SOURCE: &str = include_str!("../../trace.rs");

/// A mark that only the stopping line has, and the number of that stop.
const STOPS: [(&str, u32); 5] = [
    ("CONTROL_METADATA.get(", 22),
    ("Uuid::nil()).unwrap", 23),
    ("[offset..]", 25),
    ("fields[0..", 27),
    ("value_name(value).unwrap", 28),
];

thread_local! {
    static STOPPED: Cell<Option<u32>> = const { Cell::new(None) };
}

/// From here on a panic prints nothing and leaves its number.
pub fn watch() {
    panic::set_hook(Box::new(|info| {
        let number = info
            .location()
            .filter(|at| at.file().ends_with("trace.rs"))
            .and_then(|at| {
                let line = SOURCE.lines().nth(at.line() as usize - 1)?;
                STOPS
                    .iter()
                    .find(|(mark, _)| line.contains(mark))
                    .map(|(_, number)| *number)
            });
        STOPPED.set(number);
    }));
}

/// The answer, or the number of the stop; none where the judged file stopped at no known line.
pub fn caught<T>(ask: impl FnOnce() -> T) -> Result<T, Option<u32>> {
    STOPPED.set(None);
    panic::catch_unwind(AssertUnwindSafe(ask)).map_err(|_| STOPPED.get())
}
