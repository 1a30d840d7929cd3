//! The customer's Rust, called; the call language, its generators; the model beside it.
pub mod answer;
pub mod bench;
pub mod call;
pub mod convert;
pub mod cuts;
pub mod extras;
pub mod gen;
pub mod gen_any;
pub mod gen_arrivals;
pub mod gen_faults;
pub mod gen_keys;
pub mod gen_listings;
pub mod gen_origins;
pub mod gen_steps;
pub mod gen_values;
pub mod judge;
pub mod oracle;
pub mod params;
#[cfg(feature = "door")]
pub mod port;
pub mod probe;
pub mod rng;
pub mod show;
pub mod step;
pub mod tally;
#[cfg(feature = "door")]
pub mod three;
pub mod walks;
pub mod with_model;
use std::cell::RefCell;

thread_local! { static PANIC: RefCell<String> = const { RefCell::new(String::new()) }; }
/// Panics of the Rust are answers here: their message is kept and not printed.
pub fn quiet() {
    static ONCE: std::sync::Once = std::sync::Once::new();
    ONCE.call_once(|| {
        let usual = std::panic::take_hook();
        std::panic::set_hook(Box::new(move |i| {
            if !ASKED.get() {
                return usual(i);
            }
            let m = i.payload_as_str().unwrap_or("?").replace('\n', " ");
            PANIC.with(|p| *p.borrow_mut() = m);
        }))
    });
}
thread_local! {
    /// Whether the Rust is being called: other panics are this program's own, and are shown.
    pub static ASKED: std::cell::Cell<bool> = const { std::cell::Cell::new(false) };
}
pub fn last_panic() -> String {
    PANIC.with(|p| p.take())
}
