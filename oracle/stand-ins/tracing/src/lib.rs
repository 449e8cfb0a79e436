//! Stand-in for tracing: `info!` is silent, `debug!` keeps its message and its f64 arguments.
//! The originals show the window that they chose in no other place.
use std::any::Any;
use std::cell::RefCell;

/// One `debug!`: its format text and those of its arguments that are f64, in order.
#[derive(Clone, Debug, PartialEq)]
pub struct Kept {
    pub text: &'static str,
    pub floats: Vec<f64>,
}

thread_local! {
    static KEPT: RefCell<Vec<Kept>> = const { RefCell::new(Vec::new()) };
}

/// Called by `debug!`.
pub fn keep(text: &'static str, arguments: &[&dyn Any]) {
    let floats = arguments.iter().filter_map(|a| a.downcast_ref::<f64>().copied()).collect();
    KEPT.with(|kept| kept.borrow_mut().push(Kept { text, floats }));
}

/// What this thread's `debug!` calls kept since the last `take`.
pub fn take() -> Vec<Kept> {
    KEPT.with(|kept| kept.take())
}

#[macro_export]
macro_rules! debug {
    ($text:literal $(, $argument:expr)* $(,)?) => {
        $crate::keep($text, &[$(&$argument),*])
    };
}

#[macro_export]
macro_rules! info {
    ($text:literal $(, $argument:expr)* $(,)?) => {{
        let _ = ($(&$argument,)*);
    }};
}
