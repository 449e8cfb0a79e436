//! Work side by side on the machine's threads, or one after the other where no thread is to be had.

use crate::memory;
use rayon::prelude::*;
use std::sync::atomic::{AtomicBool, Ordering::SeqCst};

static ALONE: AtomicBool = AtomicBool::new(false);

/// Threads at most, and the stack of each: the program's own choice, whatever the environment says.
const MOST: usize = 16;
const STACK: usize = 4 << 20;

/// What the system's libraries need beside them: where they find none they end the program by a signal.
const BESIDE: usize = 8 << 20;

/// Runs the program's work on threads of its own; each begins with the floating-point environment that the engine is proved for.
pub fn within<T: Send>(work: impl FnOnce() -> T + Send) -> T {
    engine::set_environment();
    let count = std::thread::available_parallelism().map_or(1, |count| count.get().min(MOST));
    if !memory::is_there(BESIDE) {
        memory::end(BESIDE);
    }
    if memory::is_there(count * STACK + 2 * BESIDE) {
        let pool = rayon::ThreadPoolBuilder::new().num_threads(count).stack_size(STACK).start_handler(|_| engine::set_environment());
        if let Ok(pool) = pool.build() {
            return pool.install(work);
        }
    }
    ALONE.store(true, SeqCst);
    work()
}

pub fn join<A: Send, B: Send>(a: impl FnOnce() -> A + Send, b: impl FnOnce() -> B + Send) -> (A, B) {
    if ALONE.load(SeqCst) { (a(), b()) } else { rayon::join(a, b) }
}

/// Each element turned by `turn`, in their order.
pub fn map<T: Send, R: Send>(list: Vec<T>, turn: impl Fn(T) -> R + Send + Sync) -> Vec<R> {
    if ALONE.load(SeqCst) { list.into_iter().map(turn).collect() } else { list.into_par_iter().map(turn).collect() }
}
