//! Memory: lists of pixels are asked for and refused with their size; where anything else finds no memory the program ends with the same
//! status, its part files removed, instead of by a signal.

use crate::signals;
use crate::trouble::{MEMORY_STATUS, Outcome, Trouble};
use std::alloc::{GlobalAlloc, Layout, System};
use std::cell::Cell;
use std::io::Write;
use std::ptr::null_mut;

struct Allocator;

#[global_allocator]
static ALLOCATOR: Allocator = Allocator;

thread_local! {
    /// Whether whoever asks for memory now can do without.
    static ASKING: Cell<bool> = const { Cell::new(false) };
}

unsafe impl GlobalAlloc for Allocator {
    unsafe fn alloc(&self, layout: Layout) -> *mut u8 {
        there(System.alloc(layout), layout.size())
    }

    unsafe fn alloc_zeroed(&self, layout: Layout) -> *mut u8 {
        there(System.alloc_zeroed(layout), layout.size())
    }

    unsafe fn realloc(&self, old: *mut u8, layout: Layout, size: usize) -> *mut u8 {
        there(System.realloc(old, layout, size), size)
    }

    unsafe fn dealloc(&self, old: *mut u8, layout: Layout) {
        System.dealloc(old, layout)
    }
}

fn there(memory: *mut u8, size: usize) -> *mut u8 {
    if memory.is_null() && !ASKING.try_with(Cell::get).unwrap_or(false) {
        end(size);
    }
    memory
}

/// Ends the program for want of so many bytes.
pub fn end(wanted: usize) -> ! {
    end_saying(format_args!("{wanted} bytes of memory are wanted, and there are none"))
}

/// Ends the program for want of memory. Asks for none.
fn end_saying(what: std::fmt::Arguments) -> ! {
    if !signals::is_done() {
        let mut text = [0u8; 120];
        let mut rest = &mut text[..];
        let _ = writeln!(rest, "quicklook: {what}");
        let len = 120 - rest.len();
        unsafe { libc::write(2, text.as_ptr().cast(), len) };
    }
    signals::exit(MEMORY_STATUS)
}

/// What the first thread's stack must hold until the work is on threads with stacks of their own: arguments and environment, the runtime and the
/// loader, and up to 8 KB that the system leaves free at random.
const FIRST_STACK: libc::rlim_t = 64 << 10;

/// Raises a lower limit on the first thread's stack, which grows as its limit then allows; where it may not be raised the program ends.
pub fn first_stack() {
    let mut limit = libc::rlimit { rlim_cur: 0, rlim_max: 0 };
    // SAFETY: both take the limit by a reference to a whole record.
    unsafe {
        if libc::getrlimit(libc::RLIMIT_STACK, &mut limit) != 0 || limit.rlim_cur >= FIRST_STACK {
            return;
        }
        let raised = libc::rlimit { rlim_cur: FIRST_STACK, rlim_max: limit.rlim_max.max(FIRST_STACK) };
        if libc::setrlimit(libc::RLIMIT_STACK, &raised) != 0 {
            end_saying(format_args!("{FIRST_STACK} bytes of stack are wanted, and the limit is {}", limit.rlim_cur));
        }
    }
}

/// Whether so much memory could be had now.
pub fn is_there(bytes: usize) -> bool {
    let (rights, kind) = (libc::PROT_READ | libc::PROT_WRITE, libc::MAP_PRIVATE | libc::MAP_ANONYMOUS | libc::MAP_NORESERVE);
    unsafe {
        let memory = libc::mmap(null_mut(), bytes, rights, kind, -1, 0);
        memory != libc::MAP_FAILED && libc::munmap(memory, bytes) == 0
    }
}

/// A number of which every bit pattern is one, 0 among them.
pub trait Plain: Copy + Default {}
impl Plain for u8 {}
impl Plain for u16 {}
impl Plain for f32 {}
impl Plain for f64 {}

fn refused(bytes: usize, what: &str) -> Trouble {
    Trouble::Memory(format!("{bytes} bytes of memory are wanted for {what}, and there are none; --crop takes less"))
}

/// A list of zeros.
pub fn zeros<T: Plain>(count: usize, what: &str) -> Outcome<Vec<T>> {
    let bytes = count.checked_mul(std::mem::size_of::<T>()).ok_or_else(|| refused(usize::MAX, what))?;
    if bytes == 0 {
        return Ok(Vec::new());
    }
    let layout = Layout::array::<T>(count).map_err(|_| refused(bytes, what))?;
    ASKING.with(|asking| asking.set(true));
    // SAFETY: the layout is not empty, is the one that the list frees, and zero bytes are a T.
    let memory = unsafe { std::alloc::alloc_zeroed(layout) };
    ASKING.with(|asking| asking.set(false));
    if memory.is_null() {
        return Err(refused(bytes, what));
    }
    Ok(unsafe { Vec::from_raw_parts(memory.cast(), count, count) })
}

/// An empty list with room for `count` elements.
pub fn room<T>(count: usize, what: &str) -> Outcome<Vec<T>> {
    let mut list = Vec::new();
    ASKING.with(|asking| asking.set(true));
    let asked = list.try_reserve_exact(count);
    ASKING.with(|asking| asking.set(false));
    asked.map_err(|_| refused(count.saturating_mul(std::mem::size_of::<T>()), what)).map(|()| list)
}

#[cfg(test)]
mod tests {
    use super::*;

    #[test]
    fn too_much_is_refused_with_its_size() {
        for outcome in [zeros::<f64>(1 << 58, "a test").map(drop), room::<f64>(1 << 58, "a test").map(drop)] {
            let trouble = outcome.unwrap_err();
            assert_eq!(trouble.status(), MEMORY_STATUS);
            assert!(trouble.to_string().starts_with(&format!("{} bytes", 1u64 << 61)), "{trouble}");
        }
        assert!(zeros::<u8>(0, "a test").unwrap().is_empty());
        assert_eq!(zeros::<u16>(3, "a test").unwrap(), [0, 0, 0]);
    }
}
