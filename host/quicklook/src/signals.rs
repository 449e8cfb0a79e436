//! Signals: those that end the program undo first what stands on the disk. Outputs that take their names do so all or none: a signal that
//! comes meanwhile waits until they are put back, and one that comes after them ends a program that has done its work.

use crate::standing;
use std::mem::zeroed;
use std::os::raw::{c_int, c_void};
use std::ptr::{null, null_mut};
use std::sync::atomic::{AtomicI32, Ordering::SeqCst};

/// All that end a program unless it handles them, but for wrong instructions and addresses and what nobody handles.
const ENDING: [c_int; 16] = [
    libc::SIGHUP,
    libc::SIGINT,
    libc::SIGQUIT,
    libc::SIGTERM,
    libc::SIGXCPU,
    libc::SIGALRM,
    libc::SIGVTALRM,
    libc::SIGPROF,
    libc::SIGUSR1,
    libc::SIGUSR2,
    libc::SIGIO,
    libc::SIGPWR,
    libc::SIGSTKFLT,
    libc::SIGABRT,
    libc::SIGSYS,
    libc::SIGTRAP,
];

/// Where the program is; a positive number is the signal that came while outputs take their names.
static STATE: AtomicI32 = AtomicI32::new(WORKING);
const WORKING: c_int = 0;
const NAMING: c_int = -1;
const DONE: c_int = -2;
const OVER: c_int = -3;

/// From here on signals are handled; those that whoever started the program has it ignore stay so.
pub fn start() {
    for number in ENDING.into_iter().chain(libc::SIGRTMIN()..=libc::SIGRTMAX()) {
        let mut before: libc::sigaction = unsafe { zeroed() };
        let is_ignored = unsafe { libc::sigaction(number, null(), &mut before) } == 0 && before.sa_sigaction == libc::SIG_IGN;
        if !is_ignored {
            handle(number, ended as *const () as usize, 0);
        }
    }
    // Before there are threads, which take their mask from this one: a mapped input may ask for it.
    unblock(libc::SIGBUS);
    unsafe {
        // A file that may grow no further is an error of the write.
        libc::signal(libc::SIGXFSZ, libc::SIG_IGN);
        // The numbers of processes that have ended are kept until they are asked for.
        libc::signal(libc::SIGCHLD, libc::SIG_DFL);
    }
}

/// A mapped input that is shortened while it is read ends the program as a file that cannot be read.
pub fn expect_shortened() {
    handle(libc::SIGBUS, shortened as *const () as usize, libc::SA_SIGINFO);
}

fn handle(number: c_int, handler: usize, flags: c_int) {
    let mut action: libc::sigaction = unsafe { zeroed() };
    action.sa_sigaction = handler;
    action.sa_flags = libc::SA_RESTART | flags;
    unsafe { libc::sigaction(number, &action, null_mut()) };
}

fn unblock(number: c_int) {
    unsafe {
        let mut only: libc::sigset_t = zeroed();
        libc::sigemptyset(&mut only);
        libc::sigaddset(&mut only, number);
        libc::pthread_sigmask(libc::SIG_UNBLOCK, &only, null_mut());
    }
}

extern "C" fn ended(number: c_int) {
    loop {
        match STATE.compare_exchange(WORKING, OVER, SeqCst, SeqCst) {
            Ok(_) => {
                standing::end();
                end_by(number)
            }
            Err(NAMING) => {
                if STATE.compare_exchange(NAMING, number, SeqCst, SeqCst).is_ok() {
                    return;
                }
            }
            Err(DONE) => exit(0),
            // Another signal came before.
            Err(_) => return,
        }
    }
}

/// Ends by the signal itself, so that whoever waits for the program sees which it was.
fn end_by(number: c_int) -> ! {
    unsafe {
        libc::signal(number, libc::SIG_DFL);
        unblock(number);
        libc::raise(number);
        libc::_exit(128 + number)
    }
}

extern "C" fn shortened(number: c_int, info: *const libc::siginfo_t, _: *const c_void) {
    // Sent by somebody, and not by a page that is not there.
    if unsafe { (*info).si_code } <= 0 {
        return ended(number);
    }
    const TEXT: &[u8] = b"quicklook: an input was shortened while it was read; without --map that is told with its name\n";
    unsafe { libc::write(2, TEXT.as_ptr().cast(), TEXT.len()) };
    exit(crate::trouble::FILE_STATUS)
}

/// Ends at once, from anywhere, with what stands undone. A program whose outputs are all named has done its work, whatever comes then.
pub fn exit(status: u8) -> ! {
    let _ = STATE.compare_exchange(WORKING, OVER, SeqCst, SeqCst);
    standing::end();
    let status = if is_done() { 0 } else { status };
    unsafe { libc::_exit(c_int::from(status)) }
}

/// Whether all outputs have their names.
pub fn is_done() -> bool {
    STATE.load(SeqCst) == DONE
}

/// The outputs begin to take their names.
pub fn begin_naming() {
    if STATE.compare_exchange(WORKING, NAMING, SeqCst, SeqCst).is_err() {
        wait_for_the_end();
    }
}

/// Whether a signal came meanwhile.
pub fn came() -> bool {
    STATE.load(SeqCst) > 0
}

/// All outputs have their names. False where a signal came before.
pub fn done() -> bool {
    STATE.compare_exchange(NAMING, DONE, SeqCst, SeqCst).is_ok()
}

/// The outputs have been put back; a signal that came meanwhile ends the program now.
pub fn give_up_naming() {
    if let Err(number) = STATE.compare_exchange(NAMING, WORKING, SeqCst, SeqCst) {
        standing::end();
        end_by(number);
    }
}

/// Another thread ends the program.
pub fn wait_for_the_end() -> ! {
    loop {
        unsafe { libc::pause() };
    }
}
