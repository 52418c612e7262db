//! A read or a write outside a buffer: the signal becomes a line, one buffer fault in the closing line, and exit status 1.
use crate::count::Counts;
use crate::pens::Pen;
use std::sync::atomic::{AtomicPtr, Ordering};

unsafe extern "C" {
    fn sigaction(signal: i32, new: *const Action, old: *mut Action) -> i32;
    fn _exit(status: i32) -> !;
}

/// `struct sigaction` of Linux's C library on x86-64.
#[repr(C)]
struct Action {
    handler: extern "C" fn(i32, *const Info, *const u8),
    mask: [u64; 16],
    flags: i32,
    restorer: usize,
}

/// The start of `siginfo_t`: the address that was touched stands at byte 16.
#[repr(C)]
struct Info {
    head: [u64; 2],
    address: usize,
}

const SA_SIGINFO: i32 = 4;
const SIGNALS: [i32; 5] = [4, 6, 7, 8, 11]; // SIGILL, SIGABRT, SIGBUS, SIGFPE, SIGSEGV

/// What the handler reads.
pub struct Watched {
    pub counts: *const Counts,
    pub pens: [(&'static str, *const Pen); 3],
}

static WATCHED: AtomicPtr<Watched> = AtomicPtr::new(std::ptr::null_mut());

/// Watches the calls that are made from here on; `watched` stays for the rest of the run.
pub fn watch(watched: Watched) {
    WATCHED.store(Box::into_raw(Box::new(watched)), Ordering::SeqCst);
    let action = Action { handler: on_signal, mask: [0; 16], flags: SA_SIGINFO, restorer: 0 };
    for s in SIGNALS {
        assert_eq!(unsafe { sigaction(s, &action, std::ptr::null_mut()) }, 0, "sigaction");
    }
}

/// The signal comes from inside the call that is watched, so nothing else is half done.
extern "C" fn on_signal(signal: i32, info: *const Info, _: *const u8) {
    unsafe {
        let watched = &*WATCHED.load(Ordering::SeqCst);
        let counts = &*watched.counts;
        let address = (*info).address;
        let place = watched.pens.iter().find(|p| (*p.1).beside(address)).map_or("in no buffer", |p| p.0);
        println!("BUFFER FAULT tree {}, call {}: signal {signal}, {place}; the run ends here", counts.trees - 1, counts.calls);
        println!("{}", counts.closing(counts.faults + 1));
        _exit(1);
    }
}
