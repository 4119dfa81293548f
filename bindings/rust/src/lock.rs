//! Locks that a heap may have around its calls.
use core::sync::atomic::{AtomicBool, Ordering};

/// What a thread that asks for a lock is told.
#[derive(Clone, Copy, PartialEq, Eq, Debug)]
pub enum Entry {
    /// It has the lock.
    Entered,
    /// It had the lock already, for a fork: the heap is at rest.
    Nested,
    /// It had the lock already, for a call that it interrupted: its call is refused.
    Refused,
}

/// A lock around each call of a heap.
///
/// # Safety
///
/// Between an `enter` that answers `Entered` and the `leave` that is given that answer, no other thread is answered `Entered`
/// or `Nested`; `Nested` is answered only to a thread that is between `before_fork` and `after_fork` and in no call. What
/// was written before `leave` is seen behind the next `enter`. None of these may panic or allocate.
pub unsafe trait Lock: Sync {
    /// A lock that nobody holds.
    const OPEN: Self;

    /// Waits for the lock, and takes it for a call.
    fn enter(&self) -> Entry;

    /// Ends the call that `enter` was asked for; never called with `Entry::Refused`.
    fn leave(&self, entry: Entry);

    /// Takes the lock for a fork.
    fn before_fork(&self) {
        self.enter();
    }

    /// Gives up what `before_fork` took, in the parent and in the child.
    fn after_fork(&self) {
        self.leave(Entry::Entered);
    }
}

/// A lock that is looked at until it is open. It needs no system, and knows no threads: a signal handler, or an interrupt, that
/// allocates while its own thread does waits for ever.
pub struct Spin(AtomicBool);

unsafe impl Lock for Spin {
    const OPEN: Self = Spin(AtomicBool::new(false));

    fn enter(&self) -> Entry {
        while self.0.swap(true, Ordering::Acquire) {
            while self.0.load(Ordering::Relaxed) {
                core::hint::spin_loop();
            }
        }
        Entry::Entered
    }

    fn leave(&self, _: Entry) {
        self.0.store(false, Ordering::Release);
    }
}
