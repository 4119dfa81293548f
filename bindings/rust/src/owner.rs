//! A lock that knows which thread holds it, by what `pthread_self` says, which a fork does not change.
use crate::{Entry, Lock};
use core::sync::atomic::{AtomicBool, AtomicUsize, Ordering};

extern "C" {
    fn pthread_self() -> usize;
    fn sched_yield() -> i32;
}

/// How often a thread looks at the lock before it lets others run.
const LOOKS: usize = 100;

/// A lock whose holder may fork: in a signal handler that interrupted a call of the heap, and in a fork handler of another
/// library. What such a signal handler asks of the heap is refused, in the parent and in the child, and what it frees stays.
pub struct Owner {
    /// The thread that holds the lock; 0 if none does.
    holder: AtomicUsize,
    /// Whether a call is being made: the heap is not at rest then.
    busy: AtomicBool,
    /// The forks in progress of a thread that held the lock when they began.
    forks_inside: AtomicUsize,
}

impl Owner {
    fn is_mine(&self) -> bool {
        self.holder.load(Ordering::Relaxed) == unsafe { pthread_self() }
    }

    fn take(&self) {
        let thread = unsafe { pthread_self() };
        let mut looks = 0;
        while self.holder.compare_exchange_weak(0, thread, Ordering::Acquire, Ordering::Relaxed).is_err() {
            looks += 1;
            if looks % LOOKS == 0 {
                unsafe { sched_yield() };
            } else {
                core::hint::spin_loop();
            }
        }
    }
}

unsafe impl Lock for Owner {
    const OPEN: Self =
        Owner { holder: AtomicUsize::new(0), busy: AtomicBool::new(false), forks_inside: AtomicUsize::new(0) };

    fn enter(&self) -> Entry {
        let mut entry = Entry::Nested;
        if !self.is_mine() {
            self.take();
            entry = Entry::Entered;
        } else if self.busy.load(Ordering::Relaxed) {
            return Entry::Refused;
        }
        self.busy.store(true, Ordering::Relaxed);
        entry
    }

    fn leave(&self, entry: Entry) {
        self.busy.store(false, Ordering::Relaxed);
        if entry == Entry::Entered {
            self.holder.store(0, Ordering::Release);
        }
    }

    fn before_fork(&self) {
        if self.is_mine() {
            self.forks_inside.fetch_add(1, Ordering::Relaxed);
        } else {
            self.take();
        }
    }

    fn after_fork(&self) {
        if self.forks_inside.load(Ordering::Relaxed) > 0 {
            self.forks_inside.fetch_sub(1, Ordering::Relaxed);
        } else {
            self.holder.store(0, Ordering::Release);
        }
    }
}
