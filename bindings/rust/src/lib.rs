//! The proved heap as a global allocator: `#[global_allocator] static HEAP: Limzhur<WORDS> = Limzhur::new();`
//!
//! The heap lies in the static itself, which is zeros that no file holds, and whose pages are touched as blocks need them; or
//! in memory that the program finds as it runs (`Limzhur::init`). One lock goes around each call: `Spin`, which needs no
//! system, or `Owner`, which knows the thread that holds it, or the program's own (`Lock`).
//!
//! `Tables` are page tables for a kernel, in frames that it lends. With the feature `guest`, the module `guest` has the walk of a
//! guest's page tables.
//!
//! A program that forks while threads allocate calls `watch_forks!(HEAP)` first. Without it a child may find the lock held
//! by a thread that it does not have, and waits for ever.
#![no_std]

#[cfg(feature = "heap")]
mod flags;
#[cfg(feature = "guest")]
pub mod guest;
#[cfg(feature = "heap")]
mod heap;
#[cfg(feature = "heap")]
mod library;
#[cfg(feature = "heap")]
mod lock;
#[cfg(all(feature = "heap", unix))]
mod owner;
#[cfg(feature = "heap")]
mod tables;

#[cfg(feature = "heap")]
pub use flags::Flags;
#[cfg(feature = "heap")]
pub use heap::Limzhur;
#[cfg(feature = "heap")]
pub use lock::{Entry, Lock, Spin};
#[cfg(all(feature = "heap", unix))]
pub use owner::Owner;
#[cfg(feature = "heap")]
pub use tables::{Fault, FlaggedPlace, Place, Rights, Tables};

/// Has the system take the lock of a heap around each fork, so that each child finds the heap at rest: `watch_forks!(HEAP)`,
/// once, before the first fork. False where the system has no room to note it.
#[cfg(all(feature = "heap", unix))]
#[macro_export]
macro_rules! watch_forks {
    ($heap:path) => {{
        extern "C" fn before() {
            $heap.before_fork();
        }
        extern "C" fn after() {
            $heap.after_fork();
        }
        extern "C" {
            fn pthread_atfork(before: extern "C" fn(), parent: extern "C" fn(), child: extern "C" fn()) -> i32;
        }
        // Both handlers may be called at any time.
        unsafe { pthread_atfork(before, after, after) == 0 }
    }};
}
