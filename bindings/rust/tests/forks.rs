//! Children that are forked while threads allocate.
#![cfg(unix)]
use limzhur::{watch_forks, Limzhur, Owner};
use std::ffi::c_long;
use std::sync::atomic::{AtomicBool, AtomicUsize, Ordering};

#[global_allocator]
static HEAP: Limzhur<{ 8 << 20 }, Owner> = Limzhur::new();

static ENDS: AtomicBool = AtomicBool::new(false);
static FORKED: AtomicUsize = AtomicUsize::new(0);

extern "C" {
    fn fork() -> i32;
    fn waitpid(child: i32, status: *mut i32, options: i32) -> i32;
    fn _exit(status: i32) -> !;
    fn signal(signal: i32, handler: extern "C" fn(i32)) -> usize;
    fn setitimer(which: i32, new: *const [[c_long; 2]; 2], old: *mut [[c_long; 2]; 2]) -> i32;
}

const SIGALRM: i32 = 14;

/// Has the system send SIGALRM at such intervals, in microseconds; 0 ends it.
fn alarms(interval: c_long) {
    unsafe { setitimer(0, &[[0, interval]; 2], std::ptr::null_mut()) };
}

fn allocate() -> usize {
    (0..50usize).map(|i| vec![i; i + 1]).map(|block| block.len()).sum()
}

/// Whether a child that does some work ends well.
fn child_ends_well(work: fn() -> bool) -> bool {
    unsafe {
        let child = fork();
        if child == 0 {
            _exit(if work() { 0 } else { 1 });
        }
        let mut status = -1;
        waitpid(child, &mut status, 0) == child && status == 0
    }
}

extern "C" fn fork_at_once(_: i32) {
    if child_ends_well(|| true) {
        FORKED.fetch_add(1, Ordering::Relaxed);
    }
}

#[test]
fn children_allocate() {
    assert!(watch_forks!(HEAP));
    unsafe { signal(SIGALRM, fork_at_once) };
    let threads: Vec<_> = (0..3)
        .map(|_| {
            std::thread::spawn(|| {
                while !ENDS.load(Ordering::Relaxed) {
                    allocate();
                }
            })
        })
        .collect();
    assert!((0..200).all(|_| child_ends_well(|| allocate() == 1275)));
    alarms(500);
    while FORKED.load(Ordering::Relaxed) < 100 {
        allocate();
    }
    alarms(0);
    ENDS.store(true, Ordering::Relaxed);
    threads.into_iter().for_each(|thread| thread.join().unwrap());
}
