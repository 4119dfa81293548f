/*
 * The lock around each call. It knows which thread holds it, so that this thread may fork: in a signal handler that
 * interrupted a call, and in a fork handler of another library.
 *
 * Where a fork takes it: behind the fork handlers of all other libraries, since ours is registered before theirs and
 * such handlers run in reverse; and behind stdio's lock of its list of streams, which glibc's fork takes too, since a
 * thread that has that list may wait for a stream whose holder waits for memory. Behind ours glibc takes nothing that a
 * thread holds while it allocates, but for the lock of nsswitch.conf while it is read.
 *
 * What a child finds: the heap at rest. There is one exception: a child forked in a handler that interrupted a call of
 * its own thread finds that call half done, as its parent does. Until the handler returns, and the call ends, requests
 * are refused and frees change nothing.
 */
#ifndef LIMZHUR_PRELOAD_LOCK_H
#define LIMZHUR_PRELOAD_LOCK_H

#include <errno.h>
#include <linux/futex.h>
#include <pthread.h>
#include <sched.h>
#include <stdatomic.h>
#include <stdbool.h>
#include <stdint.h>
#include <sys/syscall.h>
#include <time.h>
#include <unistd.h>
#if __has_include(<sys/single_threaded.h>)
#include <sys/single_threaded.h>
#define is_single_threaded() (__libc_single_threaded)
#else
#define is_single_threaded() false
#endif

/* How often a thread looks at the lock before it sleeps. */
#define LOOKS 100

/* Set in the holder where a thread may sleep for the lock. */
#define AWAITED ((uint64_t)1)

/* What a thread that enters has: nothing, the lock, or a call inside what this thread holds already for a fork. */
enum entry { REFUSED, ENTERED, NESTED };

/* The thread that holds the lock, by what pthread_self says of it, which a fork does not change; 0 if none does. */
static _Alignas(8) _Atomic uint64_t holder;

/* Whether a call is being made: the heap is not at rest then. */
static volatile bool busy;

/* The forks in progress of a thread that held the lock when they began. */
static volatile unsigned forks_inside;

/* Whether the fork in progress holds the list of streams. */
static bool holds_streams;

/* glibc's own, of its list of streams. */
extern void _IO_list_lock(void) __attribute__((weak));
extern void _IO_list_unlock(void) __attribute__((weak));
extern void _IO_list_resetlock(void) __attribute__((weak));

static inline uint64_t this_thread(void) {
    return (uint64_t)pthread_self();
}

static bool is_holder(uint64_t thread) {
    return (atomic_load_explicit(&holder, memory_order_relaxed) & ~AWAITED) == thread;
}

static bool takes(uint64_t from, uint64_t to) {
    return atomic_compare_exchange_strong_explicit(&holder, &from, to, memory_order_acquire, memory_order_relaxed);
}

/* The half of the holder with its lowest bits, which the system compares. */
static uint32_t *low_half(void) {
    return (uint32_t *)&holder;
}

/* Sleeps until the lock is free and this thread has it. */
static __attribute__((noinline)) void wait_for_lock(uint64_t thread) {
    int number = errno;
    for (int i = 0; i < LOOKS; i++) {
        if (atomic_load_explicit(&holder, memory_order_relaxed) == 0 && takes(0, thread)) return;
        __builtin_ia32_pause();
    }
    while (!takes(0, thread | AWAITED)) {
        uint64_t seen = atomic_load_explicit(&holder, memory_order_relaxed);
        if (seen == 0 || (!(seen & AWAITED) && !takes(seen, seen | AWAITED))) continue;
        syscall(SYS_futex, low_half(), FUTEX_WAIT_PRIVATE, (uint32_t)(seen | AWAITED), NULL, NULL, 0);
    }
    errno = number;
}

static void lock(uint64_t thread) {
    if (is_single_threaded() && is_holder(0)) {
        atomic_store_explicit(&holder, thread, memory_order_relaxed);
    } else if (!takes(0, thread)) {
        wait_for_lock(thread);
    }
}

static void unlock(void) {
    if (is_single_threaded()) {
        atomic_store_explicit(&holder, 0, memory_order_relaxed);
    } else if (atomic_exchange_explicit(&holder, 0, memory_order_release) & AWAITED) {
        int number = errno;
        syscall(SYS_futex, low_half(), FUTEX_WAKE_PRIVATE, 1, NULL, NULL, 0);
        errno = number;
    }
}

/* Takes the lock for a call. A thread that holds it makes its call if the heap is at rest, and else is refused. */
static enum entry enter_lock(void) {
    uint64_t thread = this_thread();
    enum entry entry = NESTED;
    if (!is_holder(thread)) {
        lock(thread);
        entry = ENTERED;
    } else if (busy) {
        return REFUSED;
    }
    busy = true;
    return entry;
}

static void leave_lock(enum entry entry) {
    busy = false;
    if (entry == ENTERED) unlock();
}

/* Takes the lock behind that of the list of streams, but does not keep that one for ever as it waits: a thread that holds the
 * lock may fork in a signal handler, and then wants the list. */
static void lock_behind_streams(uint64_t thread) {
    _IO_list_lock();
    for (unsigned looks = 1; !takes(0, thread); looks++) {
        if (looks % (LOOKS * LOOKS) == 0) {
            /* It sleeps, since a thread that is woken for the list has to take it before this one takes it again. */
            int number = errno;
            _IO_list_unlock();
            nanosleep(&(struct timespec){.tv_nsec = 100000}, NULL);
            _IO_list_lock();
            errno = number;
        } else if (looks % LOOKS == 0) {
            sched_yield();
        }
        __builtin_ia32_pause();
    }
    holds_streams = true;
}

static void before_fork(void) {
    uint64_t thread = this_thread();
    if (is_holder(thread)) {
        forks_inside++;
    } else if (is_single_threaded() || _IO_list_lock == NULL) {
        lock(thread);
    } else {
        lock_behind_streams(thread);
    }
}

/* Gives back what a fork took. A child has the list of streams as new: it has no other thread. */
static void after_fork(void (*let_streams_go)(void)) {
    if (forks_inside > 0) {
        forks_inside--;
        return;
    }
    bool held_streams = holds_streams;
    holds_streams = false;
    unlock();
    if (held_streams) let_streams_go();
}

static void in_parent(void) {
    after_fork(_IO_list_unlock);
}

static void in_child(void) {
    after_fork(_IO_list_resetlock);
}

#endif
