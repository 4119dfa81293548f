//! A heap behind a lock.
//!
//! What the proofs take of this file: it hands the library one room and one memory, each of the right size and alignment, the
//! memory's last words 0, makes no two calls at a time, and touches neither but by its calls.
use crate::library::*;
use crate::{Entry, Lock, Spin};
use core::alloc::{GlobalAlloc, Layout};
use core::cell::UnsafeCell;
use core::ptr;

/// The alignment that each block has without asking.
const BLOCK_ALIGN: usize = 16;

/// The least granularity, in bytes, with which a heap begins.
const LEAST_GRANULARITY: u64 = 1 << 16;

#[repr(C, align(4096))]
struct Memory<const WORDS: usize>([u64; WORDS]);

#[repr(C, align(16))]
struct Room([u8; ROOM]);

/// How far a heap is: what the lock guards besides the heap's own state.
struct Begun {
    begun: bool,
    granularity: u64,
}

/// A heap over `WORDS` words of 8 bytes in itself, behind a lock. With 0 words it is over the memory that `init` is given, and
/// refuses each request before.
pub struct Limzhur<const WORDS: usize = 0, L: Lock = Spin> {
    lock: L,
    state: UnsafeCell<Begun>,
    room: UnsafeCell<Room>,
    memory: UnsafeCell<Memory<WORDS>>,
}

// Everything in it is reached with the lock held alone.
unsafe impl<const WORDS: usize, L: Lock> Sync for Limzhur<WORDS, L> {}

/// Ends the call when it goes.
struct Held<'a, L: Lock>(&'a L, Entry);

impl<L: Lock> Drop for Held<'_, L> {
    fn drop(&mut self) {
        self.0.leave(self.1);
    }
}

impl<const WORDS: usize, L: Lock> Limzhur<WORDS, L> {
    /// A heap that has no block. Its first call makes it ready.
    pub const fn new() -> Self {
        Limzhur {
            lock: L::OPEN,
            state: UnsafeCell::new(Begun { begun: false, granularity: LEAST_GRANULARITY }),
            room: UnsafeCell::new(Room([0; ROOM])),
            memory: UnsafeCell::new(Memory([0; WORDS])),
        }
    }

    /// Begins the heap over `length` bytes at `start`, which may be any; it clears those at the end that it has for marks, one
    /// in 128. False where the heap has begun already, and where there are fewer than 4096 whole words; nothing is changed
    /// then. A heap of words of its own has these no more.
    ///
    /// # Safety
    ///
    /// The bytes are nobody else's, for as long as the heap is there. They are not on the page of the address 0.
    pub unsafe fn init(&self, start: *mut u8, length: usize) -> bool {
        let skip = start.align_offset(BLOCK_ALIGN);
        if start.is_null() || skip > length || (length - skip) / 8 < 4096 {
            return false;
        }
        let Some((_held, state, mut handle)) = self.enter() else {
            return false;
        };
        if state.begun {
            return false;
        }
        let (memory, count) = (unsafe { start.add(skip) }.cast::<u64>(), (length - skip) / 8);
        let marks = count.div_ceil(128);
        unsafe { ptr::write_bytes(memory.add(count - marks), 0, marks) };
        begin(state, &mut handle, memory, count)
    }

    /// The bytes of the memory that are in use, from its first on.
    pub fn used(&self) -> u64 {
        self.stats().used
    }

    /// How many blocks there are.
    pub fn blocks(&self) -> u64 {
        self.stats().blocks
    }

    fn stats(&self) -> Stats {
        self.with(Stats { used: 0, blocks: 0 }, |_, heap| stats(heap))
    }

    /// Whether free memory at the end was given up, all but `pad` bytes.
    pub fn trim(&self, pad: u64) -> bool {
        self.with(false, |_, heap| unsafe { limzhur_trim(heap, pad) })
    }

    /// The bytes of the block at a pointer; 0 where none begins there.
    pub fn usable_size(&self, block: *const u8) -> usize {
        self.with(0, |_, heap| unsafe { limzhur_usable_size(heap, block as u64) }) as usize
    }

    /// Takes the lock for a fork: the child then finds the heap at rest. `watch_forks!` has the system call it.
    pub fn before_fork(&self) {
        self.lock.before_fork();
    }

    /// Gives up what `before_fork` took, in the parent and in the child.
    pub fn after_fork(&self) {
        self.lock.after_fork();
    }

    /// What is reached with the lock held, and the lock. None where it refuses the call.
    fn enter(&self) -> Option<(Held<'_, L>, &mut Begun, Handle)> {
        let entry = self.lock.enter();
        if entry == Entry::Refused {
            return None;
        }
        // The lock is held, so nothing else reads or writes what these pointers lead to.
        Some((Held(&self.lock, entry), unsafe { &mut *self.state.get() }, Handle { room: self.room.get().cast() }))
    }

    /// Makes one call of the heap, with the lock held. `refused` where there is no heap to call.
    fn with<R>(&self, refused: R, call: impl FnOnce(&mut Begun, &mut Handle) -> R) -> R {
        let Some((_held, state, mut handle)) = self.enter() else {
            return refused;
        };
        let own = self.memory.get().cast::<u64>();
        if !state.begun && (WORDS == 0 || !begin(state, &mut handle, own, WORDS)) {
            return refused;
        }
        call(state, &mut handle)
    }

    /// The block that a request is answered, or null. What is left of the memory may do with the least granularity.
    fn request(&self, call: impl Fn(&mut Handle) -> u64) -> *mut u8 {
        let address = self.with(0, |state, heap| {
            let mut address = call(heap);
            if address == 0 && state.granularity > LEAST_GRANULARITY {
                set_granularity(state, heap, LEAST_GRANULARITY);
                address = call(heap);
            }
            fit_granularity(state, heap);
            address
        });
        address as *mut u8
    }
}

/// Begins the heap. The library may want more room than there is; then there is no heap, and each request is refused.
fn begin(state: &mut Begun, heap: &mut Handle, memory: *mut u64, count: usize) -> bool {
    unsafe {
        if limzhur_room() > ROOM {
            return false;
        }
        limzhur_init(heap.room, memory, count, memory as u64);
    }
    state.begun = true;
    true
}

fn stats(heap: &mut Handle) -> Stats {
    let mut stats = Stats { used: 0, blocks: 0 };
    unsafe { limzhur_stats(heap, &mut stats) };
    stats
}

fn set_granularity(state: &mut Begun, heap: &mut Handle, wanted: u64) {
    if wanted != state.granularity && unsafe { limzhur_set_granularity(heap, wanted) } {
        state.granularity = wanted;
    }
}

/// Sets the granularity to an eighth of what is in use, so that a block that grows is seldom moved.
fn fit_granularity(state: &mut Begun, heap: &mut Handle) {
    let eighth = stats(heap).used / 8;
    let wanted = if eighth == 0 { 0 } else { 1 << eighth.ilog2() };
    set_granularity(state, heap, LEAST_GRANULARITY.max(wanted));
}

/// Ends the program, in debug builds: no unwinding leaves an allocator.
extern "C" fn wrong_free() {
    panic!("no block of this heap begins at the address that is freed");
}

impl<const WORDS: usize, L: Lock> Default for Limzhur<WORDS, L> {
    fn default() -> Self {
        Self::new()
    }
}

unsafe impl<const WORDS: usize, L: Lock> GlobalAlloc for Limzhur<WORDS, L> {
    unsafe fn alloc(&self, layout: Layout) -> *mut u8 {
        self.request(|heap| unsafe { limzhur_malloc(heap, layout.size() as u64, layout.align() as u64) })
    }

    unsafe fn alloc_zeroed(&self, layout: Layout) -> *mut u8 {
        self.request(|heap| unsafe { limzhur_calloc(heap, layout.size() as u64, layout.align() as u64) })
    }

    /// What the lock refuses stays a block. An address of no block is left alone; in a debug build it ends the program.
    unsafe fn dealloc(&self, block: *mut u8, _: Layout) {
        if !self.with(true, |_, heap| unsafe { limzhur_free(heap, block as u64) }) && cfg!(debug_assertions) {
            wrong_free();
        }
    }

    /// A block of an alignment above 16 keeps its place as long as it has the bytes; to grow further, it moves.
    unsafe fn realloc(&self, block: *mut u8, layout: Layout, size: usize) -> *mut u8 {
        // The heap's own call keeps an alignment of 16 alone; but a block that has the bytes it leaves where it is.
        if layout.align() <= BLOCK_ALIGN || size <= self.usable_size(block) {
            return self.request(|heap| unsafe { limzhur_realloc(heap, block as u64, size as u64) });
        }
        unsafe {
            let moved = self.alloc(Layout::from_size_align_unchecked(size, layout.align()));
            if !moved.is_null() {
                ptr::copy_nonoverlapping(block, moved, layout.size());
                self.dealloc(block, layout);
            }
            moved
        }
    }
}
