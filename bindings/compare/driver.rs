//! driver MIX OPERATIONS REPEAT PEER..: the same calls over each of the heaps, by turns. It prints the best and the median time
//! of a call, and a sum over the places of all blocks in order, which is equal for heaps that put them at the same places.
//!
//! Of 2,000 live blocks, an operation replaces a random one. Mix 0 has 16 to 527 bytes. In mix 1 a quarter of the operations
//! give a block another size. Mix 2 has 16 to 8,191 bytes, of each power of two as many. Mix 3 allocates and frees at once.
//! Mix 4 has the calls that `./heap gen` draws, over the last 64 blocks; a block that is not among these any more is freed.
use std::alloc::Layout;
use std::cell::Cell;
use std::ptr;

/// Of all live blocks.
const LIVE: usize = 2000;

/// The bytes that each heap but glibc's has.
const MEMORY: usize = 64 << 20;

/// Of the last blocks in the mix that draws as `gen` does.
const LAST: usize = 64;

/// What blocks are aligned to, but for some of that mix.
const ALIGN: usize = 16;

#[repr(C)]
struct Handle {
    room: *mut u8,
}

extern "C" {
    fn limzhur_init(room: *mut u8, memory: *mut u64, count: usize, address: u64);
    fn limzhur_malloc(heap: *mut Handle, size: u64, align: u64) -> u64;
    fn limzhur_calloc(heap: *mut Handle, size: u64, align: u64) -> u64;
    fn limzhur_realloc(heap: *mut Handle, address: u64, size: u64) -> u64;
    fn limzhur_free(heap: *mut Handle, address: u64) -> bool;

    fn malloc(size: usize) -> *mut u8;
    fn aligned_alloc(align: usize, size: usize) -> *mut u8;
    fn calloc(count: usize, size: usize) -> *mut u8;
    fn free(block: *mut u8);
    fn realloc(block: *mut u8, size: usize) -> *mut u8;
    fn clock_gettime(clock: i32, time: *mut [i64; 2]) -> i32;
}

/// The processor time of this thread, in nanoseconds.
fn now() -> u64 {
    const THREAD: i32 = 3;
    let mut time = [0; 2];
    unsafe { clock_gettime(THREAD, &mut time) };
    (time[0] * 1_000_000_000 + time[1]) as u64
}

trait Heap {
    fn malloc(&mut self, size: usize, align: usize) -> usize;
    fn calloc(&mut self, size: usize) -> usize;
    fn free(&mut self, block: usize, size: usize);
    fn realloc(&mut self, block: usize, size: usize, to: usize) -> usize;
    /// Where places are counted from; none if they are not compared.
    fn base(&self) -> Option<usize>;
}

/// The proved heap.
struct Proved {
    handle: Handle,
    base: usize,
    _room: Box<[u64; 256]>,
}

impl Proved {
    fn new(memory: *mut u8) -> Self {
        let mut room = Box::new([0u64; 256]);
        let handle = Handle { room: room.as_mut_ptr().cast() };
        unsafe { limzhur_init(handle.room, memory.cast(), MEMORY / 8, memory as u64) };
        Proved { handle, base: memory as usize, _room: room }
    }
}

impl Heap for Proved {
    fn malloc(&mut self, size: usize, align: usize) -> usize {
        unsafe { limzhur_malloc(&mut self.handle, size as u64, align as u64) as usize }
    }

    fn calloc(&mut self, size: usize) -> usize {
        unsafe { limzhur_calloc(&mut self.handle, size as u64, ALIGN as u64) as usize }
    }

    fn free(&mut self, block: usize, _: usize) {
        assert!(unsafe { limzhur_free(&mut self.handle, block as u64) });
    }

    fn realloc(&mut self, block: usize, _: usize, to: usize) -> usize {
        unsafe { limzhur_realloc(&mut self.handle, block as u64, to as u64) as usize }
    }

    fn base(&self) -> Option<usize> {
        Some(self.base)
    }
}

/// Grants from the front of a memory, as the proved heap has them.
struct Front {
    end: usize,
    top: Cell<usize>,
}

unsafe impl dlmalloc::Allocator for Front {
    fn alloc(&self, size: usize) -> (*mut u8, usize, u32) {
        let at = self.top.get();
        if size > self.end - at {
            return (ptr::null_mut(), 0, 0);
        }
        self.top.set(at + size);
        (at as *mut u8, size, 0)
    }

    fn remap(&self, _: *mut u8, _: usize, _: usize, _: bool) -> *mut u8 {
        ptr::null_mut()
    }

    fn free_part(&self, at: *mut u8, old_size: usize, new_size: usize) -> bool {
        if at as usize + old_size == self.top.get() {
            self.top.set(at as usize + new_size);
        }
        true
    }

    fn free(&self, at: *mut u8, size: usize) -> bool {
        self.free_part(at, size, 0)
    }

    fn can_release_part(&self, _: u32) -> bool {
        true
    }

    fn allocates_zeros(&self) -> bool {
        false
    }

    fn page_size(&self) -> usize {
        4096
    }
}

/// Upstream's.
struct Upstream {
    heap: dlmalloc::Dlmalloc<Front>,
    base: usize,
}

impl Upstream {
    fn new(memory: *mut u8) -> Self {
        let base = memory as usize;
        let front = Front { end: base + MEMORY, top: Cell::new(base) };
        Upstream { heap: dlmalloc::Dlmalloc::new_with_allocator(front), base }
    }
}

impl Heap for Upstream {
    #[inline(never)]
    fn malloc(&mut self, size: usize, align: usize) -> usize {
        unsafe { self.heap.malloc(size, align) as usize }
    }

    #[inline(never)]
    fn calloc(&mut self, size: usize) -> usize {
        unsafe { self.heap.calloc(size, ALIGN) as usize }
    }

    #[inline(never)]
    fn free(&mut self, block: usize, size: usize) {
        unsafe { self.heap.free(block as *mut u8, size, ALIGN) }
    }

    #[inline(never)]
    fn realloc(&mut self, block: usize, size: usize, to: usize) -> usize {
        unsafe { self.heap.realloc(block as *mut u8, size, ALIGN, to) as usize }
    }

    fn base(&self) -> Option<usize> {
        Some(self.base)
    }
}

/// The C library's.
struct Glibc;

impl Heap for Glibc {
    fn malloc(&mut self, size: usize, align: usize) -> usize {
        unsafe { (if align <= ALIGN { malloc(size) } else { aligned_alloc(align, size) }) as usize }
    }

    fn calloc(&mut self, size: usize) -> usize {
        unsafe { calloc(1, size) as usize }
    }

    fn free(&mut self, block: usize, _: usize) {
        unsafe { free(block as *mut u8) }
    }

    fn realloc(&mut self, block: usize, _: usize, to: usize) -> usize {
        // To 0 bytes it would free.
        unsafe { realloc(block as *mut u8, to.max(1)) as usize }
    }

    fn base(&self) -> Option<usize> {
        None
    }
}

/// No heap: each block is the same. What this takes is the driver's own.
struct NoHeap(usize);

impl Heap for NoHeap {
    #[inline(never)]
    fn malloc(&mut self, _: usize, _: usize) -> usize {
        self.0
    }

    #[inline(never)]
    fn calloc(&mut self, _: usize) -> usize {
        self.0
    }

    #[inline(never)]
    fn free(&mut self, _: usize, _: usize) {}

    #[inline(never)]
    fn realloc(&mut self, block: usize, _: usize, _: usize) -> usize {
        block
    }

    fn base(&self) -> Option<usize> {
        None
    }
}

/// Random numbers (xorshift).
struct Random(u64);

impl Random {
    fn next(&mut self) -> u64 {
        self.0 ^= self.0 << 13;
        self.0 ^= self.0 >> 7;
        self.0 ^= self.0 << 17;
        self.0
    }

    fn size(&mut self, mix: u64) -> usize {
        let random = self.next();
        if mix == 2 {
            let least = 1 << (4 + (random >> 40) % 9);
            (least + (random >> 8) % least) as usize
        } else {
            (16 + (random >> 20) % 512) as usize
        }
    }
}

/// What a run of a mix took and did.
struct Run {
    nanoseconds: f64,
    calls: u64,
    places: u64,
}

/// Calls over so many live blocks, each of which replaces one.
fn run(heap: &mut dyn Heap, mix: u64, operations: u64) -> Run {
    let mut random = Random(0x9E37_79B9_7F4A_7C15);
    let base = heap.base();
    let mut live = Vec::with_capacity(LIVE);
    for _ in 0..LIVE {
        let size = random.size(mix);
        live.push((heap.malloc(size, ALIGN), size));
    }
    let (mut calls, mut places) = (0, 0u64);
    let begin = now();
    for _ in 0..operations {
        let pick = random.next();
        let index = (pick % LIVE as u64) as usize;
        let size = random.size(mix);
        let (block, old_size) = live[index];
        let new = if mix == 3 {
            let new = heap.malloc(size, ALIGN);
            unsafe { *(new as *mut u64) = size as u64 };
            heap.free(new, size);
            calls += 2;
            new
        } else if mix == 1 && pick >> 62 == 0 {
            calls += 1;
            heap.realloc(block, old_size, size)
        } else {
            heap.free(block, old_size);
            calls += 2;
            heap.malloc(size, ALIGN)
        };
        assert!(new != 0, "a request was refused");
        if mix != 3 {
            unsafe { *(new as *mut u64) = size as u64 };
            live[index] = (new, size);
        }
        places = places.wrapping_mul(31).wrapping_add((new - base.unwrap_or(0)) as u64);
    }
    let nanoseconds = (now() - begin) as f64 / calls as f64;
    for (block, size) in live {
        heap.free(block, size);
    }
    Run { nanoseconds, calls, places: if base.is_some() { places } else { 0 } }
}

/// The calls that `gen` draws.
fn run_drawn(heap: &mut dyn Heap, operations: u64) -> Run {
    let mut random = Random(7);
    let base = heap.base();
    let mut live = [(0, 0); LAST];
    let (mut given, mut calls, mut places) = (0, 0, 0u64);
    let begin = now();
    for _ in 0..operations {
        let [a, b, c] = [0; 3].map(|_| random.next());
        let size = (b % 4096) as usize;
        let (block, old_size) = live[(c >> 8) as usize % LAST];
        let new = match a % 8 {
            0 => heap.malloc(size, ALIGN),
            1 => heap.malloc(size, 1 << (c % 16)),
            2 => heap.calloc(size),
            _ if block == 0 => continue,
            3 => heap.realloc(block, old_size, size),
            4 => {
                unsafe { *(block as *mut u8) = b as u8 };
                continue;
            }
            _ => {
                heap.free(block, old_size);
                calls += 1;
                live[(c >> 8) as usize % LAST] = (0, 0);
                continue;
            }
        };
        assert!(new != 0, "a request was refused");
        calls += 1;
        places = places.wrapping_mul(31).wrapping_add((new - base.unwrap_or(0)) as u64);
        if a % 8 == 3 {
            live[(c >> 8) as usize % LAST] = (new, size);
            continue;
        }
        let (oldest, its_size) = std::mem::replace(&mut live[given % LAST], (new, size));
        given += 1;
        if oldest != 0 {
            heap.free(oldest, its_size);
            calls += 1;
        }
    }
    let nanoseconds = (now() - begin) as f64 / calls as f64;
    for (block, size) in live.into_iter().filter(|it| it.0 != 0) {
        heap.free(block, size);
    }
    Run { nanoseconds, calls, places: if base.is_some() { places } else { 0 } }
}

/// A run of a mix over a new heap.
fn run_peer(peer: &str, mix: u64, operations: u64) -> Run {
    let memory = Layout::from_size_align(MEMORY, 1 << 16).unwrap();
    unsafe {
        let at = std::alloc::alloc_zeroed(memory);
        // Each page is had before the time begins.
        (0..MEMORY / 4096).for_each(|page| at.add(page * 4096).write_volatile(0));
        let mut heap: Box<dyn Heap> = match peer {
            "proved" => Box::new(Proved::new(at)),
            "upstream" => Box::new(Upstream::new(at)),
            "glibc" => Box::new(Glibc),
            "none" => Box::new(NoHeap(at as usize)),
            _ => panic!("no heap is called {peer}"),
        };
        let run = if mix == 4 { run_drawn(&mut *heap, operations) } else { run(&mut *heap, mix, operations) };
        drop(heap);
        std::alloc::dealloc(at, memory);
        run
    }
}

fn main() {
    let words: Vec<String> = std::env::args().collect();
    let [mix, operations, repeat] = [1, 2, 3].map(|at| words[at].parse::<u64>().unwrap());
    let peers = &words[4..];
    let mut runs: Vec<Vec<Run>> = peers.iter().map(|_| Vec::new()).collect();
    for _ in 0..repeat {
        for (peer, runs) in peers.iter().zip(&mut runs) {
            runs.push(run_peer(peer, mix, operations));
        }
    }
    for (peer, runs) in peers.iter().zip(&mut runs) {
        runs.sort_by(|a, b| a.nanoseconds.total_cmp(&b.nanoseconds));
        let (best, median) = (&runs[0], &runs[runs.len() / 2]);
        println!(
            "mix {mix} {peer:8} best {:6.1} median {:6.1} ns a call, {} calls, places {:016x}",
            best.nanoseconds, median.nanoseconds, best.calls, best.places
        );
    }
}
