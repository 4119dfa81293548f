//! A heap over memory that the program finds as it runs, with a lock of the program's own.
use limzhur::{Entry, Limzhur, Lock};
use std::alloc::{GlobalAlloc, Layout};
use std::sync::atomic::{AtomicUsize, Ordering};

/// A lock that is counted as it is taken.
struct Counting(AtomicUsize);

unsafe impl Lock for Counting {
    const OPEN: Self = Counting(AtomicUsize::new(0));

    fn enter(&self) -> Entry {
        while self.0.swap(1, Ordering::Acquire) == 1 {
            std::thread::yield_now();
        }
        TAKEN.fetch_add(1, Ordering::Relaxed);
        Entry::Entered
    }

    fn leave(&self, _: Entry) {
        self.0.store(0, Ordering::Release);
    }
}

static TAKEN: AtomicUsize = AtomicUsize::new(0);

/// Memory that is not zero, at no multiple of 16.
fn found() -> &'static mut [u8] {
    let bytes = vec![0xA5u8; 1 << 20].leak();
    let skip = bytes.as_ptr().align_offset(16) + 1;
    &mut bytes[skip..]
}

#[test]
fn a_heap_begins_over_memory_that_is_found() {
    let heap: Limzhur<0, Counting> = Limzhur::new();
    let layout = Layout::from_size_align(1000, 64).unwrap();
    let memory = found();
    unsafe {
        assert!(heap.alloc(layout).is_null());
        assert!(!heap.init(memory.as_mut_ptr(), 1000));
        assert!(heap.init(memory.as_mut_ptr(), memory.len()));
        assert!(!heap.init(memory.as_mut_ptr(), memory.len()));
        let block = heap.alloc_zeroed(layout);
        assert!(memory.as_ptr_range().contains(&block.cast_const()));
        assert!(block as usize % 64 == 0 && (0..1000).all(|i| *block.add(i) == 0));
        assert_eq!(heap.blocks(), 1);
        heap.dealloc(block, layout);
        assert_eq!(heap.blocks(), 0);
    }
    assert!(TAKEN.load(Ordering::Relaxed) >= 7);
}

#[test]
fn all_of_the_memory_is_had() {
    let heap: Limzhur = Limzhur::new();
    let memory = vec![0u64; 4 << 20].leak();
    let layout = Layout::from_size_align(1000, 8).unwrap();
    let mut bytes = 0;
    unsafe {
        assert!(heap.init(memory.as_mut_ptr().cast(), 8 * memory.len()));
        while !heap.alloc(layout).is_null() {
            bytes += 1000;
        }
    }
    assert!(bytes > 8 * memory.len() / 100 * 96, "{bytes} bytes of {}", 8 * memory.len());
}

#[test]
fn a_block_of_an_alignment_keeps_its_place_while_it_can() {
    let heap: Limzhur = Limzhur::new();
    let memory = vec![0u64; 1 << 17].leak();
    let layout = Layout::from_size_align(4000, 256).unwrap();
    unsafe {
        assert!(heap.init(memory.as_mut_ptr().cast(), 8 * memory.len()));
        let block = heap.alloc(layout);
        assert_eq!(heap.realloc(block, layout, 100), block);
        let smaller = Layout::from_size_align(100, 256).unwrap();
        let grown = heap.realloc(block, smaller, 50_000);
        assert!(!grown.is_null() && grown as usize % 256 == 0);
        assert!(heap.realloc(grown, Layout::from_size_align(50_000, 256).unwrap(), 1 << 30).is_null());
        assert_eq!(heap.blocks(), 1);
    }
}
