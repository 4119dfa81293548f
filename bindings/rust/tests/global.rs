//! The heap as the allocator of a test: blocks of many sizes and alignments, from several threads.
use limzhur::Limzhur;
use std::alloc::{alloc, alloc_zeroed, dealloc, realloc, Layout};
use std::collections::{BTreeMap, HashMap};
use std::hint::black_box;

#[global_allocator]
static HEAP: Limzhur<{ 8 << 20 }> = Limzhur::new();

#[test]
fn collections_keep_what_they_are_given() {
    let mut map = BTreeMap::new();
    let mut table = HashMap::new();
    for i in 0..10_000u64 {
        let key = i.wrapping_mul(0x9E37_79B9_7F4A_7C15);
        map.insert(key, format!("{i}"));
        table.insert(format!("{i}"), vec![i; i as usize % 50]);
    }
    for i in 0..10_000u64 {
        assert_eq!(map[&i.wrapping_mul(0x9E37_79B9_7F4A_7C15)], format!("{i}"));
        assert_eq!(table[&format!("{i}")], vec![i; i as usize % 50]);
    }
}

#[test]
fn blocks_lie_at_their_alignments_and_keep_their_bytes() {
    for shift in 0..16 {
        let layout = Layout::from_size_align(100, 1 << shift).unwrap();
        unsafe {
            let block = alloc_zeroed(layout);
            assert_eq!(block as usize % layout.align(), 0);
            assert!((0..100).all(|i| *block.add(i) == 0));
            (0..100).for_each(|i| *block.add(i) = i as u8);
            assert!(HEAP.usable_size(block) >= 100);
            let moved = realloc(block, layout, 10_000);
            assert_eq!(moved as usize % layout.align(), 0);
            assert!((0..100).all(|i| *moved.add(i) == i as u8));
            dealloc(moved, Layout::from_size_align(10_000, layout.align()).unwrap());
        }
    }
}

#[test]
fn threads_share_one_heap() {
    let threads: Vec<_> = (0..4usize)
        .map(|thread| {
            std::thread::spawn(move || {
                let blocks: Vec<Vec<usize>> = (0..2_000).map(|i| vec![thread + i; i % 100 + 1]).collect();
                blocks.iter().enumerate().all(|(i, block)| block.iter().all(|&word| word == thread + i))
            })
        })
        .collect();
    assert!(threads.into_iter().all(|thread| thread.join().unwrap()));
}

#[test]
fn what_does_not_fit_is_refused() {
    let layout = Layout::from_size_align(1 << 40, 16).unwrap();
    // The compiler may take a block that nobody uses away.
    assert!(black_box(unsafe { alloc(layout) }).is_null());
    assert!(HEAP.used() > 0 && HEAP.blocks() > 0);
    assert_eq!(HEAP.usable_size(std::ptr::null()), 0);
}
