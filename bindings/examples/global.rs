//! A Rust program whose global allocator is the proved heap, over 32 MiB of its own.
use limzhur::Limzhur;
use std::collections::BTreeMap;

#[global_allocator]
static HEAP: Limzhur<{ 4 << 20 }> = Limzhur::new();

fn main() {
    let threads: Vec<_> = (0..4u64)
        .map(|thread| {
            std::thread::spawn(move || {
                (0..20_000u64)
                    .map(|i| (i.wrapping_mul(0x9E37_79B9_7F4A_7C15), format!("value {i} of thread {thread}")))
                    .collect::<BTreeMap<_, _>>()
            })
        })
        .collect();
    for thread in threads {
        let map = thread.join().unwrap();
        println!("{} entries, the first: {}", map.len(), map.values().next().unwrap());
    }
    println!("the heap is used: {}", HEAP.used() > 0);
}
