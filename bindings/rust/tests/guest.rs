//! The walk of a guest's page tables. What is wanted follows from the AMD64 manual, volume 2, sections 5.3, 5.6 and 8.4.2.
use limzhur::guest::{marked, translate, walk, Access, End, Fault, Mode, Place, Processor};
use std::sync::atomic::{AtomicU64, Ordering};

const PRESENT: u64 = 1;
const WRITE: u64 = 2;
const USER: u64 = 4;
const ALL: u64 = PRESENT | WRITE | USER | 0x60;
const NX: u64 = 1 << 63;
const LARGE: u64 = 1 << 7;

/// Tables in frames 1 to 4. Slot 0 of the last one has a page of 4 KiB, slot 1 of the third a page of 2 MiB, and slot 1 of the second
/// one of 1 GiB.
fn tables() -> Vec<u64> {
    let mut words = vec![0; 5 * 512];
    words[512] = 0x2000 | ALL;
    words[2 * 512] = 0x3000 | ALL;
    words[3 * 512] = 0x4000 | ALL;
    words[4 * 512] = 0x7000 | ALL;
    words[3 * 512 + 1] = 0x60_0000 | ALL | LARGE;
    words[2 * 512 + 1] = 0x8000_0000 | ALL | LARGE;
    words
}

fn processor(mode: Mode) -> Processor {
    Processor { cr3: 0x1000, width: 40, mode: Mode::NXE | mode }
}

/// The answer of one call and of the walk by entries, which is the same.
fn asked(words: &[u64], processor: &Processor, address: u64, access: Access, user: bool) -> Result<Place, Fault> {
    let answer = translate(words, processor, address, access, user);
    let read = |at: u64| words.get(at as usize / 8).copied().unwrap_or(0);
    assert_eq!(walk(processor, address, read).access(access, user), answer);
    answer
}

fn code(words: &[u64], mode: Mode, access: Access, user: bool) -> u32 {
    match asked(words, &processor(mode), 0x123, access, user) {
        Ok(_) => 0,
        Err(Fault::Page(code)) => 0x100 | code,
        Err(Fault::NotCanonical) => panic!("the address is canonical"),
    }
}

#[test]
fn pages_have_three_sizes() {
    let (words, processor) = (tables(), processor(Mode::WP));
    for (address, physical, size) in [
        (0x123, 0x7123, 4096),
        (0x21_2345, 0x61_2345, 2 << 20),
        (0x4123_4567, 0x8123_4567, 1 << 30),
    ] {
        let place = Place { physical, size, write: true, user: true, fetch: true, ..Place::default() };
        assert_eq!(asked(&words, &processor, address, Access::Write, true), Ok(place));
    }
    assert_eq!(asked(&words, &processor, 0x1000, Access::Read, false), Err(Fault::Page(0)));
    assert_eq!(asked(&words, &processor, 0x1000, Access::Write, true), Err(Fault::Page(6)));
    assert_eq!(asked(&words, &processor, 1 << 47, Access::Read, false), Err(Fault::NotCanonical));
    assert_eq!(asked(&[], &processor, 0, Access::Fetch, true), Err(Fault::Page(20)));
}

#[test]
fn each_mode_has_its_rule() {
    let mut words = tables();
    words[4 * 512] = 0x7000 | PRESENT;
    assert_eq!(code(&words, Mode::default(), Access::Write, false), 0);
    assert_eq!(code(&words, Mode::WP, Access::Write, false), 0x103);
    assert_eq!(code(&words, Mode::default(), Access::Read, true), 0x105);
    words[4 * 512] = 0x7000 | PRESENT | USER;
    assert_eq!(code(&words, Mode::default(), Access::Write, true), 0x107);
    assert_eq!(code(&words, Mode::default(), Access::Fetch, false), 0);
    assert_eq!(code(&words, Mode::SMEP, Access::Fetch, false), 0x111);
    assert_eq!(code(&words, Mode::SMAP, Access::Read, false), 0x101);
    assert_eq!(code(&words, Mode::SMAP | Mode::AC, Access::Read, false), 0);
    assert_eq!(code(&words, Mode::SMAP | Mode::SMEP, Access::Fetch, true), 0);
    words[4 * 512] |= NX;
    assert_eq!(code(&words, Mode::default(), Access::Fetch, true), 0x115);
    let without = Processor { cr3: 0x1000, width: 40, mode: Mode::WP };
    assert_eq!(asked(&words, &without, 0x123, Access::Fetch, true), Err(Fault::Page(13)));
    words[4 * 512] = 0x7000 | ALL;
    words[512] |= 1 << 8;
    assert_eq!(code(&words, Mode::default(), Access::Read, false), 0x109);
    assert_eq!(code(&words, Mode::IGNORES_BIT_8, Access::Read, false), 0);
    words[512] |= 1 << 40;
    assert_eq!(code(&words, Mode::IGNORES_BIT_8, Access::Write, true), 0x10f);
}

#[test]
fn registers_make_a_mode() {
    assert_eq!(Mode::of(0x8001_0001, 0x20, 0xd00, 2), Mode::WP | Mode::NXE);
    assert_eq!(Mode::of(0x8000_0001, 1 << 20 | 0x20, 0x500, 1 << 18), Mode::SMEP | Mode::AC);
    assert_eq!(Mode::of(0, 1 << 21, 0, 0), Mode::SMAP);
    assert!((Mode::SMAP | Mode::WP).contains(Mode::WP) && !Mode::SMAP.contains(Mode::WP | Mode::SMAP));
    assert_eq!(Mode::IGNORES_BIT_8.bits(), 32);
}

#[test]
fn a_processor_marks_entries() {
    let mut words = tables();
    words[4 * 512] = 0x7000 | PRESENT | WRITE;
    let place = asked(&words, &processor(Mode::WP), 0, Access::Write, false).unwrap();
    assert!(place.sets_accessed && place.sets_dirty && !place.user);
    let place = asked(&words, &processor(Mode::WP), 0, Access::Read, false).unwrap();
    assert!(place.sets_accessed && !place.sets_dirty);
    assert_eq!((marked(3, 3, false), marked(3, 3, true), marked(3, 2, true)), (0x23, 0x63, 0x23));
    assert_eq!(marked(0x83, 2, true), 0xe3);
}

#[test]
fn the_last_entry_has_the_type() {
    let mut words = tables();
    let mut typed = |bits| {
        words[2 * 512 + 1] = 0x8000_0000 | ALL | LARGE | bits;
        let place = asked(&words, &processor(Mode::WP), 0x4000_0000, Access::Read, false).unwrap();
        (place.through, place.uncached, place.global)
    };
    assert_eq!((typed(8), typed(16), typed(0x100)), ((true, false, false), (false, true, false), (false, false, true)));
    words[512] |= 8 | 16;
    assert!(!asked(&words, &processor(Mode::WP), 0, Access::Read, false).unwrap().through);
}

#[test]
fn a_walk_tells_where_it_ended() {
    let mut words = tables();
    words[3 * 512 + 2] = 0x60_2000 | ALL | LARGE;
    let end = |address| {
        let mut entries = 0;
        let read = |at: u64| {
            entries += 1;
            words[at as usize / 8]
        };
        (walk(&processor(Mode::WP), address, read).end(), entries)
    };
    assert_eq!(end(0), (End::Page(3), 4));
    assert_eq!(end(0x20_0000), (End::Page(2), 3));
    assert_eq!(end(0x4000_0000), (End::Page(1), 2));
    assert_eq!(end(0x40_0000), (End::Reserved(2), 3));
    assert_eq!(end(0x8000_0000), (End::NotPresent(1), 2));
    assert_eq!(end(!0), (End::NotPresent(0), 1));
    assert_eq!(end(1 << 63), (End::NotCanonical, 0));
    assert_eq!(Fault::Page(6).to_string(), "a page fault with code 0x6");
}

/// Memory in two parts with a hole between them, of which another thread changes an entry.
#[test]
fn entries_may_change_meanwhile() {
    const WALKS: u64 = 200_000;
    const HIGH: u64 = 1 << 32;
    let [low, high] = [2, 3].map(|frames| (0..512 * frames).map(|_| AtomicU64::new(0)).collect::<Vec<_>>());
    low[512].store(HIGH | ALL, Ordering::Relaxed);
    high[0].store(HIGH + 0x1000 | ALL, Ordering::Relaxed);
    high[512].store(HIGH + 0x2000 | ALL, Ordering::Relaxed);
    let page = &high[2 * 512 + 5];
    let read = |at: u64| {
        let part = if at < HIGH { low.get(at as usize / 8) } else { high.get((at - HIGH) as usize / 8) };
        part.map_or(0, |entry| entry.load(Ordering::Acquire))
    };
    let writes = |numbers: std::ops::Range<u64>| {
        for number in numbers {
            page.store(if number % 2 == 0 { 0 } else { 0x7000 | ALL }, Ordering::Release);
        }
    };
    std::thread::scope(|threads| {
        threads.spawn(|| writes(0..WALKS));
        for _ in 0..WALKS {
            match walk(&processor(Mode::WP), 0x5123, read).access(Access::Write, true) {
                Ok(place) => assert_eq!((place.physical, place.size), (0x7123, 4096)),
                Err(fault) => assert_eq!(fault, Fault::Page(6)),
            }
        }
    });
    writes(0..2);
    assert!(walk(&processor(Mode::WP), 0x5123, read).access(Access::Read, false).is_ok());
    writes(0..1);
    assert!(walk(&processor(Mode::WP), 0x5123, read).access(Access::Read, false).is_err());
}
