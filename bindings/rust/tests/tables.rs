//! Page tables beside a plain map of pages.
use limzhur::{Fault, FlaggedPlace, Flags, Place, Rights, Tables};
use std::collections::BTreeMap;

const FRAMES: usize = 64;

struct Draw(u64);

impl Draw {
    fn below(&mut self, limit: u64) -> u64 {
        self.0 ^= self.0 << 13;
        self.0 ^= self.0 >> 7;
        self.0 ^= self.0 << 17;
        self.0 % limit
    }

    fn rights(&mut self) -> Rights {
        Rights { write: self.below(2) == 1, user: self.below(2) == 1, fetch: self.below(2) == 1 }
    }
}

/// One random call beside the plain map, over pages of 8 MiB.
fn call(tables: &mut Tables, pages: &mut BTreeMap<u64, Place>, draw: &mut Draw, first: u64) {
    let page = draw.below(2048);
    let count = draw.below(4) * draw.below(400) + 1;
    let (rights, frame) = (draw.rights(), first + 4096 + page + 512 * draw.below(3));
    let range = page..page + count;
    let at = |page: u64| 0xffff_8000_0000_0000 + 4096 * page;
    match draw.below(6) {
        0 => {
            let mapped = pages.range(range.clone()).next().map(|(page, _)| *page);
            let answer = tables.map_range(at(page), count, frame, rights);
            assert_eq!(answer, mapped.map_or(Ok(()), |page| Err(Fault::IsMapped(at(page)))));
            if answer.is_ok() {
                pages.extend(range.clone().map(|other| (other, Place { frame: frame + (other - page), rights })));
            }
        }
        1 => {
            let missing = range.clone().find(|page| !pages.contains_key(page));
            let answer = tables.unmap_range(at(page), count);
            assert_eq!(answer, missing.map_or(Ok(()), |page| Err(Fault::NotMapped(at(page)))));
            if answer.is_ok() {
                pages.retain(|page, _| !range.contains(page));
            }
        }
        2 => {
            let missing = range.clone().find(|page| !pages.contains_key(page));
            let answer = tables.protect_range(at(page), count, rights);
            assert_eq!(answer, missing.map_or(Ok(()), |page| Err(Fault::NotMapped(at(page)))));
            if answer.is_ok() {
                pages.range_mut(range.clone()).for_each(|(_, place)| place.rights = rights);
            }
        }
        3 => {
            let was = pages.remove(&page).map(|place| place.frame);
            assert_eq!(tables.unmap(at(page)), was.ok_or(Fault::NotMapped(at(page))));
        }
        4 => {
            let answer = tables.protect(at(page), rights);
            assert_eq!(answer.is_ok(), pages.contains_key(&page));
            pages.entry(page).and_modify(|place| place.rights = rights);
        }
        _ => {
            let answer = tables.map(at(page), frame, rights);
            assert_eq!(answer.is_ok(), !pages.contains_key(&page));
            pages.entry(page).or_insert(Place { frame, rights });
        }
    }
    for page in [range.start, range.end - 1, range.end, draw.below(2560)] {
        assert_eq!(tables.lookup(at(page) + draw.below(4096)), pages.get(&page).copied());
    }
}

#[test]
fn tables_are_a_map_of_pages() {
    for first in [0, 1 << 20] {
        let mut words = vec![0xdead_beef; 512 * FRAMES];
        let mut tables = Tables::new(&mut words, first, first + (1 << 20)).unwrap();
        let (mut pages, mut draw) = (BTreeMap::new(), Draw(88172645463325252));
        assert_eq!((tables.root(), tables.left()), (first, FRAMES as u64 - 1));
        for _ in 0..20_000 {
            call(&mut tables, &mut pages, &mut draw, first);
        }
    }
}

#[test]
fn what_is_refused_is_told() {
    let mut words = vec![0; 512 * 5];
    assert!(Tables::new(&mut [], 0, 10).is_none() && Tables::new(&mut words[1..], 0, 10).is_none());
    assert!(Tables::new(&mut words, 7, 10).is_none() && Tables::new(&mut words, 0, 1 << 40).is_none());
    let mut tables = Tables::new(&mut words, 7, 5000).unwrap();
    let rights = Rights { write: true, user: false, fetch: false };
    assert_eq!(tables.map(1 << 47, 100, rights), Err(Fault::NotCanonical));
    assert_eq!(tables.map_range((1 << 47) - 4096, 2, 100, rights), Err(Fault::NotCanonical));
    assert_eq!(tables.map(0x1000, 8, rights), Err(Fault::InArea));
    tables.share_area();
    assert_eq!(tables.map(0x1000, 8, Rights { write: false, user: true, fetch: false }), Err(Fault::InArea));
    assert_eq!(tables.map(0x1000, 8, rights), Ok(()));
    assert_eq!(tables.protect(0x1000, Rights { write: false, user: true, fetch: false }), Err(Fault::InArea));
    assert_eq!(tables.unmap(0x1000), Ok(8));
    assert_eq!(tables.map(0x1000, 5000, rights), Err(Fault::PastLimit));
    assert_eq!(tables.map_large(0x1000, 512, rights), Err(Fault::Misaligned));
    assert_eq!(tables.map_large(0x20_0000, 512, rights), Ok(()));
    assert_eq!(tables.lookup(0x3f_f123), Some(Place { frame: 1023, rights }));
    assert_eq!(tables.left(), 1);
    assert_eq!(tables.unmap(0x20_1fff), Ok(513));
    assert_eq!((tables.left(), tables.lookup(0x20_1000)), (0, None));
    assert_eq!(tables.map_large(0x20_0000, 512, rights), Err(Fault::HasTable));
    assert_eq!(tables.map(0x40_0000, 100, rights), Err(Fault::NoFrames));
    assert_eq!(tables.protect_range(0x20_0000, 512, rights), Err(Fault::NotMapped(0x20_1000)));
    assert_eq!(Fault::NotMapped(0x20_1000).to_string(), "the page at 0x201000 is not mapped");
}

#[test]
fn pages_have_types() {
    let mut words = vec![0; 512 * 8];
    let mut tables = Tables::new(&mut words, 0, 1 << 20).unwrap();
    let device = Flags::WRITE | Flags::of_type(3);
    let place = |frame, flags| Some(FlaggedPlace { frame, flags });
    assert_eq!(tables.map_flags(0x1000, 0xb8, device | Flags::GLOBAL), Ok(()));
    assert_eq!(tables.lookup_flags(0x1234), place(0xb8, device | Flags::GLOBAL));
    assert_eq!(tables.protect(0x1000, Rights { write: false, user: false, fetch: false }), Ok(()));
    assert_eq!(tables.lookup_flags(0x1000), place(0xb8, Flags::of_type(3) | Flags::GLOBAL));
    assert_eq!(tables.protect_flags(0x1000, Flags::FETCH), Ok(()));
    assert_eq!(tables.lookup_flags(0x1000), place(0xb8, Flags::FETCH));
    assert_eq!(tables.map_large_flags(0x20_0000, 512, device), Ok(()));
    assert_eq!(tables.unmap(0x20_1000), Ok(513));
    assert_eq!(tables.lookup_flags(0x20_2000), place(514, device));
    assert_eq!(tables.map_range_flags(0x40_0000, 513, 1024, device), Ok(()));
    assert_eq!(tables.protect_range_flags(0x40_0000, 513, Flags::USER), Ok(()));
    assert_eq!(tables.lookup_flags(0x60_0000), place(1536, Flags::USER));
    assert_eq!(tables.lookup_flags(0x60_1000), None);
}

#[test]
fn flags_are_a_set() {
    let flags = Flags::WRITE | Flags::of_type(2);
    assert_eq!((flags.bits(), flags.memory_type(), Flags::from_bits(17)), (17, 2, Some(flags)));
    assert!(flags.contains(Flags::NO_CACHE) && !flags.contains(Flags::GLOBAL) && Flags::from_bits(64).is_none());
    assert_eq!(format!("{flags:?} {:?}", flags.difference(flags)), "Flags(WRITE | NO_CACHE) Flags(0x0)");
    assert_eq!(Flags::from_bits(63), Some(Flags::all()));
}
