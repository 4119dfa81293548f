//! Page tables in frames that a kernel lends.
//!
//! What the proofs take of this file: it hands the library one room and whole frames of words, each of the right size and
//! alignment, and an area that ends at or below the limit; it makes no two calls at a time, and touches neither but by its calls.
use crate::flags::Flags;
use crate::library::*;
use core::cell::UnsafeCell;
use core::ffi::c_void;
use core::fmt;
use core::marker::PhantomData;

#[repr(C, align(8))]
struct Room([u8; TABLES_ROOM]);

/// What a page grants. It grants reads at all times.
#[derive(Clone, Copy, PartialEq, Eq, Debug)]
pub struct Rights {
    /// Writes.
    pub write: bool,
    /// Accesses at user level.
    pub user: bool,
    /// Instruction fetches.
    pub fetch: bool,
}

/// Where a page leads.
#[derive(Clone, Copy, PartialEq, Eq, Debug)]
pub struct Place {
    /// The number of the frame: its physical address divided by 4096.
    pub frame: u64,
    /// What all entries on the way grant.
    pub rights: Rights,
}

/// Where a page leads, with all its flags.
#[derive(Clone, Copy, PartialEq, Eq, Debug)]
pub struct FlaggedPlace {
    /// The number of the frame: its physical address divided by 4096.
    pub frame: u64,
    /// What all entries on the way grant, and the type of the page.
    pub flags: Flags,
}

/// Why a call is refused. Of several reasons the first in this order is told, and nothing is changed.
#[derive(Clone, Copy, PartialEq, Eq, Debug)]
#[non_exhaustive]
pub enum Fault {
    /// Bits 47 to 63 of an address differ, or the pages leave their half.
    NotCanonical,
    /// The address is no multiple of 2 MiB, or the frame none of 512.
    Misaligned,
    /// A page to be mapped is mapped: this is the address of the lowest.
    IsMapped(u64),
    /// The 2 MiB to be mapped by one entry have a table.
    HasTable,
    /// A page to be changed is not mapped: this is the address of the lowest.
    NotMapped(u64),
    /// A frame is not below the limit.
    PastLimit,
    /// A frame is one of the tables' area; after [`Tables::share_area`], only if users would reach it.
    InArea,
    /// Too few frames are left for the tables that are missing.
    NoFrames,
}

impl fmt::Display for Fault {
    fn fmt(&self, to: &mut fmt::Formatter<'_>) -> fmt::Result {
        match self {
            Fault::NotCanonical => to.write_str("the address is not canonical"),
            Fault::Misaligned => to.write_str("no multiple of 2 MiB"),
            Fault::IsMapped(page) => write!(to, "the page at {page:#x} is mapped already"),
            Fault::HasTable => to.write_str("the large page's slot has a table"),
            Fault::NotMapped(page) => write!(to, "the page at {page:#x} is not mapped"),
            Fault::PastLimit => to.write_str("the frame is past the limit"),
            Fault::InArea => to.write_str("the frame lies in the area of the tables"),
            Fault::NoFrames => to.write_str("no frames for the missing tables"),
        }
    }
}

impl core::error::Error for Fault {}

fn answer(code: u32, told: u64) -> Result<(), Fault> {
    match code {
        0 => Ok(()),
        1 => Err(Fault::NotCanonical),
        2 => Err(Fault::IsMapped(told)),
        3 => Err(Fault::PastLimit),
        4 => Err(Fault::InArea),
        5 => Err(Fault::NoFrames),
        6 => Err(Fault::NotMapped(told)),
        7 => Err(Fault::HasTable),
        _ => Err(Fault::Misaligned),
    }
}

/// The address of the page that has an address.
fn page_of(address: u64) -> u64 {
    address & !0xfff
}

/// AMD64 page tables in an area of frames that a kernel lends. Their pages lead to any frames below a limit, and two pages may
/// lead to one frame. No page that users reach leads into the area, and before [`Tables::share_area`] no page at all. A frame is given by its number, and an address names its whole page.
///
/// Each call says what has to be flushed on every processor that uses the tables.
pub struct Tables<'a> {
    room: UnsafeCell<Room>,
    words: PhantomData<&'a mut [u64]>,
}

// What it owns, the words of the area, is no thread's own.
unsafe impl Send for Tables<'_> {}

impl<'a> Tables<'a> {
    /// Page tables with no page, in the frames from `first` on, of which these are the words: 512 for each frame. The first frame
    /// is the root table. Pages lie in frames below `limit`.
    ///
    /// None where the words are not those of whole frames, or are none; where the area ends behind the limit; or where the limit
    /// is not below 2^40.
    pub fn new(words: &'a mut [u64], first: u64, limit: u64) -> Option<Self> {
        let frames = words.len() as u64 / 512;
        if words.is_empty() || words.len() % 512 != 0 || limit >= 1 << 40 || first.checked_add(frames)? > limit {
            return None;
        }
        if unsafe { limzhur_tables_room() } > TABLES_ROOM {
            return None;
        }
        let tables = Tables { room: UnsafeCell::new(Room([0; TABLES_ROOM])), words: PhantomData };
        unsafe { limzhur_tables_init(tables.room.get().cast(), words.as_mut_ptr(), words.len(), first, limit) };
        Some(tables)
    }

    fn handle(&self) -> TablesHandle {
        TablesHandle { room: self.room.get().cast::<c_void>() }
    }

    /// The frame of the root table. A processor whose CR3 has 4096 times it finds exactly the pages of the tables.
    pub fn root(&self) -> u64 {
        unsafe { limzhur_tables_root(&mut self.handle()) }
    }

    /// How many frames of the area are left for tables.
    pub fn left(&self) -> u64 {
        unsafe { limzhur_tables_left(&mut self.handle()) }
    }

    /// Where the page of the address leads.
    pub fn lookup(&self, address: u64) -> Option<Place> {
        let mut place = PlaceOfPage { frame: 0, write: false, user: false, fetch: false };
        let is_found = unsafe { limzhur_lookup(&mut self.handle(), address, &mut place) };
        let PlaceOfPage { frame, write, user, fetch } = place;
        is_found.then_some(Place { frame, rights: Rights { write, user, fetch } })
    }

    /// Where the page of the address leads, with all its flags.
    pub fn lookup_flags(&self, address: u64) -> Option<FlaggedPlace> {
        let mut place = crate::library::FlaggedPlace { frame: 0, flags: 0 };
        let is_found = unsafe { limzhur_lookup_flags(&mut self.handle(), address, &mut place) };
        let flags = Flags::from_bits(place.flags)?;
        is_found.then_some(FlaggedPlace { frame: place.frame, flags })
    }

    /// Lets pages that users do not reach lead into the area of the tables, from now on and for good: so a kernel may map all memory.
    pub fn share_area(&mut self) {
        unsafe { limzhur_share_area(&mut self.handle()) }
    }

    /// Maps the page of the address to the frame, with type 0 and not global. Nothing is to be flushed.
    pub fn map(&mut self, address: u64, frame: u64, rights: Rights) -> Result<(), Fault> {
        let Rights { write, user, fetch } = rights;
        answer(unsafe { limzhur_map(&mut self.handle(), address, frame, write, user, fetch) }, page_of(address))
    }

    /// Maps the page of the address to the frame, with these flags. Nothing is to be flushed.
    pub fn map_flags(&mut self, address: u64, frame: u64, flags: Flags) -> Result<(), Fault> {
        answer(unsafe { limzhur_map_flags(&mut self.handle(), address, frame, flags.bits()) }, page_of(address))
    }

    /// Ends the mapping of the page of the address, and answers its frame. The page is to be flushed.
    pub fn unmap(&mut self, address: u64) -> Result<u64, Fault> {
        let mut frame = 0;
        answer(unsafe { limzhur_unmap(&mut self.handle(), address, &mut frame) }, page_of(address))?;
        Ok(frame)
    }

    /// Gives the page of the address these rights. It keeps its type, and stays global or not. The page is to be flushed.
    pub fn protect(&mut self, address: u64, rights: Rights) -> Result<(), Fault> {
        let Rights { write, user, fetch } = rights;
        answer(unsafe { limzhur_protect(&mut self.handle(), address, write, user, fetch) }, page_of(address))
    }

    /// Gives the page of the address these flags, and no others. The page is to be flushed.
    pub fn protect_flags(&mut self, address: u64, flags: Flags) -> Result<(), Fault> {
        answer(unsafe { limzhur_protect_flags(&mut self.handle(), address, flags.bits()) }, page_of(address))
    }

    /// Maps the 2 MiB from the address on to the 512 frames from `frame` on, by one entry, with type 0 and not global. Nothing is to
    /// be flushed.
    pub fn map_large(&mut self, address: u64, frame: u64, rights: Rights) -> Result<(), Fault> {
        let Rights { write, user, fetch } = rights;
        answer(unsafe { limzhur_map_large(&mut self.handle(), address, frame, write, user, fetch) }, address)
    }

    /// Maps the 2 MiB from the address on to the 512 frames from `frame` on, by one entry, with these flags. Nothing is to be flushed.
    pub fn map_large_flags(&mut self, address: u64, frame: u64, flags: Flags) -> Result<(), Fault> {
        answer(unsafe { limzhur_map_large_flags(&mut self.handle(), address, frame, flags.bits()) }, address)
    }

    /// Ends the mapping of the 2 MiB from the address on, which one entry maps, and answers the first of their frames. They are to
    /// be flushed.
    pub fn unmap_large(&mut self, address: u64) -> Result<u64, Fault> {
        let mut frame = 0;
        answer(unsafe { limzhur_unmap_large(&mut self.handle(), address, &mut frame) }, address)?;
        Ok(frame)
    }

    /// Maps so many pages, from that of the address on, to frames in a row, with large pages wherever 2 MiB lie whole in them, have
    /// no table, and begin at frames that are a multiple of 512. Nothing is to be flushed.
    pub fn map_range(&mut self, address: u64, pages: u64, frame: u64, rights: Rights) -> Result<(), Fault> {
        let Rights { write, user, fetch } = rights;
        let mut told = 0;
        let code = unsafe { limzhur_map_range(&mut self.handle(), address, pages, frame, write, user, fetch, &mut told) };
        answer(code, told)
    }

    /// Maps so many pages, from that of the address on, as `map_range` does, with these flags.
    pub fn map_range_flags(&mut self, address: u64, pages: u64, frame: u64, flags: Flags) -> Result<(), Fault> {
        let mut told = 0;
        let code =
            unsafe { limzhur_map_range_flags(&mut self.handle(), address, pages, frame, flags.bits(), &mut told) };
        answer(code, told)
    }

    /// Ends the mapping of so many pages, from that of the address on. They are to be flushed. A large page that lies in part among
    /// them is first made of single ones, by a table in a frame of the area.
    pub fn unmap_range(&mut self, address: u64, pages: u64) -> Result<(), Fault> {
        let mut told = 0;
        answer(unsafe { limzhur_unmap_range(&mut self.handle(), address, pages, &mut told) }, told)
    }

    /// Gives so many pages, from that of the address on, these rights. Each keeps its type, and stays global or not. They are to be
    /// flushed. A large page that lies in part among
    /// them is first made of single ones, by a table in a frame of the area.
    pub fn protect_range(&mut self, address: u64, pages: u64, rights: Rights) -> Result<(), Fault> {
        let Rights { write, user, fetch } = rights;
        let mut told = 0;
        let code = unsafe { limzhur_protect_range(&mut self.handle(), address, pages, write, user, fetch, &mut told) };
        answer(code, told)
    }

    /// Gives so many pages, from that of the address on, these flags, and no others, as `protect_range` does.
    pub fn protect_range_flags(&mut self, address: u64, pages: u64, flags: Flags) -> Result<(), Fault> {
        let mut told = 0;
        let code =
            unsafe { limzhur_protect_range_flags(&mut self.handle(), address, pages, flags.bits(), &mut told) };
        answer(code, told)
    }
}
