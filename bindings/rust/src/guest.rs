//! A processor's walk of a guest's page tables, for emulators, virtual machine monitors and debuggers.
//!
//! [`translate`] walks a memory that is a slice. [`walk`] asks for each entry, so the memory may lie in parts, have holes, or be
//! written to by others meanwhile:
//!
//! ```
//! use limzhur::guest::{walk, Access, Mode, Processor};
//! use std::sync::atomic::{AtomicU64, Ordering};
//!
//! let memory: Vec<AtomicU64> = (0..5 * 512).map(|_| AtomicU64::new(0)).collect();
//! for (table, entry) in [(1, 0x2007), (2, 0x3007), (3, 0x4007), (4, 0x7005)] {
//!     memory[512 * table].store(entry, Ordering::Relaxed);
//! }
//! let read = |at: u64| memory.get(at as usize / 8).map_or(0, |entry| entry.load(Ordering::Acquire));
//! let processor = Processor { cr3: 0x1000, width: 40, mode: Mode::WP | Mode::NXE };
//! let walked = walk(&processor, 0x123, read);
//! assert_eq!(walked.access(Access::Read, true).unwrap().physical, 0x7123);
//! assert!(walked.access(Access::Write, true).is_err());
//! ```
//!
//! What the proofs take of this file: it hands the library slices that nobody writes to meanwhile, and walks that the library
//! wrote; the bits of a mode, of an access and of an answer are those of `limzhur_guest.h`.
use core::fmt;
use core::ops::BitOr;

#[repr(C)]
#[derive(Clone, Copy, Debug)]
struct RawWalk {
    address: u64,
    frame: u64,
    mode: u32,
    width: u8,
    step: u8,
    told: u8,
    write: bool,
    user: bool,
    fetch: bool,
    through: bool,
    uncached: bool,
    global: bool,
    accessed: bool,
    dirty: bool,
}

#[link(name = "limzhur_guest", kind = "static")]
extern "C" {
    fn limzhur_translate(
        words: *const u64,
        count: usize,
        cr3: u64,
        address: u64,
        width: u8,
        mode: u32,
        access: u32,
        place: *mut Place,
    ) -> u32;
    fn limzhur_walk_begin(walk: *mut RawWalk, cr3: u64, address: u64, width: u8, mode: u32) -> bool;
    fn limzhur_walk_entry(walk: *const RawWalk) -> u64;
    fn limzhur_walk_next(walk: *mut RawWalk, entry: u64) -> u32;
    fn limzhur_walk_access(walk: *const RawWalk, access: u32, place: *mut Place) -> u32;
    fn limzhur_walk_marked(entry: u64, step: u8, write: bool) -> u64;
}

/// What the processor is set to, as far as it matters to a walk.
#[derive(Clone, Copy, PartialEq, Eq, Hash, Debug, Default)]
pub struct Mode(u32);

impl Mode {
    /// CR0.WP: a read-only page denies the supervisor's writes too.
    pub const WP: Mode = Mode(1);
    /// EFER.NXE: bit 63 of an entry denies fetches. Without it the bit is reserved.
    pub const NXE: Mode = Mode(2);
    /// CR4.SMEP: the supervisor fetches no instruction from a page of the user.
    pub const SMEP: Mode = Mode(4);
    /// CR4.SMAP: the supervisor neither reads nor writes a page of the user, but with RFLAGS.AC.
    pub const SMAP: Mode = Mode(8);
    /// RFLAGS.AC. Leave it out for an access that the processor makes by itself, as to a descriptor table.
    pub const AC: Mode = Mode(16);
    /// Bit 8 of an entry of the root table is ignored, as Intel's processors have it. AMD's manual has it reserved.
    pub const IGNORES_BIT_8: Mode = Mode(32);

    /// The mode that the registers are in, with bit 8 of root entries reserved.
    pub const fn of(cr0: u64, cr4: u64, efer: u64, rflags: u64) -> Mode {
        let (wp, nxe, ac) = (cr0 >> 16 & 1, efer >> 11 & 1, rflags >> 18 & 1);
        let (smep, smap) = (cr4 >> 20 & 1, cr4 >> 21 & 1);
        Mode((wp | nxe << 1 | smep << 2 | smap << 3 | ac << 4) as u32)
    }

    /// Whether it has all of the other's.
    pub const fn contains(self, other: Mode) -> bool {
        self.0 & other.0 == other.0
    }

    /// The word that the functions for C take.
    pub const fn bits(self) -> u32 {
        self.0
    }
}

impl BitOr for Mode {
    type Output = Mode;

    fn bitor(self, other: Mode) -> Mode {
        Mode(self.0 | other.0)
    }
}

/// What a walk takes of a processor.
#[derive(Clone, Copy, PartialEq, Eq, Debug)]
pub struct Processor {
    /// Bits 12 to 51 name the root table.
    pub cr3: u64,
    /// How many bits a physical address has. From that one on to bit 51 those of an entry are reserved.
    pub width: u8,
    /// What it is set to.
    pub mode: Mode,
}

/// What an access does with a byte.
#[derive(Clone, Copy, PartialEq, Eq, Debug)]
pub enum Access {
    /// It reads the byte.
    Read,
    /// It writes to the byte.
    Write,
    /// It fetches an instruction there.
    Fetch,
}

impl Access {
    fn bits(self, user: bool) -> u32 {
        let kind = match self {
            Access::Read => 0,
            Access::Write => 2,
            Access::Fetch => 16,
        };
        kind | (user as u32) << 2
    }
}

/// Where an access leads that is granted.
#[repr(C)]
#[derive(Clone, Copy, PartialEq, Eq, Debug, Default)]
pub struct Place {
    /// The physical address of the byte.
    pub physical: u64,
    /// How many bytes the page has: 4096, 2 MiB or 1 GiB.
    pub size: u64,
    /// All entries on the way grant writes,
    pub write: bool,
    /// accesses at user level,
    pub user: bool,
    /// and fetches, whatever the mode makes of it.
    pub fetch: bool,
    /// The entry that maps the page has PWT (bit 3),
    pub through: bool,
    /// PCD (bit 4),
    pub uncached: bool,
    /// and is global (bit 8). PAT is not told.
    pub global: bool,
    /// The access sets the accessed bit of an entry on the way, which lacks it.
    pub sets_accessed: bool,
    /// The access writes, and sets the dirty bit of the page's entry, which lacks it.
    pub sets_dirty: bool,
}

/// Why an access is denied.
#[derive(Clone, Copy, PartialEq, Eq, Debug)]
pub enum Fault {
    /// A page fault with this code.
    Page(u32),
    /// Bits 47 to 63 of the address differ: the processor raises #GP or #SS.
    NotCanonical,
}

impl fmt::Display for Fault {
    fn fmt(&self, to: &mut fmt::Formatter<'_>) -> fmt::Result {
        match self {
            Fault::Page(code) => write!(to, "a page fault with code {code:#x}"),
            Fault::NotCanonical => to.write_str("the address is not canonical"),
        }
    }
}

impl core::error::Error for Fault {}

fn answer(code: u32, place: Place) -> Result<Place, Fault> {
    match code {
        0 => Ok(place),
        _ if code >> 31 == 1 => Err(Fault::Page(code & 0x7fff_ffff)),
        _ => Err(Fault::NotCanonical),
    }
}

/// What an access to the byte at an address gives, over a memory that begins at physical address 0. What is past its end reads as 0.
pub fn translate(words: &[u64], processor: &Processor, address: u64, access: Access, user: bool) -> Result<Place, Fault> {
    let Processor { cr3, width, mode } = *processor;
    let (words, count, mut place) = (words.as_ptr(), words.len(), Place::default());
    let code = unsafe { limzhur_translate(words, count, cr3, address, width, mode.0, access.bits(user), &mut place) };
    answer(code, place)
}

/// How a walk ended. Steps count from 0, which is that of the root's entry.
#[derive(Clone, Copy, PartialEq, Eq, Debug)]
pub enum End {
    /// At the page that the entry of this step maps.
    Page(u8),
    /// At an entry that is not present.
    NotPresent(u8),
    /// At an entry that has a bit that is reserved.
    Reserved(u8),
    /// It did not begin: the address is not canonical.
    NotCanonical,
}

/// A walk that has ended.
#[derive(Clone, Copy, Debug)]
pub struct Walk(RawWalk);

impl Walk {
    /// What an access gives. It may be asked for several.
    pub fn access(&self, access: Access, user: bool) -> Result<Place, Fault> {
        let mut place = Place::default();
        let code = unsafe { limzhur_walk_access(&self.0, access.bits(user), &mut place) };
        answer(code, place)
    }

    /// How it ended.
    pub fn end(&self) -> End {
        match self.0.told {
            1 => End::Page(self.0.step),
            2 => End::NotPresent(self.0.step),
            3 => End::Reserved(self.0.step),
            _ => End::NotCanonical,
        }
    }
}

/// The walk for an address, whose entries `read` gives: at most four, each by its physical address. If others may write to them,
/// read each at once, as an `AtomicU64`.
pub fn walk(processor: &Processor, address: u64, mut read: impl FnMut(u64) -> u64) -> Walk {
    let Processor { cr3, width, mode } = *processor;
    let mut raw = RawWalk {
        address,
        frame: 0,
        mode: 0,
        width,
        step: 0,
        told: 0,
        write: false,
        user: false,
        fetch: false,
        through: false,
        uncached: false,
        global: false,
        accessed: false,
        dirty: false,
    };
    let mut goes_on = unsafe { limzhur_walk_begin(&mut raw, cr3, address, width, mode.0) };
    while goes_on {
        let entry = read(unsafe { limzhur_walk_entry(&raw) });
        goes_on = unsafe { limzhur_walk_next(&mut raw, entry) } == 0;
    }
    Walk(raw)
}

/// What the processor writes back to the entry of a step, after an access by it that is granted: the entry with its accessed bit, and
/// with its dirty bit if the access writes and the entry maps the page.
pub fn marked(entry: u64, step: u8, write: bool) -> u64 {
    unsafe { limzhur_walk_marked(entry, step, write) }
}
