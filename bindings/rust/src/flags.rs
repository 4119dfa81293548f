//! What a page grants, its memory type, and whether it is global, in one word.
use core::fmt;
use core::ops::{BitOr, BitOrAssign};

/// What a page grants, its memory type, and whether it is global. Reads are granted at all times.
///
/// The type is one of the first four of the processor's table PAT. After a reset these are 0 write-back, 1 write-through, 2
/// uncached unless the range's type says otherwise, and 3 uncached.
#[derive(Clone, Copy, PartialEq, Eq, Hash, Default)]
pub struct Flags(u32);

impl Flags {
    /// Writes are granted.
    pub const WRITE: Flags = Flags(1);
    /// Accesses at user level are granted.
    pub const USER: Flags = Flags(2);
    /// Instruction fetches are granted.
    pub const FETCH: Flags = Flags(4);
    /// Bit 3 of the entry (PWT): the type counts 1.
    pub const WRITE_THROUGH: Flags = Flags(8);
    /// Bit 4 of the entry (PCD): the type counts 2.
    pub const NO_CACHE: Flags = Flags(16);
    /// A new CR3 leaves the page's translations.
    pub const GLOBAL: Flags = Flags(32);

    const NAMES: [(Flags, &'static str); 6] = [
        (Flags::WRITE, "WRITE"),
        (Flags::USER, "USER"),
        (Flags::FETCH, "FETCH"),
        (Flags::WRITE_THROUGH, "WRITE_THROUGH"),
        (Flags::NO_CACHE, "NO_CACHE"),
        (Flags::GLOBAL, "GLOBAL"),
    ];

    /// No flag: the page grants reads to the kernel.
    pub const fn empty() -> Flags {
        Flags(0)
    }

    /// Every flag.
    pub const fn all() -> Flags {
        Flags(63)
    }

    /// The flags of a type. Only the two low bits of the number count.
    pub const fn of_type(number: u8) -> Flags {
        Flags((number as u32 & 3) << 3)
    }

    /// The type of the page.
    pub const fn memory_type(self) -> u8 {
        (self.0 >> 3 & 3) as u8
    }

    /// The flags with these bits, if all bits are known.
    pub const fn from_bits(bits: u32) -> Option<Flags> {
        if bits <= Flags::all().0 { Some(Flags(bits)) } else { None }
    }

    /// The word that the functions for C take.
    pub const fn bits(self) -> u32 {
        self.0
    }

    /// Whether all of the other's flags are among these.
    pub const fn contains(self, other: Flags) -> bool {
        self.0 & other.0 == other.0
    }

    /// The flags of both.
    pub const fn union(self, other: Flags) -> Flags {
        Flags(self.0 | other.0)
    }

    /// These flags without the other's.
    pub const fn difference(self, other: Flags) -> Flags {
        Flags(self.0 & !other.0)
    }
}

impl BitOr for Flags {
    type Output = Flags;

    fn bitor(self, other: Flags) -> Flags {
        self.union(other)
    }
}

impl BitOrAssign for Flags {
    fn bitor_assign(&mut self, other: Flags) {
        *self = self.union(other);
    }
}

impl fmt::Debug for Flags {
    fn fmt(&self, to: &mut fmt::Formatter<'_>) -> fmt::Result {
        let mut names = Flags::NAMES.iter().filter(|(flag, _)| self.contains(*flag)).map(|(_, name)| name);
        write!(to, "Flags({}", names.next().unwrap_or(&"0x0"))?;
        names.try_for_each(|name| write!(to, " | {name}"))?;
        to.write_str(")")
    }
}
