//! The functions of the static library: `limzhur.h` and `limzhur_tables.h` say what each of them does, and what its caller keeps.
use core::ffi::c_void;

/// The bytes of room for a heap's state.
pub const ROOM: usize = 2048;

#[repr(C)]
pub struct Handle {
    pub room: *mut c_void,
}

#[repr(C)]
pub struct Stats {
    pub used: u64,
    pub blocks: u64,
}

/// The bytes of room for the state of page tables.
pub const TABLES_ROOM: usize = 128;

#[repr(C)]
pub struct TablesHandle {
    pub room: *mut c_void,
}

#[repr(C)]
pub struct PlaceOfPage {
    pub frame: u64,
    pub write: bool,
    pub user: bool,
    pub fetch: bool,
}

#[repr(C)]
pub struct FlaggedPlace {
    pub frame: u64,
    pub flags: u32,
}

#[link(name = "limzhur_c", kind = "static")]
extern "C" {
    pub fn limzhur_room() -> usize;
    pub fn limzhur_init(room: *mut c_void, memory: *mut u64, count: usize, address: u64);
    pub fn limzhur_set_granularity(heap: *mut Handle, bytes: u64) -> bool;
    pub fn limzhur_malloc(heap: *mut Handle, size: u64, align: u64) -> u64;
    pub fn limzhur_calloc(heap: *mut Handle, size: u64, align: u64) -> u64;
    pub fn limzhur_realloc(heap: *mut Handle, address: u64, size: u64) -> u64;
    pub fn limzhur_free(heap: *mut Handle, address: u64) -> bool;
    pub fn limzhur_trim(heap: *mut Handle, pad: u64) -> bool;
    pub fn limzhur_usable_size(heap: *mut Handle, address: u64) -> u64;
    pub fn limzhur_stats(heap: *mut Handle, stats: *mut Stats);

    pub fn limzhur_tables_room() -> usize;
    pub fn limzhur_tables_init(room: *mut c_void, words: *mut u64, count: usize, first: u64, limit: u64);
    pub fn limzhur_tables_root(tables: *mut TablesHandle) -> u64;
    pub fn limzhur_tables_left(tables: *mut TablesHandle) -> u64;
    pub fn limzhur_share_area(tables: *mut TablesHandle);
    pub fn limzhur_lookup(tables: *mut TablesHandle, address: u64, place: *mut PlaceOfPage) -> bool;
    pub fn limzhur_map(tables: *mut TablesHandle, address: u64, frame: u64, write: bool, user: bool, fetch: bool) -> u32;
    pub fn limzhur_lookup_flags(tables: *mut TablesHandle, address: u64, place: *mut FlaggedPlace) -> bool;
    pub fn limzhur_map_flags(tables: *mut TablesHandle, address: u64, frame: u64, flags: u32) -> u32;
    pub fn limzhur_map_large_flags(tables: *mut TablesHandle, address: u64, frame: u64, flags: u32) -> u32;
    pub fn limzhur_protect_flags(tables: *mut TablesHandle, address: u64, flags: u32) -> u32;
    pub fn limzhur_map_range_flags(
        tables: *mut TablesHandle,
        address: u64,
        pages: u64,
        frame: u64,
        flags: u32,
        told: *mut u64,
    ) -> u32;
    pub fn limzhur_protect_range_flags(
        tables: *mut TablesHandle,
        address: u64,
        pages: u64,
        flags: u32,
        told: *mut u64,
    ) -> u32;
    pub fn limzhur_unmap(tables: *mut TablesHandle, address: u64, frame: *mut u64) -> u32;
    pub fn limzhur_protect(tables: *mut TablesHandle, address: u64, write: bool, user: bool, fetch: bool) -> u32;
    pub fn limzhur_map_large(tables: *mut TablesHandle, address: u64, frame: u64, write: bool, user: bool, fetch: bool) -> u32;
    pub fn limzhur_unmap_large(tables: *mut TablesHandle, address: u64, frame: *mut u64) -> u32;
    pub fn limzhur_map_range(
        tables: *mut TablesHandle,
        address: u64,
        pages: u64,
        frame: u64,
        write: bool,
        user: bool,
        fetch: bool,
        told: *mut u64,
    ) -> u32;
    pub fn limzhur_unmap_range(tables: *mut TablesHandle, address: u64, pages: u64, told: *mut u64) -> u32;
    pub fn limzhur_protect_range(
        tables: *mut TablesHandle,
        address: u64,
        pages: u64,
        write: bool,
        user: bool,
        fetch: bool,
        told: *mut u64,
    ) -> u32;
}
