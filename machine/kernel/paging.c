#include "meanings.h"
#include "paging.h"
#include <limzhur_tables.h>

#define TABLE_FRAMES 64
#define LIMIT (1ull << 20)                      /* frames of pages lie below 4 GiB */
#define SHARED 0xffffa00000000000ull            /* two pages that lead to one frame */
#define LARGE 0xffffb00000000000ull             /* a large page, */
#define LARGE_FRAME 0x8000                      /* to 2 MiB of memory that nothing else uses: from 128 MiB on */
#define RANGE 0xffffc00000001000ull             /* a range of pages that has a large page in it, */
#define RANGE_PAGES 1200                        /* to the same 2 MiB and those after them */
#define DEVICES 0xffffd00000000000ull           /* a page of a device: */
#define DEVICE 0xfee00000ull                    /* the interrupt controller of the processor, */
#define DEVICE_VERSION 12                       /* whose word at 48 has its version: 0x14 and above; */
#define UNCACHED (LIMZHUR_WRITE | LIMZHUR_TYPE(3))
#define SCREEN 0xffffe00000000000ull            /* 4 MiB of a picture, */
#define SCREEN_FRAME 0xe0000                    /* from 3.5 GiB on, */
#define COMBINED (LIMZHUR_WRITE | LIMZHUR_TYPE(1))  /* of the type that start.S makes write-combining in PAT */

extern char load_start[], kernel_end[];

static _Alignas(8) unsigned char room[LIMZHUR_TABLES_ROOM];
static struct limzhur_tables tables = {room};
static const uint64_t *words;
static uint64_t own_tables, first_frame, next_frame, end_frame, pages;

/* This flushes all translations but those of global pages. */
static void set_cr3(uint64_t value) { __asm__ volatile("mov %0, %%cr3" ::"r"(value) : "memory"); }

/* What a call names is flushed after it: nothing else that the processor keeps is wrong then. */
static void flush(uint64_t address, uint64_t count) {
    for (uint64_t n = 0; n < count; n++) __asm__ volatile("invlpg (%0)" ::"r"(address + 4096 * n) : "memory");
}

/* The library writes the tables through the direct map, which they have themselves: no page that users reach leads to the tables, and
 * the library sees to it. So no call needs another CR3. */
static uint32_t map(uint64_t address, uint64_t frame, bool write, bool fetch) {
    uint32_t answer = limzhur_map(&tables, address, frame, write, false, fetch);
    pages += answer == LIMZHUR_DONE;
    return answer;
}

static uint32_t map_range(uint64_t address, uint64_t count, uint64_t frame, bool write, bool fetch) {
    uint64_t told;
    uint32_t answer = limzhur_map_range(&tables, address, count, frame, write, false, fetch, &told);
    if (answer == LIMZHUR_DONE) pages += count;
    return answer;
}

static uint32_t map_flags(uint64_t address, uint64_t count, uint64_t frame, uint32_t flags) {
    uint64_t told;
    uint32_t answer = limzhur_map_range_flags(&tables, address, count, frame, flags, &told);
    if (answer == LIMZHUR_DONE) pages += count;
    return answer;
}

static uint32_t unmap_range(uint64_t address, uint64_t count, uint64_t *told) {
    uint32_t answer = limzhur_unmap_range(&tables, address, count, told);
    if (answer == LIMZHUR_DONE) pages -= count, flush(address, count);
    return answer;
}

static uint32_t protect_range(uint64_t address, uint64_t count, bool write, uint64_t *told) {
    uint32_t answer = limzhur_protect_range(&tables, address, count, write, false, false, told);
    if (answer == LIMZHUR_DONE) flush(address, count);
    return answer;
}

static uint32_t unmap(uint64_t address, uint64_t *frame) {
    uint32_t answer = limzhur_unmap(&tables, address, frame);
    pages -= answer == LIMZHUR_DONE;
    flush(address, 1);
    return answer;
}

static uint32_t protect(uint64_t address, bool write) {
    uint32_t answer = limzhur_protect(&tables, address, write, false, false);
    flush(address, 1);
    return answer;
}

/* A frame that no page leads to, cleared. */
static uint64_t take_frame(void) {
    if (next_frame == end_frame) leave(4);
    memset((void *)(DIRECT + 4096 * next_frame), 0, 4096);
    return next_frame++;
}

/* What the handler of page faults asks: whether the access can be tried again. It may have interrupted the library, which may use
 * vector registers, and calls it itself. */
static bool map_on_demand(uint64_t address, uint64_t code) {
    static _Alignas(16) unsigned char registers[512];
    if (code & PROTECTION_VIOLATION || address < HEAP || address >= HEAP + HEAP_BYTES) return false;
    __asm__ volatile("fxsave64 %0" : "=m"(registers));
    uint32_t answer = map(address, take_frame(), true, false);
    __asm__ volatile("fxrstor64 %0" ::"m"(registers));
    return answer == LIMZHUR_DONE;
}

void begin_paging(struct memory memory) {
    first_frame = memory.from / 4096;
    next_frame = first_frame + TABLE_FRAMES;
    end_frame = memory.to / 4096;
    words = (const uint64_t *)(DIRECT + memory.from);
    if (next_frame >= end_frame || limzhur_tables_room() > sizeof room) leave(3);
    limzhur_tables_init(room, (uint64_t *)words, 512 * TABLE_FRAMES, first_frame, LIMIT);
    uint64_t at = (uint64_t)load_start, count = ((uint64_t)kernel_end - KERNEL - at + 4095) / 4096;
    /* The first: the processor finds its segments there. */
    if (map_range(at, count, at / 4096, false, false)) leave(3);
    /* The kernel is the same in all processes' tables, so its translations may outlive a new CR3. */
    if (map_flags(KERNEL + at, count, at / 4096, LIMZHUR_WRITE | LIMZHUR_FETCH | LIMZHUR_GLOBAL)) leave(3);
    if (map_flags(DEVICES, 1, DEVICE / 4096, UNCACHED)) leave(3);
    /* All memory, with the frames of the tables. */
    limzhur_share_area(&tables);
    if (map_flags(DIRECT, memory.to / 4096, 0, LIMZHUR_WRITE | LIMZHUR_GLOBAL)) leave(3);
    own_tables = 4096 * limzhur_tables_root(&tables);
    page_fault_is_met = map_on_demand;
    set_cr3(own_tables);
}

static uint64_t wrong;

static void wants(bool good) { wrong += !good; }

/* Whether a write to the address faults, with this code. */
static bool faults(uint64_t address, uint64_t wanted) {
    uint64_t code, fault_address;
    return !try_to_write(address, &code, &fault_address) && code == wanted && fault_address == address;
}

static void take_rights(void) {
    wants(protect(HEAP, false) == LIMZHUR_DONE);
    wants(faults(HEAP, PROTECTION_VIOLATION | CAUSED_BY_WRITE));
    wants(protect(HEAP, true) == LIMZHUR_DONE);
    wants(*(volatile uint64_t *)HEAP + 1 != 0 && !faults(HEAP + 8, 0));
}

static void share_a_frame(void) {
    uint64_t frame = take_frame(), gone = 0;
    volatile uint64_t *one = (uint64_t *)SHARED, *other = (uint64_t *)(SHARED + (1ull << 30));
    wants(map(SHARED, frame, true, false) == LIMZHUR_DONE);
    wants(map(SHARED + (1ull << 30), frame, false, false) == LIMZHUR_DONE);
    *one = 12345;
    wants(*other == 12345);
    wants(faults((uint64_t)other, PROTECTION_VIOLATION | CAUSED_BY_WRITE));
    wants(unmap((uint64_t)other, &gone) == LIMZHUR_DONE && gone == frame);
    wants(faults((uint64_t)other, CAUSED_BY_WRITE) && *one == 12345);
}

static uint32_t map_large(uint64_t address, uint64_t frame) {
    uint32_t answer = limzhur_map_large(&tables, address, frame, true, false, false);
    if (answer == LIMZHUR_DONE) pages += 512;
    return answer;
}

static uint32_t unmap_large(uint64_t address, uint64_t *frame) {
    uint32_t answer = limzhur_unmap_large(&tables, address, frame);
    if (answer == LIMZHUR_DONE) pages -= 512, flush(address, 512);
    return answer;
}

/* A page of 4 KiB at the last frame of a large one shows the same bytes. The large page stays for the walk. */
static void use_a_large_page(void) {
    volatile uint64_t *last = (uint64_t *)(LARGE + (511 << 12)), *same = (uint64_t *)(SHARED + 8192);
    uint64_t gone = 0;
    wants(map_large(LARGE, LARGE_FRAME) == LIMZHUR_DONE && map_large(LARGE, LARGE_FRAME) == LIMZHUR_IS_MAPPED);
    wants(map(SHARED + 8192, LARGE_FRAME + 511, false, false) == LIMZHUR_DONE);
    *last = 54321;
    wants(*same == 54321);
    wants(unmap_large(LARGE, &gone) == LIMZHUR_DONE && gone == LARGE_FRAME);
    wants(faults(LARGE + (511 << 12), CAUSED_BY_WRITE));
    wants(map_large(LARGE, LARGE_FRAME) == LIMZHUR_DONE && *last == 54321);
}

static uint64_t tables_left(void) { return limzhur_tables_left(&tables); }

/* One page of a large one is changed. It takes a frame for the table of its 512 pages, and the others stay. */
static void split_a_large_page(void) {
    volatile uint64_t *last = (uint64_t *)(LARGE + (511 << 12));
    uint64_t left = tables_left(), gone = 0;
    wants(protect(LARGE, false) == LIMZHUR_DONE && tables_left() == left - 1);
    wants(faults(LARGE, PROTECTION_VIOLATION | CAUSED_BY_WRITE) && *last == 54321);
    *last = 12345;
    wants(unmap(LARGE + 4096, &gone) == LIMZHUR_DONE && gone == LARGE_FRAME + 1 && tables_left() == left - 1);
    wants(faults(LARGE + 4096, CAUSED_BY_WRITE) && !faults(LARGE + 8192, 0) && *last == 12345);
}

/* A range with a page before and after its large page, which leads to the same frames as other pages. */
static void use_a_range(void) {
    const uint64_t from = LARGE_FRAME + 1, count = RANGE_PAGES, left = tables_left();
    uint64_t told = 0;
    wants(map_range(RANGE, count, from, true, false) == LIMZHUR_DONE);
    wants(left - tables_left() == 4);           /* the upper two, and two of three slots: the middle one is large */
    for (uint64_t n = 0; n < count; n++) *(volatile uint64_t *)(RANGE + 4096 * n) = n;
    for (uint64_t n = 0; n < count; n++) wants(*(volatile uint64_t *)(RANGE + 4096 * n) == n);
    wants(*(volatile uint64_t *)(LARGE + (511 << 12)) == 510);
    wants(protect_range(RANGE + 4096 * 100, 600, false, &told) == LIMZHUR_DONE);
    wants(!faults(RANGE + 4096 * 99, 0) && faults(RANGE + 4096 * 100, PROTECTION_VIOLATION | CAUSED_BY_WRITE));
    wants(faults(RANGE + 4096 * 699, PROTECTION_VIOLATION | CAUSED_BY_WRITE) && !faults(RANGE + 4096 * 700, 0));
    wants(map_range(RANGE - 4096, 2, from, true, false) == LIMZHUR_IS_MAPPED && faults(RANGE - 4096, CAUSED_BY_WRITE));
    wants(unmap_range(RANGE, count + 1, &told) == LIMZHUR_NOT_MAPPED && told == RANGE + 4096 * count);
    wants(unmap_range(RANGE + 4096, count - 2, &told) == LIMZHUR_DONE);
    wants(faults(RANGE + 4096, CAUSED_BY_WRITE) && faults(RANGE + 4096 * (count - 2), CAUSED_BY_WRITE));
    wants(!faults(RANGE, 0) && !faults(RANGE + 4096 * (count - 1), 0));
}

static void use_a_device(void) { wants((((volatile uint32_t *)DEVICES)[DEVICE_VERSION] & 0xff) >= 0x14); }

/* The entry of the page, by a walk over the raw words. */
static uint64_t entry_of(uint64_t address) {
    uint64_t frame = limzhur_tables_root(&tables), entry = 0;
    for (int shift = 39; shift >= 12; shift -= 9) {
        entry = words[512 * (frame - first_frame) + (address >> shift & 511)];
        if (!(entry & 1) || (shift == 21 && entry & 0x80)) return entry;
        frame = (entry & 0xffffffffff000) / 4096;
    }
    return entry;
}

/* Types are in the raw entries: bits 3 and 4. They stay if rights are taken away, and if a large page is split. */
static void use_types(void) {
    uint64_t told = 0;
    wants(map_flags(SCREEN, 1024, SCREEN_FRAME, COMBINED) == LIMZHUR_DONE);
    wants((entry_of(DEVICES) & 0x118) == 0x18 && (entry_of(SCREEN) & 0x198) == 0x88 && (entry_of(SCREEN + (2 << 20)) & 0x198) == 0x88);
    wants(protect_range(SCREEN + 4096, 1, false, &told) == LIMZHUR_DONE);
    wants((entry_of(SCREEN) & 0x19a) == 0xa && (entry_of(SCREEN + 4096) & 0x19a) == 8 && (entry_of(SCREEN + (1 << 20)) & 0x19a) == 0xa);
    wants((entry_of(KERNEL + (uint64_t)load_start) & 0x100) && (entry_of(DIRECT) & 0x100) && !(entry_of(HEAP) & 0x100));
    wants(limzhur_map_flags(&tables, SHARED + 12288, next_frame, 64) == LIMZHUR_BAD_FLAGS);
}

static void be_refused(void) {
    uint64_t gone;
    wants(map(HEAP, next_frame, true, false) == LIMZHUR_IS_MAPPED);
    uint64_t told = 0, area = DIRECT + 4096 * first_frame;
    wants(limzhur_map(&tables, SHARED + 4096, first_frame + 1, false, true, false) == LIMZHUR_IN_AREA);
    wants(limzhur_protect(&tables, area, false, true, false) == LIMZHUR_IN_AREA);
    wants(limzhur_protect_range(&tables, area - 4096, 2, false, true, false, &told) == LIMZHUR_IN_AREA && told == area);
    wants(map(SHARED + 4096, LIMIT, true, false) == LIMZHUR_PAST_LIMIT);
    wants(map(1ull << 47, next_frame, true, false) == LIMZHUR_NOT_CANONICAL);
    wants(unmap(SHARED + 4096, &gone) == LIMZHUR_NOT_MAPPED);
    wants(protect(SHARED + 4096, true) == LIMZHUR_NOT_MAPPED);
}

/* Whether the library says of the page what its entry says, and no entry on the way takes rights away. */
static bool is_told(uint64_t address, uint64_t entry, uint64_t index) {
    struct limzhur_flagged_place place;
    uint32_t rights = (entry & 2 ? LIMZHUR_WRITE : 0) | (entry & 4 ? LIMZHUR_USER : 0) | (entry >> 63 ? 0 : LIMZHUR_FETCH);
    return limzhur_lookup_flags(&tables, address, &place) && place.frame == (entry & 0xffffffffff000) / 4096 + index
        && place.flags == (rights | LIMZHUR_TYPE(entry >> 3 & 3) | (entry & 256 ? LIMZHUR_GLOBAL : 0));
}

/* A line for a page: its address, where it leads, and what the library says that it grants besides reads. */
static void say_page(uint64_t address) {
    struct limzhur_place place = {0};
    wants(limzhur_lookup(&tables, address, &place));
    say("page ");
    say_number(address, 16);
    say(" ");
    say_number(4096 * place.frame, 16);
    say(place.write ? " w" : " -");
    say(place.user ? "u" : "-");
    say(place.fetch ? "x\n" : "-\n");
}

/* A line for each word of the tables that is not 0, by its address. */
static void say_words(void) {
    for (uint64_t n = 0; n < 512 * TABLE_FRAMES; n++) {
        if (!words[n]) continue;
        say("word ");
        say_number(4096 * first_frame + 8 * n, 16);
        say(" ");
        say_number(words[n], 16);
        say("\n");
    }
    say("root ");
    say_number(own_tables, 16);
    say("\n");
}

/* The pages of a table, each beside what the library says. A processor that used the tables has changed no entry: each has its
 * accessed bit, and that of a page its dirty bit, since they were written. */
static uint64_t walk(uint64_t frame, uint64_t address, int shift) {
    uint64_t found = 0;
    for (uint64_t index = 0; index < 512; index++) {
        uint64_t entry = words[512 * (frame - first_frame) + index], page = address + (index << shift);
        if (shift == 39 && index >= 256) page |= 0xffff000000000000;
        if (!(entry & 1)) continue;
        if (shift > 12 && !(entry & 0x80)) {
            found += walk((entry & 0xffffffffff000) / 4096, page, shift - 9);
            continue;
        }
        wants(shift <= 21 && (entry & 0x60) == 0x60);
        for (uint64_t part = 0; part < 1ull << (shift - 12); part++, found++) {
            wants(is_told(page + (part << 12), entry, part));
            say_page(page + (part << 12));
        }
    }
    return found;
}

uint64_t look_at_paging(void) {
    take_rights();
    share_a_frame();
    use_a_large_page();
    split_a_large_page();
    use_a_range();
    use_a_device();
    use_types();
    be_refused();
    say_words();
    wants(walk(limzhur_tables_root(&tables), 0, 39) == pages);
    return wrong;
}

uint64_t mapped_pages(void) { return pages; }

uint64_t made_tables(void) { return TABLE_FRAMES - tables_left(); }
