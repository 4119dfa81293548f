/*
 * Proved page tables, for C: AMD64's four levels, in frames that the caller gives. Freestanding: they need no C library.
 *
 * The tables lie in an area of frames, which is theirs for good. Their pages lead to any frames below a limit: memory
 * that the kernel uses as it likes, or devices. Two pages may lead to one frame. No page that users reach ever leads into the
 * area. After limzhur_share_area a page that only the kernel reaches may: so a kernel can map all memory once, and call these
 * functions without other tables.
 *
 * Every function is proved under the conditions that stand here as "C keeps". Nothing checks C, so C has to keep them:
 *   - The room and the words of the area are the tables' from limzhur_tables_init on. C neither writes nor reads them but
 *     by these calls. A processor may walk them at any time: each entry has its accessed bit, and each entry of a page its
 *     dirty bit, so no walk writes to them.
 *   - If two pages lead to one frame, they have one type, unless the kernel knows what the processor does then (AMD64 volume 2,
 *     "Memory System"): nothing here compares the types of pages.
 *   - A handle leads to one set of tables, and each set has one handle. No two calls run at the same time. There is no lock
 *     here; with a lock of its own the caller may call from any thread.
 *
 * What the tables mean is where each page leads. A processor whose CR3 has the root's address finds just that, whatever
 * else its memory holds: that is proved over the words of the entries, for a processor's own walk with its reserved bits.
 *
 * What has to be flushed (INVLPG, on each processor that uses the tables): nothing after limzhur_map, limzhur_map_large and
 * limzhur_map_range; the page after limzhur_unmap and limzhur_protect; the 2 MiB after limzhur_unmap_large; the pages of the range
 * after limzhur_unmap_range and limzhur_protect_range. Give a frame another use only after that. Every other page leads where it led.
 *
 * A new CR3 serves in place of INVLPG if none of these pages was global before the call: it leaves the translations of global pages.
 *
 * A large page maps 2 MiB by one entry. If a call changes a part of it, the call splits it first: a table in one of the area's
 * frames maps its 512 pages as they were, with their type. Tables stay for good, even if no page is left in them.
 *
 * What the processor needs: EFER.NXE (bit 11), since a page without the right to fetch has bit 63 in its entry; and CR0.WP
 * (bit 16), if the right to write is to mean something to the kernel itself. While a call runs the words of the area have to
 * be mapped with the right to write, by whatever tables the processor is on then. CR4.PGE (bit 7), if pages are to be global. The
 * types are those of the processor's table PAT, of which pages here have the first four.
 *
 * A call takes at most 352 bytes of stack, and calls memset alone.
 *
 * A frame is given by its number: its physical address divided by 4096. An address names its whole page.
 */
#ifndef LIMZHUR_TABLES_H
#define LIMZHUR_TABLES_H

#include <stdbool.h>
#include <stddef.h>
#include <stdint.h>

#ifdef __cplusplus
extern "C" {
#endif

/* Enough bytes for the state of page tables, at a multiple of 8. */
#define LIMZHUR_TABLES_ROOM 128

/* A handle: it leads to the state of page tables. */
struct limzhur_tables {
    void *room;
};

/* Where a page leads, and what all entries on the way grant. Reads are always granted. */
struct limzhur_place {
    uint64_t frame;
    bool write;
    bool user;
    bool fetch;
};

/*
 * Flags: what a page grants, its type, and whether it is global. Calls with `_flags` take and tell them. The calls without map
 * pages of type 0 that are not global.
 */
#define LIMZHUR_WRITE 1u
#define LIMZHUR_USER 2u
#define LIMZHUR_FETCH 4u
/* The type 0 to 3: its bits are PWT (3) and PCD (4) of the entry. Where PAT is as after a reset: 0 write-back, 1 write-through, 2
 * uncached unless the range's type says otherwise, 3 uncached. */
#define LIMZHUR_TYPE(type) ((uint32_t)(type) << 3)
/* A new CR3 leaves its translations. */
#define LIMZHUR_GLOBAL 32u

/* Where a page leads, with all its flags. */
struct limzhur_flagged_place {
    uint64_t frame;
    uint32_t flags;
};

/*
 * What calls answer: 0, or a reason, and then nothing is changed. If several hold, the answer is the first of them in this
 * order: BAD_FLAGS, NOT_CANONICAL, MISALIGNED, IS_MAPPED or NOT_MAPPED, HAS_TABLE, PAST_LIMIT, IN_AREA, NO_FRAMES.
 */
enum limzhur_tables_answer {
    LIMZHUR_DONE = 0,
    /* Bits 47 to 63 of the address differ, or the range ends in another half than it begins. */
    LIMZHUR_NOT_CANONICAL = 1,
    /* The page to be mapped is mapped. */
    LIMZHUR_IS_MAPPED = 2,
    /* The frame is not below the limit. If it is 2^40 or more, only the address's own NOT_CANONICAL and MISALIGNED go before. */
    LIMZHUR_PAST_LIMIT = 3,
    /* The frame is one of the area. After limzhur_share_area, only if users would reach the page. */
    LIMZHUR_IN_AREA = 4,
    /* Fewer frames are left than tables are missing. */
    LIMZHUR_NO_FRAMES = 5,
    /* The page to be changed is not mapped; for limzhur_unmap_large, no one entry maps the 2 MiB. */
    LIMZHUR_NOT_MAPPED = 6,
    /* The 2 MiB to be mapped by one entry have a table: a page of them was mapped before. */
    LIMZHUR_HAS_TABLE = 7,
    /* The address is no multiple of 2 MiB, or the frame none of 512. */
    LIMZHUR_MISALIGNED = 8,
    /* A flag is none of these. */
    LIMZHUR_BAD_FLAGS = 9,
};

/* How many bytes of room the state takes. That they are at most LIMZHUR_TABLES_ROOM is tested, not proved. */
size_t limzhur_tables_room(void);

/*
 * Begins page tables with no page in a room, in the frames from `first` on, of which `count` words are at `words`: 512 for
 * each frame. The first frame is the root table and is cleared; the words of the others stay as they are, and are left for
 * further tables. Pages lie in frames below `limit`.
 *
 * C keeps: `room` has limzhur_tables_room() bytes, at a multiple of 8. `words` has 8 * count bytes, at a multiple of 8, and
 * is not null; room and words are apart, and C gives them until it needs the tables no more. count is a multiple of 512,
 * above 0 and below 2^60. first + count / 512 is at most limit, and limit is below 2^40. What a processor finds is proved
 * of the words at `words`: they are those of the frames from `first` on.
 */
void limzhur_tables_init(void *room, uint64_t *words, size_t count, uint64_t first, uint64_t limit);

/* The frame of the root table: CR3 has 4096 times it. */
uint64_t limzhur_tables_root(struct limzhur_tables *tables);

/* Lets pages that users do not reach lead into the area, from now on and for good. Until then no page leads there. */
void limzhur_share_area(struct limzhur_tables *tables);

/* How many frames are left for tables. A page needs at most three, and none if the same 2 MiB have a table. The split of a large
 * page needs one. */
uint64_t limzhur_tables_left(struct limzhur_tables *tables);

/* Puts into `place` where the page of an address leads. False if it is not mapped, or the address not canonical; `place` then stays. */
bool limzhur_lookup(struct limzhur_tables *tables, uint64_t address, struct limzhur_place *place);

/* The same with all flags. */
bool limzhur_lookup_flags(struct limzhur_tables *tables, uint64_t address, struct limzhur_flagged_place *place);

/* Maps the page of an address to a frame, and makes the tables that it lacks. Nothing is to be flushed. */
uint32_t limzhur_map(struct limzhur_tables *tables, uint64_t address, uint64_t frame, bool write, bool user, bool fetch);
uint32_t limzhur_map_flags(struct limzhur_tables *tables, uint64_t address, uint64_t frame, uint32_t flags);

/*
 * Ends the mapping of the page of an address, and puts its frame into `frame`. The page is to be flushed. LIMZHUR_NO_FRAMES: it lies
 * in a large page, and no frame is left for the table that splits this.
 */
uint32_t limzhur_unmap(struct limzhur_tables *tables, uint64_t address, uint64_t *frame);

/*
 * Gives the page of an address other rights; it keeps its frame and its type, and stays global or not. With flags it gets these, and
 * keeps its frame. The page is to be flushed. LIMZHUR_IN_AREA: it leads into the
 * area, and users would reach it. LIMZHUR_NO_FRAMES: as for limzhur_unmap.
 */
uint32_t limzhur_protect(struct limzhur_tables *tables, uint64_t address, bool write, bool user, bool fetch);
uint32_t limzhur_protect_flags(struct limzhur_tables *tables, uint64_t address, uint32_t flags);

/*
 * Maps the 2 MiB from an address on to the 512 frames from `frame` on, by one entry, and makes the tables above it that are missing.
 * LIMZHUR_IS_MAPPED: one entry maps them already. LIMZHUR_PAST_LIMIT and LIMZHUR_IN_AREA: one of the 512 frames is so. Nothing is to
 * be flushed.
 */
uint32_t limzhur_map_large(struct limzhur_tables *tables, uint64_t address, uint64_t frame, bool write, bool user, bool fetch);
uint32_t limzhur_map_large_flags(struct limzhur_tables *tables, uint64_t address, uint64_t frame, uint32_t flags);

/* Ends the mapping of the 2 MiB from an address on, which one entry maps, and puts the first of their frames into `frame`. They are
 * to be flushed. */
uint32_t limzhur_unmap_large(struct limzhur_tables *tables, uint64_t address, uint64_t *frame);

/*
 * Ranges: `pages` pages, from that of an address on. A refused call changes nothing, whichever page it is refused for. A range
 * of no pages is refused for its address or its frame alone. After LIMZHUR_IS_MAPPED and LIMZHUR_NOT_MAPPED, and
 * after LIMZHUR_IN_AREA of limzhur_protect_range and limzhur_protect_range_flags, `told` has the address of the lowest such page, and after LIMZHUR_NO_FRAMES how
 * many frames are missing; else it stays.
 */

/*
 * Maps the pages to the frames from `frame` on. 2 MiB that lie whole in the range, have no table, and whose frames begin at a
 * multiple of 512, are mapped by one entry. Nothing is to be flushed.
 */
uint32_t limzhur_map_range(struct limzhur_tables *tables, uint64_t address, uint64_t pages, uint64_t frame, bool write, bool user, bool fetch, uint64_t *told);
uint32_t limzhur_map_range_flags(struct limzhur_tables *tables, uint64_t address, uint64_t pages, uint64_t frame, uint32_t flags, uint64_t *told);

/* Ends the mapping of the pages, which are to be flushed. A large page that lies in part in the range is split first. */
uint32_t limzhur_unmap_range(struct limzhur_tables *tables, uint64_t address, uint64_t pages, uint64_t *told);

/* Gives the pages other rights; each keeps its frame and its type, and stays global or not. With flags they get these, and each
 * keeps its frame. They are to be flushed. A large page that lies whole in the range stays one; one that lies in part in it is
 * split first. */
uint32_t limzhur_protect_range(struct limzhur_tables *tables, uint64_t address, uint64_t pages, bool write, bool user, bool fetch, uint64_t *told);
uint32_t limzhur_protect_range_flags(struct limzhur_tables *tables, uint64_t address, uint64_t pages, uint32_t flags, uint64_t *told);

#ifdef __cplusplus
}
#endif

#endif
