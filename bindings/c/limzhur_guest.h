/*
 * The proved walk of an AMD64 processor over a guest's page tables, for emulators, virtual machine monitors and debuggers in C.
 * Freestanding: it needs no C library, has no state and no lock, and any thread may call it, for any number of guests.
 *
 * Long mode with four levels: pages of 4 KiB, 2 MiB and 1 GiB. Not here: five levels, 32-bit and PAE tables, protection keys,
 * shadow stacks, nested paging.
 *
 * limzhur_translate does all in one call, over memory that lies in a row. Where memory has holes, lies elsewhere, or is written to
 * by others meanwhile, walk an entry at a time and read the entries yourself:
 *
 *     if (limzhur_walk_begin(&walk, cr3, address, width, mode)) {
 *         do entry = read(limzhur_walk_entry(&walk)); while (limzhur_walk_next(&walk, entry) == LIMZHUR_GOES_ON);
 *     }
 *     answer = limzhur_walk_access(&walk, access, &place);
 *
 * This reads at most four entries. It is proved that for all words, if the entries are theirs, the walk ends as the processor's
 * walk of these words does.
 *
 * Every function is proved under the conditions that stand here as "C keeps". Nothing checks C.
 *   - A struct limzhur_walk is written by these calls alone, limzhur_walk_begin first. Copies are fine.
 *   - What a call writes to is apart from what it reads, and nobody else writes to it meanwhile.
 *
 * Sources: AMD64 manual, volume 2, sections 5.3 and 5.4 (the tables), 5.6 (rights), 8.4.2 (the page fault's code).
 */
#ifndef LIMZHUR_GUEST_H
#define LIMZHUR_GUEST_H

#include <stdbool.h>
#include <stddef.h>
#include <stdint.h>

#ifdef __cplusplus
extern "C" {
#endif

/* What the processor is set to: a sum of these. Other bits are ignored. */
/* CR0.WP (bit 16): a read-only page denies the supervisor's writes too. */
#define LIMZHUR_GUEST_WP 1u
/* EFER.NXE (bit 11): bit 63 of an entry denies fetches. Without it the bit is reserved. */
#define LIMZHUR_GUEST_NXE 2u
/* CR4.SMEP (bit 20): the supervisor fetches no instruction from a page of the user. */
#define LIMZHUR_GUEST_SMEP 4u
/* CR4.SMAP (bit 21): the supervisor neither reads nor writes a page of the user, but with RFLAGS.AC. */
#define LIMZHUR_GUEST_SMAP 8u
/* RFLAGS.AC (bit 18). For an access that the processor makes by itself, as to a descriptor table, leave it out. */
#define LIMZHUR_GUEST_AC 16u
/* Bit 8 of an entry of the root table is ignored, as Intel's processors and QEMU have it. Without it the bit is reserved, as AMD's
 * manual has it. */
#define LIMZHUR_GUEST_IGNORES_BIT_8 32u

/* What an access does: a sum of these bits, which are those of a page fault's code. 0 is a read by the supervisor. Other bits are
 * ignored, and FETCH beside WRITE. */
#define LIMZHUR_ACCESS_WRITE 2u
#define LIMZHUR_ACCESS_USER 4u
#define LIMZHUR_ACCESS_FETCH 16u

/* Where a page leads. */
struct limzhur_guest_place {
    /* The physical address of the byte. */
    uint64_t physical;
    /* How many bytes the page has: 4096, 2 MiB or 1 GiB. */
    uint64_t size;
    /* What all entries on the way grant, whatever the mode makes of it. Reads are always granted. */
    bool write;
    bool user;
    bool fetch;
    /* Of the entry that maps the page alone: PWT (bit 3), PCD (4), and global (8). PAT is not told. */
    bool through;
    bool uncached;
    bool global;
    /* The access sets the accessed bit of an entry on the way, which lacks it. */
    bool sets_accessed;
    /* The access writes, and sets the dirty bit of the page's entry, which lacks it. */
    bool sets_dirty;
};

/*
 * What an access gives: 0 if it is granted, LIMZHUR_FAULT and the code of its page fault if it is denied, or one of the others. Only
 * after 0 the place is written.
 *
 * The code: bit 0 is set if all entries are present, and a right or a reserved bit denies the access; bits 1 and 2 are those of the
 * access; bit 3 is a reserved bit; bit 4 is a fetch, and is told only with NXE or SMEP.
 */
#define LIMZHUR_FAULT 0x80000000u
/* Bits 47 to 63 of the address differ. The processor has no page fault then, but #GP or #SS. */
#define LIMZHUR_GUEST_NOT_CANONICAL 0x40000000u
/* Only from limzhur_walk_access: the walk has not ended. */
#define LIMZHUR_GUEST_NOT_ENDED 0x20000000u

/*
 * In one call, over a memory that begins at physical address 0, of which `count` words are at `words`. What is past them reads as 0.
 * A physical address has `width` bits: from that bit on to bit 51 those of an entry are reserved. The root table is named by bits 12
 * to 51 of `cr3`. The memory is not written to.
 *
 * C keeps: `words` has 8 * count bytes, at a multiple of 8, and is not null. Nobody writes to them meanwhile.
 */
uint32_t limzhur_translate(const uint64_t *words, size_t count, uint64_t cr3, uint64_t address, uint8_t width, uint32_t mode, uint32_t access,
                           struct limzhur_guest_place *place);

/* A walk that is to read an entry, or that ended. */
struct limzhur_walk {
    /* The address that is walked for. */
    uint64_t address;
    /* The number of the frame of the table to be read; at the page that of the page's own 4 KiB of the address. */
    uint64_t frame;
    uint32_t mode;
    uint8_t width;
    /* How many entries were taken before the one to be read, or before the last one. At the page: 1 for 1 GiB, 2 for 2 MiB, 3 for 4
     * KiB. */
    uint8_t step;
    /* One of the answers below. */
    uint8_t told;
    /* What the entries so far grant. */
    bool write;
    bool user;
    bool fetch;
    /* Of the last entry alone: bits 3, 4 and 8. */
    bool through;
    bool uncached;
    bool global;
    /* All entries so far have their accessed bit; the last one has its dirty bit. */
    bool accessed;
    bool dirty;
};

/* How a walk stands. */
enum limzhur_walk_answer {
    /* Another entry is to be read. */
    LIMZHUR_GOES_ON = 0,
    /* It ended at the page. */
    LIMZHUR_AT_PAGE = 1,
    /* It ended at an entry that is not present. */
    LIMZHUR_NOT_PRESENT = 2,
    /* It ended at an entry that is present and has a bit that is reserved. */
    LIMZHUR_RESERVED = 3,
    /* It did not begin: the address is not canonical. */
    LIMZHUR_NOT_WALKED = 4,
};

/* Begins the walk for an address. False if the address is not canonical: then no entry is to be read. */
bool limzhur_walk_begin(struct limzhur_walk *walk, uint64_t cr3, uint64_t address, uint8_t width, uint32_t mode);

/* The physical address of the entry to be read: 8 bytes, at a multiple of 8. Read them at once, if others may write to them. */
uint64_t limzhur_walk_entry(const struct limzhur_walk *walk);

/* Takes the entry that was read, and tells how the walk stands. The walk goes on after three entries at most. One that has ended stays
 * as it is, whatever the entry. */
uint32_t limzhur_walk_next(struct limzhur_walk *walk, uint64_t entry);

/* What an access gives at the end of the walk. It may be asked for several accesses. */
uint32_t limzhur_walk_access(const struct limzhur_walk *walk, uint32_t access, struct limzhur_guest_place *place);

/*
 * What the processor writes back to an entry by which it walked, after an access that is granted: the entry with its accessed bit, and
 * with its dirty bit if the access writes and the entry maps the page. `step` is 0 for the root's entry.
 */
uint64_t limzhur_walk_marked(uint64_t entry, uint8_t step, bool write);

#ifdef __cplusplus
}
#endif

#endif
