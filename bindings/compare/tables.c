/* tables WHOSE WHAT: maps 20,000 pages of 4 KiB, and then looks each up (l), protects it (p), unmaps it (u) or does no more (m), by
 * the library (lib) or by a mapper written by hand over the same words (hand). To be counted by callgrind: each call takes the
 * difference to `m`, divided by 20,000. */
#include <limzhur_tables.h>
#include <stdio.h>
#include <string.h>

#define FRAMES 256
#define PAGES 20000
#define FIRST 16
#define LIMIT (1 << 20)

static _Alignas(4096) uint64_t words[512 * FRAMES];
static _Alignas(8) unsigned char room[LIMZHUR_TABLES_ROOM];
static struct limzhur_tables tables = {room};
static uint64_t next_table = FIRST + 1;

static bool is_canonical(uint64_t address) { return (int64_t)(address << 16) >> 16 == (int64_t)address; }

/* The last entry of a page, with the tables above it made if they are missing. */
static uint64_t *entry_of(uint64_t address, bool makes) {
    uint64_t table = FIRST;
    for (int shift = 39; shift > 12; shift -= 9) {
        uint64_t *entry = words + 512 * (table - FIRST) + (address >> shift & 511);
        if (!(*entry & 1)) {
            if (!makes || next_table == FIRST + FRAMES) return NULL;
            memset(words + 512 * (next_table - FIRST), 0, 4096);
            *entry = next_table++ << 12 | 0x27;
        } else if (*entry & 0x80) return NULL;
        table = *entry >> 12 & 0xffffffffff;
    }
    return words + 512 * (table - FIRST) + (address >> 12 & 511);
}

static uint64_t page_entry(uint64_t frame, bool write, bool user, bool fetch) {
    return frame << 12 | 0x61 | write << 1 | user << 2 | (uint64_t)!fetch << 63;
}

static __attribute__((noinline)) uint32_t map(uint64_t address, uint64_t frame, bool write, bool user, bool fetch) {
    if (!is_canonical(address)) return LIMZHUR_NOT_CANONICAL;
    if (frame >= LIMIT) return LIMZHUR_PAST_LIMIT;
    if (user && FIRST <= frame && frame < FIRST + FRAMES) return LIMZHUR_IN_AREA;
    uint64_t *entry = entry_of(address, true);
    if (!entry) return LIMZHUR_NO_FRAMES;
    if (*entry & 1) return LIMZHUR_IS_MAPPED;
    *entry = page_entry(frame, write, user, fetch);
    return LIMZHUR_DONE;
}

static __attribute__((noinline)) uint32_t protect(uint64_t address, bool write, bool user, bool fetch) {
    if (!is_canonical(address)) return LIMZHUR_NOT_CANONICAL;
    uint64_t *entry = entry_of(address, false);
    if (!entry || !(*entry & 1)) return LIMZHUR_NOT_MAPPED;
    uint64_t frame = *entry >> 12 & 0xffffffffff;
    if (user && FIRST <= frame && frame < FIRST + FRAMES) return LIMZHUR_IN_AREA;
    *entry = page_entry(frame, write, user, fetch);
    return LIMZHUR_DONE;
}

static __attribute__((noinline)) uint32_t unmap(uint64_t address, uint64_t *frame) {
    if (!is_canonical(address)) return LIMZHUR_NOT_CANONICAL;
    uint64_t *entry = entry_of(address, false);
    if (!entry || !(*entry & 1)) return LIMZHUR_NOT_MAPPED;
    *frame = *entry >> 12 & 0xffffffffff;
    *entry = 0;
    return LIMZHUR_DONE;
}

static __attribute__((noinline)) bool lookup(uint64_t address, struct limzhur_place *place) {
    struct limzhur_place met = {FIRST, true, true, true};
    if (!is_canonical(address)) return false;
    for (int shift = 39; shift >= 12; shift -= 9) {
        uint64_t entry = words[512 * (met.frame - FIRST) + (address >> shift & 511)];
        if (!(entry & 1)) return false;
        met = (struct limzhur_place){entry >> 12 & 0xffffffffff, met.write & (entry >> 1), met.user & (entry >> 2), met.fetch & !(entry >> 63)};
    }
    *place = met;
    return true;
}

int main(int count, char **given) {
    if (count != 3) return 1;
    bool by_hand = given[1][0] == 'h';
    uint64_t answers = 0;
    if (!by_hand) limzhur_tables_init(room, words, 512 * FRAMES, FIRST, LIMIT), limzhur_share_area(&tables);
    for (uint64_t n = 0, at = 1 << 28; n < PAGES; n++, at += 4096) {
        answers += by_hand ? map(at, 1000 + n, true, false, false) : limzhur_map(&tables, at, 1000 + n, true, false, false);
    }
    for (uint64_t n = 0, at = 1 << 28, frame = 0; n < PAGES; n++, at += 4096) {
        struct limzhur_place place = {0};
        switch (given[2][0]) {
        case 'l': answers += (by_hand ? lookup(at, &place) : limzhur_lookup(&tables, at, &place)) + place.frame; break;
        case 'p': answers += by_hand ? protect(at, false, true, false) : limzhur_protect(&tables, at, false, true, false); break;
        case 'u': answers += (by_hand ? unmap(at, &frame) : limzhur_unmap(&tables, at, &frame)) + frame; break;
        }
    }
    printf("%lu\n", answers);
    return 0;
}
