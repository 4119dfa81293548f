/* Ranges of pages beside a plain list of pages: random calls on eight times 2 MiB, with flags and without, with every answer compared,
 * in an area that is too small for all their tables. The area begins at the frame that is given, and pages lie before and after it;
 * in the second half of the calls pages of the kernel may lead into it. */
#include <limzhur_tables.h>
#include <stdio.h>
#include <stdlib.h>

#define FRAMES 9                                /* the root, two upper tables, and six for eight slots */
#define SLOTS 8
#define PAGES (512 * SLOTS)
#define CALLS 20000
#define BASE 0xffffa00040000000ull

static _Alignas(4096) uint64_t words[512 * FRAMES];
static _Alignas(8) unsigned char room[LIMZHUR_TABLES_ROOM];
static struct limzhur_tables tables = {room};

static struct page { bool mapped; struct limzhur_flagged_place place; } pages[PAGES];
static bool has_table[SLOTS], is_large[SLOTS], has_upper, is_shared;
static uint64_t first, limit;
static int wrong, refused;

static uint64_t drawn = 88172645463325252ull;

static uint64_t draw(uint64_t below) {
    drawn ^= drawn << 13;
    drawn ^= drawn >> 7;
    drawn ^= drawn << 17;
    return drawn % below;
}

static void wants(bool good, const char *what) {
    if (!good && wrong++ < 10) fprintf(stderr, "wrong: %s\n", what);
}

/* The lowest page of the range that is mapped or is not; its end if there is none. */
static uint64_t lowest(uint64_t page, uint64_t count, bool mapped) {
    uint64_t at = page;
    while (at < page + count && pages[at].mapped != mapped) at++;
    return at;
}

static bool is_whole(uint64_t slot, uint64_t page, uint64_t count) { return page <= 512 * slot && 512 * slot + 512 <= page + count; }

static bool becomes_large(uint64_t slot, uint64_t page, uint64_t count, uint64_t frame) {
    return is_whole(slot, page, count) && page % 512 == frame % 512 && !has_table[slot];
}

static bool is_same(struct limzhur_flagged_place a, struct limzhur_flagged_place b) { return a.frame == b.frame && a.flags == b.flags; }

static void look(uint64_t page) {
    struct limzhur_flagged_place told = {0};
    bool is_told = limzhur_lookup_flags(&tables, BASE + 4096 * page + draw(4096), &told);
    wants(is_told == pages[page].mapped && (!is_told || is_same(told, pages[page].place)), "lookup");
}

static uint32_t map_range(uint64_t page, uint64_t count, struct limzhur_flagged_place place, bool is_plain, uint64_t *told) {
    uint64_t at = BASE + 4096 * page;
    if (!is_plain) return limzhur_map_range_flags(&tables, at, count, place.frame, place.flags, told);
    return limzhur_map_range(&tables, at, count, place.frame, place.flags & LIMZHUR_WRITE, place.flags & LIMZHUR_USER, place.flags & LIMZHUR_FETCH, told);
}

static uint32_t protect_range(uint64_t page, uint64_t count, uint32_t flags, bool is_plain, uint64_t *told) {
    uint64_t at = BASE + 4096 * page;
    if (!is_plain) return limzhur_protect_range_flags(&tables, at, count, flags, told);
    return limzhur_protect_range(&tables, at, count, flags & LIMZHUR_WRITE, flags & LIMZHUR_USER, flags & LIMZHUR_FETCH, told);
}

static uint32_t protect(uint64_t page, uint32_t flags, bool is_plain) {
    uint64_t at = BASE + 4096 * page;
    if (!is_plain) return limzhur_protect_flags(&tables, at, flags);
    return limzhur_protect(&tables, at, flags & LIMZHUR_WRITE, flags & LIMZHUR_USER, flags & LIMZHUR_FETCH);
}

static void map(uint64_t page, uint64_t count, struct limzhur_flagged_place place, bool is_plain) {
    uint64_t wanted = has_upper ? 0 : 2, left = limzhur_tables_left(&tables), told = 77, found = lowest(page, count, true);
    for (uint64_t slot = page / 512; slot <= (page + count - 1) / 512; slot++) wanted += !has_table[slot] && !becomes_large(slot, page, count, place.frame);
    bool meets = place.frame < first + FRAMES && first < place.frame + count && (!is_shared || place.flags & LIMZHUR_USER);
    uint32_t right = found < page + count ? LIMZHUR_IS_MAPPED : place.frame + count > limit ? LIMZHUR_PAST_LIMIT : meets ? LIMZHUR_IN_AREA
        : left < wanted ? LIMZHUR_NO_FRAMES : LIMZHUR_DONE;
    uint32_t answer = map_range(page, count, place, is_plain, &told);
    wants(answer == right, "map_range");
    wants(told == (right == LIMZHUR_IS_MAPPED ? BASE + 4096 * found : right == LIMZHUR_NO_FRAMES ? wanted - left : 77), "what map_range tells");
    refused += answer == LIMZHUR_NO_FRAMES;
    wants(limzhur_tables_left(&tables) == left - (right == LIMZHUR_DONE ? wanted : 0), "left after map_range");
    if (right != LIMZHUR_DONE) return;
    has_upper = true;
    for (uint64_t slot = page / 512; slot <= (page + count - 1) / 512; slot++) {
        if (becomes_large(slot, page, count, place.frame)) is_large[slot] = true;
        else has_table[slot] = true;
    }
    for (uint64_t n = 0; n < count; n++) pages[page + n] = (struct page){true, {place.frame + n, place.flags}};
}

/* Whether the page may not be given these flags. */
static bool is_hidden(uint64_t page, uint32_t flags) {
    return flags & LIMZHUR_USER && first <= pages[page].place.frame && pages[page].place.frame < first + FRAMES;
}

static void give(uint64_t page, uint32_t flags, bool is_plain) {
    pages[page].place.flags = is_plain ? (pages[page].place.flags & ~7u) | flags : flags;
}

/* Unmaps the range, or gives it the place's flags. */
static void change(uint64_t page, uint64_t count, bool unmaps, uint32_t flags, bool is_plain) {
    uint64_t wanted = 0, left = limzhur_tables_left(&tables), told = 77, found = lowest(page, count, false), giving = page;
    for (uint64_t slot = page / 512; slot <= (page + count - 1) / 512; slot++) wanted += is_large[slot] && !is_whole(slot, page, count);
    while (giving < page + count && (unmaps || !is_hidden(giving, flags))) giving++;
    uint32_t right = found < page + count ? LIMZHUR_NOT_MAPPED : giving < page + count ? LIMZHUR_IN_AREA : left < wanted ? LIMZHUR_NO_FRAMES : LIMZHUR_DONE;
    uint32_t answer = unmaps ? limzhur_unmap_range(&tables, BASE + 4096 * page, count, &told) : protect_range(page, count, flags, is_plain, &told);
    wants(answer == right, unmaps ? "unmap_range" : "protect_range");
    wants(told == (right == LIMZHUR_NOT_MAPPED ? BASE + 4096 * found : right == LIMZHUR_IN_AREA ? BASE + 4096 * giving : right == LIMZHUR_NO_FRAMES ? wanted - left : 77), "what it tells");
    refused += answer == LIMZHUR_NO_FRAMES;
    wants(limzhur_tables_left(&tables) == left - (right == LIMZHUR_DONE ? wanted : 0), "left after it");
    if (right != LIMZHUR_DONE) return;
    for (uint64_t slot = page / 512; slot <= (page + count - 1) / 512; slot++) {
        if (is_large[slot] && !is_whole(slot, page, count)) {
            is_large[slot] = false;
            has_table[slot] = true;
        } else if (unmaps) is_large[slot] = false;
    }
    for (uint64_t n = page; n < page + count; n++) {
        pages[n].mapped = !unmaps;
        give(n, flags, is_plain);
    }
}

/* A page alone, which may lie in a large one. */
static void change_one(uint64_t page, bool unmaps, uint32_t flags, bool is_plain) {
    uint64_t left = limzhur_tables_left(&tables), told = 77, wanted = is_large[page / 512];
    uint32_t right = !pages[page].mapped ? LIMZHUR_NOT_MAPPED : !unmaps && is_hidden(page, flags) ? LIMZHUR_IN_AREA : left < wanted ? LIMZHUR_NO_FRAMES : LIMZHUR_DONE;
    uint32_t answer = unmaps ? limzhur_unmap(&tables, BASE + 4096 * page, &told) : protect(page, flags, is_plain);
    wants(answer == right && (!unmaps || told == (right == LIMZHUR_DONE ? pages[page].place.frame : 77)), unmaps ? "unmap" : "protect");
    wants(limzhur_tables_left(&tables) == left - (right == LIMZHUR_DONE ? wanted : 0), "left after one page");
    if (right != LIMZHUR_DONE) return;
    if (wanted) is_large[page / 512] = false, has_table[page / 512] = true;
    pages[page].mapped = !unmaps;
    give(page, flags, is_plain);
}

static void call(void) {
    uint64_t page = draw(PAGES), count = 1 + draw(draw(4) ? 700 : 2000);
    if (!draw(3)) page = page / 512 * 512;
    if (page + count > PAGES) count = PAGES - page;
    bool is_plain = draw(2);
    struct limzhur_flagged_place place = {draw(limit + 2), draw(is_plain ? 8 : 64)};
    if (draw(4)) place.frame = place.frame / 512 * 512 + page % 512;
    switch (draw(8)) {
    case 0: case 1: case 2: map(page, count, place, is_plain); break;
    case 3: case 4: change(page, count, true, place.flags, is_plain); break;
    case 5: change(page, count, false, place.flags, is_plain); break;
    default: change_one(page, draw(2), place.flags, is_plain);
    }
    look(page);
    look(page + count - 1);
    look(draw(PAGES));
}

/* When all has been unmapped, each slot has a table, and an end of the address space is refused. */
static void end(void) {
    uint64_t told = 77;
    for (uint64_t page = 0; page < PAGES; page++) {
        if (pages[page].mapped) change(page, 1, true, pages[page].place.flags, false);
    }
    wants(limzhur_map_range(&tables, 0x7ffffffff000, 2, 5000, true, true, true, &told) == LIMZHUR_NOT_CANONICAL && told == 77, "over the end of a half");
    wants(limzhur_unmap_range(&tables, 1ull << 47, 1, &told) == LIMZHUR_NOT_CANONICAL && told == 77, "in the gap");
    wants(limzhur_map_range(&tables, BASE, 1, 1ull << 40, true, true, true, &told) == LIMZHUR_PAST_LIMIT && told == 77, "a frame of 41 bits");
    wants(limzhur_map_range_flags(&tables, BASE, 1, 0, 64, &told) == LIMZHUR_BAD_FLAGS && told == 77, "an unknown flag");
    wants(limzhur_protect_range_flags(&tables, BASE, 1, 1u << 31, &told) == LIMZHUR_BAD_FLAGS && told == 77, "another one");
    wants(limzhur_map_range(&tables, BASE, 0, 0, true, true, true, &told) == LIMZHUR_DONE, "no page");
    wants(limzhur_map_range(&tables, BASE, UINT64_MAX, 0, true, true, true, &told) == LIMZHUR_NOT_CANONICAL, "all pages");
}

int main(int count, char **given) {
    first = count > 1 ? strtoull(given[1], NULL, 0) : 0;
    limit = first + FRAMES + 10000;
    limzhur_tables_init(room, words, 512 * FRAMES, first, limit);
    for (int n = 0; n < CALLS; n++) {
        if (n == CALLS / 2) limzhur_share_area(&tables), is_shared = true;
        call();
    }
    end();
    printf("%d calls, wrong %d, too few frames %s\n", CALLS, wrong, refused ? "at times" : "never");
    return wrong != 0;
}
