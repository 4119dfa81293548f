/* The page tables beside a plain map: random calls on a few hundred pages of both halves, with flags and without, with every answer
 * compared, and a walk of the raw words after each. The area begins at the frame that is given, and pages lie before and after it;
 * in the second half of the calls pages of the kernel may lead into it. */
#include <limzhur_tables.h>
#include <stdio.h>
#include <stdlib.h>

#define FRAMES 64
#define PAGES 600
#define CALLS 20000

static _Alignas(4096) uint64_t words[512 * FRAMES];
static _Alignas(8) unsigned char room[LIMZHUR_TABLES_ROOM];

static struct page { uint64_t address; bool mapped; struct limzhur_flagged_place place; } pages[PAGES];
static uint64_t first, limit;
static bool is_shared;
static int wrong;

static uint64_t drawn = 88172645463325252ull;

static uint64_t draw(uint64_t below) {
    drawn ^= drawn << 13;
    drawn ^= drawn >> 7;
    drawn ^= drawn << 17;
    return drawn % below;
}

static void wants(bool good, const char *what) {
    if (!good && wrong++ < 10) fprintf(stderr, "wrong: %s\n", what);
}

static bool is_in_area(uint64_t frame) { return first <= frame && frame < first + FRAMES; }

/* Whether a page with these flags may not lead to the frame. */
static bool is_hidden(uint64_t frame, uint32_t flags) { return is_in_area(frame) && (!is_shared || flags & LIMZHUR_USER); }

/* The walk of the manual over the raw words, as far as pages of 4 KiB go. The type and the global bit are those of the last entry. */
static bool walk(uint64_t root, uint64_t address, struct limzhur_flagged_place *place) {
    uint64_t frame = root, entry = 0, all = ~0ull, denied = 0;
    for (int shift = 39; shift >= 12; shift -= 9) {
        if (!is_in_area(frame)) return false;
        entry = words[512 * (frame - first) + (address >> shift & 511)];
        if (!(entry & 1)) return false;
        frame = entry >> 12 & 0xffffffffff, all &= entry, denied |= entry >> 63;
    }
    uint32_t rights = (all & 2 ? LIMZHUR_WRITE : 0) | (all & 4 ? LIMZHUR_USER : 0) | (denied ? 0 : LIMZHUR_FETCH);
    *place = (struct limzhur_flagged_place){frame, rights | LIMZHUR_TYPE(entry >> 3 & 3) | (entry & 256 ? LIMZHUR_GLOBAL : 0)};
    return true;
}

static bool is_same(struct limzhur_flagged_place a, struct limzhur_flagged_place b) { return a.frame == b.frame && a.flags == b.flags; }

static bool is_told(struct limzhur_place told, struct limzhur_flagged_place place) {
    return told.frame == place.frame && told.write == !!(place.flags & LIMZHUR_WRITE) && told.user == !!(place.flags & LIMZHUR_USER)
        && told.fetch == !!(place.flags & LIMZHUR_FETCH);
}

/* How many tables a page misses: those of one, two and three indices, of no page that was ever mapped. */
static int missing(const bool *ever, int at) {
    int count = 0;
    for (int shift = 39; shift >= 21; shift -= 9) {
        bool is_there = false;
        for (int n = 0; n < PAGES; n++) is_there |= ever[n] && pages[n].address >> shift == pages[at].address >> shift;
        count += !is_there;
    }
    return count;
}

static void look(struct limzhur_tables *tables, struct page *page) {
    struct limzhur_place told = {0};
    struct limzhur_flagged_place flagged = {77, 77}, found = {0};
    uint64_t address = page->address + draw(4096);
    bool is_there = limzhur_lookup(tables, address, &told), is_flagged = limzhur_lookup_flags(tables, address, &flagged);
    bool is_found = walk(limzhur_tables_root(tables), page->address, &found);
    wants(is_there == page->mapped && (!is_there || is_told(told, page->place)), "lookup");
    wants(is_flagged == page->mapped && is_same(flagged, is_flagged ? page->place : (struct limzhur_flagged_place){77, 77}), "lookup_flags");
    wants(is_found == page->mapped && (!is_found || is_same(found, page->place)), "walk");
}

static uint32_t map(struct limzhur_tables *tables, struct page *page, uint64_t frame, uint32_t flags, bool is_plain) {
    if (!is_plain) return limzhur_map_flags(tables, page->address, frame, flags);
    return limzhur_map(tables, page->address, frame, flags & LIMZHUR_WRITE, flags & LIMZHUR_USER, flags & LIMZHUR_FETCH);
}

static uint32_t protect(struct limzhur_tables *tables, struct page *page, uint32_t flags, bool is_plain) {
    if (!is_plain) return limzhur_protect_flags(tables, page->address, flags);
    return limzhur_protect(tables, page->address, flags & LIMZHUR_WRITE, flags & LIMZHUR_USER, flags & LIMZHUR_FETCH);
}

static void call(struct limzhur_tables *tables, bool *ever, int at) {
    struct page *page = pages + at;
    bool is_plain = draw(2);
    uint32_t flags = draw(is_plain ? 8 : 64), unknown = draw(2) ? 64 : 1u << 31;
    uint64_t frame = draw(limit + 2), told = 77, left = limzhur_tables_left(tables);
    switch (draw(3)) {
    case 0: {
        uint64_t wanted = missing(ever, at);
        wants(limzhur_map_flags(tables, page->address, frame, flags | unknown) == LIMZHUR_BAD_FLAGS, "map with an unknown flag");
        uint32_t answer = map(tables, page, frame, flags, is_plain);
        uint32_t right = page->mapped ? LIMZHUR_IS_MAPPED : frame >= limit ? LIMZHUR_PAST_LIMIT : is_hidden(frame, flags) ? LIMZHUR_IN_AREA
            : left < wanted ? LIMZHUR_NO_FRAMES : LIMZHUR_DONE;
        wants(answer == right, "map");
        if (answer == LIMZHUR_DONE) {
            *page = (struct page){page->address, true, {frame, flags}};
            ever[at] = true;
            left -= wanted;
        }
        break;
    }
    case 1: {
        uint32_t answer = limzhur_unmap(tables, page->address, &told);
        wants(answer == (page->mapped ? LIMZHUR_DONE : LIMZHUR_NOT_MAPPED) && told == (page->mapped ? page->place.frame : 77), "unmap");
        page->mapped = false;
        break;
    }
    default: {
        wants(limzhur_protect_flags(tables, page->address, flags | unknown) == LIMZHUR_BAD_FLAGS, "protect with an unknown flag");
        uint32_t answer = protect(tables, page, flags, is_plain);
        bool hidden = page->mapped && is_in_area(page->place.frame) && flags & LIMZHUR_USER;
        wants(answer == (!page->mapped ? LIMZHUR_NOT_MAPPED : hidden ? LIMZHUR_IN_AREA : LIMZHUR_DONE), "protect");
        if (!hidden) page->place.flags = is_plain ? (page->place.flags & ~7u) | flags : flags;
    }
    }
    wants(limzhur_tables_left(tables) == left, "left");
    look(tables, page);
    look(tables, pages + draw(PAGES));
}

/* A large page: 512 pages by one entry. */
static void use_a_large_page(struct limzhur_tables *tables) {
    const uint64_t address = 0x7f0000000000, run = (limit - 512) / 512 * 512;
    struct limzhur_flagged_place place;
    uint64_t told = 77;
    wants(limzhur_map_large(tables, address + 4096, run, true, false, false) == LIMZHUR_MISALIGNED, "an address off its multiple");
    wants(limzhur_map_large(tables, address, run + 1, true, false, false) == LIMZHUR_MISALIGNED, "a frame off its multiple");
    wants(limzhur_map_large(tables, address, first / 512 * 512, false, true, false) == LIMZHUR_IN_AREA, "a large page over the area");
    wants(limzhur_map_large(tables, address, run + 512, true, false, false) == LIMZHUR_PAST_LIMIT, "a large page past the limit");
    wants(limzhur_map_large_flags(tables, address, run, 64) == LIMZHUR_BAD_FLAGS, "a large page with an unknown flag");
    wants(limzhur_unmap_large(tables, address, &told) == LIMZHUR_NOT_MAPPED && told == 77, "no large page");
    wants(limzhur_map_large(tables, address, run, true, false, true) == LIMZHUR_DONE, "a large page");
    wants(limzhur_map_large(tables, address, run, true, false, true) == LIMZHUR_IS_MAPPED, "a large page that is there");
    wants(limzhur_lookup_flags(tables, address + 0x1ff123, &place)
        && is_same(place, (struct limzhur_flagged_place){run + 511, LIMZHUR_WRITE | LIMZHUR_FETCH}), "its last page");
    wants(limzhur_protect(tables, address, false, false, false) == LIMZHUR_NO_FRAMES, "a page of it, with no frame for a table");
    wants(limzhur_unmap_large(tables, address, &told) == LIMZHUR_DONE && told == run, "its end");
    wants(!limzhur_lookup_flags(tables, address, &place), "after its end");
    for (uint32_t flags = 0; flags < 64; flags++) {
        wants(limzhur_map_large_flags(tables, address, run, flags) == LIMZHUR_DONE, "a large page with flags");
        wants(limzhur_lookup_flags(tables, address, &place) && is_same(place, (struct limzhur_flagged_place){run, flags}), "its flags");
        wants(limzhur_unmap_large(tables, address, &told) == LIMZHUR_DONE && told == run, "its end");
    }
    wants(limzhur_map(tables, address, run, true, false, false) == LIMZHUR_NO_FRAMES, "a page there");
}

int main(int count, char **given) {
    static _Alignas(4096) uint64_t more_words[512 * 3];
    static _Alignas(8) unsigned char more_room[LIMZHUR_TABLES_ROOM];
    static bool ever[PAGES];
    first = count > 1 ? strtoull(given[1], NULL, 0) : 0;
    limit = first + FRAMES + 1000;
    for (size_t n = 0; n < 512 * FRAMES; n++) words[n] = 0xdeadbeefdeadbeef;
    if (limzhur_tables_room() > sizeof room) return 2;
    limzhur_tables_init(room, words, 512 * FRAMES, first, limit);
    struct limzhur_tables tables = {room};
    wants(limzhur_tables_root(&tables) == first && limzhur_tables_left(&tables) == FRAMES - 1, "a beginning");
    for (int n = 0; n < PAGES; n++) {
        /* Pages that share tables at each level, of both halves. */
        pages[n].address = (n % 2 ? 0xffff800000000000 : 0) + ((uint64_t)(n % 3) << 39) + ((uint64_t)(n % 5) << 30) + ((uint64_t)(n % 7 % 2) << 21) + ((uint64_t)n << 12 & 0x1ff000);
        for (int m = 0; m < n; m++) {
            if (pages[m].address == pages[n].address) pages[n].address ^= 0x100000 + ((uint64_t)n << 12 & 0xff000);
        }
    }
    for (int n = 0; n < CALLS; n++) {
        if (n == CALLS / 2) limzhur_share_area(&tables), is_shared = true;
        call(&tables, ever, draw(PAGES));
    }
    wants(limzhur_map(&tables, 1ull << 47, 0, true, true, true) == LIMZHUR_NOT_CANONICAL, "an address in the gap");
    wants(limzhur_map(&tables, pages[0].address, 1ull << 40, true, true, true) == LIMZHUR_PAST_LIMIT, "a frame of 41 bits");
    limzhur_tables_init(more_room, more_words, 512 * 3, first, limit);
    use_a_large_page(&(struct limzhur_tables){more_room});
    printf("%d calls, wrong %d, %d frames left\n", CALLS, wrong, (int)limzhur_tables_left(&tables));
    return wrong != 0;
}
