/* The walk of a guest's page tables beside a model of it, written from the AMD64 manual, volume 2: random tables, addresses and
 * widths, in each mode and for each access. What is compared: limzhur_translate, the same walk an entry at a time, and the place that
 * each leaves; the entries that are written back; and that each code of a page fault was met. The argument is a seed. */
#include <limzhur_guest.h>
#include <stdio.h>
#include <stdlib.h>
#include <string.h>

#define FRAMES 64                               /* of the memory: tables are in the first 16, and so may pages be */
#define TABLES 16
#define WORDS (512 * FRAMES - 3)                /* the last words are past the memory, and read as 0 */
#define MEMORIES 400
#define ADDRESSES 60
#define MODES 64
#define ADDRESS_BITS 0x000ffffffffff000ull

static uint64_t words[WORDS], before[WORDS];
static unsigned slots[8];                       /* the indices that addresses take */
static uint64_t compared, granted, faults, others, steps, marks, wrong, codes;
static uint64_t drawn = 88172645463325252ull;

static uint64_t draw(uint64_t below) {
    drawn ^= drawn << 13;
    drawn ^= drawn >> 7;
    drawn ^= drawn << 17;
    return (drawn * 0x2545f4914f6cdd1dull >> 11) % below;
}

static void wants(bool good, const char *what, uint64_t address, uint32_t mode, uint32_t access) {
    if (!good && wrong++ < 10) fprintf(stderr, "wrong: %s of %#llx, mode %u, access %u\n", what, (unsigned long long)address, mode, access);
}

static bool bit(uint64_t word, unsigned number) { return word >> number & 1; }

/* ---- the model */

/* What a walk finds before any right is looked at: the bits of its code, or the page. */
struct end {
    bool absent, reserved;
    unsigned level;                             /* of the last entry: 4 is that of the root */
    uint64_t physical;
    bool write, user, fetch, through, uncached, global, accessed, dirty;
};

/* Section 5.3.3 and its figures: the fields that have to be 0. Those of an address begin at bit 12. */
static bool has_reserved(uint64_t entry, unsigned level, unsigned width, uint32_t mode) {
    bool is_page = bit(entry, 7);
    for (unsigned n = width < 12 ? 12 : width; n < 52; n++) {
        if (bit(entry, n)) return true;
    }
    if (bit(entry, 63) && !(mode & LIMZHUR_GUEST_NXE)) return true;
    if (level == 4) return bit(entry, 7) || (bit(entry, 8) && !(mode & LIMZHUR_GUEST_IGNORES_BIT_8));
    for (unsigned n = 13; is_page && level != 1 && n < (level == 3 ? 30 : 21); n++) {
        if (bit(entry, n)) return true;
    }
    return false;
}

/* Section 5.3: four levels, of which the third and the second may map a page. */
static struct end model(uint64_t cr3, uint64_t address, unsigned width, uint32_t mode) {
    struct end end = {.level = 4, .write = true, .user = true, .fetch = true, .accessed = true};
    for (uint64_t table = cr3 & ADDRESS_BITS;; end.level--) {
        uint64_t size = 1ull << (9 * end.level + 3), number = (table + address / size % 512 * 8) / 8;
        uint64_t entry = number < WORDS ? words[number] : 0;
        if (!bit(entry, 0)) return end.absent = true, end;
        if (has_reserved(entry, end.level, width, mode)) return end.reserved = true, end;
        end.write = end.write && bit(entry, 1);
        end.user = end.user && bit(entry, 2);
        end.fetch = end.fetch && !bit(entry, 63);
        end.accessed = end.accessed && bit(entry, 5);
        end.through = bit(entry, 3), end.uncached = bit(entry, 4), end.dirty = bit(entry, 6), end.global = bit(entry, 8);
        table = entry & ADDRESS_BITS;
        if (end.level > 1 && !(end.level < 4 && bit(entry, 7))) continue;
        end.physical = (table & ~(size - 1)) | (address & (size - 1));
        return end;
    }
}

/* Section 5.6: whether the page protection denies the access. */
static bool is_denied(const struct end *end, uint32_t mode, bool write, bool user, bool fetch) {
    if (fetch && !end->fetch) return true;
    if (user) return !end->user || (write && !end->write);
    if (fetch) return end->user && (mode & LIMZHUR_GUEST_SMEP);
    if (end->user && (mode & LIMZHUR_GUEST_SMAP) && !(mode & LIMZHUR_GUEST_AC)) return true;
    return write && !end->write && (mode & LIMZHUR_GUEST_WP);
}

/* Section 8.4.2: the code. */
static uint32_t answer_of(const struct end *end, uint32_t mode, uint32_t access) {
    bool write = access & LIMZHUR_ACCESS_WRITE, user = access & LIMZHUR_ACCESS_USER, fetch = !write && access & LIMZHUR_ACCESS_FETCH;
    bool is_told = mode & (LIMZHUR_GUEST_NXE | LIMZHUR_GUEST_SMEP);
    uint32_t code = (!end->absent) << 0 | write << 1 | user << 2 | end->reserved << 3 | (fetch && is_told) << 4;
    if (end->absent || end->reserved || is_denied(end, mode, write, user, fetch)) return LIMZHUR_FAULT | code;
    return 0;
}

static struct limzhur_guest_place place_of(const struct end *end, uint32_t access) {
    struct limzhur_guest_place place;
    memset(&place, 0, sizeof place);
    place.physical = end->physical;
    place.size = end->level == 3 ? 1 << 30 : end->level == 2 ? 2 << 20 : 4096;
    place.write = end->write, place.user = end->user, place.fetch = end->fetch;
    place.through = end->through, place.uncached = end->uncached, place.global = end->global;
    place.sets_accessed = !end->accessed;
    place.sets_dirty = access & LIMZHUR_ACCESS_WRITE && !end->dirty;
    return place;
}

/* ---- what is drawn */

static uint64_t entry_of(unsigned level) {
    uint64_t entry = draw(12) ? 1 : 0;
    entry |= draw(5) ? 2 : 0;
    entry |= draw(5) ? 4 : 0;
    entry |= draw(3) ? 0x20 : 0;
    entry |= draw(3) ? 0x40 : 0;
    entry |= draw(6) ? 0 : 1ull << 63;
    entry |= draw(2) ? 0 : draw(1 << 11) << 52 | (draw(8) << 9) | (draw(4) << 3);      /* the bits that a walk ignores */
    entry |= draw(9) ? 0 : 0x100;
    entry |= draw(30) ? 0 : 1ull << (32 + draw(20));                            /* perhaps beyond the width */
    if (level == 1) return entry | (draw(4) ? 0 : 0x80) | draw(FRAMES) << 12;           /* bit 7 is PAT */
    if (draw(level == 4 ? 30 : 3)) return entry | draw(TABLES) << 12;
    entry |= 0x80 | (draw(4) ? 0 : 0x1000) | (draw(4) ? 0 : 1ull << (13 + draw(17)));
    return entry | (level == 2 ? draw(8) << 21 : draw(8) << 30);
}

/* A table serves each level, so it has entries of each kind. */
static void fill(void) {
    for (unsigned n = 0; n < WORDS; n++) words[n] = draw(7) ? entry_of(1 + draw(4)) : draw(UINT64_MAX);
    for (unsigned n = 0; n < 8; n++) slots[n] = draw(512);
    memcpy(before, words, sizeof words);
}

static uint64_t address_of(void) {
    uint64_t address = draw(4096);
    for (unsigned shift = 12; shift < 48; shift += 9) address |= (uint64_t)(draw(20) ? slots[draw(8)] : 511) << shift;
    if (bit(address, 47)) address |= 0xffffull << 48;
    return draw(16) ? address : address ^ 1ull << (47 + draw(17));
}

/* ---- what is compared */

static bool is_place(const struct limzhur_guest_place *place, const struct limzhur_guest_place *wanted) {
    return place->physical == wanted->physical && place->size == wanted->size && place->write == wanted->write && place->user == wanted->user
        && place->fetch == wanted->fetch && place->through == wanted->through && place->uncached == wanted->uncached
        && place->global == wanted->global && place->sets_accessed == wanted->sets_accessed && place->sets_dirty == wanted->sets_dirty;
}

/* The walk an entry at a time. Its entries are written back as the model has it. */
static struct limzhur_walk walk(uint64_t cr3, uint64_t address, uint8_t width, uint32_t mode, bool is_canonical, const struct end *end) {
    struct limzhur_walk walk;
    struct limzhur_guest_place place;
    uint32_t told = LIMZHUR_GOES_ON, wanted = end->absent ? LIMZHUR_NOT_PRESENT : end->reserved ? LIMZHUR_RESERVED : LIMZHUR_AT_PAGE;
    unsigned read = 0;
    wants(limzhur_walk_begin(&walk, cr3, address, width, mode) == is_canonical, "begin", address, mode, 0);
    if (!is_canonical) return walk;
    while (told == LIMZHUR_GOES_ON && read < 5) {
        uint64_t number = limzhur_walk_entry(&walk) / 8, entry = number < WORDS ? words[number] : 0;
        for (unsigned write = 0; write < 2; write++, marks++) {
            uint64_t dirty = write && (read == 3 || bit(entry, 7)) ? 0x40 : 0;
            wants(limzhur_walk_marked(entry, read, write) == (entry | 0x20 | dirty), "marked", address, mode, write);
        }
        if (told == LIMZHUR_GOES_ON) wants(limzhur_walk_access(&walk, 0, &place) == LIMZHUR_GUEST_NOT_ENDED, "not ended", address, mode, 0);
        told = limzhur_walk_next(&walk, entry);
        read++, steps++;
    }
    wants(told == wanted && read == 5 - end->level, "the end", address, mode, 0);
    wants(limzhur_walk_next(&walk, draw(UINT64_MAX)) == wanted, "after the end", address, mode, 0);
    return walk;
}

static void compare(uint64_t cr3, uint64_t address, uint8_t width, uint32_t mode) {
    bool is_canonical = address >> 47 == 0 || address >> 47 == 0x1ffff;
    struct end end = model(cr3, address, width, mode);
    struct limzhur_walk walked = walk(cr3, address, width, mode, is_canonical, &end);
    for (uint32_t access = 0; access < 32; access++) {
        /* Bits 0 and 3 are those that a call ignores. */
        if (access & 9 && draw(8)) continue;
        struct limzhur_guest_place place, other, wanted;
        uint32_t right = is_canonical ? answer_of(&end, mode, access) : LIMZHUR_GUEST_NOT_CANONICAL;
        memset(&place, 77, sizeof place);
        other = wanted = place;
        if (!right) wanted = place_of(&end, access);
        wants(limzhur_translate(words, WORDS, cr3, address, width, mode | (draw(4) ? 0 : 64), access, &place) == right, "translate", address, mode, access);
        wants(limzhur_walk_access(&walked, access, &other) == right, "the walk", address, mode, access);
        if (right) wants(!memcmp(&place, &wanted, sizeof place) && !memcmp(&other, &wanted, sizeof place), "a place that stays", address, mode, access);
        else wants(is_place(&place, &wanted) && is_place(&other, &wanted), "the place", address, mode, access);
        compared++;
        if (right & LIMZHUR_FAULT) faults++, codes |= 1ull << (right & 63);
        else if (right) others++;
        else granted++;
    }
}

int main(int count, char **arguments) {
    if (count > 1) drawn += strtoull(arguments[1], NULL, 0) * 0x9e3779b97f4a7c15ull;
    for (unsigned memory = 0; memory < MEMORIES; memory++) {
        fill();
        for (unsigned n = 0; n < ADDRESSES; n++) {
            uint64_t address = address_of(), cr3 = draw(TABLES) << 12 | draw(4096) | (draw(9) ? 0 : draw(4096) << 52);
            uint8_t width = draw(3) ? 32 + draw(21) : draw(256);
            for (uint32_t mode = 0; mode < MODES; mode++) compare(cr3, address, width, mode);
        }
        wants(!memcmp(words, before, sizeof words), "the words stay", 0, 0, 0);
    }
    for (uint32_t access = 0; access < 32; access++) {
        /* A read, a write or a fetch, by the supervisor or the user: not present; denied by a right; by a reserved bit. */
        bool is_kind = !(access & 9) && !(access & 2 && access & 16);
        for (uint32_t cause = 0; is_kind && cause < 16; cause += cause ? 8 : 1) wants(codes >> (access | cause) & 1, "no code", 0, 0, access | cause);
    }
    printf("accesses %llu: granted %llu, page faults %llu of %d codes, not canonical %llu; entries by steps %llu, marked %llu, wrong %llu\n",
        (unsigned long long)compared, (unsigned long long)granted, (unsigned long long)faults, __builtin_popcountll(codes),
        (unsigned long long)others, (unsigned long long)steps, (unsigned long long)marks, (unsigned long long)wrong);
    return wrong != 0;
}
