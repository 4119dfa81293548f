/* What accesses of a guest give, by its page tables: in one call, and an entry at a time. */
#include <limzhur_guest.h>
#include <stdatomic.h>
#include <stdio.h>

#define MODE (LIMZHUR_GUEST_WP | LIMZHUR_GUEST_NXE)
#define WIDTH 40                                /* bits of a physical address */

/* The guest's memory, from physical address 0 on: the root table in frame 1, and a page of 4 KiB and one of 2 MiB, which may only
 * be read. */
static _Atomic uint64_t memory[5 * 512] = {
    [512] = 0x2027, [2 * 512] = 0x3027, [3 * 512] = 0x4027, [3 * 512 + 1] = 0x6000a5, [4 * 512 + 5] = 0x7067,
};

static void say(const char *what, uint32_t answer, const struct limzhur_guest_place *place) {
    if (answer & LIMZHUR_FAULT) printf("%s: page fault, code %#x\n", what, answer & ~LIMZHUR_FAULT);
    else if (answer) printf("%s: not canonical\n", what);
    else printf("%s: physical address %#llx in a page of %llu KiB\n", what, (unsigned long long)place->physical, (unsigned long long)place->size / 1024);
}

/* The entry at a physical address. Here other processors of the guest may write to it, and there may be holes. */
static uint64_t read_entry(uint64_t physical) {
    return physical / 8 < sizeof memory / 8 ? atomic_load_explicit(&memory[physical / 8], memory_order_acquire) : 0;
}

static void by_entries(const char *what, uint64_t address, uint32_t access) {
    struct limzhur_walk walk;
    struct limzhur_guest_place place;
    if (limzhur_walk_begin(&walk, 0x1000, address, WIDTH, MODE)) {
        while (limzhur_walk_next(&walk, read_entry(limzhur_walk_entry(&walk))) == LIMZHUR_GOES_ON) {}
    }
    say(what, limzhur_walk_access(&walk, access, &place), &place);
}

int main(void) {
    struct limzhur_guest_place place;
    /* Nobody else writes to the memory meanwhile. */
    const uint64_t *words = (const uint64_t *)memory;
    uint32_t answer = limzhur_translate(words, sizeof memory / 8, 0x1000, 0x5123, WIDTH, MODE, LIMZHUR_ACCESS_WRITE | LIMZHUR_ACCESS_USER, &place);
    say("a user's write", answer, &place);
    by_entries("the user's read in the large page", 0x234567, LIMZHUR_ACCESS_USER);
    by_entries("its write there", 0x234567, LIMZHUR_ACCESS_WRITE | LIMZHUR_ACCESS_USER);
    by_entries("a fetch of the supervisor", 0x6000, LIMZHUR_ACCESS_FETCH);
    by_entries("a read", 1ull << 47, 0);
    return 0;
}
