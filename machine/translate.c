/* What limzhur_guest.h says of accesses over a memory. Standard input has numbers in hexadecimal: the mode without AC, the width, the
 * frames of the memory, the root table's address, how many words are not 0, each of these by its place and value; and addresses. For
 * each address it prints a line: the address; of a read, a write and a fetch by the supervisor, then with AC, then by the user, then
 * with AC, the physical address of the byte or `fault:` and the code; and of each entry on the way its place, and what the processor
 * writes back to it after a granted read, and after a granted write. */
#include <inttypes.h>
#include <limzhur_guest.h>
#include <stdio.h>
#include <stdlib.h>

static uint64_t *words, count, mode, width, root;

static uint64_t number(void) {
    uint64_t value;
    if (scanf("%" SCNx64, &value) != 1) exit(2);
    return value;
}

/* The answer of one call, which is that of the walk too. */
static void say_access(const struct limzhur_walk *walk, uint32_t access) {
    struct limzhur_guest_place place = {0}, other = {0};
    uint32_t answer = limzhur_translate(words, count, root, walk->address, width, walk->mode, access, &place);
    if (answer != limzhur_walk_access(walk, access, &other) || (!answer && place.physical != other.physical)) exit(3);
    if (answer & LIMZHUR_FAULT) printf(" fault:%" PRIx32, answer & ~LIMZHUR_FAULT);
    else if (answer) printf(" none");
    else printf(" %" PRIx64, place.physical);
}

/* Walks, and prints the entries on the way if it is told to. */
static struct limzhur_walk walk_of(uint64_t address, uint32_t more, bool says) {
    struct limzhur_walk walk;
    uint32_t told = limzhur_walk_begin(&walk, root, address, width, mode | more) ? LIMZHUR_GOES_ON : LIMZHUR_NOT_WALKED;
    for (uint8_t step = 0; told == LIMZHUR_GOES_ON; step++) {
        uint64_t place = limzhur_walk_entry(&walk), entry = place / 8 < count ? words[place / 8] : 0;
        told = limzhur_walk_next(&walk, entry);
        if (says) printf(" %" PRIx64 ":%" PRIx64 ":%" PRIx64, place, limzhur_walk_marked(entry, step, false), limzhur_walk_marked(entry, step, true));
    }
    return walk;
}

int main(void) {
    mode = number(), width = number(), count = 512 * number(), root = number();
    words = calloc(count, 8);
    for (uint64_t left = number(); left; left--) {
        uint64_t place = number();
        if (place / 8 >= count) exit(2);
        words[place / 8] = number();
    }
    for (uint64_t address; scanf("%" SCNx64, &address) == 1;) {
        printf("%" PRIx64, address);
        for (uint32_t user = 0; user <= LIMZHUR_ACCESS_USER; user += LIMZHUR_ACCESS_USER) {
            for (uint32_t more = 0; more <= LIMZHUR_GUEST_AC; more += LIMZHUR_GUEST_AC) {
                struct limzhur_walk walk = walk_of(address, more, false);
                say_access(&walk, user);
                say_access(&walk, user | LIMZHUR_ACCESS_WRITE);
                say_access(&walk, user | LIMZHUR_ACCESS_FETCH);
            }
        }
        walk_of(address, 0, true);
        printf("\n");
    }
    return 0;
}
