/* pages MEMORY CR3 CR0 CR4 EFER: which addresses lead to which memory, by the page tables of a machine that was stopped. The file
 * MEMORY has its physical memory from address 0 on; the registers are in hexadecimal. A line for each range of pages: its address
 * and size, what it grants, who reaches it, and the physical address. */
#include <fcntl.h>
#include <inttypes.h>
#include <limzhur_guest.h>
#include <stdio.h>
#include <stdlib.h>
#include <sys/mman.h>
#include <sys/stat.h>

struct range { uint64_t address, size, physical; bool write, user, fetch; };

static const uint64_t *words;
static uint64_t count, totals[2], both;                 /* bytes of the supervisor, of the user, and those written and fetched */

static void say(const struct range *range) {
    const char *units[] = {"KiB", "MiB", "GiB", "TiB"};
    uint64_t size = range->size / 1024, unit = 0;
    if (!size) return;
    while (unit < 3 && size % 1024 == 0) size /= 1024, unit++;
    printf("%016" PRIx64 " %7" PRIu64 " %s r%c%c %-10s at 0x%" PRIx64 "\n", range->address, size, units[unit], range->write ? 'w' : '-',
        range->fetch ? 'x' : '-', range->user ? "user" : "supervisor", range->physical);
    totals[range->user] += range->size;
    both += range->write && range->fetch ? range->size : 0;
}

/* Walks for an address, and leaves the place and how many bytes lie alike: those of the page, or of the entry that ends the walk. */
static bool find(uint64_t cr3, uint64_t address, uint32_t mode, struct limzhur_guest_place *place, uint64_t *size) {
    struct limzhur_walk walk;
    uint32_t told = limzhur_walk_begin(&walk, cr3, address, 52, mode) ? LIMZHUR_GOES_ON : LIMZHUR_NOT_WALKED;
    while (told == LIMZHUR_GOES_ON) {
        uint64_t word = limzhur_walk_entry(&walk) / 8;
        told = limzhur_walk_next(&walk, word < count ? words[word] : 0);
    }
    *size = 1ull << (39 - 9 * walk.step);
    /* Every page grants the supervisor's reads, without SMAP. */
    return limzhur_walk_access(&walk, 0, place) == 0;
}

int main(int given, char **arguments) {
    struct stat file;
    uint64_t registers[4], size;
    int memory = given == 6 ? open(arguments[1], O_RDONLY) : -1;
    if (memory < 0 || fstat(memory, &file)) return fprintf(stderr, "usage: pages MEMORY CR3 CR0 CR4 EFER\n"), 64;
    for (int n = 0; n < 4; n++) registers[n] = strtoull(arguments[n + 2], NULL, 16);
    words = mmap(NULL, file.st_size, PROT_READ, MAP_PRIVATE, memory, 0), count = file.st_size / 8;
    uint32_t mode = LIMZHUR_GUEST_IGNORES_BIT_8 | (registers[3] >> 11 & 1 ? LIMZHUR_GUEST_NXE : 0);
    if (words == MAP_FAILED || !(registers[1] >> 31 & 1) || registers[2] >> 12 & 1) return fprintf(stderr, "pages: no tables of four levels\n"), 1;
    struct range range = {0};
    for (uint64_t address = 0, is_last = 0; !is_last; address += size) {
        struct limzhur_guest_place place;
        if (address == 1ull << 47) address = -address;          /* the upper half */
        bool found = find(registers[0], address, mode, &place, &size);
        if (!found || address != range.address + range.size || place.physical != range.physical + range.size
            || place.write != range.write || place.user != range.user || place.fetch != range.fetch) {
            say(&range);
            range = (struct range){address, 0, found ? place.physical : 0, found && place.write, found && place.user, found && place.fetch};
        }
        range.size += found ? size : 0;
        is_last = address + size == 0;
    }
    say(&range);
    printf("supervisor %" PRIu64 " KiB, user %" PRIu64 " KiB; may be written and run %" PRIu64 " KiB\n", totals[0] / 1024, totals[1] / 1024, both / 1024);
    return 0;
}
