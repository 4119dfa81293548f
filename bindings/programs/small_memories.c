/* small_memories: what memories of several sizes serve, as the header tells it: the longest block that one has, how many blocks
 * of 24 bytes it has instead, and from how many bytes on a heap of a granularity serves anything. */
#include <limzhur.h>
#include <stdio.h>
#include <stdlib.h>
#include <string.h>

static _Alignas(8) unsigned char room[LIMZHUR_ROOM];
static uint64_t *memory;

/* A heap over so many bytes that were never used. */
static struct limzhur_heap begin(size_t bytes, uint64_t granularity) {
    memset(memory, 0, bytes);
    limzhur_init_with(room, memory, bytes / 8, (uintptr_t)memory, granularity);
    return (struct limzhur_heap){room};
}

static bool serves(size_t bytes, uint64_t granularity, uint64_t size) {
    struct limzhur_heap heap = begin(bytes, granularity);
    return limzhur_malloc(&heap, size, 16) != 0;
}

static uint64_t longest(size_t bytes, uint64_t granularity) {
    uint64_t served = 0, refused = bytes;
    while (refused - served > 1) {
        uint64_t size = served + (refused - served) / 2;
        if (serves(bytes, granularity, size)) {
            served = size;
        } else {
            refused = size;
        }
    }
    return served;
}

static uint64_t many(size_t bytes, uint64_t granularity) {
    struct limzhur_heap heap = begin(bytes, granularity);
    uint64_t blocks = 0;
    while (limzhur_malloc(&heap, 24, 16) != 0) blocks++;
    return blocks;
}

static void tell(size_t bytes, uint64_t granularity) {
    uint64_t one = longest(bytes, granularity), blocks = many(bytes, granularity);
    printf("%zu bytes, granularity %lu: one block of %lu (%lu %%), or %lu of 24 bytes (%lu %%)\n", bytes, granularity, one,
           100 * one / bytes, blocks, 100 * 24 * blocks / bytes);
}

static void tell_least(uint64_t granularity) {
    size_t bytes = 8;
    while (!serves(bytes, granularity, 0)) bytes += 8;
    printf("granularity %lu: from %zu bytes on\n", granularity, bytes);
}

int main(void) {
    memory = aligned_alloc(4096, (size_t)16 << 20);
    if (memory == NULL) return 1;
    tell(4096, 256);
    tell(65536, 1024);
    tell((size_t)1 << 20, 4096);
    tell((size_t)16 << 20, 65536);
    tell_least(65536);
    tell_least(4096);
    tell_least(128);
    return 0;
}
