/* A program in C over the proved heap: its blocks lie in one array of its own. */
#include <limzhur.h>
#include <stdio.h>
#include <string.h>

static _Alignas(4096) uint64_t memory[1 << 17];
static _Alignas(8) unsigned char room[LIMZHUR_ROOM];

/* A second heap, in one page. */
static _Alignas(4096) uint64_t page_memory[512];
static _Alignas(8) unsigned char page_room[LIMZHUR_ROOM];

int main(void) {
    limzhur_init(room, memory, sizeof memory / 8, (uintptr_t)memory);
    struct limzhur_heap heap = {room};

    uint64_t text = limzhur_malloc(&heap, 24, 16);
    uint64_t page = limzhur_calloc(&heap, 1000, 4096);
    strcpy((char *)text, "bytes stay");
    uint64_t moved = limzhur_realloc(&heap, text, 5000);
    printf("a page at a multiple of 4096: %s\n", page % 4096 == 0 ? "yes" : "no");
    printf("the text in its new block of %s: %s\n", limzhur_usable_size(&heap, moved) >= 5000 ? "5000 bytes" : "?", (char *)moved);

    printf("too large: %d\n", (int)limzhur_malloc(&heap, UINT64_MAX, 16));
    printf("an alignment of 24: %d\n", (int)limzhur_malloc(&heap, 8, 24));
    printf("an address inside a block: %d\n", limzhur_free(&heap, page + 16));
    printf("a free: %d\n", limzhur_free(&heap, page));
    printf("a second free: %d\n", limzhur_free(&heap, page));

    limzhur_init_with(page_room, page_memory, 512, (uintptr_t)page_memory, 256);
    struct limzhur_heap small = {page_room};
    int blocks = 0;
    while (limzhur_malloc(&small, 24, 16) != 0) blocks++;
    printf("blocks of 24 bytes in a page: %d\n", blocks);
    printf("a granularity of 100: %d\n", limzhur_set_granularity(&small, 100));
    printf("a granularity of 4096: %d\n", limzhur_set_granularity(&small, 4096));
    limzhur_set_release_rate(&small, 0);
    return 0;
}
