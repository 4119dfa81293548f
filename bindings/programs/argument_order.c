/* Arguments of one type, and the two figures of limzhur_stats, in the order of the header. The clauses of the library name them,
 * and say nothing of the order in which C gives them: if two of them change places there, an answer here changes. */
#include <limzhur.h>
#include <stdio.h>

static _Alignas(16) uint64_t memories[2][1 << 16];
static _Alignas(8) unsigned char rooms[2][LIMZHUR_ROOM];
static int wrong;

static void wants(bool good, const char *what) {
    if (!good) wrong++, fprintf(stderr, "wrong: %s\n", what);
}

static bool is_block(struct limzhur_heap *heap, uint64_t block, uint64_t size, uint64_t align) {
    uint64_t usable = limzhur_usable_size(heap, block);
    return block != 0 && block % align == 0 && size <= usable && usable <= size + 71;
}

static bool are_figures(struct limzhur_heap *heap, uint64_t used, uint64_t blocks) {
    struct limzhur_stats stats = {77, 77};
    limzhur_stats(heap, &stats);
    return stats.used == used && stats.blocks == blocks;
}

/* Each memory is told to begin at 65536, so no block is written here. It has more words than are told. */
int main(void) {
    struct limzhur_heap first = {rooms[0]}, heap = {rooms[1]};
    limzhur_init(first.room, memories[0], 16384, 65536);
    wants(limzhur_malloc(&first, 100, 16) == 65536 + 16, "init");

    limzhur_init_with(heap.room, memories[1], 8192, 65536, 4096);
    wants(are_figures(&heap, 0, 0), "the figures of an empty heap");
    uint64_t block = limzhur_malloc(&heap, 100, 16);
    wants(block == 65536 + 16, "init_with");
    wants(are_figures(&heap, 4096, 1), "the figures of one block");
    wants(limzhur_free(&heap, block) && are_figures(&heap, 4096, 0), "the figures after its end");

    wants(is_block(&heap, limzhur_malloc(&heap, 24, 64), 24, 64), "malloc: 24 bytes at a multiple of 64");
    wants(is_block(&heap, limzhur_malloc(&heap, 16, 4096), 16, 4096), "malloc: 16 bytes at a multiple of 4096");
    wants(is_block(&heap, limzhur_malloc(&heap, 4096, 16), 4096, 16), "malloc: 4096 bytes at a multiple of 16");
    wants(is_block(&heap, limzhur_calloc(&heap, 16, 4096), 16, 4096), "calloc: 16 bytes at a multiple of 4096");
    block = limzhur_calloc(&heap, 4096, 16);
    wants(is_block(&heap, block, 4096, 16), "calloc: 4096 bytes at a multiple of 16");
    wants(is_block(&heap, limzhur_realloc(&heap, block, 5000), 5000, 16), "realloc");

    printf("arguments and figures, wrong %d\n", wrong);
    return wrong != 0;
}
