/* Blocks of 8000 bytes, all freed from the first on, from the last on, or every second one first, at rates from never to each
 * free: whether the rate changes what the memory has in use, or what a trim then gives back. */
#include <limzhur.h>
#include <stdio.h>

enum { BLOCKS = 100, ORDERS = 3 };
static _Alignas(16) uint64_t memory[1 << 17];
static _Alignas(8) unsigned char room[LIMZHUR_ROOM];

static uint64_t used(struct limzhur_heap *heap) {
    struct limzhur_stats stats;
    limzhur_stats(heap, &stats);
    return stats.used;
}

static int place(int order, int i) {
    return order == 0 ? i : order == 1 ? BLOCKS - 1 - i : i < BLOCKS / 2 ? 2 * i : 2 * (i - BLOCKS / 2) + 1;
}

int main(void) {
    static const uint64_t rates[] = {0, 1, 2, 4095};
    static uint64_t seen[ORDERS][BLOCKS + 1], blocks[BLOCKS];
    int wrong = 0;
    for (int rate = 0; rate < 4; rate++) {
        for (int order = 0; order < ORDERS; order++) {
            for (int i = 0; i < 1 << 17; i++) memory[i] = 0;
            struct limzhur_heap heap = {room};
            limzhur_init_with(room, memory, 1 << 17, 65536, 4096);
            limzhur_set_release_rate(&heap, rates[rate]);
            for (int i = 0; i < BLOCKS; i++) blocks[i] = limzhur_malloc(&heap, 8000, 16);
            for (int i = 0; i <= BLOCKS; i++) {
                wrong += i < BLOCKS ? !limzhur_free(&heap, blocks[place(order, i)]) : !limzhur_trim(&heap, 0);
                if (rate == 0) seen[order][i] = used(&heap);
                wrong += seen[order][i] != used(&heap);
            }
        }
    }
    printf("used in bytes %d, after the trim %d, wrong %d\n", (int)seen[0][BLOCKS - 1], (int)seen[0][BLOCKS], wrong);
    return wrong != 0;
}
