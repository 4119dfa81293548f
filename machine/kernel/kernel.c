/* A kernel over the proved heap: it makes a heap on the memory that the multiboot map gives, uses it, and has a page fault. What
 * it finds goes to the serial line; its status is 0 if all was as it had to be. */
#include "meanings.h"
#include "paging.h"
#include <limzhur.h>

#define CALLS 20000
#define CALLS_ON_DEMAND 100000
#define BLOCKS 512
#define MOST_BYTES (64ull << 20)

static _Alignas(8) unsigned char room[LIMZHUR_ROOM], second_room[LIMZHUR_ROOM];
static struct block { uint64_t at, size; uint8_t byte; } blocks[BLOCKS];
static struct counts { uint64_t made, resized, freed, refused, wrong; } counts;

static uint64_t drawn = 88172645463325252ull;

static uint64_t draw(uint64_t below) {
    drawn ^= drawn << 13;
    drawn ^= drawn >> 7;
    drawn ^= drawn << 17;
    return drawn % below;
}

static void wants(bool good) { counts.wrong += !good; }

/* Whether each byte of a block is the one that was put there. */
static bool has_bytes(const struct block *block, uint64_t size) {
    const uint8_t *bytes = (const uint8_t *)block->at;
    for (uint64_t n = 0; n < size; n++) {
        if (bytes[n] != block->byte) return false;
    }
    return true;
}

static void make(struct limzhur_heap *heap, struct block *block, uint64_t size, uint64_t align) {
    bool clear = draw(2);
    uint64_t at = clear ? limzhur_calloc(heap, size, align) : limzhur_malloc(heap, size, align);
    if (!at) {
        counts.refused++;
        return;
    }
    *block = (struct block){at, size, 0};
    wants(at % align == 0 && limzhur_usable_size(heap, at) >= size && (!clear || has_bytes(block, size)));
    block->byte = draw(256);
    memset((void *)at, block->byte, size);
    counts.made++;
}

static void resize(struct limzhur_heap *heap, struct block *block, uint64_t size) {
    uint64_t at = limzhur_realloc(heap, block->at, size);
    if (!at) {
        counts.refused++;
        return;
    }
    block->at = at;
    wants(has_bytes(block, size < block->size ? size : block->size));
    block->size = size;
    memset((void *)at, block->byte, size);
    counts.resized++;
}

static void end(struct limzhur_heap *heap, struct block *block) {
    wants(has_bytes(block, block->size));
    wants(limzhur_free(heap, block->at));
    wants(!limzhur_free(heap, block->at));
    block->at = 0;
    counts.freed++;
}

/* Random calls, with each byte of each block looked at; then all blocks end. */
static void use(struct limzhur_heap *heap, int calls) {
    struct limzhur_stats stats;
    uint64_t live = 0;
    for (int n = 0; n < calls; n++) {
        struct block *block = blocks + draw(BLOCKS);
        if (!block->at) make(heap, block, draw(3000), 1ull << draw(13));
        else if (draw(3)) end(heap, block);
        else resize(heap, block, draw(3000));
    }
    for (int n = 0; n < BLOCKS; n++) live += blocks[n].at != 0;
    limzhur_stats(heap, &stats);
    wants(stats.blocks == live);
    for (int n = 0; n < BLOCKS; n++) {
        if (blocks[n].at) end(heap, blocks + n);
    }
    limzhur_stats(heap, &stats);
    wants(stats.blocks == 0);
    wants(!limzhur_free(heap, 1) && !limzhur_malloc(heap, 24, 24) && !limzhur_malloc(heap, ~0ull, 16));
}

/* A page fault, and what its code says. */
static void fault_once(void) {
    uint64_t address = DIRECT + (1ull << 40), code, fault_address;
    wants(!try_to_write(address, &code, &fault_address));
    wants(fault_address == address && code == CAUSED_BY_WRITE);
    say("page fault at 0x");
    say_number(fault_address, 16);
    say(":");
    for (size_t n = 0; n < sizeof page_fault_flags / sizeof *page_fault_flags; n++) {
        if (!(code & page_fault_flags[n].flag)) continue;
        say(" ");
        say(page_fault_flags[n].name);
    }
    say("\n");
}

/* A heap over pages that are mapped when they are touched, by page tables of the library in the memory that is no more used. */
static void use_own_tables(struct memory memory) {
    begin_paging(memory);
    limzhur_init(second_room, (uint64_t *)HEAP, HEAP_BYTES / 8, HEAP);
    struct limzhur_heap heap = {second_room};
    use(&heap, CALLS_ON_DEMAND);
    counts.wrong += look_at_paging();
    say_line("pages ", mapped_pages());
    say_line("tables ", made_tables());
}

void kernel_main(uint32_t info) {
    start_serial();
    set_handlers();
    struct memory memory = greatest_memory((const uint32_t *)(DIRECT + info));
    if (memory.to - memory.from > MOST_BYTES) memory.to = memory.from + MOST_BYTES;
    uint64_t *words = (uint64_t *)(DIRECT + memory.from);
    size_t count = (memory.to - memory.from) / 8;
    if (!count || limzhur_room() > sizeof room) leave(3);
    /* The last words have to be 0, and firmware may have left others there. */
    memset(words + count - (count + 127) / 128, 0, (count + 127) / 128 * 8);
    limzhur_init(room, words, count, (uint64_t)words);
    struct limzhur_heap heap = {room};
    use(&heap, CALLS);
    fault_once();
    use_own_tables(memory);
    say_line("made ", counts.made);
    say_line("resized ", counts.resized);
    say_line("freed ", counts.freed);
    say_line("refused ", counts.refused);
    say_line("wrong ", counts.wrong);
    leave(counts.wrong != 0);
}
