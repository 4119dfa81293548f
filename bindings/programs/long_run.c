/*
 * long_run OPERATIONS [THREADS]: operations on blocks of up to 16 KiB, of which each thread has a table. How many blocks it
 * fills rises and falls, a hundred times in the run. Each block is written as it is had, and looked at before it goes. At
 * the end: how many blocks were not as they were written, and whether as much was resident at the end as at the beginning.
 * Standard error has the figures, a line for each tenth.
 */
#include "churn.h"
#include <pthread.h>
#include <stdint.h>

enum { SLOTS = 20000, WAVES = 100, TENTHS = 10, MOST_THREADS = 16, ALL_BYTES = 256 };

/* A block, and what it was filled with. */
struct slot {
    unsigned char *block;
    size_t size;
    unsigned char stamp;
};

/* A thread: its blocks, its random numbers, and what it found. */
struct worker {
    pthread_t thread;
    struct slot slots[SLOTS];
    uint64_t state;
    long operations, bad;
    bool tells;
};

static struct worker workers[MOST_THREADS];

/* The most KiB that were resident in each tenth of the first thread's run. */
static long resident[TENTHS];

static uint64_t draw(struct worker *worker) {
    worker->state ^= worker->state << 13;
    worker->state ^= worker->state >> 7;
    worker->state ^= worker->state << 17;
    return worker->state;
}

/* 16 bytes to 16 KiB, of each power of two as many. */
static size_t draw_size(uint64_t drawn) {
    size_t least = (size_t)16 << drawn % 10;
    return least + (drawn >> 8) % least;
}

/* The bytes that are looked at: all of a small block; the first, the last, and each 512th of another. */
static size_t step(size_t size) {
    return size <= ALL_BYTES ? 1 : 512;
}

static void fill(struct slot *slot) {
    for (size_t i = 0; i < slot->size; i += step(slot->size)) slot->block[i] = slot->stamp;
    slot->block[slot->size - 1] = slot->stamp;
}

/* Whether as many bytes of the block as are given are as they were filled. */
static bool is_filled(const struct slot *slot, size_t bytes) {
    for (size_t i = 0; i < bytes; i += step(slot->size)) {
        if (slot->block[i] != slot->stamp) return false;
    }
    return bytes < slot->size || slot->block[slot->size - 1] == slot->stamp;
}

static bool is_zero(const unsigned char *block, size_t size) {
    for (size_t i = 0; i < size; i += step(size)) {
        if (block[i] != 0) return false;
    }
    return block[size - 1] == 0;
}

/* A new block of a size, by a call that is drawn. NULL where it is not what that call promises. */
static unsigned char *new_block(uint64_t drawn, size_t size) {
    unsigned char *block;
    if (drawn % 16 < 13) return malloc(size);
    if (drawn % 16 < 15) return (block = calloc(1, size)) != NULL && is_zero(block, size) ? block : NULL;
    size_t align = (size_t)32 << (drawn >> 4) % 8;
    block = aligned_alloc(align, (size + align - 1) / align * align);
    return (uintptr_t)block % align == 0 ? block : NULL;
}

/* One operation on a slot, which is to have a block or not. */
static bool operate(struct worker *worker, struct slot *slot, bool is_live) {
    uint64_t drawn = draw(worker);
    size_t size = draw_size(drawn >> 24), had = slot->size;
    bool good = slot->block == NULL || is_filled(slot, had);
    if (is_live && slot->block != NULL && drawn % 4 == 0) {
        unsigned char *moved = realloc(slot->block, size);
        if (moved == NULL) return false;
        slot->block = moved;
        good = good && is_filled(slot, size < had ? size : had);
    } else {
        free(slot->block);
        slot->block = is_live ? new_block(drawn >> 8, size) : NULL;
        if (is_live && slot->block == NULL) return false;
    }
    slot->size = size;
    slot->stamp = (unsigned char)(drawn >> 16);
    if (is_live) fill(slot);
    return good;
}

/* How many of the slots have blocks at a moment of the run: from a quarter to all, and back. */
static size_t live_slots(long operation, long operations) {
    long wave = operations / WAVES > 0 ? operations / WAVES : 1, at = operation % wave;
    long rise = at < wave / 2 ? at : wave - at;
    return SLOTS / 4 + (size_t)(rise * 2 * (SLOTS * 3 / 4) / wave);
}

static void *work(void *given) {
    struct worker *worker = given;
    for (long i = 0; i < worker->operations; i++) {
        size_t place = (size_t)(draw(worker) >> 20) % SLOTS;
        worker->bad += !operate(worker, &worker->slots[place], place < live_slots(i, worker->operations));
        if (worker->tells && i % (worker->operations / 1000 + 1) == 0) {
            long now = from_status("VmRSS:"), *most = &resident[i * TENTHS / worker->operations];
            if (now > *most) *most = now;
        }
    }
    return NULL;
}

int main(int count, char **words) {
    long operations = count > 1 ? atol(words[1]) : 0, threads = count > 2 ? atol(words[2]) : 1, bad = 0;
    if (operations < 1000 || threads < 1 || threads > MOST_THREADS) return 64;
    for (int i = 0; i < threads; i++) {
        workers[i].state = 88172645463325252u + (uint64_t)i;
        workers[i].operations = operations / threads;
        workers[i].tells = i == 0;
    }
    for (int i = 1; i < threads; i++) pthread_create(&workers[i].thread, NULL, work, &workers[i]);
    work(&workers[0]);
    for (int i = 1; i < threads; i++) pthread_join(workers[i].thread, NULL);
    for (int i = 0; i < threads; i++) bad += workers[i].bad;
    for (int i = 0; i < TENTHS; i++) fprintf(stderr, "tenth %d: at most %ld KiB resident\n", i + 1, resident[i]);
    bool keeps = resident[TENTHS - 1] <= resident[0] + resident[0] / 10;
    printf("%ld operations, %ld bad, resident memory: %s\n", operations / threads * threads, bad, keeps ? "kept" : "grown");
    return bad == 0 ? 0 : 1;
}
