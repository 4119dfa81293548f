/*
 * work MIX THREADS ROUNDS: calls of malloc for peers to serve. Each thread has 2,000 live blocks of its own, and frees one and
 * allocates another in each round. MIX: 0: blocks of 16 to 527 bytes; 1: every fourth round resizes; 2: blocks of 16 to 8,191
 * bytes; 3: a thread frees what another allocated; 4: an array grows by 64 KiB up to 64 MiB.
 */
#include <pthread.h>
#include <stdint.h>
#include <stdio.h>
#include <stdlib.h>
#include <string.h>

enum { LIVE = 2000, STEP = 1 << 16, STEPS = 1 << 10, MOST_THREADS = 16 };

static int mix, threads;
static long rounds;
static void *_Atomic handed[MOST_THREADS][LIVE];

static uint64_t draw(uint64_t *state) {
    *state ^= *state << 13;
    *state ^= *state >> 7;
    *state ^= *state << 17;
    return *state;
}

static size_t size_of_block(uint64_t drawn) {
    return 16 + drawn % (mix == 2 ? 8176 : 512);
}

static void *write_first(void *block, size_t size) {
    if (block == NULL) abort();
    memset(block, 1, size < 64 ? size : 64);
    return block;
}

static void grow(void) {
    char *array = NULL;
    for (size_t i = 0; i < STEPS; i++) {
        array = realloc(array, (i + 1) * STEP);
        memset(array + i * STEP, 1, STEP);
    }
    free(array);
}

static void *serve(void *number) {
    int own = *(int *)number, other = mix == 3 ? (own + 1) % threads : own;
    uint64_t state = 88172645463325252u + own;
    if (mix == 4) {
        for (long i = 0; i < rounds; i++) grow();
        return NULL;
    }
    for (long i = 0; i < rounds; i++) {
        uint64_t drawn = draw(&state);
        size_t place = drawn >> 32 & 0x7FFFFFFF, size = size_of_block(drawn & 0xFFFFFF);
        place %= LIVE;
        if (mix == 1 && i % 4 == 0) {
            void *block = handed[own][place];
            handed[own][place] = write_first(realloc(block, size), size);
        } else {
            void *block = write_first(malloc(size), size);
            free(__atomic_exchange_n((void **)&handed[other][place], block, __ATOMIC_ACQ_REL));
        }
    }
    return NULL;
}

int main(int count, char **words) {
    pthread_t thread[MOST_THREADS];
    int number[MOST_THREADS];
    if (count != 4) return 64;
    mix = atoi(words[1]);
    threads = atoi(words[2]);
    rounds = atol(words[3]);
    if (threads < 1 || threads > MOST_THREADS) return 64;
    for (int i = 0; i < threads; i++) number[i] = i;
    for (int i = 1; i < threads; i++) pthread_create(&thread[i], NULL, serve, &number[i]);
    serve(&number[0]);
    for (int i = 1; i < threads; i++) pthread_join(thread[i], NULL);
    return 0;
}
