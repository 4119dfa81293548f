/*
 * The proved heap as the malloc of programs that know nothing of it (Linux, glibc, x86-64):
 *
 *     LD_PRELOAD=.build/limzhur_preload.so python3 ..
 *
 * One heap over one range of addresses, and one lock. What does not fit is refused with ENOMEM. An address of no live block
 * is not freed: the heap refuses it, and the program goes on. With LIMZHUR_CHECK=1 in the environment such a call ends the
 * program, and so does a heap that is not sound.
 */
#define _GNU_SOURCE
#include "preload/check.h"
#include "preload/lock.h"
#include "preload/memory.h"

#include <errno.h>
#include <malloc.h>
#include <pthread.h>
#include <stdint.h>
#include <stdio.h>
#include <stdlib.h>

/* The alignment of each block, and the least other one that glibc serves. */
#define ALIGN 16
#define LEAST_ALIGN 32

/* Runs before each other library's constructor, and so registers the fork handlers before theirs: the linker is told so. */
__attribute__((constructor)) static void begin_program(int count, char **words, char **variables) {
    (void)count, (void)words;
    read_environment(variables);
    pthread_atfork(before_fork, in_parent, in_child);
}

/* Begins a call. The first one begins the heap. */
static enum entry enter(void) {
    static bool begun;
    enum entry entry = enter_lock();
    if (entry == REFUSED) return entry;
    if (!begun) {
        if (limzhur_room() > sizeof room) die("limzhur: the room is too small\n");
        if (!begin_heap()) die("limzhur: no range of addresses\n");
        begun = true;
    }
    check();
    return entry;
}

static bool is_power_of_two(size_t number) {
    return number != 0 && (number & (number - 1)) == 0;
}

static void *refused(void) {
    errno = ENOMEM;
    return NULL;
}

/* The block that a call of the heap answered, and the end of the call. */
static void *given(enum entry entry, uint64_t address) {
    leave_lock(entry);
    return address == 0 ? refused() : (void *)address;
}

static void *allocate(size_t size, size_t align, request *call) {
    enum entry entry = enter();
    if (entry == REFUSED) return refused();
    return given(entry, serve(call, size, align, size, align));
}

void *malloc(size_t size) {
    return allocate(size, ALIGN, limzhur_malloc);
}

void *calloc(size_t count, size_t size) {
    size_t bytes;
    return __builtin_mul_overflow(count, size, &bytes) ? refused() : allocate(bytes, ALIGN, limzhur_calloc);
}

/* Whether an address may be asked about: outside of what the heap has are no blocks, and no open pages. */
static bool is_within(void *block) {
    return (uint64_t)block >= blocks.begin + HEAD && (uint64_t)block < used_to;
}

void free(void *block) {
    if (block == NULL) return;
    enum entry entry = enter();
    if (entry == REFUSED) return;
    bool is_top_long = is_within(block) && makes_top_long((uint64_t)block);
    if (!is_within(block) || !limzhur_free(&heap, (uint64_t)block)) tell_wrong_block("free", (uint64_t)block);
    settle(is_top_long);
    leave_lock(entry);
}

/* As glibc has it, a size of 0 frees. */
void *realloc(void *block, size_t size) {
    if (block == NULL) return malloc(size);
    if (size == 0) {
        free(block);
        return NULL;
    }
    enum entry entry = enter();
    if (entry == REFUSED) return refused();
    uint64_t had = is_within(block) ? limzhur_usable_size(&heap, (uint64_t)block) : 0;
    if (had == 0) {
        tell_wrong_block("realloc", (uint64_t)block);
        return given(entry, 0);
    }
    bool is_top_long = size < had && makes_top_long((uint64_t)block);
    uint64_t address = serve(limzhur_realloc, (uint64_t)block, size, size, ALIGN);
    /* A block that grew and moved may grow on: what it left at the end is for that. */
    if (address != (uint64_t)block || size < had) settle(is_top_long);
    return given(entry, address);
}

int posix_memalign(void **to, size_t align, size_t size) {
    if (!is_power_of_two(align) || align % sizeof(void *) != 0) return EINVAL;
    int number = errno;
    void *block = allocate(size, align, limzhur_malloc);
    errno = number;
    if (block == NULL) return ENOMEM;
    *to = block;
    return 0;
}

/* As glibc has it, an alignment that is no power of two is taken for the next one. */
void *memalign(size_t align, size_t size) {
    if (align <= ALIGN) return malloc(size);
    if (align > SIZE_MAX / 2 + 1) {
        errno = EINVAL;
        return NULL;
    }
    size_t power = LEAST_ALIGN;
    while (power < align) power *= 2;
    return allocate(size, power, limzhur_malloc);
}

void *aligned_alloc(size_t align, size_t size) {
    return memalign(align, size);
}

void *valloc(size_t size) {
    return allocate(size, PAGE, limzhur_malloc);
}

void *pvalloc(size_t size) {
    return size > SIZE_MAX - PAGE ? refused() : valloc(page_up(size));
}

size_t malloc_usable_size(void *block) {
    if (block == NULL) return 0;
    enum entry entry = enter();
    if (entry == REFUSED) return 0;
    size_t size = is_within(block) ? limzhur_usable_size(&heap, (uint64_t)block) : 0;
    leave_lock(entry);
    return size;
}

/* 1 if pages went back to the system. */
int malloc_trim(size_t pad) {
    enum entry entry = enter();
    if (entry == REFUSED) return 0;
    limzhur_trim(&heap, pad);
    bool closed = give_back(1);
    leave_lock(entry);
    return closed;
}

/* What the heap has, chunk by chunk, and how many bytes from the first to the last of it. */
static struct survey survey(uint64_t *bytes) {
    struct survey told = {0};
    enum entry entry = enter();
    *bytes = 0;
    if (entry == REFUSED) return told;
    if (!look_at_chunks(&told)) die("limzhur: the heap is not sound\n");
    *bytes = used_to - blocks.begin;
    leave_lock(entry);
    return told;
}

struct mallinfo2 mallinfo2(void) {
    uint64_t bytes;
    struct survey told = survey(&bytes);
    return (struct mallinfo2){
        .arena = bytes,
        .ordblks = told.free_chunks,
        .uordblks = bytes - told.free_bytes,
        .fordblks = told.free_bytes,
        .keepcost = told.top_bytes,
    };
}

struct mallinfo mallinfo(void) {
    struct mallinfo2 told = mallinfo2();
    return (struct mallinfo){
        .arena = told.arena,
        .ordblks = told.ordblks,
        .uordblks = told.uordblks,
        .fordblks = told.fordblks,
        .keepcost = told.keepcost,
    };
}

void malloc_stats(void) {
    uint64_t bytes;
    struct survey told = survey(&bytes);
    dprintf(2, "system bytes     = %10lu\nin use bytes     = %10lu\nblocks           = %10lu\n", bytes, bytes - told.free_bytes,
            told.used_chunks);
}
