/*
 * A look at each chunk of the heap: what it has, and whether it is sound. With LIMZHUR_CHECK=1 in the environment each 10,000
 * calls have such a look, and a fault ends the program; so does a free of no live block.
 */
#ifndef LIMZHUR_PRELOAD_CHECK_H
#define LIMZHUR_PRELOAD_CHECK_H

#include "memory.h"

#include <string.h>

/* Calls between two looks. */
enum { CALLS = 10000 };

/* Whether the environment asks for checks. */
static bool checks;

/* What the chunks are: bytes in those that are used and in those that are free, those of the top among them. */
struct survey {
    uint64_t used_bytes, free_bytes, used_chunks, free_chunks, top_bytes;
};

/* Ends the program at once: no handler of its own runs, which might call the heap again. */
static _Noreturn void die(const char *text) {
    (void)!write(2, text, strlen(text));
    _exit(134);
}

/* Whether a chunk is as it must be behind one that was used or not, and before the end of all chunks. */
static bool is_chunk(uint64_t chunk, uint64_t last, bool was_used) {
    uint64_t head = word(chunk + 8), size = size_in(head);
    bool is_used = head & IS_USED, is_top = size == last - chunk;
    if (size % 16 != 0 || size < (is_used ? LEAST_CHUNK : 16) || size > last - chunk) return false;
    if (was_used != ((head & IS_BEHIND_USED) != 0) || (!was_used && !is_used)) return false;
    if (is_top && is_used) return false;
    if (!is_used && !is_top && word(chunk + size) != size) return false;
    return limzhur_usable_size(&heap, chunk + HEAD) == (is_used ? size - 8 : 0);
}

/* Tells what the chunks are. False where they do not tile what the heap has, where their bits and sizes do not agree, where
 * two free ones are side by side, and where marks are not where blocks begin. */
static bool look_at_chunks(struct survey *told) {
    *told = (struct survey){0};
    look();
    if (used_to == blocks.begin) return true;
    bool was_used = true;
    uint64_t last = used_to - FOOT;
    for (uint64_t chunk = blocks.begin, size; chunk < last; chunk += size) {
        if (!is_chunk(chunk, last, was_used)) return false;
        uint64_t head = word(chunk + 8);
        size = size_in(head);
        was_used = head & IS_USED;
        *(was_used ? &told->used_bytes : &told->free_bytes) += size;
        *(was_used ? &told->used_chunks : &told->free_chunks) += 1;
        if (chunk + size == last) told->top_bytes = size;
    }
    return true;
}

static void read_environment(char **variables) {
    for (; *variables != NULL; variables++) checks = checks || strcmp(*variables, "LIMZHUR_CHECK=1") == 0;
}

/* Ends the program where the heap is not sound. Each call comes here. */
static inline void check(void) {
    static unsigned calls;
    struct survey survey;
    if (checks && ++calls % CALLS == 0 && !look_at_chunks(&survey)) die("limzhur: the heap is not sound\n");
}

/* Ends the program, if it is to be checked: no live block begins at an address that a call was given. */
static __attribute__((noinline, cold)) void tell_wrong_block(const char *call, uint64_t address) {
    static const char digits[] = "0123456789abcdef";
    char text[] = ": no live block begins at 0x................\n";
    if (!checks) return;
    for (int i = 0; i < 16; i++) text[sizeof text - 18 + i] = digits[address >> (60 - 4 * i) & 15];
    (void)!write(2, "limzhur: ", 9);
    (void)!write(2, call, strlen(call));
    die(text);
}

#endif
