/*
 * A program with no C library, as a kernel has none: cc -ffreestanding -nostdlib -static. On Linux for x86-64 it ends by
 * two system calls; a kernel would hand the heap the memory that it found at boot.
 */
#include <limzhur.h>

static _Alignas(4096) uint64_t memory[1 << 15];
static _Alignas(8) unsigned char room[LIMZHUR_ROOM];

/* What the library calls. The empty statement keeps the compiler from making the loop a call of memset. */
void *memset(void *to, int byte, size_t count) {
    for (size_t i = 0; i < count; i++) {
        ((unsigned char *)to)[i] = byte;
        __asm__ volatile("" ::: "memory");
    }
    return to;
}

static long system_call(long number, long first, long second, long third) {
    long result;
    __asm__ volatile("syscall" : "=a"(result) : "a"(number), "D"(first), "S"(second), "d"(third) : "rcx", "r11", "memory");
    return result;
}

__attribute__((force_align_arg_pointer)) void _start(void) {
    limzhur_init(room, memory, sizeof memory / 8, (uintptr_t)memory);
    struct limzhur_heap heap = {room};
    bool good = true;
    for (uint64_t i = 0; i < 1000; i++) {
        uint64_t block = limzhur_malloc(&heap, 100 + i, 64);
        good = good && block != 0 && block % 64 == 0;
        *(volatile uint64_t *)block = i;
        good = good && limzhur_free(&heap, block) && !limzhur_free(&heap, block);
    }
    system_call(1, 1, (long)(good ? "1000 blocks\n" : "a wrong answer\n"), good ? 12 : 15);
    system_call(60, !good, 0, 0);
    __builtin_unreachable();
}
