/* The functions that a compiler may call. */
#include "guest.h"

void *memset(void *to, int byte, size_t count) {
    void *place = to;
    __asm__ volatile("rep stosb" : "+D"(place), "+c"(count) : "a"(byte) : "memory");
    return to;
}

void *memcpy(void *to, const void *from, size_t count) {
    void *place = to;
    __asm__ volatile("rep movsb" : "+D"(place), "+S"(from), "+c"(count)::"memory");
    return to;
}
