#include "meanings.h"
#include "platform.h"

#define SERIAL 0x3f8

struct frame { uint64_t rip, cs, rflags, rsp, ss; };

extern char handlers[], kernel_end[], after_fault[];
bool write_or_fault(uint64_t address);

bool (*page_fault_is_met)(uint64_t address, uint64_t code);

static uint64_t idt[64], seen_code, seen_address;

static void outb(uint16_t port, uint8_t value) { __asm__ volatile("outb %0, %1" ::"a"(value), "Nd"(port)); }

static uint8_t inb(uint16_t port) {
    uint8_t value;
    __asm__ volatile("inb %1, %0" : "=a"(value) : "Nd"(port));
    return value;
}

void start_serial(void) {
    static const uint8_t settings[][2] = {{1, 0}, {3, 0x80}, {0, 1}, {1, 0}, {3, 3}, {2, 7}};
    for (size_t n = 0; n < sizeof settings / 2; n++) outb(SERIAL + settings[n][0], settings[n][1]);
}

static void put(char byte) {
    while (!(inb(SERIAL + 5) & 0x20)) {}
    outb(SERIAL, byte);
}

void say(const char *text) {
    while (*text) put(*text++);
}

void say_number(uint64_t value, int base) {
    char digits[64];
    int count = 0;
    do {
        digits[count++] = "0123456789abcdef"[value % base];
        value /= base;
    } while (value);
    while (count) put(digits[--count]);
}

void say_line(const char *text, uint64_t value) {
    say(text);
    say_number(value, 10);
    say("\n");
}

void leave(uint8_t status) {
    for (;;) outb(0xf4, status);
}

/* What the library calls, and a compiler may. */
void *memset(void *to, int byte, size_t count) {
    void *place = to;
    __asm__ volatile("rep stosb" : "+D"(place), "+c"(count) : "a"(byte) : "memory");
    return to;
}

void fault(uint64_t vector, uint64_t code, struct frame *frame) {
    uint64_t address;
    __asm__ volatile("mov %%cr2, %0" : "=r"(address));
    if (vector == 14 && page_fault_is_met && page_fault_is_met(address, code)) return;
    if (vector == 14 && frame->rip == (uint64_t)write_or_fault) {
        seen_code = code;
        seen_address = address;
        frame->rip = (uint64_t)after_fault;
        return;
    }
    say("exception ");
    say_number(vector, 10);
    say(" ");
    say(exception_names[vector] ? exception_names[vector] : "that is none");
    say(" code 0x");
    say_number(code, 16);
    say(" CR2 0x");
    say_number(address, 16);
    say("\n");
    leave(2);
}

void set_handlers(void) {
    struct { uint16_t limit; uint64_t base; } __attribute__((packed)) to = {sizeof idt - 1, (uint64_t)idt};
    for (int vector = 0; vector < 32; vector++) {
        uint64_t handler = (uint64_t)handlers + 16 * vector;
        idt[2 * vector] = (handler & 0xffff) | 8ull << 16 | 0x8e00ull << 32 | (handler >> 16 & 0xffff) << 48;
        idt[2 * vector + 1] = handler >> 32;
    }
    __asm__ volatile("lidt %0" ::"m"(to));
}

bool try_to_write(uint64_t address, uint64_t *code, uint64_t *fault_address) {
    bool done = write_or_fault(address);
    *code = seen_code;
    *fault_address = seen_address;
    return done;
}

struct memory greatest_memory(const uint32_t *info) {
    struct memory found = {0, 0};
    if (!(info[0] & 1 << 6)) return found;
    uint64_t entry = DIRECT + info[12], end = entry + info[11];
    for (; entry < end; entry += *(uint32_t *)entry + 4) {
        uint64_t from = *(uint64_t *)(entry + 4), to = from + *(uint64_t *)(entry + 12), behind = (uint64_t)kernel_end - KERNEL;
        uint32_t kind = *(uint32_t *)(entry + 20);
        if (from < behind) from = behind;
        if (to > 1ull << 32) to = 1ull << 32;
        from = (from + 4095) & ~4095ull;
        to &= ~4095ull;
        if (kind == 1 && from < to && to - from > found.to - found.from) found = (struct memory){from, to};
    }
    return found;
}
