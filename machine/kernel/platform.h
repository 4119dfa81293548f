/* The machine under the kernel: a serial line, the memory map, page faults, and the end. */
#ifndef PLATFORM_H
#define PLATFORM_H
#include <stdbool.h>
#include <stddef.h>
#include <stdint.h>

#define DIRECT 0xffff800000000000ull            /* where physical memory is, up to 4 GiB */
#define KERNEL 0xffffffff80000000ull            /* where the kernel is, at KERNEL + its physical address */

struct memory { uint64_t from, to; };           /* physical addresses */

void *memset(void *to, int byte, size_t count);
void start_serial(void);
void say(const char *text);
void say_number(uint64_t value, int base);
void say_line(const char *text, uint64_t value);

/* Ends QEMU, with status 2 * status + 1. */
void __attribute__((noreturn)) leave(uint8_t status);

/* Sets the handlers of exceptions. Each ends the kernel with status 2, but for one. */
void set_handlers(void);

/* Writes a byte. False if that raises a page fault, whose code and address are then in *code and *fault_address. */
bool try_to_write(uint64_t address, uint64_t *code, uint64_t *fault_address);

/* What a page fault is handed to first, if it is not null: true where the access is to be tried again. */
extern bool (*page_fault_is_met)(uint64_t address, uint64_t code);

/* The greatest run of usable memory behind the kernel and below 4 GiB, by the multiboot map; empty if there is none. */
struct memory greatest_memory(const uint32_t *info);

#endif
