/* What both guests share: the registers, the results that the host reads, and what an access or an instruction raised. */
#include <stddef.h>
#include <stdint.h>
#include "layout.h"

typedef uint64_t u64;
typedef uint32_t u32;
typedef uint16_t u16;
typedef uint8_t u8;

struct seen { u64 rax, vector, error, cr2, rip, cs, rsp, rflags; };
struct pointer { u16 limit; u64 base; } __attribute__((packed));

extern struct seen seen;
extern u8 handlers[], user_code[], user_code_end[];
extern u64 own_table_at;

static inline u8 *at(u64 physical) { return (u8 *)(BASE + physical); }
static inline void outb(u16 port, u8 value) { __asm__ volatile("outb %0, %1" ::"a"(value), "Nd"(port)); }
static inline void outl(u16 port, u32 value) { __asm__ volatile("outl %0, %1" ::"a"(value), "Nd"(port)); }
static inline u64 rdmsr(u32 number) {
    u32 low, high;
    __asm__ volatile("rdmsr" : "=a"(low), "=d"(high) : "c"(number));
    return (u64)high << 32 | low;
}
static inline void wrmsr(u32 number, u64 value) {
    __asm__ volatile("wrmsr" ::"a"((u32)value), "d"((u32)(value >> 32)), "c"(number) : "memory");
}
#define READ(name) ({ u64 value; __asm__ volatile("mov %%" #name ", %0" : "=r"(value)); value; })
#define WRITE(name, value) __asm__ volatile("mov %0, %%" #name ::"r"((u64)(value)) : "memory")
#define EFER 0xC0000080

/* Ends QEMU, with status 2 * status + 1. */
static inline void __attribute__((noreturn)) leave(u8 status) {
    for (;;) outb(0xf4, status);
}

/* The module that the host gives: words, from *from to *end. */
static inline void find_module(const u32 *info, const u64 **from, const u64 **end) {
    if (!(info[0] & 8) || info[5] != 1) leave(6);
    const u32 *module = (const u32 *)at(info[6]);
    *from = (const u64 *)at(module[0]);
    *end = (const u64 *)at(module[1]);
}

void *memset(void *to, int byte, size_t count);
void *memcpy(void *to, const void *from, size_t count);
