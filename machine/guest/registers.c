/* Has the processor use descriptor tables and values of registers that it is given, and notes what instructions raise over
 * them. The module is a list of cases. */
#include "guest.h"

/* A case: its tables, byte for byte, and behind them its events and its breakpoints. */
#define CASE 0x726567
struct tables {
    u64 magic;
    u8 gdtr[16], idtr[16];
    u64 code, data, task, gdt[8];
    u8 tss[104], map[40], idt[4096];
    u64 events, breakpoints;
};
/* A piece of code that runs in ring 0, or in ring 3 with these flags, with registers that hold this, where it is not 0. */
struct event { u64 piece, user, argument, rflags, cr0, cr4, efer; };
struct breakpoint { u64 dr7, number, bytes; };

/* What is found of a case, and behind it what each event raised, and which accesses each breakpoint stopped. */
struct found {
    u64 magic;
    u8 gdtr[16], idtr[16];
    u64 cs, ss, tr, gdt[8];
};
struct outcome { u64 vector, error, cr2, rip, cs, rsp, rflags, rax; };

extern u8 *const pieces[], first_piece[], end_of_pieces[];
extern u8 piece_trap[], piece_read[], piece_write[], piece_nothing[], piece_port[];
void run_piece(const u8 *code, u64 user, u64 argument, u64 rflags);

#define STAR 0xC0000081
#define LSTAR 0xC0000082
#define PORT 0x80

/* No device interrupts: both controllers mask all. */
static void mask_devices(void) {
    outb(0x21, 0xff);
    outb(0xa1, 0xff);
}

/* What a fetch in ring 0 from a page of the user, from one that may only be read, and from one with NX has to run: INT 0x80. */
static void put_traps(void) {
    u64 places[] = {USER_PAGE + 0x1800, READ_ONLY, NO_EXECUTE};
    for (int n = 0; n < 3; n++) memcpy(at(places[n]), "\xcd\x80", 2);
}

static void set_pages(void) {
    u64 *table = (u64 *)at(own_table_at), *pages = (u64 *)at(table[0] & ~0xfffull);
    put_traps();
    memcpy(at(USER_PAGE), first_piece, end_of_pieces - first_piece);
    pages[READ_ONLY >> 21] &= ~2ull;
    pages[NO_EXECUTE >> 21] |= 1ull << 63;
    WRITE(cr3, READ(cr3));
}

/* Puts the tables to their places, and has the processor use them. */
static void load(const struct tables *tables) {
    memcpy(at(TABLES), tables->gdt, sizeof tables->gdt);
    memcpy(at(TABLES + 0x1000), tables->tss, sizeof tables->tss);
    memcpy(at(TABLES + 0x1000 + sizeof tables->tss), tables->map, sizeof tables->map);
    memcpy(at(TABLES + 0x2000), tables->idt, sizeof tables->idt);
    __asm__ volatile("lgdt (%0)" ::"r"(tables->gdtr) : "memory");
    __asm__ volatile("lidt (%0)" ::"r"(tables->idtr) : "memory");
    __asm__ volatile("pushq %0\n lea 1f(%%rip), %%rax\n push %%rax\n lretq\n1:" ::"r"(tables->code) : "rax", "memory");
    __asm__ volatile("mov %0, %%ss\n mov %0, %%ds\n mov %0, %%es\n mov %0, %%fs\n mov %0, %%gs" ::"r"(tables->data) : "memory");
    __asm__ volatile("lldt %w0" ::"r"(0));
    __asm__ volatile("ltr %w0" ::"r"(tables->task));
    wrmsr(STAR, tables->code << 32);
    wrmsr(LSTAR, (u64)piece_trap);
}

static void read_back(struct found *found) {
    __asm__ volatile("sgdt %0" : "=m"(found->gdtr));
    __asm__ volatile("sidt %0" : "=m"(found->idtr));
    __asm__ volatile("str %0" : "=r"(found->tr));
    found->cs = READ(cs);
    found->ss = READ(ss);
}

static void run(const struct event *event, struct outcome *outcome) {
    u64 cr0 = READ(cr0), cr4 = READ(cr4), efer = rdmsr(EFER);
    const u8 *code = pieces[event->piece];
    if (event->user) code = at(USER_PAGE) + (code - first_piece);
    if (event->efer) wrmsr(EFER, event->efer);
    if (event->cr4) WRITE(cr4, event->cr4);
    if (event->cr0) WRITE(cr0, event->cr0);
    WRITE(cr3, READ(cr3));
    run_piece(code, event->user, event->argument, event->rflags);
    WRITE(cr0, cr0);
    WRITE(cr4, cr4);
    wrmsr(EFER, efer);
    WRITE(dr7, 0x400);
    *outcome = (struct outcome){seen.vector, seen.error, seen.cr2, seen.rip - (u64)code, seen.cs, seen.rsp, seen.rflags, seen.rax};
}

static void set_address(u64 number, u64 address) {
    if (number == 0) WRITE(dr0, address);
    if (number == 1) WRITE(dr1, address);
    if (number == 2) WRITE(dr2, address);
    if (number == 3) WRITE(dr3, address);
}

/* Whether a piece of code is stopped by a breakpoint at an address. */
static u64 stops(const struct breakpoint *breakpoint, u64 address, const u8 *code, u64 argument) {
    set_address(breakpoint->number, address);
    WRITE(dr6, 0xffff0ff0);
    WRITE(dr7, breakpoint->dr7);
    run_piece(code, 0, argument, 0);
    WRITE(dr7, 0x400);
    return seen.vector == 1 && (READ(dr6) & 15) == 1u << breakpoint->number;
}

/* A bit for each access: a read and a write of the first byte, of the last one, and of the byte behind; a fetch; a port. */
static u64 accesses(const struct breakpoint *breakpoint) {
    static u8 watched[64] __attribute__((aligned(16)));
    u64 at[] = {0, breakpoint->bytes - 1, breakpoint->bytes}, place = (u64)watched, found = 0;
    for (int n = 0; n < 3; n++) {
        found |= stops(breakpoint, place, piece_read, place + at[n]) << 2 * n;
        found |= stops(breakpoint, place, piece_write, place + at[n]) << (2 * n + 1);
    }
    found |= stops(breakpoint, (u64)piece_nothing, piece_nothing, 0) << 6;
    return found | stops(breakpoint, PORT, piece_port, PORT) << 7;
}

static const u64 *run_case(const u64 *from, u64 **to) {
    const struct tables *tables = (const struct tables *)from;
    const struct event *events = (const struct event *)(tables + 1);
    const struct breakpoint *breakpoints = (const struct breakpoint *)(events + tables->events);
    struct found *found = (struct found *)*to;
    struct outcome *outcomes = (struct outcome *)(found + 1);
    u64 *stopped = (u64 *)(outcomes + tables->events), cr4 = READ(cr4);
    load(tables);
    read_back(found);
    for (u64 n = 0; n < tables->events; n++) run(events + n, outcomes + n);
    memcpy(found->gdt, at(TABLES), sizeof found->gdt);
    WRITE(cr4, cr4 | 8);            /* breakpoints at ports */
    for (u64 n = 0; n < tables->breakpoints; n++) stopped[n] = accesses(breakpoints + n);
    WRITE(cr4, cr4);
    found->magic = CASE;
    *to = stopped + tables->breakpoints;
    return (const u64 *)(breakpoints + tables->breakpoints);
}

void guest_main(const u32 *info) {
    const u64 *from, *end;
    u64 *to = (u64 *)at(RESULTS);
    find_module(info, &from, &end);
    mask_devices();
    set_pages();
    while (from < end && *from == CASE) from = run_case(from, &to);
    *to = 0;
    leave(0);
}
