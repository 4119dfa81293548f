/* Has the processor walk over page tables that it is given: each word of their memory lies at its own physical address, CR3
 * is their root, and each probe is made as an access. The module is a list of cases. */
#include "guest.h"

/* A case: CASE, and behind it its words (place and value, by ascending place) and its probes. */
#define CASE 0x6d6d75
struct image { u64 magic, frames, cr0, cr2, cr3, cr4, efer, words, probes; };
struct word { u64 place, value; };
/* An access: 0 reads, 1 writes, 2 fetches; 4 more is by ring 3, and 8 more with RFLAGS.AC. The byte `tag` is put at the place, if
 * there is one. */
struct probe { u64 address, place, access, tag; };
#define NOWHERE (~0ull)

/* What is found of a case, and behind it what is found of each probe, and each word that changed. */
struct found { u64 magic, not_memory, cr0, cr3, cr4, efer, probes, changed; };
struct outcome { u64 vector, error, cr2, rip, cs, plain, tagged; };
struct change { u64 place, before, after; };

void attempt(u64 address, u64 access, u64 byte);

static u64 gdt[7] = {0, 0x00af9b000000ffff, 0x00cf93000000ffff, 0x00cff3000000ffff, 0x00affb000000ffff};
static u64 idt[512];
static u8 tss[104];
static u8 ring0_stack[8192] __attribute__((aligned(16)));

static void set_gate(int vector, u64 level) {
    u64 to = (u64)handlers + 16 * vector;
    idt[2 * vector] = (to & 0xffff) | 8ull << 16 | (0x8e00ull | level << 13) << 32 | (to >> 16 & 0xffff) << 48;
    idt[2 * vector + 1] = to >> 32;
}

static void set_tables(void) {
    u64 task = (u64)tss, top = (u64)(ring0_stack + sizeof ring0_stack);
    gdt[5] = 103 | (task & 0xffffff) << 16 | 0x89ull << 40 | (task >> 24 & 0xff) << 56;
    gdt[6] = task >> 32;
    memcpy(tss + 4, &top, 8);
    for (int vector = 0; vector < 256; vector++) set_gate(vector, vector == 3 || vector == 0x80 ? 3 : 0);
    struct pointer to_gdt = {sizeof gdt - 1, (u64)gdt}, to_idt = {sizeof idt - 1, (u64)idt};
    __asm__ volatile("lgdt %0" ::"m"(to_gdt));
    __asm__ volatile("lidt %0" ::"m"(to_idt));
    __asm__ volatile("ltr %w0" ::"r"(0x28));
    memcpy(at(USER_PAGE), user_code, user_code_end - user_code);
}

/* The first megabyte is memory throughout: the host bridge (i440FX) shows neither ROM nor the VGA's window there. */
static void open_low_memory(void) {
    for (int reg = 0x59; reg < 0x60; reg++) {
        outl(0xcf8, 0x80000000 | (reg & ~3));
        outb(0xcfc + (reg & 3), reg == 0x59 ? 0x30 : 0x33);
    }
    outl(0xcf8, 0x80000000 | 0x70);
    outb(0xcfc + 2, 0x4a);
}

/* The value of word `number`, if the words from *next on are those from that place on. */
static u64 word_of(const struct word **next, const struct word *end, u64 number) {
    if (*next < end && (*next)->place == 8 * number) return (*next)++->value;
    return 0;
}

static volatile u64 *word_at(u64 number) { return (volatile u64 *)at(8 * number); }

/* Fills the memory, and counts the words that do not read as they were written. */
static u64 fill(const struct image *image, const struct word *words) {
    const struct word *end = words + image->words, *next = words;
    u64 differ = 0;
    for (u64 n = 0; n < 512 * image->frames; n++) *word_at(n) = word_of(&next, end, n);
    next = words;
    for (u64 n = 0; n < 512 * image->frames; n++) differ += *word_at(n) != word_of(&next, end, n);
    return differ;
}

/* Makes an access. A byte is put at its place first, so that the place is compared and not a byte of value 0 with another:
 * a read has to see it, a write to change it, and a fetch to run it, INT3. */
static void try(const struct probe *probe, struct outcome *outcome) {
    volatile u8 *place = probe->place == NOWHERE ? NULL : at(probe->place);
    u64 kind = probe->access & 3;
    u8 kept = 0;
    outcome->plain = outcome->tagged = 0;
    if (kind == 0) {
        attempt(probe->address, probe->access, 0);
        outcome->plain = seen.rax;
    }
    if (place) kept = *place;
    if (place && kind != 1) *place = kind == 2 ? 0xcc : probe->tag;
    if (kind != 0 || place) attempt(probe->address, probe->access, probe->tag);
    outcome->vector = seen.vector;
    outcome->error = seen.error;
    outcome->cr2 = seen.cr2;
    outcome->rip = seen.rip;
    outcome->cs = seen.cs;
    if (kind == 0) outcome->tagged = seen.rax;
    if (place && kind == 1) outcome->tagged = *place;
    if (place) *place = kept;
}

/* Lists the words that are not as they were before the probes. */
static u64 compare(const struct image *image, const struct word *words, struct change *changes) {
    const struct word *end = words + image->words;
    u64 changed = 0;
    for (u64 n = 0; n < 512 * image->frames; n++) {
        u64 before = word_of(&words, end, n), after = *word_at(n);
        if (after != before) changes[changed++] = (struct change){8 * n, before, after};
    }
    return changed;
}

/* Makes the probes of a case, over its tables with the guest's own in one slot, which has to be empty. */
static const u64 *run(const u64 *from, u64 **to) {
    const struct image *image = (const struct image *)from;
    const struct word *words = (const struct word *)(image + 1);
    const struct probe *probes = (const struct probe *)(words + image->words);
    struct found *found = (struct found *)*to;
    struct outcome *outcomes = (struct outcome *)(found + 1);
    u64 own = READ(cr3), *slot = (u64 *)at(image->cr3) + SLOT;
    found->not_memory = fill(image, words);
    if (*slot) leave(7);
    *slot = own_table_at | 0x27;
    wrmsr(EFER, image->efer);
    WRITE(cr4, image->cr4);
    WRITE(cr0, image->cr0);
    WRITE(cr2, image->cr2);
    WRITE(cr3, image->cr3);
    found->cr0 = READ(cr0);
    found->cr3 = READ(cr3);
    found->cr4 = READ(cr4);
    found->efer = rdmsr(EFER);
    for (u64 n = 0; n < image->probes; n++) try(probes + n, outcomes + n);
    WRITE(cr3, own);
    *slot = 0;
    struct change *changes = (struct change *)(outcomes + image->probes);
    found->probes = image->probes;
    found->changed = compare(image, words, changes);
    found->magic = CASE;
    *to = (u64 *)(changes + found->changed);
    return (const u64 *)(probes + image->probes);
}

void guest_main(const u32 *info) {
    const u64 *from, *end;
    u64 *to = (u64 *)at(RESULTS);
    find_module(info, &from, &end);
    set_tables();
    open_low_memory();
    while (from < end && *from == CASE) from = run(from, &to);
    *to = 0;
    leave(0);
}
