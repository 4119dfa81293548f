/* A guest in Unicorn 2.1, whose misses of the TLB are served by the walk; its page faults come here, as to a kernel. */
#include <limzhur_guest.h>
#include <stdio.h>
#include <stdlib.h>
#include <string.h>
#include <unicorn/unicorn.h>

#define MEMORY (16u << 20)
#define CODE 0x400000u                          /* may be read and run */
#define NEVER 0x7ffffffff000u                   /* where the guest never comes */
#define MODE (LIMZHUR_GUEST_WP | LIMZHUR_GUEST_NXE | LIMZHUR_GUEST_IGNORES_BIT_8)

/* The sum of 1 to 64, into a page of 2 MiB, into a page that is not mapped, and into the page of the code. */
__asm__(".pushsection .rodata\n"
        "guest: mov $64, %ecx\n xor %eax, %eax\n 1: add %rcx, %rax\n loop 1b\n"
        "mov $0x600000, %ebx\n mov %rax, (%rbx)\n"
        "mov $0x800000, %ebx\n mov %rax, (%rbx)\n mov (%rbx), %rdx\n"
        "mov $0x400ff8, %ebx\n mov %rdx, (%rbx)\n hlt\n guest_end:\n"
        ".popsection\n");
extern const char guest[], guest_end[];

static uint64_t *words;                         /* the guest's memory; its tables are in frames 1 to 4, its code in frame 5 */
static uint64_t fault_page;
static uint32_t fault;

static uint64_t read_register(uc_engine *uc, int number) {
    uint64_t value = 0;
    uc_reg_read(uc, number, &value);
    return value;
}

/* A miss of the TLB: the place and the rights, or false, and then the run ends. The address is that of the page. */
static bool fill(uc_engine *uc, uint64_t address, uc_mem_type type, uc_tlb_entry *entry, void *data) {
    struct limzhur_guest_place place;
    uint32_t access = type == UC_MEM_WRITE ? LIMZHUR_ACCESS_WRITE : type == UC_MEM_FETCH ? LIMZHUR_ACCESS_FETCH : 0;
    (void)data;
    /* Unicorn asks for the page at which a run is to end, and for that before it, without an access of the guest. */
    entry->paddr = 0, entry->perms = UC_PROT_READ | UC_PROT_EXEC;
    if (address >= NEVER - 4096 && address <= NEVER) return true;
    if ((read_register(uc, UC_X86_REG_CS) & 3) == 3) access |= LIMZHUR_ACCESS_USER;
    fault_page = address;
    fault = limzhur_translate(words, MEMORY / 8, read_register(uc, UC_X86_REG_CR3), address, 40, MODE, access, &place);
    if (fault) return false;
    entry->paddr = place.physical & ~0xfffull;
    /* The tables here have all dirty bits. Otherwise a read would have to leave out the right to write. */
    entry->perms = UC_PROT_READ | (place.write ? UC_PROT_WRITE : 0) | (place.fetch ? UC_PROT_EXEC : 0);
    return true;
}

int main(void) {
    uc_engine *uc;
    uc_hook hook;
    uc_err status;
    uc_x86_msr efer = {0xc0000080, 0xd01};      /* long mode and no-execute */
    uint64_t cr3 = 0x1000, cr4 = 0x20, cr0 = 0x80010001, rip = CODE;
    words = aligned_alloc(4096, MEMORY);
    memset(words, 0, MEMORY);
    words[512] = 0x2063, words[2 * 512] = 0x3063;
    words[3 * 512 + 2] = 0x4063, words[3 * 512 + 3] = 0x8000000000a000e3, words[3 * 512 + 4] = 0x6063;
    words[4 * 512] = 0x5061;
    memcpy(words + 5 * 512, guest, guest_end - guest);
    if (uc_open(UC_ARCH_X86, UC_MODE_64, &uc) || uc_mem_map_ptr(uc, 0, MEMORY, UC_PROT_ALL, words)
        || uc_ctl_tlb_mode(uc, UC_TLB_VIRTUAL) || uc_hook_add(uc, &hook, UC_HOOK_TLB_FILL, fill, NULL, 1, 0)) return 1;
    uc_reg_write(uc, UC_X86_REG_CR3, &cr3), uc_reg_write(uc, UC_X86_REG_CR4, &cr4);
    uc_reg_write(uc, UC_X86_REG_MSR, &efer), uc_reg_write(uc, UC_X86_REG_CR0, &cr0);
    while ((status = uc_emu_start(uc, rip, NEVER, 0, 0)) && fault) {
        rip = read_register(uc, UC_X86_REG_RIP);
        printf("page fault in the page %#llx, code %#x\n", (unsigned long long)fault_page, fault & ~LIMZHUR_FAULT);
        /* What a kernel would do: a frame for the page that is not mapped, and the right to write to the other one. */
        if (fault_page == 0x800000) words[6 * 512] = 0x8000000000007063;
        else words[4 * 512] |= 2;
        uc_ctl_flush_tlb(uc);
    }
    printf("%s: %llu, %llu, %llu\n", status ? uc_strerror(status) : "ended", (unsigned long long)words[0xa00000 / 8],
        (unsigned long long)words[7 * 512], (unsigned long long)words[5 * 512 + 511]);
    uc_close(uc);
    return 0;
}
