/* Boots by multiboot 1, enters long mode over tables of its own, and calls guest_main(multiboot information) at BASE + GUEST.
 * Then the 256 handlers, which note what was raised and go back to whoever tried something. */
#include "layout.h"
    .section .boot, "awx"
    .code32
    .globl start
header:
    .long 0x1BADB002, 0x00010003, -(0x1BADB002 + 0x00010003)
    .long header, load_start, load_end, bss_end, start
start:
    cli
    mov $boot_stack_top, %esp
    mov %ebx, %ebp
    mov $own_pages, %edi            /* 1 GiB in pages of 2 MiB, of the supervisor */
    mov $0x83, %eax
    mov $512, %ecx
1:  mov %eax, (%edi)
    movl $0, 4(%edi)
    add $8, %edi
    add $0x200000, %eax
    loop 1b
    orl $4, own_pages + 8 * (USER_PAGE >> 21)
    movl $own_pages + 7, own_table
    movl $own_table + 7, own_root               /* for this code alone */
    movl $own_table + 7, own_root + 8 * SLOT
    mov $own_root, %eax
    mov %eax, %cr3
    mov %cr4, %eax
    or $0x20, %eax
    mov %eax, %cr4
    mov $0xC0000080, %ecx
    rdmsr
    or $0x900, %eax
    wrmsr
    mov %cr0, %eax
    or $0x80010001, %eax
    mov %eax, %cr0
    lgdt boot_gdtr
    ljmp $8, $long_mode
    .code64
long_mode:
    mov $16, %eax
    mov %eax, %ds
    mov %eax, %es
    mov %eax, %ss
    mov %ebp, %edi
    movabs $BASE, %rax
    add %rax, %rdi
    movabs $stack_top, %rsp
    movabs $guest_main, %rax
    call *%rax
2:  hlt
    jmp 2b
    .balign 8
boot_gdt:
    .quad 0, 0x00af9b000000ffff, 0x00cf93000000ffff
boot_gdtr:
    .word 23
    .long boot_gdt
    .balign 16
    .skip 1024
boot_stack_top:
    .balign 4096
own_root:  .skip 4096
own_table: .skip 4096
own_pages: .skip 4096

/* The handler of each vector, 16 bytes each. Each has an error code, 0 if the processor pushes none. */
    .section .handlers, "ax"
    .globl handlers
    .balign 16
handlers:
    .set n, 0
    .rept 256
    .balign 16
    .if (n == 8) || ((n >= 10) && (n <= 14)) || (n == 17) || (n == 21) || (n == 29) || (n == 30)
    .else
    push $0
    .endif
    push $n
    jmp note
    .set n, n + 1
    .endr

    .text
note:
    mov %rax, seen + 0(%rip)
    pushf
    pop seen + 56(%rip)             /* the flags */
    cli
    pop seen + 8(%rip)              /* the vector */
    pop seen + 16(%rip)             /* the error code */
    mov %rsp, seen + 48(%rip)
    mov (%rsp), %rax
    mov %rax, seen + 32(%rip)       /* where the instruction lies */
    mov 8(%rsp), %rax
    mov %rax, seen + 40(%rip)       /* its code segment */
    .globl come_back
come_back:
    pushf
    andq $~0x40000, (%rsp)          /* AC is set for a single access */
    popf
    mov %cr2, %rax
    mov %rax, seen + 24(%rip)
    mov kept_stack(%rip), %rsp
    pop %r15
    pop %r14
    pop %r13
    pop %r12
    pop %rbp
    pop %rbx
    ret

    .data
    .globl own_table_at
own_table_at: .quad own_table
    .bss
    .balign 16
    .globl seen, kept_stack
seen: .skip 64                      /* struct seen of guest.h */
kept_stack: .skip 8
    .balign 4096
    .skip 32768
stack_top:
    .section .note.GNU-stack, "", @progbits
