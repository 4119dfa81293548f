/* Multiboot 1 to long mode. The kernel lies at 1 MiB and is linked at KERNEL + 1 MiB, in the upper 2 GiB. The first 4 GiB of
 * memory are at DIRECT too. */
    .section .boot, "awx"
    .code32
    .globl start
header:
    .long 0x1BADB002, 0x00010003, -(0x1BADB002 + 0x00010003)
    .long header, load_start, load_end, bss_end, start
start:
    cli
    mov $boot_stack_top, %esp
    mov %ebx, %ebp
    mov $pages, %edi                /* 4 GiB in pages of 2 MiB */
    mov $0x83, %eax
    xor %edx, %edx
    mov $2048, %ecx
1:  mov %eax, (%edi)
    mov %edx, 4(%edi)
    add $8, %edi
    add $0x200000, %eax
    adc $0, %edx
    loop 1b
    mov $pages + 3, %eax
    mov $low_table, %edi
    mov $4, %ecx
2:  mov %eax, (%edi)
    add $8, %edi
    add $4096, %eax
    loop 2b
    movl $pages + 3, kernel_table + 8 * 510
    movl $low_table + 3, root                   /* for this code alone */
    movl $low_table + 3, root + 8 * 256         /* DIRECT, 0xffff800000000000 */
    movl $kernel_table + 3, root + 8 * 511      /* KERNEL, 0xffffffff80000000 */
    mov $root, %eax
    mov %eax, %cr3
    mov $0xA0 + VECTORS, %eax       /* page tables of long mode, global pages; VECTORS turns the vector registers on */
    mov %eax, %cr4
    mov $0xC0000080, %ecx
    rdmsr
    or $0x900, %eax                 /* long mode, and no-execute, which the entries of the library use */
    wrmsr
    mov $0x277, %ecx                /* PAT: type 1 is write-combining, the others are as after a reset */
    rdmsr
    mov $1, %ah
    wrmsr
    mov %cr0, %eax
    and $~4, %eax
    or $0x80010003, %eax
    mov %eax, %cr0
    lgdt gdtr
    ljmp $8, $long_mode
    .code64
long_mode:
    xor %eax, %eax
    mov %eax, %ds
    mov %eax, %es
    mov %eax, %ss
    mov %ebp, %edi
    mov $stack_top, %rsp
    mov $kernel_main, %rax
    call *%rax
3:  hlt
    jmp 3b
    .balign 8
gdt:
    .quad 0, 0x00af9b000000ffff
gdtr:
    .word 15
    .long gdt
    .balign 16
    .skip 1024
boot_stack_top:
    .balign 4096
root:         .skip 4096
low_table:    .skip 4096
kernel_table: .skip 4096
pages:        .skip 4 * 4096

    .text
/* A handler for each vector calls fault(vector, code, frame), and goes to where that leads, with all registers as they were. */
    .globl handlers
handlers:
    .set n, 0
    .rept 32
    .balign 16
    .if (n == 8) || ((n >= 10) && (n <= 14)) || (n == 17) || (n == 21) || (n == 29) || (n == 30)
    .else
    push $0
    .endif
    push $n
    jmp to_fault
    .set n, n + 1
    .endr
to_fault:
    .irp register, rax, rcx, rdx, rbx, rbp, rsi, rdi, r8, r9, r10, r11, r12, r13, r14, r15
    push %\register
    .endr
    mov 120(%rsp), %rdi             /* the vector */
    mov 128(%rsp), %rsi             /* the error code */
    lea 136(%rsp), %rdx             /* the frame */
    mov %rsp, %rbp
    and $~15, %rsp
    call fault
    mov %rbp, %rsp
    .irp register, r15, r14, r13, r12, r11, r10, r9, r8, rdi, rsi, rbp, rbx, rdx, rcx, rax
    pop %\register
    .endr
    add $16, %rsp
    iretq
/* write_or_fault(address): writes a byte. True if it did; false if a page fault came, from which fault() goes to after_fault. */
    .globl write_or_fault, after_fault
write_or_fault:
    movb $1, (%rdi)
    mov $1, %eax
    ret
after_fault:
    xor %eax, %eax
    ret
    .bss
    .balign 4096
    .globl stack_bottom, stack_top
stack_bottom: .skip 65536
stack_top:
    .section .note.GNU-stack, "", @progbits
