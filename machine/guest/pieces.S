/* Pieces of code. Each ends by INT 0x80 with its result in RAX, or by what it raises. Their order here is that of their
 * numbers. RDI is their argument. */
#include "layout.h"
    .section .data.pieces, "aw"
    .balign 8
    .globl pieces
pieces:
    .text
    .globl run_piece, first_piece, end_of_pieces
/* run_piece(code, user, argument, flags of ring 3) */
run_piece:
    push %rbx
    push %rbp
    push %r12
    push %r13
    push %r14
    push %r15
    mov %rsp, kept_stack(%rip)
    mov %rdi, %r8
    mov %rdx, %rdi
    movq $0, seen + 16(%rip)
    xor %eax, %eax
    test %esi, %esi
    jnz 1f
    jmp *%r8
1:  pushq $0x1b
    movabs $BASE + USER_PAGE + 0x1000, %rdx
    push %rdx
    or $2, %rcx
    push %rcx
    pushq $0x23
    push %r8
    iretq

    .macro piece name
    .section .data.pieces, "aw"
    .quad piece_\name
    .text
    .globl piece_\name
    .balign 16
piece_\name:
    .endm

first_piece:
/* Exceptions and interrupts. */
    piece undefined
    ud2
    piece divide
    xor %ecx, %ecx
    xor %edx, %edx
    div %ecx
    piece breakpoint
    int3
    piece trap
    int $0x80
    piece interrupt_31
    int $0x31
    piece interrupt_90
    int $0x90
    piece read
    movzbl (%rdi), %eax
    int $0x80
    piece write
    movb $0, (%rdi)
    int $0x80
    piece jump
    jmp *%rdi
    piece push
    mov %rdi, %rsp
    push %rax
    int $0x80
    piece halt
    hlt
    int $0x80
    piece port
    mov %edi, %edx
    xor %eax, %eax
    outb %al, %dx
    int $0x80
    piece nothing
    nop
    int $0x80
    piece unaligned
    lea -9(%rsp), %rdi
    mov (%rdi), %eax
    int $0x80
/* Segments. */
    piece load_ds
    mov %edi, %ds
    int $0x80
    piece load_gs
    mov %edi, %gs
    int $0x80
    piece load_ss
    mov %edi, %ss
    int $0x80
    piece load_cs
    push %rdi
    lea 1f(%rip), %rax
    push %rax
    lretq
1:  int $0x80
/* Registers: what they hold after a write. */
    piece write_cr0
    mov %rdi, %cr0
    mov %cr0, %rax
    int $0x80
    piece write_cr4
    mov %rdi, %cr4
    mov %cr4, %rax
    int $0x80
    piece write_efer
    mov $0xC0000080, %ecx
    mov %edi, %eax
    mov %rdi, %rdx
    shr $32, %rdx
    wrmsr
    rdmsr
    shl $32, %rdx
    or %rdx, %rax
    int $0x80
    piece write_xcr0
    xor %ecx, %ecx
    mov %edi, %eax
    mov %rdi, %rdx
    shr $32, %rdx
    xsetbv
    xgetbv
    shl $32, %rdx
    or %rdx, %rax
    int $0x80
    piece write_mxcsr
    push %rdi
    ldmxcsr (%rsp)
    movq $0, (%rsp)
    stmxcsr (%rsp)
    pop %rax
    int $0x80
    piece write_dr7
    mov %rdi, %dr7
    mov %dr7, %rax
    int $0x80
/* What flags of registers turn on or off. */
    piece time
    rdtsc
    int $0x80
    piece where_gdt
    sgdt -16(%rsp)
    int $0x80
    piece vector
    xorps %xmm0, %xmm0
    int $0x80
    piece float
    fninit
    int $0x80
    piece wait
    fwait
    int $0x80
    piece float_error
    fninit
    pushq $0x37b                    /* a division by zero raises an exception */
    fldcw (%rsp)
    fld1
    fldz
    fdivrp
    fwait
    int $0x80
    piece states
    xor %ecx, %ecx
    xgetbv
    int $0x80
    piece base_of_fs
    rdfsbase %rax
    int $0x80
    piece read_dr4
    .byte 0x0f, 0x21, 0xe0          /* mov %dr4, %rax */
    int $0x80
    piece keys
    xor %ecx, %ecx
    rdpkru
    int $0x80
    piece system_call
    syscall
    piece features                  /* EAX and EDX of a leaf of CPUID */
    mov %edi, %eax
    xor %ecx, %ecx
    cpuid
    shl $32, %rdx
    or %rdx, %rax
    int $0x80
/* MXCSR: RDI has it in its low half, if not said otherwise. */
    piece round                     /* 2.75 and -2.75 to integers */
    push %rdi
    ldmxcsr (%rsp)
    movl $0x40300000, (%rsp)
    cvtss2si (%rsp), %eax
    movl $0xc0300000, (%rsp)
    cvtss2si (%rsp), %edx
    shl $32, %rdx
    or %rdx, %rax
    int $0x80
    piece small                     /* a denormal number times 1, and the least normal one times 0.5 */
    push %rdi
    ldmxcsr (%rsp)
    movl $0x00400000, (%rsp)
    movss (%rsp), %xmm0
    movl $0x3f800000, (%rsp)
    mulss (%rsp), %xmm0
    movd %xmm0, %eax
    movl $0x00800000, (%rsp)
    movss (%rsp), %xmm0
    movl $0x3f000000, (%rsp)
    mulss (%rsp), %xmm0
    movd %xmm0, %edx
    shl $32, %rdx
    or %rdx, %rax
    int $0x80
    piece quotient                  /* what MXCSR holds after the low half of RDI was divided by the high one */
    push %rdi
    pushq $0x1f80
    ldmxcsr (%rsp)
    movss 8(%rsp), %xmm0
    divss 12(%rsp), %xmm0
    stmxcsr (%rsp)
    mov (%rsp), %eax
    int $0x80
end_of_pieces:
    .section .note.GNU-stack, "", @progbits
