/* attempt(address, access, byte): an access to a byte, as struct probe of walk.c has it. What came of it is in seen. */
#include "layout.h"
    .text
    .globl attempt, user_code, user_code_end
attempt:
    push %rbx
    push %rbp
    push %r12
    push %r13
    push %r14
    push %r15
    mov %rsp, kept_stack(%rip)
    mov %cr3, %rax                  /* no translation is left over from before */
    mov %rax, %cr3
    movq $0x100, seen + 8(%rip)     /* no vector yet */
    movq $0, seen + 16(%rip)
    mov $0x102, %r8                 /* with the trap flag one instruction runs at most */
    mov %rsi, %r9                   /* AC, if it is to be set */
    and $8, %r9
    shl $15, %r9
    pushf
    or %r9, (%rsp)
    popf
    and $7, %esi
    cmp $1, %esi
    jb read
    je write
    cmp $4, %esi
    jb fetch
    je user_reads
    cmp $6, %esi
    jb user_writes
    mov %rdi, %rcx
    jmp to_user
read:
    movb (%rdi), %al
    movzbl %al, %eax
    mov %rax, seen(%rip)
    jmp come_back
write:
    movb %dl, (%rdi)
    jmp come_back
fetch:
    mov %rsp, %rax
    or %r9, %r8
    pushq $16
    push %rax
    push %r8
    pushq $8
    push %rdi
    iretq
user_reads:
    movabs $BASE + USER_PAGE, %rcx
    mov $2, %r8
    jmp to_user
user_writes:
    movabs $BASE + USER_PAGE + write_of_user - user_code, %rcx
    mov $2, %r8
to_user:
    or %r9, %r8
    pushq $0x1b
    movabs $BASE + USER_PAGE + 0x1000, %rax
    push %rax
    push %r8
    pushq $0x23
    push %rcx
    iretq

/* This is copied to the user's page. */
user_code:
    movb (%rdi), %al
    movzbl %al, %eax
    int $0x80
write_of_user:
    movb %dl, (%rdi)
    int $0x80
user_code_end:
    .section .note.GNU-stack, "", @progbits
