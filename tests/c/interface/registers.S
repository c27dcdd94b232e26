/*
 * Stands between the tests and the archive (linked with --wrap for each call):
 * every call is made with all that the calling convention leaves open filled,
 * and looked at afterwards.
 *
 * Before a call: the upper part of a register whose parameter has fewer than
 * 64 bits, registers with no parameter and the vector registers are filled;
 * the registers that a call must keep get numbers. After it: the program stops
 * at ud2 if one of those has changed. The caller's stack is passed on as it is.
 */
        .set past_8, 0xDEADBEEFCAFE5A00
        .set past_16, 0xDEADBEEFCAFE0000
        .set past_32, 0xDEADBEEF00000000
        .set whole, 0xDEADBEEFCAFE5A5A
        .set none, 0 /* a pointer or a length */

        .text

        .macro fill register, number
        movabsq $\number, %r10
        orq %r10, \register
        .endm

        .macro wrap name, first, second=whole, third=whole, fourth=whole, fifth=whole
        .globl __wrap_ows_\name
__wrap_ows_\name:
        fill %rdi, \first
        fill %rsi, \second
        fill %rdx, \third
        fill %rcx, \fourth
        fill %r8, \fifth
        fill %r9, whole
        leaq __real_ows_\name(%rip), %r11
        jmp call
        .endm

        wrap next, past_32
        wrap check_seed, past_32
        wrap lane_seed, past_8
        wrap disparity, past_16
        wrap build, past_16, past_32, past_32, past_32
        wrap read, past_16
        wrap read_sample, past_16, past_32
        wrap start, none, past_32
        wrap start_with, none, past_32, past_32
        wrap sync, none
        wrap send, none, none, none, none, none
        wrap fresh, none
        wrap receiver_sync, none
        wrap feed, none, none, none, none, none
        wrap feed_frames, none, none, none, none, none
        wrap write_strip, past_8, none, none, none, none
        wrap write_short_strip, past_8, none, none, none, none
        wrap read_strip, none, none, none, none
        wrap check_strip, none, none
        wrap shorten_strip, none, none, none, none, none
        wrap expand_strip, none, none, none, none, none

/* Calls what r11 points to. */
call:
        leaq kept(%rip), %rax
        movq %rbx, 0(%rax)
        movq %rbp, 8(%rax)
        movq %r12, 16(%rax)
        movq %r13, 24(%rax)
        movq %r14, 32(%rax)
        movq %r15, 40(%rax)
        popq 48(%rax)
        movq %rsp, 56(%rax)

        .irp number, 0, 1, 2, 3, 4, 5, 6, 7, 8, 9, 10, 11, 12, 13, 14, 15
        pcmpeqd %xmm\number, %xmm\number
        .endr
        movq $-1, %rax
        movq $-101, %rbx
        movq $-102, %rbp
        movq $-103, %r12
        movq $-104, %r13
        movq $-105, %r14
        movq $-106, %r15
        call *%r11

        .macro is_kept register, number
        cmpq $\number, \register
        jne changed
        .endm
        is_kept %rbx, -101
        is_kept %rbp, -102
        is_kept %r12, -103
        is_kept %r13, -104
        is_kept %r14, -105
        is_kept %r15, -106
        leaq kept(%rip), %r11
        cmpq 56(%r11), %rsp
        jne changed
        pushfq
        popq %r10
        testq $0x400, %r10 /* the direction flag */
        jnz changed

        movq 0(%r11), %rbx
        movq 8(%r11), %rbp
        movq 16(%r11), %r12
        movq 24(%r11), %r13
        movq 32(%r11), %r14
        movq 40(%r11), %r15
        jmp *48(%r11)

changed:
        ud2

        .local kept
        .comm kept, 64, 16
        .section .note.GNU-stack, "", @progbits
