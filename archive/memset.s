# memset, which the compiler calls to set a function's large arrays to zero before its code runs. The archive has its own copy, under a
# name that no other object sees, so that it needs no other library. By the calling convention the place is in rdi, the byte in esi and
# the number of bytes in rdx; the place is given back in rax.
	.section .text.memset,"ax",@progbits
	.globl memset
	.hidden memset
	.type memset, @function
	.p2align 6
memset:
	movq %rdi, %r8
	movl %esi, %eax
	movq %rdx, %rcx
	rep stosb
	movq %r8, %rax
	ret
	.size memset, . - memset
	.section .note.GNU-stack,"",@progbits
