/*
 * From the loader to C, on each host processor; the host's interrupts; the way into a guest and back. QEMU
 * begins at start32, by the note (PVH), and INIT and SIPI lead the others to `trampoline`. Memory is mapped
 * as it is, up to 4 GiB.
 */
    .section .note.pvh, "a", @note
    .long 4, 8, 18
    .asciz "Xen"
    .quad start32

    .macro enter_long_mode                 /* with SSE, which the library uses, and SVM */
    mov $0x620, %eax; mov %eax, %cr4       /* PAE, OSFXSR, OSXMMEXCPT */
    mov $level4, %eax; mov %eax, %cr3
    mov $0xC0000080, %ecx; rdmsr; or $0x1100, %eax; wrmsr  /* EFER: LME, SVME */
    mov $0x80000033, %eax; mov %eax, %cr0  /* PG, NE, ET, MP, PE */
    .endm

    .section .text.start, "ax"
    .code32
    .globl start32
start32:
    mov $level2, %edi; mov $0xE3, %eax; mov $2048, %ecx    /* pages of 2 MiB, present and writable */
1:  mov %eax, (%edi); add $0x200000, %eax; add $8, %edi
    loop 1b
    lgdt gdtr
    enter_long_mode
    ljmp $8, $start_first
    .code64
start_another:
    mov $1, %edi; lock xadd %edi, started(%rip)
    jmp start64
start_first:
    xor %edi, %edi
start64:                                   /* EDI is the processor's number: each has 64 KiB of stack */
    mov $16, %eax; mov %eax, %ss; mov %eax, %ds; mov %eax, %es
    lea 1(%rdi), %rax; shl $16, %rax; lea stacks(%rip), %rsp; add %rax, %rsp
    call processor_main

/* It is copied to 0x8000. From real mode a processor goes straight to 64 bits. */
    .code16
    .globl trampoline, trampoline_end
trampoline:
    cli
    xor %ax, %ax; mov %ax, %ds
    enter_long_mode
    lgdtl (1f - trampoline + 0x8000)
    ljmpl $8, $start_another
1:  .word gdt_end - gdt - 1
    .long gdt
trampoline_end:

/*
 * void svm_enter(uint64_t vmcb, uint64_t host_vmcb, uint64_t registers[16 + 64]), without RAX and RSP, which
 * the VMCB has. Interrupts are open in the guest alone, where they make it exit. STGI then takes them.
 */
    .text
    .code64
    .globl svm_enter
svm_enter:
    push %rbx; push %rbp; push %r12; push %r13; push %r14; push %r15
    push %rdx; push %rsi; push %rdi
    fxrstor 128(%rdx)
    mov 8(%rdx), %rcx; mov 24(%rdx), %rbx; mov 40(%rdx), %rbp; mov 48(%rdx), %rsi; mov 56(%rdx), %rdi
    mov 64(%rdx), %r8; mov 72(%rdx), %r9; mov 80(%rdx), %r10; mov 88(%rdx), %r11
    mov 96(%rdx), %r12; mov 104(%rdx), %r13; mov 112(%rdx), %r14; mov 120(%rdx), %r15
    mov 16(%rdx), %rdx
    mov (%rsp), %rax
    clgi; sti
    vmload %rax                            /* FS, GS, TR, LDTR, and the MSRs of system calls */
    vmrun %rax
    vmsave %rax
    mov 8(%rsp), %rax
    vmload %rax
    mov 16(%rsp), %rax
    mov %rdx, 16(%rax); mov %rax, %rdx
    mov %rcx, 8(%rdx); mov %rbx, 24(%rdx); mov %rbp, 40(%rdx); mov %rsi, 48(%rdx); mov %rdi, 56(%rdx)
    mov %r8, 64(%rdx); mov %r9, 72(%rdx); mov %r10, 80(%rdx); mov %r11, 88(%rdx)
    mov %r12, 96(%rdx); mov %r13, 104(%rdx); mov %r14, 112(%rdx); mov %r15, 120(%rdx)
    fxsave 128(%rdx)
    ldmxcsr mxcsr(%rip)
    stgi; nop; cli
    add $24, %rsp
    pop %r15; pop %r14; pop %r13; pop %r12; pop %rbp; pop %rbx
    ret

/* The host's interrupts: those of the local APIC wake a processor, or make its guest exit, and do no more. */
    .globl on_interrupt, on_nmi, exceptions
on_interrupt:
    push %rax; mov $0xFEE000B0, %eax; movl $0, (%rax); pop %rax
on_nmi:
    iretq
    .balign 16
exceptions:
    .set vector, 0
    .rept 32
    .balign 16
    push $vector
    jmp on_exception
    .set vector, vector + 1
    .endr
on_exception:
    mov %rsp, %rdi
    call host_fault

    .data
    .balign 8
    .globl gdt, started
gdt: .quad 0, 0x00AF9B000000FFFF, 0x00CF93000000FFFF
    .fill 8, 8, 0                          /* a TSS for each processor */
gdt_end:
gdtr: .word gdt_end - gdt - 1
    .long gdt, 0
started: .long 1
mxcsr: .long 0x1F80
    .balign 4096
level4: .quad level3 + 0x63
    .fill 511, 8, 0
level3: .quad level2 + 0x63, level2 + 0x1063, level2 + 0x2063, level2 + 0x3063
    .fill 508, 8, 0
    .section .rodata
    .globl guest_image, guest_image_end
guest_image: .incbin "guest.bin"
guest_image_end:
    .bss
    .balign 4096
level2: .skip 0x4000
stacks: .skip 0x40000
