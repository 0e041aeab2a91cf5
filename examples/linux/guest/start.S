/*
 * Where a guest without an operating system begins: at `start` in 64-bit code, as kvm.c does, or at `start32`
 * in 32-bit code, where the note leads QEMU (PVH). Memory is mapped as it is, up to 4 GiB.
 */
    .section .note.pvh, "a", @note
    .balign 4
    .long 4, 8, 18                /* the lengths of "Xen" and of the address, and the note's type */
    .asciz "Xen"
    .quad start32

    .section .start, "ax"
    .globl start
    .code64
start:
    mov $24, %eax
    mov %eax, %ss                 /* an interrupt's return checks it */
    lea stack_top(%rip), %rsp
    call run
    hlt

    .code32
start32:
    mov $pages, %edi
    mov $0x83, %eax               /* pages of 2 MiB, present and writable */
    mov $2048, %ecx
1:  mov %eax, (%edi)
    add $0x200000, %eax
    add $8, %edi
    loop 1b
    mov $0x20, %eax               /* PAE */
    mov %eax, %cr4
    mov $level4, %eax
    mov %eax, %cr3
    mov $0xC0000080, %ecx
    mov $0x100, %eax              /* EFER.LME */
    xor %edx, %edx
    wrmsr
    mov $0x80000011, %eax
    mov %eax, %cr0
    lgdt gdtr
    ljmp $16, $start

    .data
    .balign 8
gdt: .quad 0, 0, 0x00AF9B000000FFFF, 0x00CF93000000FFFF
gdtr: .word 31
    .long gdt
    .balign 4096
level4: .quad level3 + 3
    .fill 511, 8, 0
level3: .quad pages + 3, pages + 0x1003, pages + 0x2003, pages + 0x3003
    .fill 508, 8, 0

    .bss
    .balign 4096
pages: .skip 0x4000
    .skip 8192
stack_top:
