/* Start-up of a program without an operating system. The emulator loads it as a kernel and enters it at `start`, which the PVH note names, in
 * 32-bit mode without paging; the library is compiled for 64-bit mode. Each address is mapped to itself, up to 4 GiB, where the part is. */

    .section .note.pvh, "a", @note
    .balign 4
    .long 4, 8, 18              /* the lengths of name and value, and the kind: XEN_ELFNOTE_PHYS32_ENTRY */
    .asciz "Xen"
    .quad start

    .text
    .code32
    .globl start
start:
    cli
    cld
    mov $tables, %eax
    mov %eax, %cr3
    mov %cr4, %eax
    or $0x620, %eax             /* PAE, which 64-bit mode needs; OSFXSR and OSXMMEXCPT: the library copies by SSE registers */
    mov %eax, %cr4
    mov $0xC0000080, %ecx       /* EFER: LME, 64-bit mode */
    rdmsr
    or $0x100, %eax
    wrmsr
    mov %cr0, %eax
    and $~4, %eax               /* not EM, which would trap SSE */
    or $0x80000003, %eax        /* PG, MP and PE */
    mov %eax, %cr0
    lgdt descriptors_place
    ljmp $8, $start64

    .code64
start64:
    mov $16, %eax
    mov %eax, %ds
    mov %eax, %es
    mov %eax, %ss
    mov $stack_top, %rsp
    mov $bss_start, %rdi
    mov $bss_end, %rcx
    sub %rdi, %rcx
    xor %eax, %eax
    rep stosb
    call run                    /* does not come back */

    .section .rodata
    .balign 8
descriptors:
    .quad 0, 0x00AF9B000000FFFF, 0x00CF93000000FFFF     /* none, 64-bit code, data */
descriptors_place:
    .word 23
    .long descriptors

    .data
    .balign 4096
tables:
    .quad quarters + 3          /* 3: present and writable */
    .fill 511, 8, 0
quarters:
    .quad pages + 0x3, pages + 0x1003, pages + 0x2003, pages + 0x3003
    .fill 508, 8, 0
pages:
    .set page, 0x83             /* and of 2 MiB */
    .rept 2048
    .quad page
    .set page, page + 0x200000
    .endr

    .bss
    .balign 16
    .skip 65536
stack_top:

    .section .note.GNU-stack, "", @progbits
