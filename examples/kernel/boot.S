/* From the 32-bit entry of a PVH boot to 64-bit code: the first 4 GB are mapped to themselves by
 * pages of 2 MB, and main() runs on a small stack. SSE is never switched on, so a vector
 * instruction anywhere in the program would stop it. */

/* The note by which the loader finds the entry (XEN_ELFNOTE_PHYS32_ENTRY). */
    .section .note.Xen, "a", @note
    .balign 4
    .long 4, 8, 18
    .asciz "Xen"
    .quad start

    .code32
    .text
    .globl start
start:
    cli
    cld
    /* ebx holds the address of the start info, which main() takes. */
    movl $stack_top, %esp

    /* One table of the top level, one of the second, four of the third: 2,048 pages of 2 MB. */
    movl $second, %eax
    orl $3, %eax
    movl %eax, top
    movl $third, %eax
    orl $3, %eax
    movl $second, %edi
    movl $4, %ecx
1:  movl %eax, (%edi)
    addl $8, %edi
    addl $4096, %eax
    loop 1b
    movl $third, %edi
    movl $0x83, %eax
    movl $2048, %ecx
1:  movl %eax, (%edi)
    addl $8, %edi
    addl $0x200000, %eax
    loop 1b

    /* Physical address extension, the tables, long mode, paging. */
    movl %cr4, %eax
    orl $0x20, %eax
    movl %eax, %cr4
    movl $top, %eax
    movl %eax, %cr3
    movl $0xc0000080, %ecx
    rdmsr
    orl $0x100, %eax
    wrmsr
    movl %cr0, %eax
    orl $0x80000001, %eax
    movl %eax, %cr0
    lgdt descriptors
    ljmp $8, $long_mode

    .code64
long_mode:
    movw $16, %ax
    movw %ax, %ds
    movw %ax, %es
    movw %ax, %ss
    movq $stack_top, %rsp
    movl %ebx, %edi
    call main
1:  cli
    hlt
    jmp 1b

    .section .rodata
    .balign 8
segments:
    .quad 0
    .quad 0x00af9a000000ffff
    .quad 0x00cf92000000ffff
descriptors:
    .word . - segments - 1
    .quad segments

    .bss
    .balign 4096
top:
    .skip 4096
second:
    .skip 4096
third:
    .skip 16384
    .skip 16384
stack_top:

    .section .note.GNU-stack, "", @progbits
