# A loader for Bochs: the first four sectors of a disk, followed by a guest's physical memory with its page maps.
# It moves itself out of the guest's way, reads that memory to address 0 on, turns paging on, and starts the guest in ring 3. The guest ends
# with INT 31h: the registers go to port E9 as hexadecimal, and Bochs is told to end.
    .intel_syntax noprefix
    .text
    .equ HOME,      0x60000             # where the loader lives; its own pages are added to the guest's first table
    .equ SECTORS,   4
    .equ STACK,     HOME + 0x4000
    .equ IDT,       HOME + 0x2000
    .equ DIRECTORY, 0x1000

    .code16
start:
    cli
    mov     ax, 0x7C0
    mov     ds, ax
    mov     ax, HOME / 16
    mov     es, ax
    xor     si, si
    xor     di, di
    mov     cx, 512
    cld
    rep     movsb
    ljmp    HOME / 16, offset moved
moved:
    mov     ax, cs
    mov     ds, ax
    mov     ss, ax
    mov     sp, 0x4000
    mov     disk, dl
    mov     ax, SECTORS - 1             # the rest of the loader
    call    read
    mov     word ptr to_offset, 0       # the guest's memory, but for its first page, where the BIOS keeps its own
    mov     word ptr to_segment, 0x100
    mov     dword ptr sector, SECTORS + 8
next_page:
    mov     ax, 8
    call    read
    add     dword ptr sector, 8
    add     word ptr to_segment, 0x100
    dec     word ptr pages
    jnz     next_page
    lgdt    gdt_at
    mov     eax, cr0
    or      al, 1
    mov     cr0, eax
    .byte   0x66, 0xEA                  # a far jump with an offset of 32 bits
    .long   HOME + protected - start
    .word   8

# read: AX sectors from `sector` to `to_segment:to_offset`
read:
    mov     count, ax
    mov     si, offset packet
    mov     dl, disk
    mov     ah, 0x42
    int     0x13
    jc      failed
    ret
failed:
    mov     al, '!'
    out     0xE9, al
    hlt

disk:       .byte 0
    .balign 4
packet:     .byte 16, 0                 # what the BIOS is asked to read
count:      .word 0
to_offset:  .word 512
to_segment: .word HOME / 16
sector:     .long 1, 0

    .balign 8
gdt:
    .quad 0
    .quad 0x00CF9B000000FFFF            # 08: code of ring 0, base 0, 4 GiB
    .quad 0x00CF93000000FFFF            # 10: data of ring 0
    .quad 0x00CFFB000000FFFF            # 18: code of ring 3
    .quad 0x00CFF3000000FFFF            # 20: data of ring 3
    .word 0x67, tss - start             # 28: the task, which has ring 0's stack
    .byte HOME >> 16, 0x89, 0, 0
gdt_at:
    .word gdt_at - gdt - 1
    .long HOME + gdt - start

# what the driver fills in
    .org 0x1E0
eip_at:     .long 0
esp_at:     .long 0
ebp_at:     .long 0
passes:     .long 0
pages:      .word 0
    .org 0x1FE
    .word 0xAA55

# ---- ring 0, 32 bits. Addresses of the loader's own are HOME and their place in it
    .code32
protected:
    mov     ax, 0x10
    mov     ds, ax
    mov     es, ax
    mov     ss, ax
    mov     esp, STACK
    mov     ebx, [DIRECTORY]            # the loader's pages, for ring 0, into the table of the first 4 MiB
    and     ebx, 0xFFFFF000
    lea     edi, [ebx + HOME / 0x1000 * 4]
    mov     eax, HOME + 3
    mov     ecx, 4
1:  mov     [edi], eax
    add     eax, 0x1000
    add     edi, 4
    loop    1b
    mov     edi, IDT                    # every exception ends the run, INT 31h ends a pass
    mov     ecx, 0x32
    mov     edx, HOME + wrong - start
1:  call    gate
    loop    1b
    mov     edi, IDT + 0x31 * 8
    mov     edx, HOME + ended - start
    call    gate
    mov     byte ptr [IDT + 0x31 * 8 + 5], 0xEE
    lidt    [HOME + idt_at - start]
    mov     ax, 0x28
    ltr     ax
    mov     eax, DIRECTORY
    mov     cr3, eax
    mov     eax, cr0
    or      eax, 0x80010000
    mov     cr0, eax
    mov     ax, 0x23
    mov     ds, ax
    mov     es, ax
    push    0x23
    push    dword ptr [HOME + esp_at - start]
    push    2
    push    0x1B
    push    dword ptr [HOME + eip_at - start]
    mov     ebp, [HOME + ebp_at - start]
    xor     eax, eax
    xor     ebx, ebx
    xor     ecx, ecx
    xor     edx, edx
    xor     esi, esi
    xor     edi, edi
    iretd

# gate: an interrupt gate to EDX at EDI
gate:
    mov     eax, edx
    and     eax, 0xFFFF
    or      eax, 0x80000
    mov     [edi], eax
    mov     eax, edx
    mov     ax, 0x8E00
    mov     [edi + 4], eax
    add     edi, 8
    ret

ended:
    dec     dword ptr [HOME + passes - start]
    jz      1f
    iretd
1:  pushad
    mov     ebp, esp
    mov     eax, [ebp + 44]             # the guest's ESP, in place of the one that PUSHAD stored
    mov     [ebp + 12], eax
    mov     ecx, 8                      # PUSHAD left EAX topmost
2:  mov     ebx, [ebp + ecx * 4 - 4]
    call    write
    loop    2b
    mov     ebx, [ebp + 40]             # EFLAGS
    call    write
    mov     al, 10
    out     0xE9, al
shutdown:
    mov     esi, HOME + word - start
    mov     dx, 0x8900
3:  mov     al, [esi]
    out     dx, al
    inc     esi
    jmp     3b

wrong:
    mov     al, '?'
    out     0xE9, al
    jmp     shutdown

# write: EBX in hexadecimal and a space, to port E9
write:
    mov     edx, 8
1:  rol     ebx, 4
    mov     al, bl
    and     al, 15
    cmp     al, 10
    jb      2f
    add     al, 'a' - '0' - 10
2:  add     al, '0'
    out     0xE9, al
    dec     edx
    jnz     1b
    mov     al, ' '
    out     0xE9, al
    ret

word:   .ascii "Shutdown"
idt_at: .word 0x32 * 8 - 1
    .long IDT
    .balign 4
tss:    .long 0, STACK, 0x10
    .fill 23, 4, 0
    .org 512 * SECTORS
