# Six small programs for measuring, in one image that is loaded at address 0. Linear and physical addresses are the same.
# Each starts at a page of its own with EBP the number of rounds, ESP the stack's top and every other register 0, leaves its result in EBX,
# and ends with INT 31h at `finish`. The flags that stand at the end are all defined by the manual.
    .intel_syntax noprefix
    .text

    .equ FINISH, 0x1F000
    .equ A,      0x20000            # 512 numbers of 64 bits
    .equ B,      0x21000            # 512 more
    .equ FROM,   0x22000            # a block of 4 KiB
    .equ TO,     0x23000            # where it is copied to
    .equ TEXT,   0x24000            # a text with a 0 at its end
    .equ COPY,   0x25000            # the same, but for its last letter

# finished: the end of a round
    .macro finished
    dec     ebp
    jnz     1b
    jmp     finish
    .endm

# ---- 1: the two-word subtraction: in how many pairs is A at least B?
    .org 0x10000, 0
1:  mov     esi, A
    mov     edi, B
    mov     ecx, 512
2:  mov     eax, [esi]
    mov     edx, [esi + 4]
    sub     eax, [edi]
    sbb     edx, [edi + 4]
    jc      3f
    inc     ebx
3:  add     esi, 8
    add     edi, 8
    dec     ecx
    jnz     2b
    finished

# ---- 2: copies a block of 4 KiB and sums it
    .org 0x11000, 0
1:  mov     esi, FROM
    mov     edi, TO
    mov     ecx, 1024
2:  mov     eax, [esi]
    mov     [edi], eax
    add     ebx, eax
    add     esi, 4
    add     edi, 4
    dec     ecx
    jnz     2b
    finished

# ---- 3: calls and stack: the twelfth Fibonacci number, by a function that calls itself twice
    .org 0x12000, 0
1:  push    12
    call    fibonacci
    add     esp, 4
    add     ebx, eax
    finished
fibonacci:
    push    ebp
    mov     ebp, esp
    push    esi
    mov     eax, [ebp + 8]
    cmp     eax, 2
    jb      2f
    dec     eax
    push    eax
    call    fibonacci
    mov     esi, eax
    mov     eax, [ebp + 8]
    sub     eax, 2
    push    eax
    call    fibonacci
    add     eax, esi
    add     esp, 8
2:  pop     esi
    pop     ebp
    ret

# ---- 4: shifts and multiply: a generator of numbers, mixed
    .org 0x13000, 0
1:  mov     ecx, 1024
2:  imul    eax, eax, 1664525
    add     eax, 1013904223
    mov     esi, eax
    mov     edx, eax
    shr     edx, 15
    xor     ebx, edx
    mov     edi, eax
    sar     edi, 3
    shl     edi, 7
    add     ebx, edi
    mul     ebx
    xor     ebx, edx
    mov     eax, esi
    dec     ecx
    jnz     2b
    finished

# ---- 5: compares two texts byte by byte
    .org 0x14000, 0
1:  mov     esi, TEXT
    mov     edi, COPY
2:  mov     al, [esi]
    cmp     al, [edi]
    jne     3f
    inc     esi
    inc     edi
    test    al, al
    jnz     2b
3:  add     ebx, esi
    finished

# ---- 6: parity: the running sum of a block, PF of each sum asked for by a jump, as a byte and in AH
    .org 0x15000, 0
1:  mov     esi, FROM
    mov     ecx, 1024
2:  add     eax, [esi]
    setp    dl
    lahf
    jnp     3f
    inc     ebx
3:  add     ebx, edx
    add     esi, 4
    dec     ecx
    jnz     2b
    finished

    .org FINISH, 0
finish:
    int     0x31
    jmp     finish

# ---- data: numbers of a simple generator, and text
    .macro numbers count
    .rept \count
    .set seed, (seed * 1103515245 + 12345) & 0x7FFFFFFF
    .long seed
    .endr
    .endm
    .macro text last
    .rept 100
    .ascii "Cleared to the next waypoint as filed. "
    .endr
    .ascii "\last"
    .byte 0
    .endm

    .set seed, 1
    .org A, 0
    numbers 3072                    # A, B and FROM
    .org TEXT, 0
    text "."
    .org COPY, 0
    text "!"
    .org 0x26000, 0
