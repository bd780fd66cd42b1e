# The flight plan's sync program for Micro32, with the pages and the small kernel around it: one image, loaded at physical address 0.
#
# The cabin edits its copy of the flight plan. The sync program compares it with the copy that was sent to the ground last, and asks the
# gateway to send each waypoint that moved. A message costs money, so a waypoint must be sent when it moved and must not be when it didn't.
#
# guests/sync/build makes three images of this source by these symbols:
#   (none)       sync.img, the program as it should be
#   LOST_BORROW  lostborrow.img: the high words are subtracted without the low words' borrow, so a waypoint whose last bit wavered is sent
#   BROKEN       broken.img: after the third waypoint the program stores into the kernel's records, which ends it with a page fault
# and WAYPOINTS, the number of waypoints, 20 where it isn't given, at most 4096.
#
# What the program asks of the gateway, by software interrupts:
#   INT 30h  send a waypoint: EAX its number from 1, ECX its length of 16 bytes, ESI its linear address in the cabin's plan
#   INT 31h  the pass is over: EAX how many waypoints were sent in it. The program goes on with the next pass.

    .intel_syntax noprefix
    .text

    .ifndef WAYPOINTS
    .equ WAYPOINTS, 20
    .endif

# ---- physical addresses: each is a page of 4,096 bytes, the plans are PLAN_PAGES such pages
    .equ PAGE,          0x1000
    .equ PLAN_PAGES,    (16 * WAYPOINTS + PAGE - 1) / PAGE
    .equ DIRECTORY,     0x1000
    .equ KERNEL_TABLE,  0x2000
    .equ USER_TABLE,    0x3000
    .equ RECORDS,       0x4000
    .equ KERNEL_CODE,   0x5000
    .equ USER_CODE,     0x6000
    .equ USER_STACK,    0x7000
    .equ CABIN_FRAMES,  0x8000
    .equ SENT_FRAMES,   CABIN_FRAMES + PLAN_PAGES * PAGE
    .equ IMAGE_END,     SENT_FRAMES + PLAN_PAGES * PAGE

# ---- linear addresses, as the sync program sees them. The code is at 400000, the stack's page ends where the kernel's records begin
    .equ USER_WINDOW,   0x400000
    .equ STACK_TOP,     0x402000
    .equ CABIN,         0x410000
    .equ SENT,          0x450000

# ---- rights of a page, in the low bits of its entry
    .equ SUPERVISOR_READ,  1        # present
    .equ SUPERVISOR_WRITE, 3        # present, writable
    .equ USER_READ,        5        # present, for the user
    .equ USER_WRITE,       7        # present, for the user, writable

# entry N, FRAME, RIGHTS: entry N of the directory or table at hand
    .macro entry n, frame, rights
    .org entries + 4 * (\n), 0
    .long (\frame) + \rights
    .endm

# plan_entries N, FRAMES: entries for a plan's pages from entry N on
    .macro plan_entries n, frames
    .set plan_page, 0
    .rept PLAN_PAGES
    entry (\n + plan_page), (\frames + plan_page * PAGE), USER_WRITE
    .set plan_page, plan_page + 1
    .endr
    .endm

# ---- the page directory: the first 4 MiB are the kernel's, the second are the user's window
    .org DIRECTORY, 0
    .set entries, .
    entry 0, KERNEL_TABLE, SUPERVISOR_WRITE
    entry 1, USER_TABLE, USER_WRITE

# the kernel's pages lie where their frames do
    .org KERNEL_TABLE, 0
    .set entries, .
    entry 1, DIRECTORY, SUPERVISOR_WRITE
    entry 2, KERNEL_TABLE, SUPERVISOR_WRITE
    entry 3, USER_TABLE, SUPERVISOR_WRITE
    entry 4, RECORDS, SUPERVISOR_WRITE
    entry 5, KERNEL_CODE, SUPERVISOR_READ

# the user's pages lie elsewhere than their frames
    .org USER_TABLE, 0
    .set entries, .
    entry 0, USER_CODE, USER_READ
    entry 1, USER_STACK, USER_WRITE
    entry 2, RECORDS, SUPERVISOR_WRITE
    plan_entries ((CABIN - USER_WINDOW) / PAGE), CABIN_FRAMES
    plan_entries ((SENT - USER_WINDOW) / PAGE), SENT_FRAMES

# ---- the kernel's records
    .org RECORDS, 0
    .ascii "PLAN"
    .long WAYPOINTS
    .long CABIN_FRAMES
    .long SENT_FRAMES
# the accounts: a number, and what it owes for messages, in cents
    .long 100417, 128050
    .long 100418, 4725
    .long 100562, 60310
    .long 100971, 915
    .long 101003, 33480
    .long 101256, 207195

# ---- the kernel's check: the sum of the dwords of the records' page, in EAX
    .org KERNEL_CODE, 0
kernel:
    mov     esi, RECORDS
    mov     ecx, PAGE / 4
    xor     eax, eax
sum:
    add     eax, [esi]
    add     esi, 4
    loop    sum                     # ECX falls by one; back to `sum` unless it is 0
    hlt
    jmp     kernel

# ---- the sync program. ESI: the waypoint in the cabin's plan; EDI: the same in the sent plan; EBX: its number; EBP: how many were sent

# subtract_high: the high words' subtraction, which must take the borrow that the low words' left in CF
    .macro subtract_high to, what
    .ifdef LOST_BORROW
    sub     \to, \what
    .else
    sbb     \to, \what
    .endif
    .endm

# compare_at PLACE: goes to `moved` unless the two numbers of 64 bits at PLACE of the waypoints differ by -1, 0 or 1. The last bit of a
# position wavers by itself and isn't worth a message. With the difference d in EDX:EAX, that is d + 1 < 3 without a sign, and so a
# borrow out of (d + 1) - 3: one jump tests all 64 bits (proved: crates/positions, `Wavering`).
    .macro compare_at place
    mov     eax, [esi + \place]
    mov     edx, [esi + \place + 4]
    sub     eax, [edi + \place]     # d, the low word: CF is its borrow
    subtract_high edx, [edi + \place + 4]
    add     eax, 1                  # d + 1
    adc     edx, 0
    sub     eax, 3                  # (d + 1) - 3
    sbb     edx, 0
    jnc     moved
    .endm

    .org USER_CODE, 0
start:
    mov     esi, CABIN
    mov     edi, SENT
    mov     ebx, 1
    xor     ebp, ebp
waypoint:
    compare_at 0                    # latitude
    compare_at 8                    # longitude
next:
    .ifdef BROKEN
    cmp     ebx, 3
    jne     unbroken
    mov     [STACK_TOP + 0x10], eax # past the stack's top: the first account of the kernel's records
unbroken:
    .endif
    add     esi, 16
    add     edi, 16
    inc     ebx
    cmp     ebx, WAYPOINTS
    jbe     waypoint
    mov     eax, ebp
    int     0x31                    # the pass is over
    jmp     start

moved:
    call    send
    jmp     next

# send: makes the sent waypoint the cabin's, and asks the gateway to send it
send:
    mov     eax, [esi]
    mov     [edi], eax
    mov     eax, [esi + 4]
    mov     [edi + 4], eax
    mov     eax, [esi + 8]
    mov     [edi + 8], eax
    mov     eax, [esi + 12]
    mov     [edi + 12], eax
    inc     ebp
    mov     eax, ebx
    mov     ecx, 16
    int     0x30
    ret

# ---- the cabin's plan. A waypoint is its latitude and its longitude, each a number of 64 bits in two words, low word first: degrees
# times 2^32, north and east positive. They are given here in millionths of a degree, and `last` is added to the last bit.
    .set waypoints, 0
    .macro position latitude, longitude, last=0
    .if waypoints < WAYPOINTS
    .quad ((\latitude) << 32) / 1000000 + \last
    .quad ((\longitude) << 32) / 1000000
    .endif
    .set waypoints, waypoints + 1
    .endm

    .org CABIN_FRAMES, 0
    position 51477500, -461389      # London
    position 51630000, -1250000
    position 51900000, -2750000
    position 52250000, -4500000
    position 52500000, -6900000
    position 52702000, -8924800     # Shannon
    position 53000000, -12250000    # whole degrees have a low word of 0: one less in the last bit changes both words
    position 53500000, -15000000
    position 53500000, -20000000
    position 53500000, -30000000
    position 52500000, -40000000
    position 51500000, -50000000
    position 48936944, -54568056    # Gander
    position 47000000, -57125000
    position 45000000, -60500000
    position 44000000, -63500000, -1 # a low word of FFFFFFFF: one more in the last bit changes both words
    position 43000000, -66750000
    position 42000000, -69250000
    position 41250000, -71500000
    position 40639722, -73778889    # New York
# a longer plan goes on southward
    .if WAYPOINTS > 20
    .rept WAYPOINTS - 20
    position (40639722 - 9973 * (waypoints - 19)), (-73778889 + 1201 * (waypoints - 19))
    .endr
    .endif

# ---- the sent plan starts as zeros, so the first pass sends every waypoint
    .org IMAGE_END, 0
