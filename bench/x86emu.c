/* libx86emu as an engine: flat, segments of 32 bits and 4 GiB; its memory's pages are the guest's. */
#include <x86emu.h>
#include "engine.h"

/* INT 31h ends the run */
static int interrupted(x86emu_t *emu, u8 number, unsigned type) {
    if (number != 0x31)
        give_up("libx86emu: interrupt %02x of type %u at %08x", number, type, emu->x86.saved_eip);
    x86emu_stop(emu);
    return 1;
}

static void lend(x86emu_t *emu, struct job *job, const struct range *r) {
    for (uint32_t page = r->start; page < r->start + r->length; page += PAGE)
        x86emu_set_page(emu, page, job->linear + page);
    x86emu_set_perm(emu, r->start, r->start + r->length - 1, (r->code ? X86EMU_PERM_RX : X86EMU_PERM_RW) | X86EMU_PERM_VALID);
}

static void *make(struct job *job) {
    x86emu_t *emu = x86emu_new(0, 0);
    if (!emu)
        give_up("no memory for libx86emu");
    for (const struct range *r = job->ranges; r < job->ranges + 4 && r->length; r++)
        lend(emu, job, r);
    for (int i = 0; i < 6; i++)
        emu->x86.seg[i] = (sel_t){.base = 0, .limit = 0xFFFFFFFF, .sel = 8, .acc = i == R_CS_INDEX ? 0xC9B : 0xC93};
    emu->x86.R_CR0 = 1;
    emu->x86.R_EIP = job->eip;
    emu->x86.R_ESP = job->esp;
    emu->x86.R_EBP = job->ebp;
    x86emu_set_intr_handler(emu, interrupted);
    return emu;
}

static void run(void *emulator) {
    unsigned why = x86emu_run(emulator, 0);
    if (why)
        give_up("libx86emu stopped: %u", why);
}

static struct registers registers(void *emulator) {
    const x86emu_regs_t *r = &((x86emu_t *)emulator)->x86;
    return (struct registers){{r->R_EAX, r->R_ECX, r->R_EDX, r->R_EBX, r->R_ESP, r->R_EBP, r->R_ESI, r->R_EDI, r->R_EFLG & STATUS_FLAGS}};
}

static void drop(void *emulator) {
    x86emu_done(emulator);
}

const struct engine x86emu = {.name = "libx86emu", .pages = 0, .make = make, .run = run, .registers = registers, .drop = drop};
