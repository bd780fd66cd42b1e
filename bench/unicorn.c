/* Unicorn as an engine: flat, no hooks, ended by the address to stop at; and the same with a number of instructions to stop after, which it counts
 * as our run counts its budget. */
#include <unicorn/unicorn.h>
#include "engine.h"

struct emulator {
    uc_engine *uc;
    const struct job *job;
};

static const int NAMES[9] = {UC_X86_REG_EAX, UC_X86_REG_ECX, UC_X86_REG_EDX, UC_X86_REG_EBX,   UC_X86_REG_ESP,
                             UC_X86_REG_EBP, UC_X86_REG_ESI, UC_X86_REG_EDI, UC_X86_REG_EFLAGS};

static void sure(uc_err e) {
    if (e != UC_ERR_OK)
        give_up("Unicorn: %s", uc_strerror(e));
}

static void *make(struct job *job) {
    struct emulator *e = calloc(1, sizeof *e);
    if (!e)
        give_up("no memory for Unicorn");
    sure(uc_open(UC_ARCH_X86, UC_MODE_32, &e->uc));
    for (const struct range *r = job->ranges; r < job->ranges + 4 && r->length; r++)
        sure(uc_mem_map_ptr(e->uc, r->start, r->length, r->code ? UC_PROT_READ | UC_PROT_EXEC : UC_PROT_READ | UC_PROT_WRITE, job->linear + r->start));
    sure(uc_reg_write(e->uc, UC_X86_REG_ESP, &job->esp));
    sure(uc_reg_write(e->uc, UC_X86_REG_EBP, &job->ebp));
    e->job = job;
    return e;
}

static void run(void *emulator) {
    struct emulator *e = emulator;
    sure(uc_emu_start(e->uc, e->job->eip, e->job->end, 0, 0));
}

static void run_counted(void *emulator) {
    struct emulator *e = emulator;
    sure(uc_emu_start(e->uc, e->job->eip, e->job->end, 0, e->job->instructions));
}

static struct registers registers(void *emulator) {
    struct registers r;
    for (int i = 0; i < 9; i++)
        sure(uc_reg_read(((struct emulator *)emulator)->uc, NAMES[i], &r.of[i]));
    r.of[8] &= STATUS_FLAGS;
    return r;
}

static void drop(void *emulator) {
    sure(uc_close(((struct emulator *)emulator)->uc));
    free(emulator);
}

const struct engine unicorn = {.name = "Unicorn", .pages = 0, .make = make, .run = run, .registers = registers, .drop = drop};
const struct engine unicorn_counted = {.name = "Unicorn, counted", .pages = 0, .make = make, .run = run_counted, .registers = registers, .drop = drop};
