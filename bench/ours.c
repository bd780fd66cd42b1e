/* Micro32 as an engine: in ring 0 with paging off, and in ring 3 with paging on. */
#include <stdlib.h>
#include "engine.h"
#include "micro32.h"

struct machine {
    struct micro32_cpu cpu;
    uint8_t *memory;
    size_t length;
    uint64_t steps;
};

static struct machine *made(const struct job *job, uint8_t *memory, size_t length) {
    struct machine *m = calloc(1, sizeof *m);
    if (!m)
        give_up("no memory for a machine");
    m->cpu = (struct micro32_cpu){.eip = job->eip, .esp = job->esp, .ebp = job->ebp, .eflags = 2, .cr0 = 1};
    m->memory = memory;
    m->length = length;
    return m;
}

static void *make_flat(struct job *job) {
    return made(job, job->linear, job->linear_length);
}

static void *make_paged(struct job *job) {
    struct machine *m = made(job, job->paged, job->paged_length);
    m->cpu.cr0 = 0x80010001;
    m->cpu.cr3 = DIRECTORY;
    m->cpu.ring = 3;
    return m;
}

static void run(void *machine) {
    struct machine *m = machine;
    struct micro32_answer end = {.number = MICRO32_SPENT};
    while (end.number == MICRO32_SPENT) {
        end = micro32_run(&m->cpu, m->memory, m->length, 0xFFFFFFFF);
        m->steps += end.count;
    }
    if (end.number != MICRO32_TRAP || end.a != 0x31)
        give_up("Micro32 ended with reply %u (%x %x %x) at %08x", end.number, end.a, end.b, end.c, m->cpu.eip);
}

static struct registers registers(void *machine) {
    const struct micro32_cpu *c = &((struct machine *)machine)->cpu;
    return (struct registers){{c->eax, c->ecx, c->edx, c->ebx, c->esp, c->ebp, c->esi, c->edi, c->eflags & STATUS_FLAGS}};
}

uint64_t ours_steps(void *machine) {
    return ((struct machine *)machine)->steps;
}

const struct engine ours_flat = {.name = "ours, ring 0, flat", .pages = 0, .make = make_flat, .run = run, .registers = registers, .drop = free};
const struct engine ours_paged = {.name = "ours, ring 3, paged", .pages = 1, .make = make_paged, .run = run, .registers = registers, .drop = free};
