#include "jobs.h"
#include <stdio.h>
#include <stdlib.h>
#include <string.h>
#include "micro32.h"

/* bench/guests.s says what is where */
#define GUEST_CODE 0x10000u
#define GUEST_END 0x1F000u
#define GUEST_DATA 0x20000u
#define GUEST_MEMORY 0x40000u

/* guests/sync/sync.s too */
#define SYNC_TABLE 0x3000u
#define SYNC_RECORDS 0x4000u
#define SYNC_WINDOW 0x400000u
#define SYNC_PLANS 0x410000u
#define SYNC_SENT 0x450000u

static const struct {
    const char *name;
    uint32_t rounds;
} GUESTS[] = {{"two-word subtraction", 4000}, {"copy and sum 4 KiB", 2800}, {"calls and stack", 2800}, {"shifts and multiply", 1300}, {"text compare", 750}, {"parity", 2000}};

uint8_t *new_memory(size_t length) {
    uint8_t *memory = calloc(length, 1);
    if (!memory)
        give_up("no memory of %zu bytes", length);
    return memory;
}

static uint32_t dword(const uint8_t *memory, uint32_t at) {
    return memory[at] | memory[at + 1] << 8 | memory[at + 2] << 16 | (uint32_t)memory[at + 3] << 24;
}

void put_dword(uint8_t *memory, uint32_t at, uint32_t value) {
    for (int i = 0; i < 4; i++)
        memory[at + i] = value >> 8 * i;
}

size_t load(const char *name, uint8_t *memory, size_t room) {
    FILE *file = fopen(name, "rb");
    if (!file)
        give_up("cannot open %s", name);
    size_t length = fread(memory, 1, room, file);
    fclose(file);
    return length;
}

/* pages where they are: code for the user to read, data for the user to write */
static void map_guests(uint8_t *memory) {
    const uint32_t table = DIRECTORY + PAGE;
    put_dword(memory, DIRECTORY, table | 7);
    for (uint32_t page = GUEST_CODE; page < GUEST_MEMORY; page += PAGE)
        put_dword(memory, table + page / PAGE * 4, page | (page < GUEST_DATA ? 5 : 7));
}

static struct job guest_job(int i, const char *guests, int quick) {
    struct job job = {.name = GUESTS[i].name, .eip = GUEST_CODE + i * PAGE, .esp = GUEST_MEMORY, .end = GUEST_END, .passes = 1};
    job.ebp = quick ? GUESTS[i].rounds / 10 : GUESTS[i].rounds;
    job.ranges[0] = (struct range){GUEST_CODE, GUEST_DATA - GUEST_CODE, 1};
    job.ranges[1] = (struct range){GUEST_DATA, GUEST_MEMORY - GUEST_DATA, 0};
    job.linear_length = job.paged_length = GUEST_MEMORY;
    job.linear_data = job.paged_data = GUEST_DATA;
    job.data_length = GUEST_MEMORY - GUEST_DATA;
    job.linear = new_memory(GUEST_MEMORY);
    job.paged = new_memory(GUEST_MEMORY);
    load(guests, job.linear, GUEST_MEMORY);
    memcpy(job.paged, job.linear, GUEST_MEMORY);
    map_guests(job.paged);
    return job;
}

/* The first pass sends every waypoint; the passes that are measured then find nothing to send. Leaves EIP at the INT 31h. */
static uint32_t first_pass(struct job *job) {
    struct micro32_cpu cpu = {.eip = job->eip, .esp = job->esp, .eflags = 0x202, .cr0 = 0x80010001, .cr3 = DIRECTORY, .ring = 3};
    for (;;) {
        struct micro32_answer end = micro32_run(&cpu, job->paged, job->paged_length, 0xFFFFFFFF);
        if (end.number != MICRO32_TRAP)
            give_up("the sync program ended with reply %u at %08x", end.number, cpu.eip);
        if (end.a == 0x31)
            return cpu.eip;
        cpu.eip = end.b;
    }
}

/* the user's pages, by the user's table, put where their linear addresses are */
static void lay_out(struct job *job) {
    for (uint32_t i = 0; i < 1024; i++) {
        uint32_t entry = dword(job->paged, SYNC_TABLE + 4 * i);
        if ((entry & 5) == 5)
            memcpy(job->linear + SYNC_WINDOW + i * PAGE, job->paged + (entry & -PAGE), PAGE);
    }
}

static struct job sync_job(const char *sync, int quick) {
    struct job job = {.name = "sync, short passes", .eip = SYNC_WINDOW, .esp = SYNC_WINDOW + 2 * PAGE, .passes = quick ? 20 : 200};
    job.paged = new_memory(0x1000000);
    job.paged_length = load(sync, job.paged, 0x1000000);
    job.paged_data = dword(job.paged, SYNC_RECORDS + 12);
    job.linear_data = SYNC_SENT;
    job.data_length = job.paged_length - job.paged_data;
    job.linear_length = SYNC_SENT + job.data_length;
    job.linear = new_memory(job.linear_length);
    job.ranges[0] = (struct range){SYNC_WINDOW, PAGE, 1};
    job.ranges[1] = (struct range){SYNC_WINDOW + PAGE, PAGE, 0};
    job.ranges[2] = (struct range){SYNC_PLANS, job.data_length, 0};
    job.ranges[3] = (struct range){SYNC_SENT, job.data_length, 0};
    job.end = first_pass(&job);
    lay_out(&job);
    return job;
}

void make_jobs(struct job jobs[JOBS], const char *guests, const char *sync, int quick) {
    for (int i = 0; i < 5; i++)
        jobs[i] = guest_job(i, guests, quick);
    jobs[5] = sync_job(sync, quick);
    jobs[6] = guest_job(5, guests, quick);
}
