/* Bochs as an engine: a PC of its own, in a process of its own, that boots bench/bochs/boot.s and runs the guest in ring 3 with paging.
 * Two runs are measured, one of the guest's length and one longer: the difference of the best of each leaves out the PC's start. The working folder must have boot.img, as
 * bench/bochs/boot.s assembles, and bochsrc. */
#include <stdio.h>
#include <stdlib.h>
#include <string.h>
#include <sys/resource.h>
#include <sys/wait.h>
#include <unistd.h>
#include "engine.h"
#include "jobs.h"

#define LOADER 0x800u               /* bytes */
#define PARAMETERS 0x1E0u           /* EIP, ESP, EBP, passes, and how many pages follow the first */
#define DISK (2u * 16 * 63 * 512)   /* the size that bochsrc says */
#define LONGER 5                    /* times */

static void write_disk(const struct job *job, uint32_t ebp, uint32_t passes) {
    uint8_t *disk = new_memory(DISK);
    if (LOADER + job->paged_length > DISK)
        give_up("%s doesn't fit on the disk for Bochs", job->name);
    load("boot.img", disk, LOADER);
    memcpy(disk + LOADER, job->paged, job->paged_length);
    put_dword(disk, PARAMETERS, job->eip);
    put_dword(disk, PARAMETERS + 4, job->esp);
    put_dword(disk, PARAMETERS + 8, ebp);
    put_dword(disk, PARAMETERS + 12, passes);
    put_dword(disk, PARAMETERS + 16, job->paged_length / PAGE - 1);
    FILE *file = fopen("disk.img", "wb");
    if (!file || fwrite(disk, 1, DISK, file) != DISK || fclose(file))
        give_up("cannot write the disk for Bochs");
    free(disk);
}

/* The line of nine numbers among all that Bochs prints. A Bochs with a debugger waits for the command to go on. */
static int read_registers(struct registers *end) {
    FILE *out = popen("(echo c | timeout 600 bochs -q -f bochsrc) 2>&1", "r");
    char line[512];
    int found = 0;
    while (out && fgets(line, sizeof line, out)) {
        uint32_t r[9];
        if (sscanf(line, "%8x %8x %8x %8x %8x %8x %8x %8x %8x", r, r + 1, r + 2, r + 3, r + 4, r + 5, r + 6, r + 7, r + 8) == 9) {
            memcpy(end->of, r, sizeof r);
            found = 1;
        }
    }
    if (out)
        pclose(out);
    end->of[8] &= STATUS_FLAGS;
    return found;
}

static double children(void) {
    struct rusage used;
    getrusage(RUSAGE_CHILDREN, &used);
    return used.ru_utime.tv_sec + used.ru_stime.tv_sec + (used.ru_utime.tv_usec + used.ru_stime.tv_usec) * 1e-6;
}

int bochs_works(const struct job *job) {
    struct registers end;
    write_disk(job, 1, 1);
    return read_registers(&end);
}

static double one_run(const struct job *job, uint32_t ebp, uint32_t passes, struct registers *end) {
    write_disk(job, ebp, passes);
    double before = children();
    if (!read_registers(end))
        give_up("Bochs printed no registers for %s", job->name);
    return children() - before;
}

static double measured(struct job *job, struct registers *end, double *brief) {
    int many = job->passes > 1;
    struct registers other;
    *brief = one_run(job, job->ebp, job->passes, end);
    return one_run(job, many ? job->ebp : job->ebp * LONGER, many ? job->passes * LONGER : 1, &other);
}

const struct engine bochs = {.name = "Bochs, ring 3, paged", .pages = 1, .measured = measured, .longer = LONGER};
