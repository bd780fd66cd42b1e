/* growth GUESTS [--quick]: the memory that a process takes, how a run's time grows with its budget, what small budgets cost, and how an audit's
 * time grows with the page maps. */
#include <stdarg.h>
#include <stdio.h>
#include <stdlib.h>
#include <string.h>
#include <sys/resource.h>
#include <sys/wait.h>
#include <unistd.h>
#include "clock.h"
#include "jobs.h"
#include "micro32.h"

#define LARGEST 0x1000000u              /* the longest memory */
#define TABLES 0x2000u                  /* the first table; the others follow */
#define LAST_PAGE (LARGEST - PAGE)      /* a frame that is no table */
#define REPEATS 5

void give_up(const char *format, ...) {
    va_list values;
    va_start(values, format);
    vfprintf(stderr, format, values);
    fprintf(stderr, "\n");
    exit(1);
}

/* the first guest, with more rounds than any budget here reaches, on a memory of `length` bytes; so many runs one after another; answers with
 * the seconds taken */
static double timed_runs(const char *guests, size_t length, uint32_t budget, uint32_t runs) {
    uint8_t *memory = new_memory(length);
    memset(memory, 0xF4, length);       /* so that every page of it is really there */
    load(guests, memory, length);
    struct micro32_cpu cpu = {.eip = 0x10000, .esp = 0x40000, .ebp = 0xFFFFFFFF, .eflags = 2, .cr0 = 1};
    double before = now();
    for (uint32_t i = 0; i < runs; i++) {
        struct micro32_answer end = micro32_run(&cpu, memory, length, budget);
        if (end.number != MICRO32_SPENT || end.count != budget)
            give_up("the run ended with reply %u after %u", end.number, end.count);
    }
    double taken = now() - before;
    free(memory);
    return taken;
}

static double least_taken(const char *guests, uint32_t budget, uint32_t runs, int repeats) {
    double least = timed_runs(guests, 0x40000, budget, runs);
    for (int i = 1; i < repeats; i++) {
        double taken = timed_runs(guests, 0x40000, budget, runs);
        least = taken < least ? taken : least;
    }
    return least;
}

static void budgets(const char *guests, uint32_t most) {
    printf("A run's time against its budget (two-word subtraction, ring 0, paging off, best of %d)\n", REPEATS);
    for (uint32_t budget = 10000; budget <= most; budget *= 10) {
        double least = least_taken(guests, budget, 1, budget < 100000000 ? REPEATS : 1);
        printf("  budget %9u: %10.3f ms, %6.1f ns an instruction\n", budget, least * 1e3, least * 1e9 / budget);
    }
}

/* what a host pays that steps through a guest, or runs it in slices */
static void slices(const char *guests, uint32_t steps) {
    static const uint32_t budgets[] = {1, 10, 100, 1000};
    printf("Runs of a small budget one after another (the same guest, %u steps in all, best of %d)\n", steps, REPEATS);
    for (int i = 0; i < 4; i++) {
        uint32_t runs = steps / budgets[i];
        double least = least_taken(guests, budgets[i], runs, REPEATS);
        printf("  budget %9u: %10.3f us a run, %6.1f ns an instruction\n", budgets[i], least * 1e6 / runs, least * 1e9 / steps);
    }
}

/* `tables` present tables of `pages` present pages each, all of them the user's to write, and none of them a table */
static uint8_t *mapped(uint32_t tables, uint32_t pages) {
    uint8_t *memory = new_memory(LARGEST);
    for (uint32_t t = 0; t < tables; t++) {
        put_dword(memory, DIRECTORY + 4 * t, (TABLES + t * PAGE) | 7);
        for (uint32_t p = 0; p < pages; p++)
            put_dword(memory, TABLES + t * PAGE + 4 * p, LAST_PAGE | 7);
    }
    return memory;
}

static void audits(void) {
    static const uint32_t counts[] = {1, 16, 256, 1024}, pages[] = {0, 32, 1024};
    struct micro32_cpu cpu = {.eflags = 2, .cr0 = 1, .cr3 = DIRECTORY};
    printf("An audit's time against the present tables and the present pages of each (16 MiB, best of %d)\n", REPEATS);
    for (int c = 0; c < 4; c++) {
        for (int p = 0; p < 3; p++) {
            uint8_t *memory = mapped(counts[c], pages[p]);
            double least = 1e9;
            for (int i = 0; i < REPEATS; i++) {
                double before = now();
                if (micro32_audit(cpu, memory, LARGEST).number != MICRO32_SAFE)
                    give_up("the audit isn't Safe");
                double taken = now() - before;
                least = taken < least ? taken : least;
            }
            printf("  tables %4u, pages in each %4u: %9.3f ms\n", counts[c], pages[p], least * 1e3);
            free(memory);
        }
    }
}

/* the largest memory that a process of its own held, in KiB, which makes a machine of `length` bytes and runs it; 0: no machine */
static long held(const char *guests, size_t length) {
    fflush(stdout);
    pid_t child = fork();
    if (child < 0)
        give_up("cannot start a process");
    if (child == 0) {
        if (length)
            timed_runs(guests, length, 100000, 1);
        _exit(0);
    }
    int status;
    struct rusage used;
    if (wait4(child, &status, 0, &used) != child || status)
        give_up("a process ended with status %d", status);
    return used.ru_maxrss;
}

int main(int count, char **words) {
    if (count < 2)
        give_up("usage: growth GUESTS [--quick]");
    printf("The most memory that a process held\n");
    printf("  without a machine:   %6ld KiB\n", held(words[1], 0));
    for (size_t length = 0x40000; length <= LARGEST; length *= 8)
        printf("  memory of %5zu KiB: %6ld KiB\n", length / 1024, held(words[1], length));
    int quick = count > 2 && !strcmp(words[2], "--quick");
    budgets(words[1], quick ? 1000000 : 100000000);
    slices(words[1], quick ? 100000 : 1000000);
    audits();
    return 0;
}
