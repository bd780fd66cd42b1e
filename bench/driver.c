/* driver GUESTS SYNC [--quick] [--bochs]: runs every guest on every engine, several times in turn, and prints instructions a second, the
 * spread of the repeats, and ratios. Time is processor time. All engines must leave the same registers, flags and data. */
#include <stdarg.h>
#include <stdio.h>
#include <stdlib.h>
#include <string.h>
#include "clock.h"
#include "engine.h"
#include "jobs.h"

static const struct engine *const ENGINES[] = {
    &ours_flat,
    &ours_paged,
#ifdef WITH_X86EMU
    &x86emu,
#endif
#ifdef WITH_UNICORN
    &unicorn,
    &unicorn_counted,
#endif
    &bochs,
};
#define MOST (int)(sizeof ENGINES / sizeof *ENGINES)
#define OURS 1                  /* ratios are to ours in ring 3 with paging */
#define MAX_REPEATS 7

static int engines = MOST - 1;  /* one more where Bochs is asked for */
static double seconds[JOBS][MOST][MAX_REPEATS], briefs[JOBS][MAX_REPEATS];  /* a brief time where an engine has one: Bochs */

void give_up(const char *format, ...) {
    va_list values;
    va_start(values, format);
    fprintf(stderr, "bench: ");
    vfprintf(stderr, format, values);
    fprintf(stderr, "\n");
    exit(1);
}

/* One measurement. The registers of the last pass are left in *end, the instructions of a pass in job where the engine is ours. */
static double measure(struct job *job, const struct engine *engine, struct registers *end, double *brief) {
    if (engine->measured)
        return engine->measured(job, end, brief);
    double total = 0;
    for (int pass = 0; pass < job->passes; pass++) {
        double before = now();
        void *e = engine->make(job);
        double made = now();
        engine->run(e);
        double ran = now();
        *end = engine->registers(e);
        if (engine == &ours_flat)
            job->instructions = ours_steps(e);
        double read = now();
        engine->drop(e);
        total += ran - made;
        if (job->passes > 1)
            total += made - before + now() - read;
    }
    return total;
}

/* What a guest leaves: registers and data. Ours, flat, is the first and sets what the others must leave. */
static struct registers expected;
static uint8_t *expected_data;

/* Bochs keeps its memory to itself. */
static void compare(const struct job *job, const struct engine *engine, const struct registers *end) {
    const uint8_t *data = engine->pages ? job->paged + job->paged_data : job->linear + job->linear_data;
    if (engine == ENGINES[0]) {
        expected = *end;
        memcpy(expected_data, data, job->data_length);
    }
    for (int i = 0; i < 9; i++)
        if (end->of[i] != expected.of[i])
            give_up("%s: %s leaves register %d as %08x, %s as %08x", job->name, engine->name, i, end->of[i], ENGINES[0]->name, expected.of[i]);
    if (!engine->measured && memcmp(data, expected_data, job->data_length))
        give_up("%s: %s leaves other data", job->name, engine->name);
}

static void one_turn(struct job *job, int turn, double times[MOST][MAX_REPEATS], double *brief) {
    uint8_t *linear = new_memory(job->linear_length), *paged = new_memory(job->paged_length);
    memcpy(linear, job->linear, job->linear_length);
    memcpy(paged, job->paged, job->paged_length);
    expected_data = new_memory(job->data_length);
    for (int e = 0; e < engines; e++) {
        struct registers end;
        times[e][turn] = measure(job, ENGINES[e], &end, brief);
        compare(job, ENGINES[e], &end);
        memcpy(job->linear, linear, job->linear_length);
        memcpy(job->paged, paged, job->paged_length);
    }
    free(linear);
    free(paged);
    free(expected_data);
}

static double best(const double *times, int repeats) {
    double least = times[0];
    for (int i = 1; i < repeats; i++)
        least = times[i] < least ? times[i] : least;
    return least;
}

static double worst(const double *times, int repeats) {
    double most = times[0];
    for (int i = 1; i < repeats; i++)
        most = times[i] > most ? times[i] : most;
    return most;
}

/* What a job takes at best. The best of the longer runs less the best of the brief ones: the noise of a single pair may be more than their difference. */
static double taken(const struct engine *engine, const double *times, const double *brief, int repeats) {
    double least = best(times, repeats);
    return engine->measured ? (least - best(brief, repeats)) / (engine->longer - 1) : least;
}

static void print_guest(const struct job *job, double times[MOST][MAX_REPEATS], const double *brief, int repeats) {
    double instructions = (double)job->instructions * job->passes;
    double ours = best(times[OURS], repeats);
    printf("%s: %.1f million instructions", job->name, instructions * 1e-6);
    if (job->passes > 1)
        printf(" in %d passes, an engine made anew for each (Bochs: one for all)", job->passes);
    printf("\n");
    for (int e = 0; e < engines; e++) {
        double least = taken(ENGINES[e], times[e], brief, repeats);
        printf("  %-22s %9.2f million a second, spread %5.1f %%, %7.2f times ours in ring 3\n", ENGINES[e]->name, instructions / least * 1e-6,
               (worst(times[e], repeats) / best(times[e], repeats) - 1) * 100, ours / least);
    }
}

int main(int count, char **words) {
    if (count < 3)
        give_up("usage: driver GUESTS SYNC [--quick] [--bochs]");
    int quick = 0;
    for (int i = 3; i < count; i++) {
        quick |= !strcmp(words[i], "--quick");
        if (!strcmp(words[i], "--bochs"))
            engines = MOST;
    }
    int repeats = quick ? 3 : MAX_REPEATS;
    struct job jobs[JOBS];
    make_jobs(jobs, words[1], words[2], quick);
    if (engines == MOST && !bochs_works(&jobs[0])) {
        printf("Bochs is here but doesn't run, and is left out.\n");
        engines--;
    }
    for (int turn = 0; turn < repeats; turn++)
        for (int j = 0; j < JOBS; j++)
            one_turn(&jobs[j], turn, seconds[j], &briefs[j][turn]);
    printf("Best of %d repeats in turn, by processor time; the spread is from the best to the worst.\n", repeats);
    for (int j = 0; j < JOBS; j++)
        print_guest(&jobs[j], seconds[j], briefs[j], repeats);
    printf("All engines left the same registers and flags, and the same data (Bochs's memory isn't seen).\n");
    return 0;
}
