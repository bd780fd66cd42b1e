/* A guest program to measure, and an engine to measure it on. */
#ifndef ENGINE_H
#define ENGINE_H

#include <stddef.h>
#include <stdint.h>

struct range {
    uint32_t start;
    uint32_t length;
    int code;                           /* code is only read, data only read and written */
};

/* A guest with its memory in two forms: by linear address for engines that run it flat, and with page maps for those that walk them. */
struct job {
    const char *name;
    uint32_t eip, esp, ebp;             /* at the start; every other register is 0 */
    uint32_t end;                       /* linear address of the INT 31h that ends it */
    int passes;                         /* above 1: that many runs, each by an engine made anew, and the making is measured too */
    struct range ranges[4];             /* the linear addresses that it uses; length 0 where there are fewer */
    uint8_t *linear, *paged;
    size_t linear_length, paged_length;
    size_t linear_data, paged_data;     /* where in each memory the bytes are that the guest may change, and how many */
    size_t data_length;
    uint64_t instructions;              /* of one pass, as our run counts them */
};

#define PAGE 0x1000u
#define DIRECTORY 0x1000u               /* of the paged memory */
#define STATUS_FLAGS 0x8D5u             /* CF PF AF ZF SF OF */

/* EAX ECX EDX EBX ESP EBP ESI EDI and the status flags */
struct registers {
    uint32_t of[9];
};

struct engine {
    const char *name;
    int pages;                          /* runs on the paged memory */
    void *(*make)(struct job *);
    void (*run)(void *);
    struct registers (*registers)(void *);
    void (*drop)(void *);
    /* in place of the four calls, where the engine is a process of its own: the time of a job so many times longer, and of the job itself in *brief */
    double (*measured)(struct job *, struct registers *, double *brief);
    int longer;
};

extern const struct engine ours_flat, ours_paged, bochs;
uint64_t ours_steps(void *);            /* how many instructions the run took */
int bochs_works(const struct job *);    /* does it start here, and run the job for one round? */

#ifdef WITH_X86EMU
extern const struct engine x86emu;
#endif
#ifdef WITH_UNICORN
extern const struct engine unicorn, unicorn_counted;
#endif

_Noreturn void give_up(const char *format, ...);

#endif
