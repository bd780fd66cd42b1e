/* Runs cases on the machine's own CPU: each is one user instruction, single-stepped by the trap flag. confirm.py builds it and talks to it.

   The case's memory lies at BASE. Segments of a local descriptor table begin there, so a case's addresses stay as they are and low pages
   need not be mapped. The code segment does not end, since a jump's target may be anywhere. With paging off the data segment ends where memory
   ends; under paging it does not, since what lies past memory is an absent page there, as it is here.

   Reads, for each case: EIP, EFLAGS, eight registers, whether it is under paging, what may be done with each page (as mprotect has it), a count,
   and that many pairs of address and byte. Writes: the signal that ended it, the CPU's vector, error code and page-fault address, EIP, EFLAGS, eight
   registers, a count, and pairs for the bytes that are changed. All are dwords. */
#if !defined(__i386__)
#error "hostcpu.c is for an x86 CPU in 32-bit mode: build it on such a machine with gcc -m32"
#endif
#define _GNU_SOURCE
#include <asm/ldt.h>
#include <signal.h>
#include <stdint.h>
#include <stdio.h>
#include <stdlib.h>
#include <string.h>
#include <sys/mman.h>
#include <sys/syscall.h>
#include <ucontext.h>
#include <unistd.h>

enum { PAGE = 4096, PAGES = 8, SIZE = PAGES * PAGE, GUARD = 0x10000, ALL = PROT_READ | PROT_WRITE | PROT_EXEC };
enum { CODE = 0x07, DATA = 0x0F, ENDLESS = 0x17, TF = 0x100, FLAGS = 0xCD5 };
#define BASE ((uint8_t *)0x20000000)

struct state {
    uint32_t eip, eflags, regs[8];
};

struct pages {
    uint32_t paging, rights[PAGES];
};

struct end {
    uint32_t signal, vector, code, address;
};

static const int ORDER[8] = {REG_EAX, REG_ECX, REG_EDX, REG_EBX, REG_ESP, REG_EBP, REG_ESI, REG_EDI};
static struct state given, found;
static struct pages pages;
static struct end ended;
static gregset_t home;
static uint16_t gs_of_home;
static uint8_t before[SIZE];
static uint8_t handler_stack[65536] __attribute__((aligned(16)));

static void copy(greg_t *to, const greg_t *from)
{
    for (int i = 0; i < NGREG; i++)
        to[i] = from[i];
}

/* Leaves for the case: the return from this handler loads its registers. */
static void leave(int number, siginfo_t *info, void *context)
{
    (void)number, (void)info;
    greg_t *g = ((ucontext_t *)context)->uc_mcontext.gregs;
    copy(home, g);
    for (int i = 0; i < 8; i++)
        g[ORDER[i]] = given.regs[i];
    g[REG_EIP] = given.eip;
    g[REG_EFL] = (given.eflags & FLAGS) | (home[REG_EFL] & ~FLAGS) | TF;
    g[REG_CS] = CODE;
    g[REG_SS] = g[REG_DS] = g[REG_ES] = g[REG_FS] = g[REG_GS] = pages.paging ? ENDLESS : DATA;
}

/* Comes back from it, after the instruction or its fault. The C library's own segment first. */
static void come_back(int number, siginfo_t *info, void *context)
{
    __asm__ volatile("cld\n\tmovw %0, %%gs" : : "m"(gs_of_home));
    (void)info;
    mcontext_t *m = &((ucontext_t *)context)->uc_mcontext;
    greg_t *g = m->gregs;
    if (g[REG_CS] != CODE)
        _exit(3);
    ended = (struct end){number, g[REG_TRAPNO], g[REG_ERR], m->cr2 - (uintptr_t)BASE};
    for (int i = 0; i < 8; i++)
        found.regs[i] = g[ORDER[i]];
    found.eip = g[REG_EIP];
    found.eflags = g[REG_EFL] & FLAGS;
    copy(g, home);
}

static void need(int fine, const char *what)
{
    if (!fine) {
        perror(what);
        exit(2);
    }
}

static void segment(unsigned entry, unsigned limit, unsigned in_pages, unsigned contents)
{
    struct user_desc d = {.entry_number = entry, .base_addr = (uintptr_t)BASE, .limit = limit, .limit_in_pages = in_pages,
                          .seg_32bit = 1, .contents = contents, .useable = 1};
    need(syscall(SYS_modify_ldt, 1, &d, sizeof d) == 0, "modify_ldt");
}

static void on(int number, void (*handler)(int, siginfo_t *, void *))
{
    struct sigaction a = {.sa_sigaction = handler, .sa_flags = SA_SIGINFO | SA_ONSTACK};
    sigfillset(&a.sa_mask);
    need(sigaction(number, &a, NULL) == 0, "sigaction");
}

static void protect(uint32_t at, uint32_t size, int rights)
{
    need(mprotect(BASE + at, size, rights) == 0, "mprotect");
}

static void prepare(void)
{
    stack_t s = {.ss_sp = handler_stack, .ss_size = sizeof handler_stack};
    uint8_t *room = mmap(BASE - GUARD, SIZE + 2 * GUARD, PROT_NONE, MAP_PRIVATE | MAP_ANONYMOUS | MAP_FIXED_NOREPLACE, -1, 0);
    need(room == BASE - GUARD, "mmap");
    protect(0, SIZE, ALL);
    segment(CODE / 8, 0xFFFFF, 1, MODIFY_LDT_CONTENTS_CODE);
    segment(DATA / 8, SIZE - 1, 0, MODIFY_LDT_CONTENTS_DATA);
    segment(ENDLESS / 8, 0xFFFFF, 1, MODIFY_LDT_CONTENTS_DATA);
    need(sigaltstack(&s, NULL) == 0, "sigaltstack");
    __asm__ volatile("movw %%gs, %0" : "=m"(gs_of_home));
    on(SIGUSR1, leave);
    static const int ends[] = {SIGTRAP, SIGSEGV, SIGBUS, SIGFPE, SIGILL};
    for (unsigned i = 0; i < sizeof ends / sizeof *ends; i++)
        on(ends[i], come_back);
}

static int take(void *to, size_t n)
{
    return fread(to, n, 1, stdin) == 1;
}

static void give(uint32_t x)
{
    need(fwrite(&x, sizeof x, 1, stdout) == 1, "write");
}

static void answer(void)
{
    uint32_t changed = 0;
    need(fwrite(&ended, sizeof ended, 1, stdout) == 1, "write");
    need(fwrite(&found, sizeof found, 1, stdout) == 1, "write");
    for (uint32_t i = 0; i < SIZE; i++)
        changed += BASE[i] != before[i];
    give(changed);
    for (uint32_t i = 0; changed && i < SIZE; i++)
        if (BASE[i] != before[i]) {
            give(i);
            give(BASE[i]);
        }
}

/* The signal's return is the case; its end returns here. Pages are this program's again before memory is read. */
static void run(void)
{
    for (uint32_t i = 0; i < PAGES; i++)
        if (pages.rights[i] != ALL)
            protect(i * PAGE, PAGE, pages.rights[i]);
    ended = (struct end){0};
    raise(SIGUSR1);
    protect(0, SIZE, ALL);
}

int main(void)
{
    uint32_t n, pair[2];
    prepare();
    while (take(&given, sizeof given)) {
        need(take(&pages, sizeof pages), "read");
        memset(BASE, 0, SIZE);
        for (need(take(&n, sizeof n), "read"); n; n--) {
            need(take(pair, sizeof pair) && pair[0] < SIZE, "read");
            BASE[pair[0]] = pair[1];
        }
        memcpy(before, BASE, SIZE);
        run();
        answer();
    }
    return 0;
}
