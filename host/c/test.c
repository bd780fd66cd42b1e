/* The boundary from C: the layout, each reply reached once, the record in place, and bad input. */
#include <stdio.h>
#include <stdlib.h>
#include <string.h>
#include "micro32.h"

#define AT(field, place) _Static_assert(offsetof(struct micro32_cpu, field) == 4 * (place), #field)
AT(eax, 0); AT(ecx, 1); AT(edx, 2); AT(ebx, 3); AT(esp, 4); AT(ebp, 5); AT(esi, 6); AT(edi, 7);
AT(eip, 8); AT(eflags, 9); AT(cr0, 10); AT(cr2, 11); AT(cr3, 12); AT(ring, 13);
_Static_assert(sizeof(struct micro32_cpu) == 56, "the record is fourteen dwords");
_Static_assert(sizeof(struct micro32_answer) == 20, "the answer is five dwords");
_Static_assert(offsetof(struct micro32_answer, number) == 0 && offsetof(struct micro32_answer, count) == 16, "number first, count last");

static int checks, wrong;
#define CHECK(what) do { checks++; if (!(what)) { wrong++; printf("C: line %d: %s\n", __LINE__, #what); } } while (0)

static uint8_t memory[2 * 4096];
static const struct micro32_cpu start = {.eflags = 2, .cr0 = 1};

static int is(struct micro32_answer x, uint32_t number, uint32_t a, uint32_t b, uint32_t c, uint32_t count) {
    return x.number == number && x.a == a && x.b == b && x.c == c && x.count == count;
}

/* Runs code from address 0 of one page, with paging off. */
static struct micro32_answer ends(const char *code, size_t length, uint32_t budget) {
    struct micro32_cpu cpu = start;
    memset(memory, 0, sizeof memory);
    memcpy(memory, code, length);
    return micro32_run(&cpu, memory, 4096, budget);
}

static void put(size_t at, uint32_t dword) {
    for (int i = 0; i < 4; i++) memory[at + i] = (uint8_t)(dword >> 8 * i);
}

static void replies(void) {
    CHECK(is(ends("\x90\xF4", 2, 1), MICRO32_SPENT, 0, 0, 0, 1)); /* the Done of a step is in the count */
    CHECK(is(ends("\xF4", 1, 1), MICRO32_HALT, 1, 0, 0, 0));        /* and a step that is refused isn't */
    CHECK(is(ends("\xF7\xF0", 2, 9), MICRO32_FAULT, 0, 0, 0, 0));
    CHECK(is(ends("\x0F\x0B", 2, 9), MICRO32_FAULT, 6, 0, 0, 0));
    CHECK(is(ends("\xCD\x21", 2, 9), MICRO32_TRAP, 0x21, 2, 0, 0));
    CHECK(is(ends("\x90\xF4", 2, 9), MICRO32_HALT, 2, 0, 0, 1));
    CHECK(is(ends("\xA1\xFE\x0F\0\0", 5, 9), MICRO32_NO_MEMORY, 0x1000, 0, 0, 0));
    CHECK(is(ends("\xE4\x60", 2, 9), MICRO32_NOT_BUILT, 0, 0, 0, 0));
    CHECK(is(ends("\xEB\xFE", 2, 100000), MICRO32_SPENT, 0, 0, 0, 100000));
    CHECK(is(ends("\xEB\xFE", 2, 0), MICRO32_SPENT, 0, 0, 0, 0));
}

static void page_fault(void) {
    struct micro32_cpu cpu = start;
    cpu.cr0 = 0x80000001; cpu.ring = 3;
    memset(memory, 0, sizeof memory); /* the directory, empty: the first fetch is refused */
    CHECK(is(micro32_run(&cpu, memory, sizeof memory, 9), MICRO32_FAULT, 14, MICRO32_PAGE_USER, 0, 0));
}

static void audits(void) {
    memset(memory, 0, sizeof memory);
    CHECK(is(micro32_audit(start, memory, sizeof memory), MICRO32_SAFE, 0, 0, 0, 0));
    put(12, 0x100001);
    CHECK(is(micro32_audit(start, memory, sizeof memory), MICRO32_TABLE_OUTSIDE, 3, 0, 0, 0));
    put(12, 0); put(0, 0x1007); put(0x1014, 7);
    CHECK(is(micro32_audit(start, memory, sizeof memory), MICRO32_EXPOSED, 0x5000, 0, 0, 0));
}

static void in_place(void) {
    struct micro32_cpu cpu = start, twin = start;
    uint8_t *copy = malloc(4096);
    const char *code = "\x40\xA3\0\x01\0\0\xEB\xF8"; /* INC EAX; MOV [100],EAX; JMP to the start */
    cpu.edi = twin.edi = 0xDEADBEEF;
    memset(memory, 0, 4096); memcpy(memory, code, 8); memcpy(copy, memory, 4096);
    CHECK(is(micro32_run(&cpu, memory, 4096, 300), MICRO32_SPENT, 0, 0, 0, 300));
    for (int i = 0; i < 300; i++) CHECK(is(micro32_run(&twin, copy, 4096, 1), MICRO32_SPENT, 0, 0, 0, 1));
    CHECK(memcmp(&cpu, &twin, sizeof cpu) == 0 && memcmp(memory, copy, 4096) == 0);
    CHECK(cpu.eax == 100 && cpu.edi == 0xDEADBEEF && cpu.eip == 0 && memory[0x100] == 100);
    free(copy);
}

static void bad_input(void) {
    const size_t lengths[] = {0, 1, 4095, 4097, 6000};
    struct micro32_cpu cpu = start;
    for (size_t i = 0; i < sizeof lengths / sizeof *lengths; i++) {
        CHECK(is(micro32_run(&cpu, memory, lengths[i], 9), MICRO32_BAD_RECORD, 0, 0, 0, 0));
        CHECK(is(micro32_audit(cpu, memory, lengths[i]), MICRO32_BAD_RECORD, 0, 0, 0, 0));
    }
    CHECK(memcmp(&cpu, &start, sizeof cpu) == 0);
    const struct micro32_cpu unsound[] = {{.cr0 = 1}, {.eflags = 2}, {.eflags = 2, .cr0 = 1, .ring = 1}, {.eflags = 2, .cr0 = 1, .cr3 = 1}};
    for (size_t i = 0; i < sizeof unsound / sizeof *unsound; i++) {
        cpu = unsound[i];
        CHECK(is(micro32_run(&cpu, memory, 4096, 0), MICRO32_BAD_RECORD, 0, 0, 0, 0));
        CHECK(is(micro32_run(&cpu, memory, 4096, 0xFFFFFFFF), MICRO32_BAD_RECORD, 0, 0, 0, 0));
        CHECK(is(micro32_audit(cpu, memory, 4096), MICRO32_BAD_RECORD, 0, 0, 0, 0));
        CHECK(memcmp(&cpu, &unsound[i], sizeof cpu) == 0);
    }
}

int main(void) {
    replies();
    page_fault();
    audits();
    in_place();
    bad_input();
    printf("%d checks, %d wrong\n", checks, wrong);
    return wrong != 0;
}
