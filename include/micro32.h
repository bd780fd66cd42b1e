/* Micro32: a software 80386, proved, for a host in C or C++ to link.
 *
 * This file is the one place where the layout is written for C. Link with libmicro32.a, which `host/library`
 * writes to target/staticlib/. The library keeps nothing between calls, allocates nothing, and calls nothing back.
 */
#ifndef MICRO32_H
#define MICRO32_H

#include <stddef.h>
#include <stdint.h>

#ifdef __cplusplus
extern "C" {
#endif

/* The record: fourteen dwords, 56 bytes, in this order. It is sound when
 *   the ring is 0 or 3;
 *   EFLAGS has bit 1 set, and besides only bits 0, 2, 4, 6, 7 and 9 to 13 may be set;
 *   CR0 has bit 0 set, and besides only bits 4, 16 (WP) and 31 (paging) may be set;
 *   CR3 has bits 0 to 2 and 5 to 11 clear.
 * The smallest sound record is all zeros but for eflags = 2 and cr0 = 1. */
struct micro32_cpu {
    uint32_t eax;
    uint32_t ecx;
    uint32_t edx;
    uint32_t ebx;
    uint32_t esp;
    uint32_t ebp;
    uint32_t esi;
    uint32_t edi;
    uint32_t eip;
    uint32_t eflags;
    uint32_t cr0;
    uint32_t cr2;
    uint32_t cr3;
    uint32_t ring;
};

/* The replies, by number, and what each carries in a, b and c of the answer. What isn't carried is 0. */
enum micro32_reply {
    MICRO32_DONE = 0,          /* nothing: a step was carried out. A run doesn't end with it: its count tells of such steps */
    MICRO32_FAULT = 1,         /* a: vector (0 divide, 6 undefined, 13 protection, 14 page), b: error code, c: linear address; b and c are 0 but for 14 */
    MICRO32_TRAP = 2,          /* a: vector, b: EIP of the next instruction. INT 3 or INT n was met */
    MICRO32_HALT = 3,          /* a: EIP of the next instruction. HLT was met in ring 0 */
    MICRO32_BAD_RECORD = 4,    /* nothing: the record isn't sound, or the length of memory isn't allowed */
    MICRO32_NO_MEMORY = 5,     /* a: physical address of the first byte that lies past the end of memory */
    MICRO32_NOT_BUILT = 6,     /* a: EIP of an instruction that this machine doesn't have */
    MICRO32_SPENT = 7,         /* nothing: the run's budget was used up */
    MICRO32_SAFE = 8,          /* nothing: audit. The user can't write the directory or a table */
    MICRO32_TABLE_OUTSIDE = 9, /* a: audit. Index of the first directory entry whose table lies past the end of memory; 1024 for the directory itself */
    MICRO32_EXPOSED = 10       /* a: audit. Linear address of the first page through which the user can write the directory or a table */
};

/* Of error code b in a fault of vector 14: the page was present and its rights refused; it was a write; it came from ring 3. */
#define MICRO32_PAGE_PRESENT 1u
#define MICRO32_PAGE_WRITE 2u
#define MICRO32_PAGE_USER 4u

/* An answer: a reply's number, its up to three values, and how many steps of a run were Done (0 for an audit). 20 bytes. */
struct micro32_answer {
    uint32_t number;
    uint32_t a;
    uint32_t b;
    uint32_t c;
    uint32_t count;
};

/* Carries out at most `budget` steps. *cpu and mem are advanced in place; the steps before a reply that ends the run stand,
 * and the step that gives it changes nothing. Any record, length and budget is answered: a length of 0, one above 16,777,216
 * or one that isn't a multiple of 4,096 is MICRO32_BAD_RECORD, also where budget is 0.
 *
 * To go step by step, run with budget 1: MICRO32_SPENT with count 1 where the step was carried out, else the reply that refused it,
 * with count 0.
 *
 * The caller sees to four things: cpu and mem are not null (mem not even where len is 0), cpu is aligned as a uint32_t is,
 * mem has len bytes, and the record doesn't lie inside mem. */
struct micro32_answer micro32_run(struct micro32_cpu *cpu, uint8_t *mem, size_t len, uint32_t budget);

/* Do the page maps keep the user away from the directory and the tables? Reads CR3 whatever CR0 says, and changes nothing.
 * Answers MICRO32_SAFE, MICRO32_TABLE_OUTSIDE, MICRO32_EXPOSED or MICRO32_BAD_RECORD. mem is as above. */
struct micro32_answer micro32_audit(struct micro32_cpu cpu, const uint8_t *mem, size_t len);

#ifdef __cplusplus
}
#endif

#endif
