/* The guests that are measured: six of guests.s and the sync program. */
#ifndef JOBS_H
#define JOBS_H

#include "engine.h"

#define JOBS 7

/* GUESTS and SYNC are files with the images; a quick job is a tenth as long. The instructions are counted by a run of ours. */
void make_jobs(struct job jobs[JOBS], const char *guests, const char *sync, int quick);

uint8_t *new_memory(size_t length);
size_t load(const char *name, uint8_t *memory, size_t room);
void put_dword(uint8_t *memory, uint32_t at, uint32_t value);

#endif
