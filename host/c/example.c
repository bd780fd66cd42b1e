/* Adds the numbers from 1 to 10 on a machine of one page, and prints how that ended. */
#include <stdio.h>
#include "micro32.h"

int main(void) {
    /* MOV ECX,10; XOR EAX,EAX; ADD EAX,ECX; LOOP to the ADD; HLT */
    static uint8_t memory[4096] = {0xB9, 10, 0, 0, 0, 0x31, 0xC0, 0x01, 0xC8, 0xE2, 0xFC, 0xF4};
    struct micro32_cpu cpu = {.eflags = 2, .cr0 = 1};

    struct micro32_answer maps = micro32_audit(cpu, memory, sizeof memory);
    printf("Read as page maps, these bytes are %s\n", maps.number == MICRO32_SAFE ? "safe" : "not safe");

    struct micro32_answer end = micro32_run(&cpu, memory, sizeof memory, 1000);
    if (end.number == MICRO32_HALT)
        printf("Halt after %u steps, next EIP %08X, EAX %u\n", (unsigned)end.count, (unsigned)end.a, (unsigned)cpu.eax);
    else
        printf("Reply %u after %u steps\n", (unsigned)end.number, (unsigned)end.count);
    return end.number == MICRO32_HALT && cpu.eax == 55 ? 0 : 1;
}
