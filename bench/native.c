/* The two calls of micro32.h by this processor's calling convention, over those of bench/native: there the answer is written through a
 * first pointer, and the audit's record comes by a pointer. */
#include "micro32.h"

void micro32_run_at(struct micro32_answer *, struct micro32_cpu *, uint8_t *, size_t, uint32_t);
void micro32_audit_at(struct micro32_answer *, struct micro32_cpu *, const uint8_t *, size_t);

struct micro32_answer micro32_run(struct micro32_cpu *cpu, uint8_t *mem, size_t len, uint32_t budget) {
    struct micro32_answer answer;
    micro32_run_at(&answer, cpu, mem, len, budget);
    return answer;
}

struct micro32_answer micro32_audit(struct micro32_cpu cpu, const uint8_t *mem, size_t len) {
    struct micro32_answer answer;
    micro32_audit_at(&answer, &cpu, mem, len);
    return answer;
}
