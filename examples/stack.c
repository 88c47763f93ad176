/*
 * A step on a stack of its own, with a guard beneath it that is looked at afterwards.
 *
 *     stack            on CAPTABLE_STACK_STEP bytes: the guard is as it was
 *     stack BYTES      on so many bytes; with fewer than CAPTABLE_STACK_STEP the guard is written over, and
 *                      the step returns as if all were well
 *
 * The stack pointer is set to the top and the step is called there, so the stack holds the step and nothing
 * else. Firmware adds its own frames and its interrupts' (see the header). Link with -z now: otherwise the
 * first memcpy looks for itself on this stack, which a firmware's does not.
 *
 * Exit status: 0 if the guard is as it was, 1 if not or if the step was refused.
 */
#include "captable.h"

#include <stdio.h>
#include <stdlib.h>
#include <string.h>

/* Stack and guard together. Everything beneath the stack is guard. */
#define ALL 32768

static union {
    unsigned char bytes[ALL];
    long double aligned; /* to 16 bytes */
} memory;

static captable_table table;

/* captable_step with the stack pointer at `top`. */
static uint8_t step_at(unsigned char *top, captable_table *lent, const uint8_t *request, size_t length)
{
    uint64_t answer;

    __asm__ volatile("movq %%rsp, %%r12\n\t"
                     "movq %[top], %%rsp\n\t"
                     "call *%[step]\n\t"
                     "movq %%r12, %%rsp"
                     : "=a"(answer), "+D"(lent), "+S"(request), "+d"(length)
                     : [top] "r"(top), [step] "r"(captable_step)
                     : "rcx", "r8", "r9", "r10", "r11", "r12", "memory", "cc", "xmm0", "xmm1", "xmm2", "xmm3", "xmm4",
                       "xmm5", "xmm6", "xmm7", "xmm8", "xmm9", "xmm10", "xmm11", "xmm12", "xmm13", "xmm14", "xmm15");
    return (uint8_t)answer;
}

/* How deep the step wrote beneath a stack of `size` bytes, or ALL if it was refused. The guard is full of
 * `pattern`. */
static size_t beneath(size_t size, int pattern)
{
    uint8_t request[CAPTABLE_REQUEST_BYTES];
    size_t length = captable_put_write(request, 0, 0, 7);
    size_t guard = ALL - size, k = 0;

    memset(memory.bytes, pattern, ALL);
    table.records[1].word = 0;
    if (step_at(memory.bytes + ALL, &table, request, length) != CAPTABLE_DONE || table.records[1].word != 7)
        return ALL;
    while (k < guard && memory.bytes[k] == pattern)
        k++;
    return guard - k;
}

int main(int count, char **words)
{
    size_t size = count == 2 ? strtoul(words[1], NULL, 10) : CAPTABLE_STACK_STEP;
    size_t deep, again;

    if (count > 2 || size < 64 || size > ALL) {
        fprintf(stderr, "usage: stack [BYTES]    (64 to %d bytes)\n", ALL);
        return 1;
    }
    table = captable_unborn();
    table.records[0].status = table.records[1].status = CAPTABLE_ALIVE;
    table.records[0].kind = CAPTABLE_ACTIVE;
    captable_slot_at(&table, 0, 0)->target = 1;
    captable_slot_at(&table, 0, 0)->rights = CAPTABLE_WR;

    /* Twice, since a step may write the very bytes of one pattern. */
    deep = beneath(size, 0xA5);
    again = beneath(size, 0x5A);
    if (again > deep)
        deep = again;
    if (deep == ALL) {
        fprintf(stderr, "the step was refused\n");
        return 1;
    }
    printf("a step on %lu bytes of stack: answered 0, ", (unsigned long)size);
    if (deep == 0)
        printf("nothing beneath was touched\n");
    else
        printf("and wrote as far as %lu bytes beneath\n", (unsigned long)deep);
    return deep != 0;
}
