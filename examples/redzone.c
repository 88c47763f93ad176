/*
 * Does a call keep anything below the stack pointer? After every single instruction of a call, the 128 bytes
 * below the stack pointer are written over, as interrupts on the same stack would; the answers must be the
 * same as without. A function that does keep something there has to be found out.
 *
 *     redzone INPUT        (an input of the program confine, with Table K)
 *
 * The processor's trap flag and a signal on another stack stand for the interrupts (Linux alone). Build it
 * with -mno-red-zone, for its own functions are interrupted too, and with -z now, so that no call of the
 * dynamic linker is. Exit status: 0 if all is well, 1 if not.
 */
#define _GNU_SOURCE

#include "captable.h"

#include <signal.h>
#include <stdio.h>
#include <string.h>
#include <ucontext.h>

/* The red zone of the calling convention. */
#define ZONE 128

static unsigned char handler_stack[65536];
static volatile unsigned long instructions;

static void interrupt(int signal_number, siginfo_t *about, void *context)
{
    const ucontext_t *interrupted = (const ucontext_t *)context;
    volatile unsigned char *top = (volatile unsigned char *)interrupted->uc_mcontext.gregs[REG_RSP];
    int k;

    (void)signal_number;
    (void)about;
    for (k = 1; k <= ZONE; k++)
        *(top - k) = 0xA5;
    instructions++;
}

static void interrupts_on(void)
{
    __asm__ volatile("pushfq\n\torq $0x100, (%%rsp)\n\tpopfq" ::: "memory", "cc");
}

static void interrupts_off(void)
{
    __asm__ volatile("pushfq\n\tandq $~0x100, (%%rsp)\n\tpopfq" ::: "memory", "cc");
}

/* Keeps a number below the stack pointer and gives it back. */
static int keeps_below(int number)
{
    int kept;

    __asm__ volatile("movl %1, -8(%%rsp)\n\tnop\n\tmovl -8(%%rsp), %0" : "=r"(kept) : "r"(number) : "memory");
    return kept;
}

/* All that the calls answer. Tables are kept as their images, for the padding of a struct is anything. */
struct answers {
    uint32_t version;
    uint8_t numbers[22];
    uint64_t bound, rows[4 * CAPTABLE_OBJECTS];
    uint64_t bound_by_groups, rows_by_groups[4 * CAPTABLE_OBJECTS];
    uint8_t rounds, rounds_by_groups, chain[CAPTABLE_LINKS];
    uint8_t loaded[CAPTABLE_IMAGE_BYTES], after[CAPTABLE_IMAGE_BYTES], given[CAPTABLE_IMAGE_BYTES];
    uint8_t imported[CAPTABLE_IMAGE_BYTES], unborn[CAPTABLE_IMAGE_BYTES], older[CAPTABLE_OLDER_IMAGE_BYTES];
    uint8_t reclaimed[CAPTABLE_IMAGE_BYTES], again[CAPTABLE_IMAGE_BYTES];
    uint8_t printed[CAPTABLE_PRINTED];
    size_t count;
};

/* What 5 made is destroyed, and its number reclaimed in both forms of the step: a reclaim goes over the whole table,
 * which the other requests do not. */
static void reclaim(captable_table after, struct answers *out)
{
    uint8_t request[CAPTABLE_REQUEST_BYTES];
    captable_outcome given;

    out->numbers[15] = captable_step(&after, request, captable_put_destroy(request, 5, 7));
    given = captable_step_by_value(after, request, captable_put_reclaim(request, 5, 7));
    out->numbers[16] = given.number;
    out->numbers[17] = captable_step(&after, request, captable_put_reclaim(request, 5, 7));
    out->numbers[18] = captable_write(given.table, out->reclaimed, sizeof out->reclaimed);
    out->numbers[19] = captable_write(after, out->again, sizeof out->again);
}

/* Makes every call, and reads an image of each version: the input has one of version 1, and what is written of the
 * table after the step is one of version 2. The allocate is document 01's example 6 and the test its example 1; of
 * that test's bound the chain is to object 2. The import has an entity with Store over another, and one with Create. */
static void ask(const uint8_t *input, size_t length, struct answers *out)
{
    static const uint8_t list[2] = {1, CAPTABLE_WR};
    static const uint8_t older[13] = {0, 13, 1, 3, 1, 1, 16, 0, 2, 0, 8, 1, 31};
    uint8_t request[CAPTABLE_REQUEST_BYTES];
    size_t size = captable_put_allocate(request, 5, 10, CAPTABLE_ACTIVE, (uint64_t)1 << 11, 7, NULL, 0);
    captable_outcome loaded = captable_read(input, CAPTABLE_OLDER_IMAGE_BYTES);
    captable_outcome given = captable_step_by_value(loaded.table, request, size);
    captable_table after = loaded.table;
    captable_relation relation = captable_access(loaded.table);
    captable_finding finding = captable_test(loaded.table, (uint64_t)1 << 5, list, sizeof list);
    captable_relation grouped = captable_access_by_groups(loaded.table);
    captable_finding found = captable_test_by_groups(loaded.table, (uint64_t)1 << 5, list, sizeof list);
    captable_shown shown = captable_chain(loaded.table, (uint64_t)1 << 5, list, sizeof list, 2);
    captable_outcome imported = captable_import(older, sizeof older);

    out->version = captable_version();
    out->count = captable_confine(input, length, out->printed);
    out->bound = finding.bound;
    out->rounds = finding.rounds;
    memcpy(out->rows, relation.rows, sizeof out->rows);
    out->bound_by_groups = found.bound;
    out->rounds_by_groups = found.rounds;
    memcpy(out->rows_by_groups, grouped.rows, sizeof out->rows_by_groups);
    memcpy(out->chain, shown.numbers, sizeof out->chain);
    out->numbers[0] = loaded.number;
    out->numbers[1] = given.number;
    out->numbers[2] = relation.number;
    out->numbers[3] = finding.number;
    out->numbers[4] = captable_sound(loaded.table);
    out->numbers[5] = captable_step(&after, request, size);
    out->numbers[6] = captable_write(loaded.table, out->loaded, sizeof out->loaded);
    out->numbers[7] = captable_write(given.table, out->given, sizeof out->given);
    out->numbers[8] = captable_write(after, out->after, sizeof out->after);
    out->numbers[9] = shown.number;
    out->numbers[10] = imported.number;
    out->numbers[11] = captable_write(imported.table, out->imported, sizeof out->imported);
    out->numbers[12] = captable_write(captable_unborn(), out->unborn, sizeof out->unborn);
    out->numbers[13] = captable_write_older(loaded.table, out->older, sizeof out->older);
    out->numbers[14] = captable_read(out->after, sizeof out->after).number;
    out->numbers[20] = grouped.number;
    out->numbers[21] = found.number;
    reclaim(after, out);
}

/* Was every call done, and not merely refused twice? Of the test, 1 comes in round one, and 0 and 2 in round two; by
 * groups all is the same. */
static int all_done(const struct answers *a)
{
    static const uint8_t done[sizeof a->numbers] = {CAPTABLE_DONE};

    return a->version == CAPTABLE_VERSION && a->count != 0 && a->rounds == 2 && a->rounds_by_groups == 2 &&
           a->bound_by_groups == a->bound && memcmp(a->rows_by_groups, a->rows, sizeof a->rows) == 0 &&
           memcmp(a->numbers, done, sizeof done) == 0;
}

int main(int count, char **words)
{
    static struct answers quiet, disturbed;
    static uint8_t input[2048];
    struct sigaction action;
    stack_t stack;
    size_t length;
    int kept;
    FILE *file = count == 2 ? fopen(words[1], "rb") : NULL;

    if (file == NULL) {
        fprintf(stderr, "usage: redzone INPUT\n");
        return 1;
    }
    length = fread(input, 1, sizeof input, file);
    fclose(file);
    memset(&stack, 0, sizeof stack);
    stack.ss_sp = handler_stack;
    stack.ss_size = sizeof handler_stack;
    memset(&action, 0, sizeof action);
    action.sa_sigaction = interrupt;
    action.sa_flags = SA_SIGINFO | SA_ONSTACK;
    if (sigaltstack(&stack, NULL) != 0 || sigaction(SIGTRAP, &action, NULL) != 0) {
        perror("signals");
        return 1;
    }

    interrupts_on();
    kept = keeps_below(7);
    interrupts_off();
    if (kept == 7) {
        fprintf(stderr, "a function that keeps something below the stack pointer was not found out\n");
        return 1;
    }
    ask(input, length, &quiet);
    instructions = 0;
    interrupts_on();
    ask(input, length, &disturbed);
    interrupts_off();
    if (!all_done(&quiet) || instructions < 10000) {
        fprintf(stderr, "the calls were not made, or not interrupted\n");
        return 1;
    }
    if (memcmp(&quiet, &disturbed, sizeof quiet) != 0) {
        fprintf(stderr, "a call keeps something below the stack pointer\n");
        return 1;
    }
    printf("no call keeps anything below the stack pointer\n");
    return 0;
}
