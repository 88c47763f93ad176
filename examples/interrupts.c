/*
 * A table that an interrupt and the main loop both use: two right ways, and the wrong one to look at.
 *
 *     interrupts queue     the interrupt only puts its request into a queue; the main loop takes the step
 *     interrupts off       the interrupt takes the step; the main loop turns interrupts off around its own
 *     interrupts wrong     the interrupt takes the step, also in the middle of one of the main loop
 *
 * A signal from a timer stands for the interrupt, and blocking it for turning interrupts off. Object 1 is
 * the guard: at each interrupt it revokes what the routine, object 2, holds in slot 0. Object 0 is the main
 * loop: it writes without a pause, and whenever a revoke was answered 0 it looks whether slot 0 is empty
 * and fills it again. A revoke that was answered 0 and left the slot filled is lost.
 *
 * Exit status: 0 if no revoke is lost; 1 if one is, or if something else went wrong.
 */
#define _POSIX_C_SOURCE 200809L
#define _XOPEN_SOURCE 700

#include "captable.h"

#include <signal.h>
#include <stdatomic.h>
#include <stdio.h>
#include <string.h>
#include <sys/time.h>

/* So many revokes are asked for. */
#define REVOKES 10000

/* Microseconds from one interrupt to the next. */
#define PERIOD 50

/* After so many steps without an end the timer does not work here. */
#define STEPS_AT_MOST 200000000L

#define MAIN_LOOP 0
#define GUARD 1
#define ROUTINE 2
#define RECORD 3

/* The case has one table. */
static captable_table table;

enum way { QUEUE, OFF, WRONG };
static enum way way;

/* ---- the queue: one producer, the interrupt; one consumer, the main loop ---------------------------- */

#define PLACES 8

static struct {
    uint8_t bytes[CAPTABLE_REQUEST_BYTES];
    size_t length;
} places[PLACES];

/* Only the interrupt writes `put`, only the main loop writes `taken`. Each is written after the place
 * itself (release) and read before it (acquire), so this also holds between two cores. */
static atomic_uint put, taken;

/* In the interrupt: no step, no wait. False if the queue is full, which the caller must not overlook. */
static int enqueue(const uint8_t *request, size_t length)
{
    unsigned at = atomic_load_explicit(&put, memory_order_relaxed);

    if (at - atomic_load_explicit(&taken, memory_order_acquire) == PLACES)
        return 0;
    memcpy(places[at % PLACES].bytes, request, length);
    places[at % PLACES].length = length;
    atomic_store_explicit(&put, at + 1, memory_order_release);
    return 1;
}

/* In the main loop: the length of the request that was taken, or 0 for none. */
static size_t dequeue(uint8_t *request)
{
    unsigned at = atomic_load_explicit(&taken, memory_order_relaxed);
    size_t length;

    if (at == atomic_load_explicit(&put, memory_order_acquire))
        return 0;
    length = places[at % PLACES].length;
    memcpy(request, places[at % PLACES].bytes, length);
    atomic_store_explicit(&taken, at + 1, memory_order_release);
    return length;
}

/* ---- the interrupt ---------------------------------------------------------------------------------- */

/* How many revokes the interrupt asked for. */
static volatile sig_atomic_t asked;

/* The interrupt's own step was answered 0, and the main loop has not looked yet. */
static volatile sig_atomic_t revoked;

/* The interrupt's own step was answered with another number. */
static volatile sig_atomic_t refused;

static void interrupt(int signal_number)
{
    uint8_t request[CAPTABLE_REQUEST_BYTES];
    size_t length = captable_put_revoke(request, GUARD, 0, 0);

    (void)signal_number;
    if (asked == REVOKES)
        return;
    if (way == QUEUE) {
        /* With a full queue the revoke is asked for again at the next interrupt. */
        if (enqueue(request, length))
            asked++;
    } else if (!revoked) {
        asked++;
        if (captable_step(&table, request, length) == CAPTABLE_DONE)
            revoked = 1;
        else
            refused = 1;
    }
}

static sigset_t timer_signal;

static void interrupts_off(void)
{
    sigprocmask(SIG_BLOCK, &timer_signal, NULL);
}

static void interrupts_on(void)
{
    sigprocmask(SIG_UNBLOCK, &timer_signal, NULL);
}

/* ---- the main loop ---------------------------------------------------------------------------------- */

/* Of all revokes: answered 0, and of these without effect. */
static long done, lost;

/* A step of the main loop itself was refused. */
static int failed;

static void own_step(const uint8_t *request, size_t length)
{
    if (captable_step(&table, request, length) != CAPTABLE_DONE)
        failed = 1;
}

/* After a revoke that was answered 0: is slot 0 of the routine empty? Then it is filled again. */
static void look(void)
{
    uint8_t request[CAPTABLE_REQUEST_BYTES];

    done++;
    atomic_signal_fence(memory_order_seq_cst); /* the slot is read after `revoked`, not before */
    if (captable_slot(&table, ROUTINE, 0).rights != 0)
        lost++;
    own_step(request, captable_put_store(request, MAIN_LOOP, 1, 2, 0));
}

/* Takes the steps that the interrupt asks for. */
static void serve_queue(void)
{
    uint8_t request[CAPTABLE_REQUEST_BYTES];
    size_t length;

    while ((length = dequeue(request)) != 0) {
        captable_stamp(request, length, GUARD); /* the queue is the guard's */
        if (captable_step(&table, request, length) == CAPTABLE_DONE)
            look();
        else
            refused = 1;
    }
}

/* One round: a write, and what the interrupt left to do. */
static void turn(uint32_t word)
{
    uint8_t request[CAPTABLE_REQUEST_BYTES];
    size_t length = captable_put_write(request, MAIN_LOOP, 0, word);

    if (way == OFF)
        interrupts_off();
    own_step(request, length);
    if (way == QUEUE)
        serve_queue();
    else if (revoked) {
        look();
        revoked = 0;
    }
    if (way == OFF)
        interrupts_on(); /* an interrupt that waited comes here */
}

/* 0 to 2 are alive and active, 3 is passive. The main loop holds (3, wr), (2, wr) and (3, rd), which is
 * what the routine has in slot 0; the guard holds (2, wr). */
static void fill_table(void)
{
    static const captable_capability held[3] = {{RECORD, CAPTABLE_WR}, {ROUTINE, CAPTABLE_WR}, {RECORD, CAPTABLE_RD}};
    size_t n;

    table = captable_unborn();
    for (n = 0; n <= RECORD; n++) {
        table.records[n].status = CAPTABLE_ALIVE;
        table.records[n].kind = n == RECORD ? CAPTABLE_PASSIVE : CAPTABLE_ACTIVE;
    }
    for (n = 0; n < 3; n++)
        *captable_slot_at(&table, MAIN_LOOP, n) = held[n];
    *captable_slot_at(&table, GUARD, 0) = held[1];
    *captable_slot_at(&table, ROUTINE, 0) = held[2];
}

/* Lets the timer run or stops it. */
static int timer(long period)
{
    struct itimerval every;

    memset(&every, 0, sizeof every);
    every.it_interval.tv_usec = period;
    every.it_value.tv_usec = period;
    return setitimer(ITIMER_REAL, &every, NULL);
}

/* Runs until every revoke was asked for and looked at. */
static int run(void)
{
    struct sigaction action;
    long steps = 0;

    memset(&action, 0, sizeof action);
    action.sa_handler = interrupt;
    sigemptyset(&timer_signal);
    sigaddset(&timer_signal, SIGALRM);
    if (sigaction(SIGALRM, &action, NULL) != 0 || timer(PERIOD) != 0) {
        perror("timer");
        return 1;
    }
    while (done < REVOKES && !failed && !refused && steps < STEPS_AT_MOST) {
        turn((uint32_t)steps);
        steps++;
    }
    timer(0);
    if (done < REVOKES || failed || refused) {
        fprintf(stderr, "a step was refused, or the timer does not work\n");
        return 1;
    }
    return 0;
}

int main(int count, char **words)
{
    static const char *const names[3] = {"queue", "off", "wrong"};
    int k, found = 3;

    for (k = 0; k < 3; k++)
        if (count == 2 && strcmp(words[1], names[k]) == 0)
            found = k;
    if (found == 3) {
        fprintf(stderr, "usage: interrupts queue | off | wrong\n");
        return 1;
    }
    way = (enum way)found;
    fill_table();
    if (captable_sound(table) != CAPTABLE_DONE || run() != 0)
        return 1;
    if (lost == 0)
        printf("%s: %ld revokes answered 0, all had their effect\n", names[way], done);
    else
        printf("%s: %ld revokes answered 0, %ld of them had no effect\n", names[way], done, lost);
    return lost != 0;
}
