/* A test of memory: each allocation of opening, of tracing and of a segment's text fails in turn, and is
 * reported or borne, with nothing left over; then CYCLES cycles are made, a segment given out for an empty one
 * behind each 50,000, with no call of the heap at all, and with their pages there, since opening has
 * touched them. `memory CYCLES` reports each on the error output. */
#define _DEFAULT_SOURCE
#include "drive.h"
#include "motion.h"

#include <stdio.h>
#include <stdlib.h>
#include <string.h>
#include <sys/resource.h>

static unsigned long heap_calls, fails;
static long live;

static rattle_tried tried(void *p)
{
    rattle_tried made;
    made.ok = p != NULL;
    made.p = p;
    return made;
}

rattle_tried rattle_alloc(size_t size, size_t align)
{
    if (++heap_calls == fails) return tried(NULL);
    live++;
    return tried(malloc(size ? size : align));
}

rattle_tried rattle_realloc(void *p, size_t used, size_t size, size_t align)
{
    (void)used;
    if (++heap_calls == fails) return tried(NULL);
    return tried(realloc(p, size ? size : align));
}

void rattle_dealloc(void *p)
{
    heap_calls++;
    live--;
    free(p);
}

static const char machine[] =
    "motion-bench 2\n"
    "limit 20000 100000\n"
    "axis X 0 400000 500 5 5 1 0\n"
    "axis Y 0 400000 500 5 5 1 0\n"
    "task main\n"
    "block P main Power X\n"
    "block M main MoveAbsolute X\n";

enum { AXES = 2, SEGMENT = 50000 };

static motion_refusal why;

static uint32_t open_machine(motion *m)
{
    return motion_open(m, (const uint8_t *)machine, sizeof machine - 1, &why);
}

/* Each allocation of opening fails in turn. */
static int opening_fails(void)
{
    unsigned reported = 0;
    for (fails = 1;; fails++) {
        motion m = MOTION_NONE;
        uint32_t code;
        heap_calls = 0;
        code = open_machine(&m);
        if (code == MOTION_OK && motion_close(&m) != MOTION_OK) return 1;
        if (code != MOTION_OK && motion_close(&m) != MOTION_CLOSED) return 2;
        if (live != 0) return 3;
        if (code == MOTION_NO_MEMORY) reported++;
        else if (code != MOTION_OK) return 4;
        else if (heap_calls < fails) break;
    }
    fails = 0;
    fprintf(stderr, "opening: %u failures reported, nothing left over\n", reported);
    return reported == 0;
}

/* A cycle with its calls: a move to and fro. */
static uint32_t run_cycle(motion *m, drive *drives, long cycle)
{
    motion_inputs in;
    motion_outputs out;
    motion_drive_in answers[AXES];
    motion_drive_out given[AXES];
    uint32_t code;
    int i;
    memset(&in, 0, sizeof in);
    in.execute = 1;
    code = motion_call(m, 0, &in, &out);
    in.execute = cycle > 20 && cycle % 1000 > 4;
    in.positions[0] = cycle / 1000 % 2 ? 0 : 100000;
    in.velocity = 400;
    in.acceleration = 4;
    in.deceleration = 4;
    if (code == MOTION_OK) code = motion_call(m, 1, &in, &out);
    for (i = 0; i < AXES; i++) answers[i] = drive_answer(&drives[i]);
    if (code == MOTION_OK) code = motion_cycle(m, answers, AXES, given, AXES);
    for (i = 0; code == MOTION_OK && i < AXES; i++) drive_step(&drives[i], &given[i]);
    return code;
}

/* Each allocation of making a text fails in turn, behind some cycles. */
static int text_fails(const char *name, uint32_t (*make)(motion *, const motion_drive_in *, size_t))
{
    static drive drives[AXES];
    motion m = MOTION_NONE;
    motion_drive_in last[AXES] = { { 0, 0, 0 }, { 0, 0, 0 } };
    unsigned reported = 0;
    long cycle;
    if (open_machine(&m) != MOTION_OK) return 1;
    for (cycle = 0; cycle < 100; cycle++)
        if (run_cycle(&m, drives, cycle) != MOTION_OK) return 2;
    for (fails = 1;; fails++) {
        uint32_t code;
        heap_calls = 0;
        code = make(&m, last, AXES);
        if (code == MOTION_NO_MEMORY) reported++;
        else if (code != MOTION_OK) return 3;
        else if (heap_calls < fails) break;
    }
    fails = 0;
    fprintf(stderr, "%s: %u failures reported\n", name, reported);
    return motion_close(&m) != MOTION_OK || live != 0 || reported == 0;
}

/* How many pages the process has touched for the first time. */
static long first_touches(void)
{
    struct rusage used;
    return getrusage(RUSAGE_SELF, &used) == 0 ? used.ru_minflt : -1;
}

/* This many cycles with no call of the heap, nor where a segment is given out or forgotten, in turn. */
static int cycles_take_none(long cycles)
{
    static drive drives[AXES];
    motion m = MOTION_NONE;
    motion spare = MOTION_NONE;
    unsigned long before;
    long cycle, touched, swaps = 0;
    if (open_machine(&m) != MOTION_OK || open_machine(&spare) != MOTION_OK) return 1;
    before = heap_calls;
    touched = first_touches();
    for (cycle = 0; cycle < cycles; cycle++) {
        if (motion_cycles_left(&m) == 0) {
            if ((swaps % 2 ? motion_forget(&m) : motion_swap(&m, &spare)) != MOTION_OK) return 2;
            swaps++;
        }
        if (run_cycle(&m, drives, cycle) != MOTION_OK) return 3;
    }
    if (heap_calls != before) return 4;
    touched = first_touches() - touched;
    if (motion_close(&m) != MOTION_OK || motion_close(&spare) != MOTION_OK || live != 0) return 5;
    fprintf(stderr, "%ld cycles and %ld swaps and forgets without a call of the heap\n", cycles, swaps);
    fprintf(stderr, "%ld pages touched first\n", touched);
    return 0;
}

int main(int argc, char **argv)
{
    long cycles = argc > 1 ? atol(argv[1]) : 1000000;
    if (opening_fails() != 0) return 1;
    if (text_fails("tracing", motion_trace) != 0) return 2;
    if (text_fails("a segment's text", motion_segment_text) != 0) return 3;
    return cycles_take_none(cycles) == 0 ? 0 : 4;
}
