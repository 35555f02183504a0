/* How long the cycles of a loop take, one after another without a pause: the answers of the drives, two
 * calls of blocks for each axis, the cycle, the steps of the drives, and, where the history is nearly
 * full, its emptying. The drives stand here, so no bus and no waiting is in it. Each axis goes to and
 * fro. `worst CYCLES AXES` prints the median, the time that 999 of 1,000 and 99,999 of 100,000 cycles
 * keep to, and the longest. */
#define _POSIX_C_SOURCE 200809L
#include "bench_drive.h"
#include "motion_blocks.h"

#include <sched.h>
#include <stdio.h>
#include <stdlib.h>
#include <sys/mman.h>
#include <time.h>

enum { MOST = MOTION_MOST_AXES, WIDTH = 20, BUCKETS = 50000, BATCH = 100000 }; /* nanoseconds: a bucket */

typedef struct loop {
    motion handle;
    mc_machine machine;
    int axes;
    MC_Power power[MOST];
    MC_MoveAbsolute move[MOST];
    bench_drive drives[MOST];
    motion_drive_in answers[MOST];
    motion_drive_out given[MOST];
    long dones, forgets;
} loop;

static uint32_t open_loop(loop *l)
{
    static char text[4096];
    motion_refusal why;
    uint32_t code;
    int i, len = snprintf(text, sizeof text, "motion-bench 2\nlimit 1000 40000\n");
    for (i = 0; i < l->axes; i++)
        len += snprintf(text + len, sizeof text - (size_t)len, "axis A%d 0 400000 500 5 5 1 0\n", i);
    len += snprintf(text + len, sizeof text - (size_t)len, "task main\n");
    for (i = 0; i < l->axes; i++)
        len += snprintf(text + len, sizeof text - (size_t)len,
                        "block P%d main Power A%d\nblock M%d main MoveAbsolute A%d\n", i, i, i, i);
    code = motion_open_text(&l->handle, text, &why);
    if (code != MOTION_OK) return code;
    mc_begin(&l->machine, &l->handle, MC_CYCLES);
    for (i = 0; i < l->axes && code == MOTION_OK; i++) {
        char name[16];
        snprintf(name, sizeof name, "P%d", i);
        code = MC_Power_find(&l->power[i], &l->machine, name);
        snprintf(name, sizeof name, "M%d", i);
        if (code == MOTION_OK) code = MC_MoveAbsolute_find(&l->move[i], &l->machine, name);
        bench_drive_begin(&l->drives[i], 0, 0);
        l->power[i].Enable = true;
        l->move[i].Position = 40000 + 10000 * i;
        l->move[i].Velocity = 400;
        l->move[i].Acceleration = l->move[i].Deceleration = 4;
    }
    return code;
}

static uint32_t run_cycle(loop *l)
{
    uint32_t code = MOTION_OK;
    int i;
    if (motion_cycles_left(&l->handle) == 0) {
        code = motion_forget(&l->handle);
        l->forgets++;
    }
    for (i = 0; i < l->axes; i++) {
        MC_MoveAbsolute *move = &l->move[i];
        l->answers[i] = bench_drive_answer(&l->drives[i]);
        MC_Power_call(&l->power[i], &l->machine);
        l->dones += move->Done;
        if (move->Done) move->Position = move->Position ? 0 : 40000 + 10000 * i;
        move->Execute = l->power[i].Status && !move->Done;
        MC_MoveAbsolute_call(move, &l->machine);
    }
    if (code == MOTION_OK)
        code = mc_cycle(&l->machine, l->answers, (size_t)l->axes, l->given, (size_t)l->axes);
    for (i = 0; i < l->axes && code == MOTION_OK; i++) bench_drive_step(&l->drives[i], &l->given[i]);
    return code;
}

static long long now(void)
{
    struct timespec t;
    clock_gettime(CLOCK_MONOTONIC, &t);
    return (long long)t.tv_sec * 1000000000 + t.tv_nsec;
}

/* The time that all but one in this many cycles keep to, in nanoseconds. */
static long kept(const long *counts, long cycles, long one_of)
{
    long left = cycles - cycles / one_of, i = 0;
    while (i < BUCKETS - 1 && (left -= counts[i]) > 0) i++;
    return (i + 1) * WIDTH;
}

int main(int argc, char **argv)
{
    static loop l; /* as zeros */
    static long counts[BUCKETS];
    const struct timespec pause = { 0, 50000000 };
    struct sched_param high = { 80 };
    long cycle, cycles = argc > 1 ? atol(argv[1]) : 10000000;
    long long longest = 0;
    uint32_t code;
    l.axes = argc > 2 ? atoi(argv[2]) : 2;
    if (l.axes < 1 || l.axes > MOST) return 2;
    code = open_loop(&l);
    if (sched_setscheduler(0, SCHED_FIFO, &high) != 0) perror("no SCHED_FIFO");
    if (mlockall(MCL_CURRENT | MCL_FUTURE) != 0) perror("no locked memory");
    for (cycle = 0; code == MOTION_OK && cycle < cycles; cycle++) {
        const long long begun = now();
        long long spent;
        code = run_cycle(&l);
        spent = now() - begun;
        if (spent > longest) longest = spent;
        counts[spent / WIDTH < BUCKETS ? spent / WIDTH : BUCKETS - 1]++;
        /* the system holds SCHED_FIFO back for 50 ms of each second that it is never at rest */
        if (cycle % BATCH == BATCH - 1) nanosleep(&pause, NULL);
    }
    printf("code %u, %d axes, %ld cycles, %ld moves, %ld histories forgotten\n", (unsigned)code, l.axes, cycle,
           l.dones, l.forgets);
    if (cycle > 0)
        printf("median %ld ns, p99.9 %ld ns, p99.999 %ld ns, longest %lld ns\n", kept(counts, cycle, 2),
               kept(counts, cycle, 1000), kept(counts, cycle, 100000), longest);
    motion_close(&l.handle);
    return code == MOTION_OK ? 0 : 1;
}
