/* A loop at 1 kHz around one CiA 402 drive, as a real one has it: memory locked, SCHED_FIFO where the
 * system allows it, one cycle a millisecond by an absolute clock. The axis is switched on, goes to
 * 100,000 and back, and the program reports how late its cycles were. `loop CYCLES [TRACE]`. */
#define _POSIX_C_SOURCE 200809L
#include "drive.h"
#include "motion.h"

#include <sched.h>
#include <stdio.h>
#include <stdlib.h>
#include <string.h>
#include <sys/mman.h>
#include <time.h>

static const char machine[] =
    "motion-bench 2\n"
    "limit 200000 1000000\n"
    "axis X 0 400000 500 5 5 1 0\n"
    "task main\n"
    "block P main Power X\n"
    "block M main MoveAbsolute X\n";

enum { POWER = 0, MOVE = 1, PERIOD = 1000000 }; /* nanoseconds */

typedef struct loop {
    motion m;
    drive d;            /* the bus and the drive stand here in a real loop */
    motion_outputs power, move;
    int64_t target;
} loop;

/* What the task calls in a cycle: Power, and behind each Done a move to the other end. */
static uint32_t call_task(loop *l)
{
    motion_inputs in;
    uint32_t code;
    memset(&in, 0, sizeof in);
    in.execute = 1;
    code = motion_call(&l->m, POWER, &in, &l->power);
    if (l->move.done) l->target = l->target ? 0 : 100000;
    in.execute = l->power.reached && !l->move.done; /* a new edge for a new move */
    in.positions[0] = l->target;
    in.velocity = 400;
    in.acceleration = 4;
    in.deceleration = 4;
    return code == MOTION_OK ? motion_call(&l->m, MOVE, &in, &l->move) : code;
}

/* One cycle. With any code but MOTION_OK no output was made: the drive is quick-stopped. */
static uint32_t run_cycle(loop *l)
{
    motion_drive_in answer = drive_answer(&l->d);
    motion_drive_out given = { 0, 0, 0 };
    uint32_t code = call_task(l);
    if (code == MOTION_OK) code = motion_cycle(&l->m, &answer, 1, &given, 1);
    if (code != MOTION_OK) {
        given.target = answer.actual;
        given.controlword = 0x0002; /* quick stop */
        given.mode = 8;
    }
    drive_step(&l->d, &given);
    return code;
}

/* Makes what follows as quick as the system allows. */
static void prepare(void)
{
    struct sched_param high = { 80 };
    if (sched_setscheduler(0, SCHED_FIFO, &high) != 0) perror("no SCHED_FIFO");
    /* behind motion_open, which has touched all of the history's memory: it stays there */
    if (mlockall(MCL_CURRENT | MCL_FUTURE) != 0) perror("no locked memory");
}

static void wait_until(struct timespec *next)
{
    next->tv_nsec += PERIOD;
    if (next->tv_nsec >= 1000000000) {
        next->tv_nsec -= 1000000000;
        next->tv_sec++;
    }
    clock_nanosleep(CLOCK_MONOTONIC, TIMER_ABSTIME, next, NULL);
}

static long lateness(const struct timespec *next)
{
    struct timespec now;
    clock_gettime(CLOCK_MONOTONIC, &now);
    return (long)(now.tv_sec - next->tv_sec) * 1000000000 + now.tv_nsec - next->tv_nsec;
}

static uint32_t write_trace(loop *l, const char *name)
{
    static uint8_t piece[65536];
    uint64_t at = 0, count;
    motion_drive_in last = drive_answer(&l->d);
    uint32_t code = motion_trace(&l->m, &last, 1);
    FILE *file = fopen(name, "wb");
    if (file == NULL) return MOTION_NULL;
    while (code == MOTION_OK && (count = motion_trace_text(&l->m, at, piece, sizeof piece)) != 0) {
        fwrite(piece, 1, (size_t)count, file);
        at += count;
    }
    fclose(file);
    return code;
}

int main(int argc, char **argv)
{
    static loop l = { MOTION_NONE, { DRIVE_DISABLED, 0, 0, 0 }, { 0, 0, 0, 0, 0, 0, 0 },
                      { 0, 0, 0, 0, 0, 0, 0 }, 100000 };
    long cycle, cycles = argc > 1 ? atol(argv[1]) : 10000, late, latest = 0;
    motion_refusal why;
    struct timespec next;
    uint32_t code = motion_open(&l.m, (const uint8_t *)machine, sizeof machine - 1, &why);
    prepare();
    clock_gettime(CLOCK_MONOTONIC, &next);
    for (cycle = 0; code == MOTION_OK && cycle < cycles; cycle++) {
        wait_until(&next);
        late = lateness(&next);
        if (late > latest) latest = late;
        code = run_cycle(&l);
    }
    fprintf(stderr, "code %u, %ld cycles, at %ld, at most %ld us late\n", (unsigned)code, cycle,
            (long)l.d.actual, latest / 1000);
    if (code == MOTION_OK) code = motion_end(&l.m, 0);
    if (code == MOTION_OK && argc > 2) code = write_trace(&l, argv[2]);
    motion_close(&l.m);
    return code == MOTION_OK ? 0 : 1;
}
