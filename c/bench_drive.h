/* A drive as `motion bench` and `motion st` simulate one, without faults: it follows its controlword,
 * and each target is its position in the next answer, or `lag` answers later. A program with such
 * drives has the traces of these commands. */
#ifndef BENCH_DRIVE_H
#define BENCH_DRIVE_H

#include "drive.h"

#include <string.h>

enum { BENCH_MOST_LAG = 64 };

typedef struct bench_drive {
    drive d;
    int32_t on_the_way[BENCH_MOST_LAG + 1]; /* targets, the one that is reached next in the first */
    int lag;
} bench_drive;

static inline void bench_drive_begin(bench_drive *b, int32_t start, int lag)
{
    int i;
    memset(b, 0, sizeof *b);
    b->d.actual = start;
    b->lag = lag;
    for (i = 0; i <= lag; i++) b->on_the_way[i] = start;
}

static inline motion_drive_in bench_drive_answer(const bench_drive *b)
{
    motion_drive_in answer = drive_answer(&b->d);
    answer.statusword &= 0x007f; /* the simulated drive has the bits of its state alone */
    return answer;
}

static inline void bench_drive_step(bench_drive *b, const motion_drive_out *given)
{
    b->d.mode = given->mode;
    b->d.state = drive_next(b->d.state, given->controlword);
    b->on_the_way[b->lag] = given->target;
    b->d.actual = b->on_the_way[0];
    memmove(b->on_the_way, b->on_the_way + 1, sizeof b->on_the_way[0] * (size_t)b->lag);
}

#endif
