/* A test of stack: MOTION_STACK bytes are enough for a loop's calls on a machine of 16 axes and 4 groups,
 * and MOTION_TRACE_STACK for a trace and a segment's text. Each is called in a thread of its own whose stack
 * is painted, and what is used beside a thread that does nothing is counted. `stack` reports both on the
 * error output. */
#define _POSIX_C_SOURCE 200809L
#include "motion.h"

#include <pthread.h>
#include <stdio.h>
#include <stdlib.h>
#include <string.h>

enum { AXES = 16, CYCLES = 20, SIZE = 1 << 20, PAINT = 0xa5 };

static motion m = MOTION_NONE, spare = MOTION_NONE;
static char text[4096];
static motion_drive_in answers[AXES];
static motion_drive_out given[AXES];
static uint32_t code;

static void note(uint32_t found)
{
    if (code == MOTION_OK) code = found;
}

static void *nothing(void *unused)
{
    return unused;
}

static void *open_both(void *unused)
{
    motion_refusal why;
    note(motion_open_text(&m, text, &why));
    note(motion_open_text(&spare, text, &why));
    return unused;
}

static void *run(void *unused)
{
    motion_inputs in;
    motion_outputs out;
    motion_axis_row axis;
    motion_group_row group;
    motion_block_row block;
    motion_limits limits;
    motion_name name;
    int cycle, i;
    memset(&in, 0, sizeof in);
    in.execute = 1;
    in.positions[0] = in.positions[1] = 40;
    in.velocity = 6;
    in.acceleration = in.deceleration = 2;
    for (i = 0; i < 24; i++) note(motion_call(&m, (uint16_t)i, &in, &out));
    for (cycle = 0; cycle < CYCLES; cycle++) note(motion_cycle(&m, answers, AXES, given, AXES));
    for (i = 0; i < AXES; i++) note(motion_axis_look(&m, (uint8_t)i, &axis));
    for (i = 0; i < 4; i++) note(motion_group_look(&m, (uint8_t)i, &group));
    note(motion_end(&m, 0));
    for (i = 0; i < AXES; i++) note(motion_axis_name(&m, (uint8_t)i, &name));
    for (i = 0; i < AXES; i++) note(motion_axis_limits(&m, (uint8_t)i, &limits));
    for (i = 0; i < 24; i++) note(motion_block_look(&m, (uint16_t)i, &block));
    note(motion_swap(&m, &spare));
    note(motion_forget(&m));
    if (motion_block_named(&m, "B23") != 23) note(MOTION_UNKNOWN);
    return unused;
}

static void *trace(void *unused)
{
    static uint8_t part[256];
    note(motion_trace(&spare, answers, AXES));
    note(motion_segment_text(&spare, answers, AXES));
    if (motion_trace_text(&spare, 0, part, sizeof part) != sizeof part) note(MOTION_LENGTH);
    return unused;
}

static void *close_both(void *unused)
{
    note(motion_close(&m));
    note(motion_close(&spare));
    return unused;
}

/* How many bytes of its stack a thread has used. */
static size_t used_by(void *(*work)(void *))
{
    static unsigned char *stack;
    pthread_attr_t attr;
    pthread_t thread;
    size_t left = 0;
    if (stack == NULL && posix_memalign((void **)&stack, 4096, SIZE) != 0) exit(2);
    memset(stack, PAINT, SIZE);
    if (pthread_attr_init(&attr) != 0 || pthread_attr_setstack(&attr, stack, SIZE) != 0) exit(2);
    if (pthread_create(&thread, &attr, work, NULL) != 0) exit(2);
    pthread_join(thread, NULL);
    pthread_attr_destroy(&attr);
    while (left < SIZE && stack[left] == PAINT) left++;
    return SIZE - left;
}

/* 16 axes of which 8 are in groups, with a move of each of the others and two blocks of each group. */
static void write_machine(void)
{
    char *to = text + sprintf(text, "motion-bench 2\nlimit 100 200\n");
    int i;
    for (i = 0; i < AXES; i++) {
        to += sprintf(to, "axis A%d 0 50 10 4 5 1 0 ready\n", i);
        answers[i].statusword = 0x0037;
        answers[i].mode_display = 8;
    }
    for (i = 0; i < 4; i++) to += sprintf(to, "group G%d A%d A%d\n", i, 2 * i, 2 * i + 1);
    to += sprintf(to, "task main\n");
    for (i = 0; i < 24; i++)
        to += i < 16 ? sprintf(to, "block B%d main %s A%d\n", i, i < 8 ? "GearIn" : "MoveAbsolute", i % 8 + 8)
                     : sprintf(to, "block B%d main %s G%d\n", i,
                               i < 20 ? "GroupEnable" : "MoveLinearAbsolute", i % 4);
}

int main(void)
{
    size_t none, calls, texts;
    write_machine();
    none = used_by(nothing);
    calls = used_by(open_both);
    texts = used_by(run);
    if (texts > calls) calls = texts;
    texts = used_by(trace);
    if (used_by(close_both) > calls + none) return 3;
    fprintf(stderr, "code %u, calls %lu bytes, traces %lu\n", (unsigned)code, (unsigned long)(calls - none),
            (unsigned long)(texts - none));
    return code != MOTION_OK || calls - none > MOTION_STACK || texts - none > MOTION_TRACE_STACK;
}
