/* A machine of 16 axes that runs for as long as one likes, in two threads. The cycle thread moves all
 * axes to and fro, the first by two moves of which one always waits, and the last two as a group along a
 * line; when its segment of the history is nearly full it gives that to a spare handle, and goes
 * on with an empty one. The writer thread makes of each segment a trace segment, a file of its own. No
 * memory grows with the cycles. `lasting [CYCLES [FOLDER]]` says on the error output what became of it;
 * without a folder the segments are made and not kept. */
#define _POSIX_C_SOURCE 200809L
#include "drive.h"
#include "motion.h"

#include <pthread.h>
#include <semaphore.h>
#include <stdio.h>
#include <stdlib.h>
#include <string.h>

/* The axes that move alone come first, and the group's behind them. Blocks count from 0: the Powers of
 * all axes, the moves of those alone and a second one of the first axis, and the group's two. */
enum { AXES = 16, ALONE = 14, MOVES = ALONE + 1, ENABLE = AXES + MOVES, LINE };

/* The room of a segment, and how many entries a cycle makes at most: a call of each block, and the cycle. A
 * real segment is as long as the writer may be late: up to 200,000
 * cycles or 1,000,000 entries, whichever comes first; `motion check` takes a segment of 256 MiB at most. */
enum { SEGMENT_CYCLES = 4000, SEGMENT_ENTRIES = 80000, MOST_A_CYCLE = LINE + 2 };

/* What the two threads share. It is the cycle thread's behind a wait for `empty`, and the writer's behind
 * one for `full`: so never more than one thread uses the spare handle. */
typedef struct shared {
    motion spare;
    motion_drive_in last[AXES]; /* what the drives answer behind the segment in it */
    uint32_t code;              /* the first that isn't MOTION_OK ends all */
    int over;                   /* no segment comes behind this one */
    long segments;
    const char *folder;
    sem_t full, empty;
} shared;

typedef struct loop {
    motion m;
    drive drives[AXES]; /* the bus and the drives stand here in a real loop */
    motion_outputs powers[AXES], moves[MOVES], enable, line;
    int64_t targets[MOVES], line_target;
    long dones;
    shared *with;
} loop;

static void wait_for(sem_t *s)
{
    while (sem_wait(s) != 0) {
    }
}

/* The writer: the segment in the spare handle as a file. */

static uint32_t write_segment(shared *w)
{
    static uint8_t part[65536];
    char name[1024];
    uint64_t at = 0, count;
    uint32_t code = motion_segment_text(&w->spare, w->last, AXES);
    FILE *file = NULL;
    w->segments++;
    if (w->folder != NULL) {
        snprintf(name, sizeof name, "%s/segment-%05ld.trace", w->folder, w->segments);
        file = fopen(name, "wb");
        if (file == NULL) return MOTION_NULL;
    }
    while (code == MOTION_OK && (count = motion_trace_text(&w->spare, at, part, sizeof part)) != 0) {
        if (file != NULL && fwrite(part, 1, (size_t)count, file) != count) code = MOTION_NULL;
        at += count;
    }
    if (file != NULL && fclose(file) != 0) code = MOTION_NULL;
    return code;
}

static void *write_segments(void *given)
{
    shared *w = given;
    int over = 0;
    while (!over) {
        wait_for(&w->full);
        if (w->code == MOTION_OK) w->code = write_segment(w);
        over = w->over;
        sem_post(&w->empty);
    }
    return NULL;
}

/* The cycle thread. */

/* The other end of a move. */
static int64_t far_end(int move)
{
    return 50000 + 10000 * move;
}

static motion_inputs nothing(void)
{
    motion_inputs in;
    memset(&in, 0, sizeof in);
    in.execute = 1;
    return in;
}

/* The inputs of a move or a line to this position, of the group's both axes. With no command before it,
 * a buffered one begins at once. */
static motion_inputs inputs_to(int64_t target)
{
    motion_inputs in = nothing();
    in.positions[0] = target;
    in.positions[1] = target / 2;
    in.velocity = 400;
    in.acceleration = 4;
    in.deceleration = 3;
    in.mode = MOTION_BUFFERED;
    return in;
}

/* Calls a move or a line, which goes to the other end behind each Done. */
static uint32_t call_to_and_fro(loop *l, int block, int64_t end, int64_t *target, motion_outputs *shown)
{
    int was_done = shown->done;
    motion_inputs in;
    uint32_t code;
    if (was_done) *target = *target ? 0 : end;
    in = inputs_to(*target);
    in.execute = !was_done; /* a new edge for a new move */
    code = motion_call(&l->m, (uint16_t)block, &in, shown);
    if (shown->done && !was_done) l->dones++;
    return code;
}

/* The Power of an axis, until it is on. */
static uint32_t call_power(loop *l, int axis)
{
    motion_inputs in = nothing();
    if (l->powers[axis].reached) return MOTION_OK;
    return motion_call(&l->m, (uint16_t)axis, &in, &l->powers[axis]);
}

/* A move of an axis that is on; the last one is the first axis's second. */
static uint32_t call_move(loop *l, int move)
{
    if (!l->powers[move % ALONE].reached) return MOTION_OK;
    return call_to_and_fro(l, AXES + move, far_end(move), &l->targets[move], &l->moves[move]);
}

/* The group, once its axes are on: it is enabled, and goes along its line. */
static uint32_t call_group(loop *l)
{
    motion_inputs in = nothing();
    if (!l->powers[ALONE].reached || !l->powers[ALONE + 1].reached) return MOTION_OK;
    if (!l->enable.done) return motion_call(&l->m, ENABLE, &in, &l->enable);
    return call_to_and_fro(l, LINE, far_end(ALONE), &l->line_target, &l->line);
}

/* What the task calls in a cycle. */
static uint32_t call_all(loop *l)
{
    uint32_t code = MOTION_OK;
    int i;
    for (i = 0; code == MOTION_OK && i < AXES; i++) code = call_power(l, i);
    for (i = 0; code == MOTION_OK && i < MOVES; i++) code = call_move(l, i);
    return code == MOTION_OK ? call_group(l) : code;
}

/* One cycle. With any code but MOTION_OK a real loop quick-stops the drives, as loop.c does. */
static uint32_t run_cycle(loop *l)
{
    motion_drive_in answers[AXES];
    motion_drive_out given[AXES];
    uint32_t code = call_all(l);
    int i;
    for (i = 0; i < AXES; i++) answers[i] = drive_answer(&l->drives[i]);
    if (code == MOTION_OK) code = motion_cycle(&l->m, answers, AXES, given, AXES);
    for (i = 0; code == MOTION_OK && i < AXES; i++) drive_step(&l->drives[i], &given[i]);
    return code;
}

/* Gives the segment to the writer, with what the drives answer behind its last cycle. */
static uint32_t hand_over(loop *l, int over)
{
    shared *w = l->with;
    uint32_t code;
    int i;
    if (w->code == MOTION_OK) w->code = motion_swap(&l->m, &w->spare);
    for (i = 0; i < AXES; i++) w->last[i] = drive_answer(&l->drives[i]);
    w->over = over;
    code = w->code;
    sem_post(&w->full);
    return code;
}

/* From three quarters of the segment on it is given out as soon as the writer is done with the one before.
 * Where it is full before that, this loop waits. A real one must not: give it a longer segment, and where
 * even that comes to its end bring the machine to rest. */
static uint32_t make_room(loop *l)
{
    uint32_t cycles = motion_cycles_left(&l->m);
    uint64_t room = motion_room_left(&l->m);
    if (cycles > SEGMENT_CYCLES / 4 && room > SEGMENT_ENTRIES / 4) return MOTION_OK;
    if (cycles == 0 || room < MOST_A_CYCLE)
        wait_for(&l->with->empty);
    else if (sem_trywait(&l->with->empty) != 0)
        return MOTION_OK;
    return hand_over(l, 0);
}

static uint32_t run_cycles(loop *l, long cycles)
{
    uint32_t code = MOTION_OK, handed;
    long cycle;
    for (cycle = 0; code == MOTION_OK && cycle < cycles; cycle++) {
        code = make_room(l);
        if (code == MOTION_OK) code = run_cycle(l);
    }
    /* the last segment is given out as the others are, also behind a call or a cycle that wasn't made */
    wait_for(&l->with->empty);
    handed = hand_over(l, 1);
    return code != MOTION_OK ? code : handed;
}

/* One more line of the machine's text. */
static size_t put_line(char *text, size_t room, size_t len, const char *name, int number, const char *kind,
                       const char *object, int axis)
{
    return len + (size_t)snprintf(text + len, room - len, "block %s%02d main %s %s%02d\n", name, number,
                                  kind, object, axis);
}

/* The text of the machine: 16 axes, and the blocks in their order. */
static size_t machine_text(char *text, size_t room)
{
    size_t len = (size_t)snprintf(text, room, "motion-bench 2\nlimit %d %d\n", SEGMENT_CYCLES, SEGMENT_ENTRIES);
    int i;
    for (i = 0; i < AXES; i++)
        len += (size_t)snprintf(text + len, room - len, "axis A%02d 0 400000 500 5 6 1 0\n", i);
    len += (size_t)snprintf(text + len, room - len, "group G00 A%02d A%02d\ntask main\n", ALONE, ALONE + 1);
    for (i = 0; i < AXES; i++) len = put_line(text, room, len, "P", i, "Power", "A", i);
    for (i = 0; i < MOVES; i++) len = put_line(text, room, len, "M", i, "MoveAbsolute", "A", i % ALONE);
    len = put_line(text, room, len, "E", 0, "GroupEnable", "G", 0);
    return put_line(text, room, len, "L", 0, "MoveLinearAbsolute", "G", 0);
}

/* Opens both handles by the same text. */
static uint32_t open_both(loop *l)
{
    static char text[4096];
    motion_refusal why;
    size_t len = machine_text(text, sizeof text);
    uint32_t code = motion_open(&l->m, (const uint8_t *)text, len, &why);
    if (code == MOTION_OK) code = motion_open(&l->with->spare, (const uint8_t *)text, len, &why);
    return code;
}

/* Runs the writer beside the cycles, to the end of both. */
static uint32_t run_both(loop *l, long cycles)
{
    pthread_t writer;
    uint32_t code;
    if (sem_init(&l->with->full, 0, 0) != 0 || sem_init(&l->with->empty, 0, 1) != 0) return MOTION_NULL;
    if (pthread_create(&writer, NULL, write_segments, l->with) != 0) return MOTION_NULL;
    code = run_cycles(l, cycles);
    pthread_join(writer, NULL);
    return code == MOTION_OK ? l->with->code : code;
}

int main(int argc, char **argv)
{
    static loop l;     /* zeros: closed handles, and drives that are off */
    static shared with;
    long cycles = argc > 1 ? atol(argv[1]) : 20000;
    uint32_t code;
    int i;
    for (i = 0; i < MOVES; i++) l.targets[i] = far_end(i);
    l.line_target = far_end(ALONE);
    l.with = &with;
    with.folder = argc > 2 ? argv[2] : NULL;
    code = open_both(&l);
    if (code == MOTION_OK) code = run_both(&l, cycles);
    fprintf(stderr, "code %u cycles %ld dones %ld segments %ld\n", (unsigned)code, cycles, l.dones,
            with.segments);
    motion_close(&l.m);
    motion_close(&with.spare);
    return code == MOTION_OK ? 0 : 1;
}
