/* A test of codes: each call with each wrong argument is answered by its code, and has changed nothing;
 * and two handles at once keep apart. Silent where all is as expected. */
#include "motion.h"

#include <stdio.h>
#include <string.h>

static const char small[] =
    "motion-bench 1\n"
    "limit 2 6\n"
    "axis X 0 50 10 4 1 0 ready\n"
    "axis Y 0 50 10 4 1 0 ready\n"
    "group XY X Y\n"
    "task main\n"
    "block G main GearIn Y\n"
    "block E main GroupEnable XY\n";

static const char first[] =
    "motion-bench 1\n"
    "limit 20 40\n"
    "axis X 0 50 10 4 1 0 ready\n"
    "task main\n"
    "block M main MoveAbsolute X";

static const char config[] =
    "cycle_us = 1000\ncycles = 20\nentries = 40\n"
    "[[axis]]\nname = \"X\"\nlo = 0\nhi = 50\nvmax = 100\namax = 1000\nincrement = 1\nstart = 0\n";

static const char program[] = "motion-program 1\ntask main\nblock M MoveAbsolute X\n";

static const motion_inputs nothing = { { 0, 0, 0, 0, 0, 0 }, 0, 0, 0, 0, 0, 0, 0, 0, 0, 0 };
static const motion_drive_in enabled[2] = { { 0, 0x0037, 8 }, { 0, 0x0037, 8 } };
static int faults;

static void want(const char *what, uint64_t found, uint64_t wanted)
{
    if (found == wanted) return;
    fprintf(stderr, "%s: %lu in place of %lu\n", what, (unsigned long)found, (unsigned long)wanted);
    faults++;
}

static uint32_t open_text(motion *m, const char *text, motion_refusal *why)
{
    return motion_open(m, (const uint8_t *)text, strlen(text), why);
}

static uint32_t open_config(motion *m, const char *text, const char *blocks, motion_refusal *why)
{
    return motion_open_config(m, (const uint8_t *)text, strlen(text), (const uint8_t *)blocks,
                              strlen(blocks), why);
}

static uint32_t name_of(uint32_t (*find)(motion *, const uint8_t *, size_t), motion *m, const char *name)
{
    return find(m, (const uint8_t *)name, strlen(name));
}

/* Outputs and rows that no call writes, by which a call that changed nothing is known. */
static const motion_outputs unset = { 999, 9, 9, 9, 9, 9, 9 };
static const motion_drive_out ungiven = { -1, 0xffff, -1 };
static const motion_axis_row unseen = { -1, -1, 99, 999, 9 };
static const motion_refusal unread = { 77, 7, 7 };

static void want_unset(const char *what, const motion_outputs *out)
{
    want(what, out->error_id == 999 && out->busy == 9 && out->active == 9 && out->done == 9
                   && out->aborted == 9 && out->error == 9 && out->reached == 9, 1);
}

static void want_unseen(const char *what, const motion_axis_row *row)
{
    want(what, row->setpoint == -1 && row->offset == -1 && row->state == 99 && row->error == 999
                   && row->driven == 9, 1);
}

static void want_unread(const char *what, const motion_refusal *why)
{
    want(what, why->line == 77 && why->letter == 7 && why->number == 7, 1);
}

/* The readings of a closed handle, of numbers that no item has, and of kinds that are none. */
static void readings(motion *m, uint32_t code)
{
    motion_name name;
    motion_limits limits = { 1, 2, 3, 4, 5, 6 };
    motion_block_row row = { 7, 8, 9, 10 };
    memset(&name, 'a', sizeof name);
    want("axis name", motion_axis_name(m, 2, &name), code);
    want("the last axis name", motion_axis_name(m, 255, &name), code);
    want("group name", motion_group_name(m, 1, &name), code);
    want("task name", motion_task_name(m, 1, &name), code);
    want("block name", motion_block_name(m, 2, &name), code);
    want("the last block name", motion_block_name(m, 65535, &name), code);
    want("kind name", motion_kind_name(20, &name), MOTION_UNKNOWN);
    want("the last kind name", motion_kind_name(UINT32_MAX, &name), MOTION_UNKNOWN);
    want("limits", motion_axis_limits(m, 2, &limits), code);
    want("block look", motion_block_look(m, 2, &row), code);
    want("no name", name.text[0] == 'a' && name.text[23] == 'a', 1);
    want("no limits", limits.lo == 1 && limits.hi == 2 && limits.increment == 6, 1);
    want("no row", row.kind == 7 && row.object == 8 && row.task == 9 && row.on_group == 10, 1);
}

/* Nothing but CLOSED, 0 and no number comes of a closed handle. */
static void closed_handle(void)
{
    motion m = MOTION_NONE;
    motion_outputs out = unset;
    motion_drive_out given[1] = { { -1, 0xffff, -1 } };
    motion_axis_row axis = unseen;
    motion_group_row group = { 99, 999 };
    uint8_t room[4] = { 7, 7, 7, 7 };
    want("call", motion_call(&m, 0, &nothing, &out), MOTION_CLOSED);
    want("cycle", motion_cycle(&m, enabled, 1, given, 1), MOTION_CLOSED);
    want("end", motion_end(&m, 0), MOTION_CLOSED);
    want("axis look", motion_axis_look(&m, 0, &axis), MOTION_CLOSED);
    want("group look", motion_group_look(&m, 0, &group), MOTION_CLOSED);
    want("trace", motion_trace(&m, enabled, 1), MOTION_CLOSED);
    want("segment text", motion_segment_text(&m, enabled, 1), MOTION_CLOSED);
    want("trace text", motion_trace_text(&m, 0, room, 4), 0);
    want("close", motion_close(&m), MOTION_CLOSED);
    want("axis", name_of(motion_axis, &m, "X"), MOTION_NO_NUMBER);
    want("group", name_of(motion_group, &m, "XY"), MOTION_NO_NUMBER);
    want("task", name_of(motion_task, &m, "main"), MOTION_NO_NUMBER);
    want("block", name_of(motion_block, &m, "G"), MOTION_NO_NUMBER);
    want("counts", motion_axes(&m) + motion_groups(&m) + motion_tasks(&m) + motion_blocks(&m), 0);
    want("cycle", motion_cycle_us(&m), 0);
    want("forget", motion_forget(&m), MOTION_CLOSED);
    readings(&m, MOTION_CLOSED);
    want("left", motion_cycles_left(&m) + motion_room_left(&m), 0);
    want_unset("no outputs", &out);
    want_unseen("no row", &axis);
    want("unchanged", given[0].mode == -1 && group.state == 99 && group.error == 999 && room[0] == 7, 1);
}

/* A text is refused at its line, by its rule; an open handle isn't opened again. */
static void opening(void)
{
    motion m = MOTION_NONE;
    motion_refusal why = { 0, 0, 0 };
    want("empty", open_text(&m, "", &why), MOTION_REFUSED);
    want("empty's rule", why.letter * 100 + why.number, 'B' * 100 + 2);
    want("range", open_text(&m, "motion-bench 1\nlimit 20 40\naxis X 50 0 10 4 1 0", &why), MOTION_REFUSED);
    want("range's line", why.line * 100 + why.number, 308);
    want("not whole", open_text(&m, "motion-bench 1\nlimit 20 40", &why), MOTION_REFUSED);
    want("not whole's rule", why.number, 10);
    why = unread;
    want("first", open_text(&m, first, &why), MOTION_OK);
    want("again", open_text(&m, small, &why), MOTION_OPEN);
    want_unread("opening", &why);
    want("still first", motion_axes(&m), 1);
    want("close", motion_close(&m), MOTION_OK);
    want("closed", motion_close(&m), MOTION_CLOSED);
}

/* Of two texts the one that is rejected is reported, by its position and its rule. */
static void configurations(void)
{
    motion m = MOTION_NONE;
    motion_refusal why = { 9, 0, 0 };
    want("no configuration", open_config(&m, "", program, &why), MOTION_REFUSED);
    want("its rule", why.line * 100000 + why.letter * 100 + why.number, 'C' * 100 + 2);
    want("no program", open_config(&m, config, "motion-program 1\ntask main\nblock M Fly X\n", &why),
         MOTION_REFUSED);
    want("its line", why.line * 100000 + why.letter * 100, 300000 + 'P' * 100);
    why = unread;
    want("both", open_config(&m, config, program, &why), MOTION_OK);
    want("open", open_config(&m, "", "", &why), MOTION_OPEN);
    want_unread("both", &why);
    want("block M", name_of(motion_block, &m, "M"), 0);
    want("close", motion_close(&m), MOTION_OK);
}

/* A trace in parts: none before it is made, none behind its end, and the same however it is cut. */
static void parts(void)
{
    static uint8_t whole[4096], cut[4096];
    motion m = MOTION_NONE;
    motion_refusal why;
    uint64_t len, at;
    want("open", open_text(&m, first, &why), MOTION_OK);
    want("no trace", motion_trace_text(&m, 0, whole, sizeof whole), 0);
    want("trace", motion_trace(&m, enabled, 1), MOTION_OK);
    len = motion_trace_text(&m, 0, whole, sizeof whole);
    want("some", len > 100 && len < sizeof whole, 1);
    for (at = 0; at < len; at += 7)
        want("part", motion_trace_text(&m, at, cut + at, 7), len - at < 7 ? len - at : 7);
    want("the same", (uint64_t)memcmp(whole, cut, (size_t)len), 0);
    want("at the end", motion_trace_text(&m, len, cut, 7), 0);
    want("behind it", motion_trace_text(&m, UINT64_MAX, cut, 7), 0);
    want("close", motion_close(&m), MOTION_OK);
}

/* The calls that test their pointers. */
static void pointers(motion *m)
{
    motion_outputs out;
    motion_drive_out given[2];
    want("no handle", motion_call_tested(NULL, 0, &nothing, &out), MOTION_NULL);
    want("no inputs", motion_call_tested(m, 0, NULL, &out), MOTION_NULL);
    want("no outputs", motion_call_tested(m, 0, &nothing, NULL), MOTION_NULL);
    want("no block", motion_call_tested(m, 9, &nothing, &out), MOTION_UNKNOWN);
    want("no answers", motion_cycle_tested(m, NULL, 2, given, 2), MOTION_NULL);
    want("no room", motion_cycle_tested(m, enabled, 2, NULL, 2), MOTION_NULL);
    want("one answer", motion_cycle_tested(m, enabled, 1, given, 2), MOTION_LENGTH);
}

static void names(motion *m)
{
    want("axis Y", name_of(motion_axis, m, "Y"), 1);
    want("group XY", name_of(motion_group, m, "XY"), 0);
    want("task main", name_of(motion_task, m, "main"), 0);
    want("block E", name_of(motion_block, m, "E"), 1);
    want("no axis", name_of(motion_axis, m, "XY"), MOTION_NO_NUMBER);
    want("no group", name_of(motion_group, m, "X"), MOTION_NO_NUMBER);
    want("no task", name_of(motion_task, m, "G"), MOTION_NO_NUMBER);
    want("no name", name_of(motion_block, m, ""), MOTION_NO_NUMBER);
    want("counts", motion_axes(m) * 10 + motion_groups(m), 21);
    want("more counts", motion_tasks(m) * 10 + motion_blocks(m), 12);
    readings(m, MOTION_UNKNOWN);
}

/* Calls that are none, and inputs that aren't read. */
static void calls(motion *m)
{
    motion_outputs out = unset;
    motion_inputs in = nothing;
    want("no block", motion_call(m, 2, &in, &out), MOTION_UNKNOWN);
    in.acceleration = INT64_MIN;
    want("acceleration", motion_call(m, 0, &in, &out), MOTION_RANGE);
    in = nothing;
    in.numerator = 1000000000000000001;
    want("numerator", motion_call(m, 0, &in, &out), MOTION_RANGE);
    in.numerator = 1000000000000000000;
    in.acceleration = -1000000000000000000;
    want("at their limits", motion_call(m, 0, &in, &out), MOTION_OK);
    out = unset;
    in = nothing;
    in.mode = 6;
    want("mode", motion_call(m, 0, &in, &out), MOTION_RANGE);
    in = nothing;
    in.master = 2;
    want("master", motion_call(m, 0, &in, &out), MOTION_RANGE);
    want_unset("unchanged", &out);
    in.mode = 9;
    in.velocity = INT64_MIN;
    in.positions[5] = INT64_MAX;
    want("not read", motion_call(m, 1, &in, &out), MOTION_OK);
    want("no task", motion_end(m, 1), MOTION_UNKNOWN);
}

/* A text of more than 64 KiB, and its trace in one part and in another that is as long as what is left. */
static void long_texts(void)
{
    static char text[100000];
    static uint8_t whole[500000];
    motion m = MOTION_NONE;
    motion_refusal why;
    motion_inputs in = nothing;
    motion_outputs out;
    uint64_t len;
    int i;
    in.positions[0] = -1000000000000000000;
    in.velocity = in.acceleration = in.deceleration = in.jerk = 1000000000000000000;
    strcpy(text, "motion-bench 1\nlimit 20 9000\naxis X 0 50 10 4 1 0 ready\ntask main\n"
                 "block M main MoveAbsolute X #");
    memset(text + strlen(text), '#', sizeof text - strlen(text) - 1);
    want("open", open_text(&m, text, &why), MOTION_OK);
    for (i = 0; i < 3000; i++) want("call", motion_call(&m, 0, &in, &out), MOTION_OK);
    want("trace", motion_trace(&m, enabled, 1), MOTION_OK);
    len = motion_trace_text(&m, 0, whole, sizeof whole);
    want("a long one", len > 65536 && len < sizeof whole, 1);
    want("but its first byte", motion_trace_text(&m, 1, whole, sizeof whole), len - 1);
    want("close", motion_close(&m), MOTION_OK);
}

/* Looks before and behind a cycle; then cycles and entries that are over. */
static void cycles(motion *m)
{
    motion_drive_out given[2];
    motion_axis_row axis = unseen;
    motion_group_row group = { 99, 999 };
    motion_outputs out;
    int i;
    want("no cycle", motion_axis_look(m, 1, &axis), MOTION_NO_CYCLE);
    want("no cycle", motion_group_look(m, 0, &group), MOTION_NO_CYCLE);
    want("no axis", motion_axis_look(m, 2, &axis), MOTION_UNKNOWN);
    want("no group", motion_group_look(m, 1, &group), MOTION_UNKNOWN);
    want_unseen("unchanged", &axis);
    want("unchanged", group.state == 99 && group.error == 999, 1);
    want("answers", motion_cycle(m, enabled, 1, given, 2), MOTION_LENGTH);
    want("outputs", motion_cycle(m, enabled, 2, given, 1), MOTION_LENGTH);
    for (i = 0; i < 2; i++) want("cycle", motion_cycle(m, enabled, 2, given, 2), MOTION_OK);
    given[0] = given[1] = ungiven;
    want("over", motion_cycle(m, enabled, 2, given, 2), MOTION_OVER);
    want("no outputs", given[1].target == -1 && given[1].controlword == 0xffff && given[1].mode == -1, 1);
    while (motion_room_left(m) > 0) want("call", motion_call(m, 1, &nothing, &out), MOTION_OK);
    out = unset;
    want("full", motion_call(m, 1, &nothing, &out), MOTION_FULL);
    want_unset("full", &out);
    want("full", motion_end(m, 0), MOTION_FULL);
    want("axis", motion_axis_look(m, 1, &axis), MOTION_OK);
    want("standstill", axis.state, MOTION_STANDSTILL);
    want("driven", axis.driven, 1);
    want("group", motion_group_look(m, 0, &group), MOTION_OK);
    want("left", motion_cycles_left(m) + motion_room_left(m), 0);
    want("answers", motion_trace(m, enabled, 1), MOTION_LENGTH);
    want("trace", motion_trace(m, enabled, 2), MOTION_OK);
}

/* A segment that is full while cycles are left. */
static void full_segment(void)
{
    motion m = MOTION_NONE;
    motion_refusal why;
    motion_drive_out given = ungiven;
    want("open", open_text(&m, "motion-bench 1\nlimit 5 1\naxis X 0 50 10 4 1 0 ready\ntask main\n"
                               "block M main Halt X", &why), MOTION_OK);
    want("cycle", motion_cycle(&m, enabled, 1, &given, 1), MOTION_OK);
    given = ungiven;
    want("full", motion_cycle(&m, enabled, 1, &given, 1), MOTION_FULL);
    want("no outputs", given.target == -1 && given.controlword == 0xffff && given.mode == -1, 1);
    want("cycles left", motion_cycles_left(&m), 4);
    want("close", motion_close(&m), MOTION_OK);
}

/* Two handles at once. */
static void two_handles(void)
{
    motion one = MOTION_NONE, other = MOTION_NONE;
    motion_refusal why;
    motion_inputs in = nothing;
    motion_outputs out;
    motion_drive_out given;
    motion_axis_row axis = { -1, 0, 0, 0, 0 };
    in.execute = 1;
    in.positions[0] = 20;
    in.velocity = 6;
    in.acceleration = in.deceleration = 2;
    want("one", open_text(&one, first, &why), MOTION_OK);
    want("other", open_text(&other, first, &why), MOTION_OK);
    want("call", motion_call(&other, 0, &in, &out), MOTION_OK);
    want("cycle", motion_cycle(&one, enabled, 1, &given, 1), MOTION_OK);
    want("at rest", (uint64_t)given.target, 0);
    want("cycle", motion_cycle(&other, enabled, 1, &given, 1), MOTION_OK);
    want("on the way", (uint64_t)given.target, 2);
    want("close", motion_close(&one), MOTION_OK);
    want("closed", motion_axis_look(&one, 0, &axis), MOTION_CLOSED);
    want("open", motion_axis_look(&other, 0, &axis), MOTION_OK);
    want("setpoint", (uint64_t)axis.setpoint, 2);
    want("close", motion_close(&other), MOTION_OK);
}

/* Swaps of handles that hold no machine, or another one; and what a swap leaves. */
static void swaps(void)
{
    motion m = MOTION_NONE;
    motion spare = MOTION_NONE;
    motion_drive_out given[2];
    motion_refusal why;
    want("both closed", motion_swap(&m, &spare), MOTION_CLOSED);
    want("open m", open_text(&m, small, &why), MOTION_OK);
    want("spare closed", motion_swap(&m, &spare), MOTION_CLOSED);
    want("m closed", motion_swap(&spare, &m), MOTION_CLOSED);
    want("open another", open_text(&spare, first, &why), MOTION_OK);
    want("another machine", motion_swap(&m, &spare), MOTION_OTHER);
    want("no handle", motion_swap_tested(NULL, &spare), MOTION_NULL);
    want("one handle", motion_swap_tested(&m, &m), MOTION_OTHER);
    want("close another", motion_close(&spare), MOTION_OK);
    want("open spare", open_text(&spare, small, &why), MOTION_OK);
    want("cycle 1", motion_cycle(&m, enabled, 2, given, 2), MOTION_OK);
    want("cycle 2", motion_cycle(&m, enabled, 2, given, 2), MOTION_OK);
    want("no cycle left", motion_cycle(&m, enabled, 2, given, 2), MOTION_OVER);
    want("swap", motion_swap(&m, &spare), MOTION_OK);
    want("cycles left", motion_cycles_left(&m), 2);
    want("room left", motion_room_left(&spare), 4);
    want("later", motion_trace(&m, enabled, 2), MOTION_LATER);
    want("the whole", motion_trace(&spare, enabled, 2), MOTION_OK);
    want("length", motion_segment_text(&m, enabled, 1), MOTION_LENGTH);
    want("an empty segment", motion_segment_text(&m, enabled, 2), MOTION_OK);
    want("cycle 3", motion_cycle(&m, enabled, 2, given, 2), MOTION_OK);
    want("close m", motion_close(&m), MOTION_OK);
    want("close spare", motion_close(&spare), MOTION_OK);
}

/* What is forgotten is past: room and cycles are whole again, no cycle is left to look at, the trace that
 * was made is kept, and no trace from opening on can be made. The axis goes on where it was. */
static void forgets(void)
{
    motion m = MOTION_NONE;
    motion_refusal why;
    motion_inputs in = nothing;
    motion_outputs out;
    motion_drive_out given = ungiven;
    motion_drive_in answer = enabled[0];
    motion_axis_row axis;
    uint8_t part[8];
    int i;
    in.execute = 1;
    in.positions[0] = 20;
    in.velocity = 6;
    in.acceleration = in.deceleration = 2;
    want("open", open_text(&m, first, &why), MOTION_OK);
    want("forget nothing", motion_forget(&m), MOTION_OK);
    want("the whole is still there", motion_trace(&m, enabled, 1), MOTION_OK);
    want("move", motion_call(&m, 0, &in, &out), MOTION_OK);
    want("cycle 1", motion_cycle(&m, &answer, 1, &given, 1), MOTION_OK);
    want("setpoint 1", (uint64_t)given.target, 2);
    want("forget", motion_forget(&m), MOTION_OK);
    want("room", motion_room_left(&m) * 100 + motion_cycles_left(&m), 4020);
    want("no cycle", motion_axis_look(&m, 0, &axis), MOTION_NO_CYCLE);
    want("later", motion_trace(&m, enabled, 1), MOTION_LATER);
    want("the trace is kept", motion_trace_text(&m, 0, part, sizeof part), 8);
    answer.actual = given.target;
    for (i = 0; i < 100; i++) {
        want("cycle", motion_cycle(&m, &answer, 1, &given, 1), MOTION_OK);
        answer.actual = given.target;
        if (motion_cycles_left(&m) == 0) want("forget", motion_forget(&m), MOTION_OK);
    }
    want("at its target", (uint64_t)given.target, 20);
    want("call", motion_call(&m, 0, &in, &out), MOTION_OK);
    want("done", out.done, 1);
    want("a segment", motion_segment_text(&m, &answer, 1), MOTION_OK);
    want("close", motion_close(&m), MOTION_OK);
}

int main(void)
{
    motion m = MOTION_NONE;
    motion_refusal why;
    closed_handle();
    opening();
    want("open", open_text(&m, small, &why), MOTION_OK);
    names(&m);
    pointers(&m);
    calls(&m);
    cycles(&m);
    want("close", motion_close(&m), MOTION_OK);
    configurations();
    full_segment();
    long_texts();
    parts();
    two_handles();
    swaps();
    forgets();
    return faults != 0;
}
