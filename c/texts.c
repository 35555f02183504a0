/* A test of motion_texts.h: each code, error and state has a text of its own, and readings of an axis
 * that moves, is homed and lags behind are those that its setpoints give. Silent where all is as
 * expected. */
#include "bench_drive.h"
#include "motion_texts.h"

#include <stdio.h>

static int faults;

static void want(const char *what, int64_t found, int64_t wanted)
{
    if (found == wanted) return;
    fprintf(stderr, "%s: %lld in place of %lld\n", what, (long long)found, (long long)wanted);
    faults++;
}

static const char *code_text(unsigned number) { return motion_code_text(number); }
static const char *error_text(unsigned number) { return motion_error_text((uint16_t)number); }
static const char *axis_text(unsigned number) { return motion_axis_state_text(number); }
static const char *drive_text(unsigned word)
{
    motion_drive_in answer = { 0, 0, 8 };
    answer.statusword = (uint16_t)word;
    return motion_power_text(&answer);
}

static const char *group_text(unsigned number) { return motion_group_state_text(number); }

/* How many numbers below 200 have a text, all of which differ. */
static int texts(const char *(*text)(unsigned))
{
    unsigned number, other;
    int count = 0;
    for (number = 0; number < 200; number++) {
        if (strcmp(text(number), "unknown") == 0) continue;
        count++;
        for (other = 0; other < number; other++)
            if (strcmp(text(number), text(other)) == 0) want("a text of two numbers", number, other);
    }
    return count;
}

/* The states of statuswords: bits 4 and 7 to 15 are free, and bit 5 where no state is read by it. */
static void drives(void)
{
    static const struct {
        uint16_t word;
        enum motion_drive_state state;
    } rows[] = {
        { 0x0000, MOTION_DRIVE_NOT_READY },          { 0x0220, MOTION_DRIVE_NOT_READY },
        { 0x0040, MOTION_DRIVE_SWITCH_ON_DISABLED }, { 0xff70, MOTION_DRIVE_SWITCH_ON_DISABLED },
        { 0x0021, MOTION_DRIVE_READY_TO_SWITCH_ON }, { 0x0231, MOTION_DRIVE_READY_TO_SWITCH_ON },
        { 0x0023, MOTION_DRIVE_SWITCHED_ON },        { 0x0233, MOTION_DRIVE_SWITCHED_ON },
        { 0x0027, MOTION_DRIVE_OPERATION_ENABLED },  { 0x1637, MOTION_DRIVE_OPERATION_ENABLED },
        { 0x0007, MOTION_DRIVE_QUICK_STOP_ACTIVE },  { 0x0217, MOTION_DRIVE_QUICK_STOP_ACTIVE },
        { 0x000f, MOTION_DRIVE_FAULT_REACTION_ACTIVE }, { 0x023f, MOTION_DRIVE_FAULT_REACTION_ACTIVE },
        { 0x0008, MOTION_DRIVE_FAULT },              { 0x0238, MOTION_DRIVE_FAULT },
        { 0x0001, MOTION_DRIVE_NONE },               { 0x0067, MOTION_DRIVE_NONE },
        { 0x0048, MOTION_DRIVE_NONE },               { 0x0025, MOTION_DRIVE_NONE },
    };
    const motion_drive_in other = { 0, 0x0237, 7 }, on = { 0, 0x0237, 8 };
    size_t i, k;
    for (i = 0; i < sizeof rows / sizeof rows[0]; i++) {
        want("a state", motion_drive_state_of(rows[i].word), rows[i].state);
        for (k = 0; k < i; k++)
            want("a text of its own", strcmp(drive_text(rows[i].word), drive_text(rows[k].word)) == 0,
                 rows[i].state == rows[k].state);
    }
    want("another mode", strcmp(motion_power_text(&other), motion_power_text(&on)) != 0, 1);
}

/* A move from 6 to 26 with a lag of one step, and a Home at its end. */
static void readings(void)
{
    static const char machine[] =
        "motion-bench 2\n"
        "limit 20 60\n"
        "axis X -50 50 10 4 5 2 6 ready\n"
        "task main\n"
        "block M main MoveAbsolute X\n"
        "block H main Home X\n";
    /* position, velocity, acceleration, reported, following error */
    static const int64_t rows[][5] = {
        { 8, 0, 0, 6, 0 },    { 12, 4, 0, 6, 2 },   { 18, 6, 2, 8, 4 },    { 22, 4, -2, 12, 6 },
        { 25, 3, -1, 18, 4 }, { 26, 1, -2, 22, 3 }, { 26, 0, -1, 24, 2 },  { 26, 0, 0, 26, 0 },
        { 1, 0, 0, 1, 0 },    { 1, 0, 0, 1, 0 },
    };
    motion m = MOTION_NONE;
    motion_refusal why;
    motion_inputs in;
    motion_outputs out;
    motion_drive_in answer;
    motion_drive_out given;
    motion_axis_row row;
    motion_reading r;
    bench_drive d;
    size_t i;
    want("open", motion_open_text(&m, machine, &why), MOTION_OK);
    bench_drive_begin(&d, 3, 1);
    d.d.state = DRIVE_ENABLED;
    d.d.mode = 8;
    motion_reading_begin(&r, 2);
    memset(&in, 0, sizeof in);
    in.execute = 1;
    in.positions[0] = 26;
    in.velocity = 6;
    in.acceleration = 2;
    in.deceleration = 2;
    want("move", motion_call(&m, 0, &in, &out), MOTION_OK);
    for (i = 0; i < sizeof rows / sizeof rows[0]; i++) {
        in.positions[0] = 1;
        if (i == 8) want("home", motion_call(&m, 1, &in, &out), MOTION_OK);
        answer = bench_drive_answer(&d);
        want("cycle", motion_cycle(&m, &answer, 1, &given, 1), MOTION_OK);
        want("look", motion_axis_look(&m, 0, &row), MOTION_OK);
        motion_reading_take(&r, &row, &answer);
        bench_drive_step(&d, &given);
        want("position", r.position, rows[i][0]);
        want("velocity", r.velocity, rows[i][1]);
        want("acceleration", r.acceleration, rows[i][2]);
        want("reported", r.reported, rows[i][3]);
        want("following error", r.following_error, rows[i][4]);
    }
    want("close", motion_close(&m), MOTION_OK);
}

int main(void)
{
    want("codes", texts(code_text), 15);
    want("errors", texts(error_text), 26);
    want("states of an axis", texts(axis_text), 8);
    want("states of a group", texts(group_text), 6);
    drives();
    readings();
    return faults != 0;
}
