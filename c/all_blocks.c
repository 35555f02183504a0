/* A test of motion_blocks.h: all_blocks.bench with every block of the header. `all_blocks BENCH` writes
 * the trace to the output, which is to be the bench's own, and to the error output for each call the
 * block, the letters of its outputs and its ErrorID, which are to be those of the trace; then what
 * conversions answer that isn't as expected. Silent about all else. */
#define MOTION_WITH_DOUBLE
#include "bench_drive.h"
#include "motion_blocks.h"

#include <stdio.h>

enum { AXES = 4 };

static motion handle = MOTION_NONE;
static mc_machine machine;
static bench_drive drives[AXES];

static void want(const char *what, int64_t found, int64_t wanted)
{
    if (found != wanted)
        fprintf(stderr, "%s: %lld in place of %lld\n", what, (long long)found, (long long)wanted);
}

#define DECLARE_BLOCK(name, kind, shape) static MC_##kind name;
#define FIND_BLOCK(name, kind, shape) want(#name, MC_##kind##_find(&name, &machine, #name), MOTION_OK);
#define CALL_BLOCK(kind, name, f) (name = f, MC_##kind##_call(&name, &machine))
#include "all_blocks.h"

static void cycles(int count)
{
    motion_drive_in answers[AXES];
    motion_drive_out given[AXES];
    int i;
    while (count-- > 0) {
        for (i = 0; i < AXES; i++) answers[i] = bench_drive_answer(&drives[i]);
        if (mc_cycle(&machine, answers, AXES, given, AXES) != MOTION_OK) return;
        for (i = 0; i < AXES; i++) bench_drive_step(&drives[i], &given[i]);
    }
}

static void end(void)
{
    if (motion_end(&handle, 0) != MOTION_OK) fprintf(stderr, "no end\n");
}

/* Conversions, with their rounding toward zero, and at the ends of their ranges. */
static void conversions(void)
{
    const int64_t most = INT64_C(1000000000000000000);
    want("units", MC_UNITS(-12), INT64_C(-12000000000));
    want("thousandths", MC_THOUSANDTHS(12500), INT64_C(12500000000));
    want("from a double", mc_from_double(-0.1), -100000000);
    want("50 mm/s in 1 ms", mc_velocity_a_cycle(MC_UNITS(50), 1000), 50000000);
    want("down", mc_velocity_a_cycle(1999, 1000), 1);
    want("up", mc_velocity_a_cycle(-1999, 1000), -1);
    want("the most a second", mc_velocity_a_cycle(most, 100000), most / 10);
    want("the most a cycle", mc_velocity_a_cycle(INT64_MAX, MC_CYCLES), INT64_MAX);
    want("the least a cycle", mc_velocity_a_cycle(INT64_MIN, MC_CYCLES), INT64_MIN);
    want("500 mm/s^2 in 1 ms", mc_acceleration_a_cycle(MC_UNITS(500), 1000), 500000);
    want("down squared", mc_acceleration_a_cycle(1999999, 1000), 1);
    want("up squared", mc_acceleration_a_cycle(-1999999, 1000), -1);
    /* 999999999999999999 * 333^2 / 10^12 = 110888999999.99..: all its parts are rounded once */
    want("by parts", mc_acceleration_a_cycle(most - 1, 333), INT64_C(110888999999));
    want("the most a cycle squared", mc_acceleration_a_cycle(INT64_MAX, MC_CYCLES), INT64_MAX);
    want("the least a cycle squared", mc_acceleration_a_cycle(INT64_MIN, MC_CYCLES), INT64_MIN);
}

/* The cycle of a configuration, however its line is written. */
static void opened_cycles(void)
{
    static const char config[] = "# cycle_us = 7\ncycles = 20\nentries = 40\n  'cycle_us'\t= 0x3E8 # 1 ms\n"
                                 "[[axis]]\nname = \"X\"\nlo = 0\nhi = 50\nvmax = 100\namax = 1000\n"
                                 "increment = 1\nstart = 0\n";
    static MC_Power power;
    uint8_t room[100];
    mc_setup setup;
    static mc_machine made; /* as zeros */
    motion other = MOTION_NONE;
    motion_refusal why;
    mc_setup_begin(&setup, room, sizeof room);
    mc_setup_task(&setup, "main");
    MC_Power_add(&power, &setup, "P", "X");
    want("open", mc_open(&made, &other, (const uint8_t *)config, sizeof config - 1, &setup, &why), MOTION_OK);
    want("a cycle", made.cycle_us, 1000);
    want("its own", motion_cycle_us(&other), 1000);
    want("none of a bench", motion_cycle_us(&handle), 0);
    want("close", motion_close(&other), MOTION_OK);
    want("none of a closed one", motion_cycle_us(&other), 0);
}

/* What names and codes lead to. */
static void codes(void)
{
    static MC_Halt none;
    static MC_MoveAbsolute wide;
    mc_machine other;
    motion_drive_in in = { 0, 0, 0 };
    motion_drive_out out;
    mc_begin(&other, &handle, MC_CYCLES);
    want("no such block", MC_Halt_find(&none, &other, "NONE"), MOTION_UNKNOWN);
    want("its call", MC_Halt_call(&none, &other), MOTION_UNKNOWN);
    want("a block of another kind", MC_Halt_find(&none, &other, "MA"), MOTION_UNKNOWN);
    want("its number", none.block, MC_NO_BLOCK);
    want("a block", MC_MoveAbsolute_find(&wide, &other, "MA"), MOTION_OK);
    wide.Position = INT64_MAX;
    want("too wide a position", MC_MoveAbsolute_call(&wide, &other), MOTION_RANGE);
    want("the first code is kept", other.code, MOTION_UNKNOWN);
    want("and no cycle is made", mc_cycle(&other, &in, 1, &out, 1), MOTION_UNKNOWN);
    want("Done is as it was", none.Done, false);
}

/* The bench's machine: its lines before `go`. */
static size_t machine_len(const char *text)
{
    const char *go_line = strstr(text, "\ngo\n");
    return go_line ? (size_t)(go_line - text) + 1 : 0;
}

int main(int argc, char **argv)
{
    static char text[16384];
    static uint8_t part[65536];
    motion_refusal why;
    motion_drive_in last[AXES];
    uint64_t at = 0, count;
    FILE *file = argc > 1 ? fopen(argv[1], "rb") : NULL;
    int i;
    if (file == NULL) return 2;
    text[fread(text, 1, sizeof text - 1, file)] = 0;
    fclose(file);
    for (i = 0; i < AXES; i++) bench_drive_begin(&drives[i], 0, 0);
    if (motion_open(&handle, (const uint8_t *)text, machine_len(text), &why) != MOTION_OK) return 3;
    mc_begin(&machine, &handle, MC_CYCLES);
    go();
    conversions();
    opened_cycles();
    codes();
    for (i = 0; i < AXES; i++) last[i] = bench_drive_answer(&drives[i]);
    if (motion_trace(&handle, last, AXES) != MOTION_OK) return 4;
    while ((count = motion_trace_text(&handle, at, part, sizeof part)) != 0) {
        fwrite(part, 1, (size_t)count, stdout);
        at += count;
    }
    return motion_close(&handle) == MOTION_OK ? 0 : 5;
}
