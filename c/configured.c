/* A machine by a configuration in TOML, as `motion run` has it, whose task and blocks are added by
 * calls: its axis is switched on and goes from 0 to 2 mm. What happens goes to the error output, the
 * trace to the output. */
#include "drive.h"
#include "motion_blocks.h"

#include <stdio.h>
#include <string.h>

static const char config[] =
    "cycle_us = 1000\n"            /* a cycle of 1 ms */
    "cycles = 1000\n"
    "entries = 5000\n"
    "[[axis]]\n"
    "name = \"X\"\n"
    "lo = 0\n"                     /* mm */
    "hi = 50\n"
    "vmax = 100\n"                 /* mm/s */
    "amax = 1000\n"                /* mm/s^2 */
    "increment = \"0.001\"\n"      /* an increment of the drive is 1 micrometre */
    "start = 0\n";

enum { POWER = 0, MOVE = 1, CYCLE_US = 1000 }; /* blocks count from 0 as they are added */

typedef struct cell {
    motion m;
    drive x;
} cell;

/* Calls a block once a cycle until it shows Done or what it reaches, and says how many cycles that took;
 * below 0 where it shows an error or a call answers a code. */
static int run(cell *c, uint16_t block, const motion_inputs *in)
{
    motion_outputs out;
    motion_drive_out given;
    int cycles;
    for (cycles = 0;; cycles++) {
        motion_drive_in answer = drive_answer(&c->x);
        uint32_t code = motion_call(&c->m, block, in, &out);
        if (code != MOTION_OK || out.error || out.aborted) return -1;
        if (out.done || out.reached) return cycles;
        code = motion_cycle(&c->m, &answer, 1, &given, 1);
        if (code != MOTION_OK) return -1;
        drive_step(&c->x, &given);
    }
}

/* Writes the trace to the output. */
static uint32_t write_trace(cell *c)
{
    uint8_t piece[4096];
    uint64_t at = 0, count;
    motion_drive_in answer = drive_answer(&c->x);
    uint32_t code = motion_trace(&c->m, &answer, 1);
    while (code == MOTION_OK && (count = motion_trace_text(&c->m, at, piece, sizeof piece)) != 0) {
        fwrite(piece, 1, (size_t)count, stdout);
        at += count;
    }
    return code;
}

int main(void)
{
    static cell c;
    uint8_t room[200];
    motion_setup setup;
    motion_refusal why;
    motion_inputs in;
    motion_axis_row x;
    int power, move;
    uint32_t code;

    motion_setup_begin(&setup, room, sizeof room);
    motion_setup_task(&setup, "main");
    motion_setup_block(&setup, "PX", "Power", "X");
    motion_setup_block(&setup, "MX", "MoveAbsolute", "X");
    code = motion_open_setup(&c.m, (const uint8_t *)config, sizeof config - 1, &setup, &why);
    if (code == MOTION_REFUSED)
        fprintf(stderr, "place %lu breaks %c%u\n", (unsigned long)why.line, why.letter, why.number);
    if (code != MOTION_OK) return 1;

    memset(&in, 0, sizeof in);
    in.execute = 1;
    power = run(&c, POWER, &in);

    in.positions[0] = MC_UNITS(2);                                   /* mm */
    in.velocity = mc_velocity_a_cycle(MC_UNITS(50), CYCLE_US);       /* mm/s */
    in.acceleration = mc_acceleration_a_cycle(MC_UNITS(500), CYCLE_US); /* mm/s^2 */
    in.deceleration = in.acceleration;
    move = run(&c, MOVE, &in);

    if (power < 0 || move < 0 || motion_axis_look(&c.m, 0, &x) != MOTION_OK) return 1;
    fprintf(stderr, "%lld, the drive at %ld\n", (long long)x.setpoint, (long)c.x.actual);
    code = write_trace(&c);
    return code == MOTION_OK && motion_close(&c.m) == MOTION_OK ? 0 : 1;
}
