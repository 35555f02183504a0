/* One axis from 0 to 20: its setpoints go to the error output, its trace to the output. docs/c.md walks
 * through it. */
#include "motion.h"

#include <stdio.h>
#include <string.h>

static const char machine[] =
    "motion-bench 1\n"
    "limit 20 40\n"                 /* cycles, entries of history */
    "axis X 0 50 10 4 1 0 ready\n"  /* lo, hi, velocity, acceleration, increment, start */
    "task main\n"
    "block M main MoveAbsolute X\n";

/* Ends the program where a call answers another code than MOTION_OK. */
#define DO(call)                                                    \
    do {                                                            \
        uint32_t code_ = (call);                                    \
        if (code_ != MOTION_OK) {                                   \
            fprintf(stderr, "%s answers %u\n", #call, (unsigned)code_); \
            return 1;                                               \
        }                                                           \
    } while (0)

int main(void)
{
    motion m = MOTION_NONE;
    motion_refusal why;
    motion_inputs in;
    motion_outputs out;
    motion_drive_in answer = { 0, 0x0037, 8 }; /* a drive in Operation enabled, at 0 */
    motion_drive_out given;
    motion_axis_row x;
    uint8_t piece[256];
    uint64_t at = 0, count;
    int cycle;

    DO(motion_open(&m, (const uint8_t *)machine, sizeof machine - 1, &why));

    memset(&in, 0, sizeof in);
    in.execute = 1;
    in.positions[0] = 20;
    in.velocity = 6;
    in.acceleration = 2;
    in.deceleration = 2;
    DO(motion_call(&m, 0, &in, &out));

    for (cycle = 0; cycle < 7; cycle++) {
        DO(motion_cycle(&m, &answer, 1, &given, 1));
        answer.actual = given.target; /* a drive that follows at once */
        DO(motion_axis_look(&m, 0, &x));
        fprintf(stderr, "%lld ", (long long)x.setpoint);
    }

    memset(&in, 0, sizeof in);
    in.execute = 1;
    DO(motion_call(&m, 0, &in, &out));
    fprintf(stderr, "%s\n", out.done ? "done" : "not done");
    DO(motion_end(&m, 0));

    DO(motion_trace(&m, &answer, 1));
    while ((count = motion_trace_text(&m, at, piece, sizeof piece)) != 0) {
        fwrite(piece, 1, (size_t)count, stdout);
        at += count;
    }
    DO(motion_close(&m));
    return 0;
}
