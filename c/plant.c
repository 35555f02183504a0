/* A plant of four axes as one loop: they are switched on, go to and fro, the drive of the third has a
 * fault on the way, and its axis is reset. `plant MACHINE CYCLES` says what became of it on the error
 * output, and writes the trace to the output. */
#include "drive.h"
#include "motion.h"

#include <stdio.h>
#include <stdlib.h>
#include <string.h>

enum { AXES = 4, BLOCKS = 9, POWERS = 0, MOVES = 4, RESET = 8, FAULTY = 2, STROKE = 1000 };

static const char *const names[BLOCKS] = { "PX", "PY", "PZ", "PW", "MX", "MY", "MZ", "MW", "RZ" };

typedef struct plant {
    motion m;
    drive drives[AXES];
    motion_drive_in answers[AXES];
    motion_drive_out given[AXES];
    uint16_t blocks[BLOCKS];
    motion_outputs shown[BLOCKS];
    int dones, errors, resets;
} plant;

static uint32_t open_plant(plant *p, const char *name)
{
    static uint8_t text[65536];
    motion_refusal why;
    size_t len;
    uint32_t code;
    int i;
    FILE *file = fopen(name, "rb");
    if (file == NULL) return MOTION_NULL;
    len = fread(text, 1, sizeof text, file);
    fclose(file);
    code = motion_open(&p->m, text, len, &why);
    if (code == MOTION_REFUSED)
        fprintf(stderr, "line %lu breaks %c%u\n", (unsigned long)why.line, why.letter, why.number);
    for (i = 0; code == MOTION_OK && i < BLOCKS; i++) {
        uint32_t block = motion_block(&p->m, (const uint8_t *)names[i], strlen(names[i]));
        if (block == MOTION_NO_NUMBER) return MOTION_UNKNOWN;
        p->blocks[i] = (uint16_t)block;
    }
    return code;
}

/* Calls a block, and counts how often its Done and its Error rise. */
static uint32_t call(plant *p, int block, const motion_inputs *in)
{
    motion_outputs before = p->shown[block];
    uint32_t code = motion_call(&p->m, p->blocks[block], in, &p->shown[block]);
    if (code == MOTION_OK && p->shown[block].done && !before.done) {
        if (block == RESET) p->resets++;
        else p->dones++;
    }
    if (code == MOTION_OK && p->shown[block].error && !before.error) p->errors++;
    return code;
}

/* The calls of one cycle: all axes are on, and each goes to and fro, one stroke in STROKE cycles. */
static uint32_t call_all(plant *p, int cycle)
{
    motion_inputs in;
    uint32_t code = MOTION_OK;
    int i;
    for (i = 0; code == MOTION_OK && i < AXES; i++) {
        memset(&in, 0, sizeof in);
        in.execute = 1;
        code = call(p, POWERS + i, &in);
    }
    for (i = 0; code == MOTION_OK && i < AXES; i++) {
        memset(&in, 0, sizeof in);
        in.execute = cycle > 20 && cycle % STROKE > 4;
        in.positions[0] = cycle / STROKE % 2 ? 0 : 100000 * (i + 1);
        in.velocity = 400;
        in.acceleration = 4;
        in.deceleration = 3;
        code = call(p, MOVES + i, &in);
    }
    memset(&in, 0, sizeof in);
    in.execute = p->shown[MOVES + FAULTY].error;
    return code == MOTION_OK ? call(p, RESET, &in) : code;
}

/* One cycle: the tasks' calls, the drives' answers in, their outputs out. */
static uint32_t cycle_plant(plant *p, int cycle)
{
    uint32_t code = call_all(p, cycle);
    int i;
    for (i = 0; i < AXES; i++) p->answers[i] = drive_answer(&p->drives[i]);
    if (code == MOTION_OK) code = motion_cycle(&p->m, p->answers, AXES, p->given, AXES);
    for (i = 0; code == MOTION_OK && i < AXES; i++) drive_step(&p->drives[i], &p->given[i]);
    return code;
}

static uint32_t write_trace(plant *p)
{
    static uint8_t piece[65536];
    uint64_t at = 0, count;
    int i;
    uint32_t code;
    for (i = 0; i < AXES; i++) p->answers[i] = drive_answer(&p->drives[i]);
    code = motion_trace(&p->m, p->answers, AXES);
    while (code == MOTION_OK && (count = motion_trace_text(&p->m, at, piece, sizeof piece)) != 0) {
        fwrite(piece, 1, (size_t)count, stdout);
        at += count;
    }
    return code;
}

int main(int argc, char **argv)
{
    static plant p = { MOTION_NONE, { { DRIVE_DISABLED, 0, 0, 0 } }, { { 0, 0, 0 } }, { { 0, 0, 0 } },
                       { 0 }, { { 0, 0, 0, 0, 0, 0, 0 } }, 0, 0, 0 };
    int cycle, cycles = argc > 2 ? atoi(argv[2]) : 5000;
    uint32_t code = argc > 1 ? open_plant(&p, argv[1]) : (uint32_t)MOTION_NULL;
    for (cycle = 0; code == MOTION_OK && cycle < cycles; cycle++) {
        if (cycle == 1500) p.drives[FAULTY].state = DRIVE_FAULT;
        code = cycle_plant(&p, cycle);
    }
    if (code == MOTION_OK) code = motion_end(&p.m, 0);
    if (code == MOTION_OK) code = write_trace(&p);
    fprintf(stderr, "code %u cycles %d dones %d errors %d resets %d\n", (unsigned)code, cycle, p.dones,
            p.errors, p.resets);
    motion_close(&p.m);
    return code == MOTION_OK ? 0 : 1;
}
