/* The pick-and-place line of examples/structured-text with the blocks of motion_blocks.h, state by state
 * as blocks.st has it in Structured Text: so its trace is the one that `motion st` gives for that, but
 * for the word by which a trace says who made it. `blocks CONFIG` writes the trace to the output. Its
 * drives stand in for a bus. */
#include "bench_drive.h"
#include "motion_blocks.h"

#include <stdio.h>

enum { X = 0, Z = 1, AXES = 2 };

typedef struct line {
    motion handle;
    mc_machine machine;
    bench_drive drives[AXES];
    MC_Power power_x, power_z;
    MC_Home home_x, home_z;
    MC_MoveAbsolute to_belt, to_table, down, up;
    int state;
    int parts;
    bool finished;
} line;

/* The rates of a move: mm/s, and mm/s squared. */
static void set_rates(MC_MoveAbsolute *move, int velocity, int acceleration, int deceleration)
{
    move->Velocity = MC_UNITS(velocity);
    move->Acceleration = MC_UNITS(acceleration);
    move->Deceleration = MC_UNITS(deceleration);
}

/* Gives each block its name and its axis, and opens the machine. */
static uint32_t open_line(line *l, const uint8_t *config, size_t len)
{
    static uint8_t room[600];
    mc_setup s;
    motion_refusal why;
    uint32_t code;
    mc_setup_begin(&s, room, sizeof room);
    mc_setup_task(&s, "handling");
    MC_Power_add(&l->power_x, &s, "power_x", "X");
    MC_Power_add(&l->power_z, &s, "power_z", "Z");
    MC_Home_add(&l->home_x, &s, "home_x", "X");
    MC_Home_add(&l->home_z, &s, "home_z", "Z");
    MC_MoveAbsolute_add(&l->to_belt, &s, "to_belt", "X");
    MC_MoveAbsolute_add(&l->to_table, &s, "to_table", "X");
    MC_MoveAbsolute_add(&l->down, &s, "down", "Z");
    MC_MoveAbsolute_add(&l->up, &s, "up", "Z");
    code = mc_open(&l->machine, &l->handle, config, len, &s, &why);
    if (code == MOTION_REFUSED)
        fprintf(stderr, "item %lu breaks %c%u\n", (unsigned long)why.line, why.letter, why.number);
    bench_drive_begin(&l->drives[X], 25000, 1);
    bench_drive_begin(&l->drives[Z], 0, 0);
    l->to_belt.Position = MC_UNITS(40);
    set_rates(&l->to_belt, 800, 4000, 3000);
    l->to_table.Position = MC_UNITS(220);
    set_rates(&l->to_table, 500, 2000, 2000);
    l->down.Position = MC_UNITS(60);
    set_rates(&l->down, 200, 2000, 1500);
    set_rates(&l->up, 300, 2500, 2500);
    return code;
}

/* A call with Execute true, and, where that shows Done, one with Execute false after it. */
static bool is_moved(line *l, MC_MoveAbsolute *move)
{
    bool done;
    move->Execute = true;
    MC_MoveAbsolute_call(move, &l->machine);
    done = move->Done;
    if (done) {
        move->Execute = false;
        MC_MoveAbsolute_call(move, &l->machine);
    }
    return done;
}

/* What the task does in a cycle, by the state that it is in. */
static void scan(line *l)
{
    switch (l->state) {
    case 0: /* both drives are switched on */
        l->power_x.Enable = l->power_z.Enable = true;
        MC_Power_call(&l->power_x, &l->machine);
        MC_Power_call(&l->power_z, &l->machine);
        if (l->power_x.Status && l->power_z.Status) l->state = 1;
        break;
    case 1: /* where the axes stand now is their origin */
        l->home_x.Execute = l->home_z.Execute = true;
        MC_Home_call(&l->home_x, &l->machine);
        MC_Home_call(&l->home_z, &l->machine);
        if (l->home_x.Done && l->home_z.Done) l->state = 2;
        break;
    case 2:
        if (is_moved(l, &l->to_belt)) l->state = 3;
        break;
    case 3:
        if (is_moved(l, &l->down)) l->state = 4;
        break;
    case 4: /* the part is picked, or put down where the carriage is over the table */
        if (is_moved(l, &l->up)) l->state = l->to_table.Done ? 6 : 5;
        break;
    case 5:
        l->to_table.Execute = true;
        MC_MoveAbsolute_call(&l->to_table, &l->machine);
        if (l->to_table.Done) l->state = 3;
        break;
    case 6: /* the next place is 60 mm further on */
        l->to_table.Execute = false;
        MC_MoveAbsolute_call(&l->to_table, &l->machine);
        l->to_table.Position += MC_UNITS(60);
        l->finished = ++l->parts == 3;
        l->state = 2;
        break;
    }
}

/* One cycle: what the drives answer, the scan, the kernel, what the drives are given. */
static uint32_t run_cycle(line *l)
{
    motion_drive_in answers[AXES];
    motion_drive_out given[AXES] = { { 0, 0, 0 }, { 0, 0, 0 } };
    uint32_t code;
    int i;
    for (i = 0; i < AXES; i++) answers[i] = bench_drive_answer(&l->drives[i]);
    scan(l);
    if (l->finished && l->machine.code == MOTION_OK) return motion_end(&l->handle, 0);
    code = mc_cycle(&l->machine, answers, AXES, given, AXES);
    /* a real loop quick-stops its drives on any code but MOTION_OK: docs/c.md */
    for (i = 0; i < AXES && code == MOTION_OK; i++) bench_drive_step(&l->drives[i], &given[i]);
    return code;
}

/* Writes the trace to the output. */
static uint32_t write_trace(line *l)
{
    static uint8_t part[65536];
    uint64_t at = 0, count;
    motion_drive_in last[AXES];
    uint32_t code;
    int i;
    for (i = 0; i < AXES; i++) last[i] = bench_drive_answer(&l->drives[i]);
    code = motion_trace(&l->handle, last, AXES);
    while (code == MOTION_OK && (count = motion_trace_text(&l->handle, at, part, sizeof part)) != 0) {
        fwrite(part, 1, (size_t)count, stdout);
        at += count;
    }
    return code;
}

int main(int argc, char **argv)
{
    static line l;
    static uint8_t config[16384];
    FILE *file = argc > 1 ? fopen(argv[1], "rb") : NULL;
    size_t len;
    uint32_t code;
    if (file == NULL) return 2;
    len = fread(config, 1, sizeof config, file);
    fclose(file);
    code = open_line(&l, config, len);
    while (code == MOTION_OK && !l.finished) code = run_cycle(&l);
    if (code == MOTION_OK) code = write_trace(&l);
    fprintf(stderr, "code %u parts %d\n", (unsigned)code, l.parts);
    motion_close(&l.handle);
    return code == MOTION_OK ? 0 : 1;
}
