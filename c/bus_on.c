/* A bus of four drives that is switched on, moves and comes to rest by motion_bus.h, while the drive of
 * axis C is in trouble, in one way after another: it never gets ready, never shows mode 8, shows it no
 * more, leaves Operation enabled, or has a fault; at last the axis runs into its limit. In each run the trouble ends once all is off; then the
 * bus is reset, switched on again, moved and switched off. `bus_on [TRACE]` prints each change of the
 * bus's state with its cycle, and writes the trace of the last run. */
#include "bench_drive.h"
#include "motion_bus.h"

#include <stdio.h>

enum { AXES = 4, TROUBLED = 2, BEGINS = 300, PATIENCE = 100, CYCLES = 1500 };

enum trouble { NONE, NOT_READY, NO_MODE, LOST_MODE, LOST_POWER, FAULT, AXIS_ERROR, TROUBLES };

static const char *const words[TROUBLES] = { "none", "not ready", "no mode", "lost mode", "lost power",
                                             "fault", "axis error" };

static const char machine_text[] =
    "motion-bench 2\n"
    "limit 1500 30000\n"
    "axis A 0 400000 500 5 8 1 0\n"
    "axis B 0 400000 500 5 8 1 0\n"
    "axis C 0 400000 500 5 8 1 0\n"
    "axis D 0 400000 500 5 8 1 0\n"
    "task main\n"
    "block PA main Power A\nblock RA main Reset A\nblock SA main Stop A\nblock MA main MoveAbsolute A\n"
    "block PB main Power B\nblock RB main Reset B\nblock SB main Stop B\nblock MB main MoveAbsolute B\n"
    "block PC main Power C\nblock RC main Reset C\nblock SC main Stop C\nblock MC main MoveAbsolute C\n"
    "block VC main MoveVelocity C\n"
    "block PD main Power D\nblock RD main Reset D\nblock SD main Stop D\nblock MD main MoveAbsolute D\n";

typedef struct plant {
    motion handle;
    mc_machine machine;
    mc_bus bus;
    mc_bus_axis axes[AXES];
    MC_MoveAbsolute move[AXES];
    MC_MoveVelocity away; /* of axis C, toward its limit */
    bench_drive drives[AXES];
    enum trouble trouble; /* of the drive of axis C; NONE once it is repaired */
    bool repaired;
} plant;

/* What a drive answers, with its trouble. */
static motion_drive_in answer_of(const plant *p, int i, long cycle)
{
    motion_drive_in answer = bench_drive_answer(&p->drives[i]);
    if (i != TROUBLED || p->repaired) return answer;
    if (p->trouble == NOT_READY) answer.statusword = 0x0000;
    if (p->trouble == NO_MODE) answer.mode_display = 0;
    if (p->trouble == LOST_MODE && cycle >= BEGINS) answer.mode_display = 1;
    if (p->trouble == LOST_POWER && cycle >= BEGINS) answer.statusword = 0x0040;
    return answer;
}

static void step_drive(plant *p, int i, const motion_drive_out *given, long cycle)
{
    bench_drive *b = &p->drives[i];
    bench_drive_step(b, given);
    if (i != TROUBLED || p->repaired) return;
    if (p->trouble == FAULT && cycle == BEGINS) b->d.state = DRIVE_FAULT;
    if (p->trouble == LOST_POWER && cycle >= BEGINS) b->d.state = DRIVE_DISABLED;
}

static uint32_t open_plant(plant *p, enum trouble trouble)
{
    static const char *const names[AXES][4] = { { "PA", "RA", "SA", "MA" }, { "PB", "RB", "SB", "MB" },
                                                { "PC", "RC", "SC", "MC" }, { "PD", "RD", "SD", "MD" } };
    motion_refusal why;
    uint32_t code = motion_open_text(&p->handle, machine_text, &why);
    int i;
    if (code != MOTION_OK) return code;
    mc_begin(&p->machine, &p->handle, MC_CYCLES);
    p->trouble = trouble;
    p->repaired = false;
    for (i = 0; i < AXES; i++) {
        bench_drive_begin(&p->drives[i], 0, 0);
        p->move[i].Execute = false;
        p->move[i].Done = p->move[i].Busy = false;
        p->move[i].Position = 60000 + 20000 * i;
        p->move[i].Velocity = 400;
        p->move[i].Acceleration = p->move[i].Deceleration = 4;
        if (code == MOTION_OK) code = mc_bus_find(&p->axes[i], &p->machine, names[i][0], names[i][1], names[i][2]);
        if (code == MOTION_OK) code = MC_MoveAbsolute_find(&p->move[i], &p->machine, names[i][3]);
    }
    if (code == MOTION_OK) code = MC_MoveVelocity_find(&p->away, &p->machine, "VC");
    p->away.Velocity = -400;
    p->away.Acceleration = p->away.Deceleration = 4;
    return code == MOTION_OK ? mc_bus_begin(&p->bus, &p->machine, p->axes, AXES, PATIENCE) : code;
}

/* The task: moves to and fro while the bus is on; a move that ends otherwise is begun anew later. */
static void call_moves(plant *p, long cycle)
{
    const bool goes_away = p->trouble == AXIS_ERROR && cycle >= BEGINS && !p->repaired;
    int i;
    for (i = 0; i < AXES; i++) {
        MC_MoveAbsolute *move = &p->move[i];
        const bool ended = move->Done || move->Error || move->CommandAborted;
        if (move->Done) move->Position = move->Position ? 0 : 60000 + 20000 * i;
        if (p->bus.state != MC_BUS_ON && !move->Execute) continue;
        move->Execute = p->bus.state == MC_BUS_ON && !ended && !(i == TROUBLED && goes_away);
        MC_MoveAbsolute_call(move, &p->machine);
    }
    if (p->trouble != AXIS_ERROR) return;
    p->away.Execute = p->bus.state == MC_BUS_ON && goes_away;
    MC_MoveVelocity_call(&p->away, &p->machine);
}

/* The operator: On from the beginning; once the bus has failed, a repair, a Reset and On again; off at
 * the end. */
static void operate(plant *p, long cycle, long failed)
{
    const long since = failed ? cycle - failed : 0;
    p->bus.On = cycle < CYCLES - 300 && !(since > 20 && since < 60);
    if (since > 10) p->repaired = true;
    p->bus.Reset = since == 30;
}

static void report(const plant *p, long cycle)
{
    const mc_bus_axis *failed = mc_bus_failed(&p->bus);
    printf("  %4ld %s", cycle, mc_bus_state_text(p->bus.state));
    if (failed != NULL)
        printf(": axis %c, %s (statusword %04xh, mode %d)", 'A' + failed->axis,
               mc_bus_cause_text(failed->cause), failed->answer.statusword, failed->answer.mode_display);
    printf("\n");
}

static uint32_t run(plant *p, enum trouble trouble)
{
    motion_drive_in answers[AXES];
    motion_drive_out given[AXES];
    uint32_t code = open_plant(p, trouble);
    long cycle, failed = 0;
    int i;
    printf("%s\n", words[trouble]);
    for (cycle = 1; code == MOTION_OK && cycle <= CYCLES; cycle++) {
        const enum mc_bus_state before = p->bus.state;
        for (i = 0; i < AXES; i++) answers[i] = answer_of(p, i, cycle);
        operate(p, cycle, failed);
        mc_bus_call(&p->bus, &p->machine);
        call_moves(p, cycle);
        code = mc_cycle(&p->machine, answers, AXES, given, AXES);
        if (code != MOTION_OK) break; /* a real loop quick-stops its drives here */
        mc_bus_take(&p->bus, &p->machine, answers);
        for (i = 0; i < AXES; i++) step_drive(p, i, &given[i], cycle);
        if (p->bus.state == MC_BUS_FAILED && !failed) failed = cycle;
        if (p->bus.state != before) report(p, cycle);
    }
    return code;
}

static uint32_t write_trace(plant *p, const char *name)
{
    static uint8_t part[65536];
    motion_drive_in last[AXES];
    uint64_t at = 0, count;
    uint32_t code;
    FILE *file = fopen(name, "wb");
    int i;
    if (file == NULL) return MOTION_NULL;
    for (i = 0; i < AXES; i++) last[i] = answer_of(p, i, CYCLES + 1);
    code = motion_trace(&p->handle, last, AXES);
    while (code == MOTION_OK && (count = motion_trace_text(&p->handle, at, part, sizeof part)) != 0) {
        fwrite(part, 1, (size_t)count, file);
        at += count;
    }
    fclose(file);
    return code;
}

int main(int argc, char **argv)
{
    static plant p; /* as zeros */
    uint32_t code = MOTION_OK;
    int trouble;
    for (trouble = NONE; code == MOTION_OK && trouble < TROUBLES; trouble++) {
        code = run(&p, (enum trouble)trouble);
        if (code == MOTION_OK && trouble == TROUBLES - 1 && argc > 1) code = write_trace(&p, argv[1]);
        motion_close(&p.handle);
    }
    if (code != MOTION_OK) fprintf(stderr, "code %u: %s\n", (unsigned)code, motion_code_text(code));
    return code == MOTION_OK ? 0 : 1;
}
