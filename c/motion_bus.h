/* motion_bus.h: a state machine that switches the drives of a bus on, and brings all axes to rest
 * where one drive fails, over motion_blocks.h and motion_texts.h, for C99 and C++11 programs.
 *
 * It distinguishes a drive that doesn't come to Operation enabled in time, one that is on and doesn't
 * show mode 8 in time, one that shows mode 8 no more, one that leaves Operation enabled, and one
 * that has a fault. docs/c.md leads through it, and bus_on.c is a program with it. Each axis has a
 * Power, a Reset and a Stop of its own:
 *
 *     static mc_bus bus;                       begins as zeros
 *     static mc_bus_axis axes[N];
 *     mc_bus_add(&axes[0], &setup, "X", "PX", "RX", "SX");     before the machine is opened
 *     code = mc_bus_begin(&bus, &machine, axes, N, 2000);      after it: 2000 cycles of patience
 *
 *     in each cycle, after the drives were read:
 *     bus.On = wanted;
 *     bus.Reset = button;
 *     mc_bus_call(&bus, &machine);
 *     the task's own blocks, with Execute only where bus.state is MC_BUS_ON;
 *     code = mc_cycle(&machine, answers, n, given, n);
 *     if (code == MOTION_OK) mc_bus_take(&bus, &machine, answers);
 *
 * Header only, without memory of its own. It is no safety function.
 */
#ifndef MOTION_BUS_H
#define MOTION_BUS_H

#include "motion_blocks.h"
#include "motion_texts.h"

#ifdef __cplusplus
extern "C" {
#endif

enum mc_bus_state {
    MC_BUS_OFF = 0,       /* no drive is wanted on: On must go from false to true */
    MC_BUS_SWITCHING = 1, /* the drives are switched on, and some aren't yet */
    MC_BUS_ON = 2,        /* all axes are driven: the task moves them */
    MC_BUS_BRAKING = 3,   /* On is false, or an axis failed: all that can come to rest, then all go off */
    MC_BUS_FAILED = 4,    /* all is off, and the causes are shown until Reset goes to true */
    MC_BUS_RESETTING = 5  /* the axes are reset; then it is OFF, or FAILED where one still has a fault */
};

/* Why an axis failed. */
enum mc_bus_cause {
    MC_BUS_NO_CAUSE = 0,
    MC_BUS_NOT_READY = 1,  /* its drive didn't come to Operation enabled in time */
    MC_BUS_NO_MODE = 2,    /* its drive is in Operation enabled, and didn't show mode 8 in time */
    MC_BUS_LOST_MODE = 3,  /* its drive was on, and shows mode 8 no more */
    MC_BUS_LOST_POWER = 4, /* its drive was on, and left Operation enabled without a fault */
    MC_BUS_FAULT = 5,      /* its drive has a fault */
    MC_BUS_AXIS_ERROR = 6  /* the axis has another error: 103 to 106 */
};

static inline const char *mc_bus_state_text(enum mc_bus_state state)
{
    switch (state) {
    case MC_BUS_OFF: return "off";
    case MC_BUS_SWITCHING: return "switching on";
    case MC_BUS_ON: return "on";
    case MC_BUS_BRAKING: return "braking";
    case MC_BUS_FAILED: return "failed";
    case MC_BUS_RESETTING: return "resetting";
    default: return "unknown";
    }
}

static inline const char *mc_bus_cause_text(enum mc_bus_cause cause)
{
    switch (cause) {
    case MC_BUS_NO_CAUSE: return "none";
    case MC_BUS_NOT_READY: return "the drive isn't in Operation enabled in time";
    case MC_BUS_NO_MODE: return "the drive is on, and doesn't show mode 8 in time";
    case MC_BUS_LOST_MODE: return "the drive shows mode 8 no more";
    case MC_BUS_LOST_POWER: return "the drive left Operation enabled";
    case MC_BUS_FAULT: return "the drive has a fault";
    case MC_BUS_AXIS_ERROR: return "the axis has an error";
    default: return "unknown";
    }
}

/* An axis of the bus. */
typedef struct mc_bus_axis {
    MC_Power power;
    MC_Reset reset;
    MC_Stop stop;
    uint8_t axis;            /* its number */
    int64_t deceleration;    /* the greatest that it may brake by, a cycle squared */
    uint32_t waited;         /* for how many cycles its drive has been switched on without success */
    enum mc_bus_cause cause; /* why it failed, until it is reset */
    motion_drive_in answer;  /* what its drive answered in the cycle of the cause */
    motion_axis_row row;     /* the axis after the last cycle */
    bool is_still;           /* it isn't driven, or its setpoint stayed where it was in that cycle */
} mc_bus_axis;

/* A bus: its inputs, and its state. */
typedef struct mc_bus {
    bool On;                 /* a rise switches all drives on; false brings all to rest and off */
    bool Reset;              /* a rise resets what failed */
    enum mc_bus_state state;
    mc_bus_axis *axes;
    uint8_t count;
    uint32_t patience;       /* cycles for which a drive may take to be on, or an axis to be reset */
    uint32_t resetting;      /* for how many cycles the axes have been reset */
    bool was_on, was_reset;  /* the inputs of the cycle before */
} mc_bus;

/* Adds the three blocks of an axis to the last task of a setup, by names of their own. */
static inline void mc_bus_add(mc_bus_axis *a, mc_setup *s, const char *axis, const char *power,
                              const char *reset, const char *stop)
{
    MC_Power_add(&a->power, s, power, axis);
    MC_Reset_add(&a->reset, s, reset, axis);
    MC_Stop_add(&a->stop, s, stop, axis);
}

/* Finds the three blocks of an axis in an open machine; MOTION_UNKNOWN where one is missing. */
static inline uint32_t mc_bus_find(mc_bus_axis *a, const mc_machine *machine, const char *power,
                                   const char *reset, const char *stop)
{
    const uint32_t first = MC_Power_find(&a->power, machine, power);
    const uint32_t second = MC_Reset_find(&a->reset, machine, reset);
    const uint32_t third = MC_Stop_find(&a->stop, machine, stop);
    return first != MOTION_OK ? first : second != MOTION_OK ? second : third;
}

/* The bus of these axes, off, once the machine is open. The codes of motion_block_look. */
static inline uint32_t mc_bus_begin(mc_bus *bus, const mc_machine *machine, mc_bus_axis *axes,
                                    uint8_t count, uint32_t patience)
{
    uint8_t i;
    bus->On = bus->Reset = bus->was_on = bus->was_reset = false;
    bus->state = MC_BUS_OFF;
    bus->axes = axes;
    bus->count = count;
    bus->patience = patience;
    bus->resetting = 0;
    for (i = 0; i < count; i++) {
        motion_block_row block;
        motion_limits limits;
        uint32_t code = motion_block_look(machine->handle, axes[i].power.block, &block);
        if (code == MOTION_OK) code = motion_axis_limits(machine->handle, block.object, &limits);
        if (code != MOTION_OK) return code;
        axes[i].axis = block.object;
        axes[i].deceleration = limits.deceleration;
        axes[i].waited = 0;
        axes[i].cause = MC_BUS_NO_CAUSE;
        axes[i].row.setpoint = axes[i].row.offset = 0;
        axes[i].row.state = MOTION_DISABLED;
        axes[i].row.error = 0;
        axes[i].row.driven = 0;
        axes[i].is_still = true;
    }
    return MOTION_OK;
}

/* Whether an axis moves by a command, so that a Stop is to brake it. */
static inline bool mc_bus_moves(const mc_bus_axis *a)
{
    return a->row.state == MOTION_HOMING || a->row.state == MOTION_DISCRETE_MOTION
           || a->row.state == MOTION_CONTINUOUS_MOTION || a->row.state == MOTION_SYNCHRONIZED_MOTION;
}

/* Whether an axis has failed by its drive, so that its drive alone can bring it to rest. An axis whose
 * error is its own is brought to rest by the kernel, in ErrorStop. */
static inline bool mc_bus_is_lost(const mc_bus_axis *a)
{
    return a->cause != MC_BUS_NO_CAUSE && a->cause != MC_BUS_AXIS_ERROR;
}

/* Whether an axis rests, or is its drive's. */
static inline bool mc_bus_rests(const mc_bus_axis *a)
{
    if (mc_bus_is_lost(a) || a->row.state == MOTION_DISABLED || a->row.state == MOTION_STANDSTILL) return true;
    return a->row.state == MOTION_ERROR_STOP ? a->is_still : a->stop.Done;
}

/* Stops an axis as hard as it may brake, and lets the Stop go once Execute is false. */
static inline void mc_bus_stop(mc_bus_axis *a, mc_machine *machine, bool execute)
{
    motion_inputs in = mc_inputs(execute);
    motion_outputs out;
    if (!execute && !a->stop.Execute) return;
    a->stop.Execute = execute;
    in.deceleration = a->deceleration;
    if (mc_called(machine, a->stop.block, &in, &out) == MOTION_OK)
        MC_SHOW_COMMAND(&a->stop, Done, out.done);
}

/* Calls the blocks of the bus: before the cycle, in each cycle. Codes stay with the machine, and
 * mc_cycle answers them. */
static inline void mc_bus_call(mc_bus *bus, mc_machine *machine)
{
    const bool powered = bus->state == MC_BUS_SWITCHING || bus->state == MC_BUS_ON
                         || bus->state == MC_BUS_BRAKING;
    uint8_t i;
    for (i = 0; i < bus->count; i++) {
        mc_bus_axis *a = &bus->axes[i];
        const bool sound = !mc_bus_is_lost(a);
        mc_bus_stop(a, machine, bus->state == MC_BUS_BRAKING && (a->stop.Execute || mc_bus_moves(a))
                                    && a->row.state != MOTION_ERROR_STOP);
        if (bus->state == MC_BUS_RESETTING || a->reset.Execute) {
            a->reset.Execute = bus->state == MC_BUS_RESETTING;
            MC_Reset_call(&a->reset, machine);
        }
        if ((powered && sound) || a->power.Enable) {
            a->power.Enable = powered && sound;
            MC_Power_call(&a->power, machine);
        }
    }
}

/* Why an axis fails by what its drive answered in this cycle, if it does. */
static inline enum mc_bus_cause mc_bus_cause_of(const mc_bus *bus, const mc_bus_axis *a,
                                                const motion_drive_in *answer)
{
    const enum motion_drive_state state = motion_drive_state_of(answer->statusword);
    const bool enabled = state == MOTION_DRIVE_OPERATION_ENABLED;
    if (state == MOTION_DRIVE_FAULT || state == MOTION_DRIVE_FAULT_REACTION_ACTIVE)
        return MC_BUS_FAULT;
    if (a->row.state == MOTION_ERROR_STOP) {
        if (a->row.error != 102) return a->row.error == 101 ? MC_BUS_FAULT : MC_BUS_AXIS_ERROR;
        return enabled ? MC_BUS_LOST_MODE : MC_BUS_LOST_POWER;
    }
    if (bus->state != MC_BUS_SWITCHING || a->waited < bus->patience) return MC_BUS_NO_CAUSE;
    return enabled ? MC_BUS_NO_MODE : MC_BUS_NOT_READY;
}

/* The state after a cycle, by what all axes show. */
static inline enum mc_bus_state mc_bus_next(const mc_bus *bus)
{
    bool sound = true, on = true, rest = true, reset = true;
    uint8_t i;
    for (i = 0; i < bus->count; i++) {
        const mc_bus_axis *a = &bus->axes[i];
        sound = sound && a->cause == MC_BUS_NO_CAUSE;
        on = on && a->row.driven && a->row.state != MOTION_DISABLED;
        rest = rest && mc_bus_rests(a);
        reset = reset && a->reset.Done && a->row.state != MOTION_ERROR_STOP;
    }
    switch (bus->state) {
    case MC_BUS_OFF: return bus->On && !bus->was_on ? MC_BUS_SWITCHING : MC_BUS_OFF;
    case MC_BUS_SWITCHING: return !sound || !bus->On ? MC_BUS_BRAKING : on ? MC_BUS_ON : MC_BUS_SWITCHING;
    case MC_BUS_ON: return !sound || !bus->On ? MC_BUS_BRAKING : MC_BUS_ON;
    case MC_BUS_BRAKING: return !rest ? MC_BUS_BRAKING : sound ? MC_BUS_OFF : MC_BUS_FAILED;
    case MC_BUS_FAILED: return bus->Reset && !bus->was_reset ? MC_BUS_RESETTING : MC_BUS_FAILED;
    case MC_BUS_RESETTING:
        return reset ? MC_BUS_OFF : bus->resetting < bus->patience ? MC_BUS_RESETTING : MC_BUS_FAILED;
    default: return MC_BUS_FAILED;
    }
}

/* Takes a cycle that was made: looks at the axes, keeps the cause of each that fails, and goes on to
 * the next state. `answers` are those that mc_cycle was given, one for each axis of the machine. */
static inline void mc_bus_take(mc_bus *bus, const mc_machine *machine, const motion_drive_in *answers)
{
    const bool watched = bus->state == MC_BUS_SWITCHING || bus->state == MC_BUS_ON
                         || bus->state == MC_BUS_BRAKING;
    enum mc_bus_state next;
    uint8_t i;
    for (i = 0; i < bus->count; i++) {
        mc_bus_axis *a = &bus->axes[i];
        const int64_t before = a->row.setpoint - a->row.offset;
        motion_axis_look(machine->handle, a->axis, &a->row);
        a->is_still = !a->row.driven || a->row.setpoint - a->row.offset == before;
        a->waited = bus->state == MC_BUS_SWITCHING && !a->row.driven ? a->waited + 1 : 0;
        if (!watched || a->cause != MC_BUS_NO_CAUSE) continue;
        a->cause = mc_bus_cause_of(bus, a, &answers[a->axis]);
        a->answer = answers[a->axis];
    }
    next = mc_bus_next(bus);
    bus->resetting = next == MC_BUS_RESETTING ? bus->resetting + 1 : 0;
    for (i = 0; i < bus->count && bus->state == MC_BUS_RESETTING && next == MC_BUS_OFF; i++)
        bus->axes[i].cause = MC_BUS_NO_CAUSE;
    bus->state = next;
    bus->was_on = bus->On;
    bus->was_reset = bus->Reset;
}

/* The first axis that failed, or NULL: its `cause` and its drive's `answer` say why. */
static inline const mc_bus_axis *mc_bus_failed(const mc_bus *bus)
{
    uint8_t i;
    for (i = 0; i < bus->count; i++)
        if (bus->axes[i].cause != MC_BUS_NO_CAUSE) return &bus->axes[i];
    return NULL;
}

#ifdef __cplusplus
}
#endif
#endif
