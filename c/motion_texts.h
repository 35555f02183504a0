/* motion_texts.h: codes, errors and states as texts, and readings of axes and drives, over motion.h.
 *
 * Header only, for C99 and C++11 programs; no memory, no call of the library. The texts are those of
 * docs/c.md and docs/errors.md in short: a number that none has is "unknown". They stay where they are,
 * and are not to be changed or freed.
 */
#ifndef MOTION_TEXTS_H
#define MOTION_TEXTS_H

#include "motion.h"

#ifdef __cplusplus
extern "C" {
#endif

/* What a code says. */
static inline const char *motion_code_text(uint32_t code)
{
    switch (code) {
    case MOTION_OK: return "done";
    case MOTION_CLOSED: return "the handle isn't open";
    case MOTION_OPEN: return "the handle is open already";
    case MOTION_NO_MEMORY: return "out of memory, or the room of a setup is too small";
    case MOTION_REFUSED: return "the text breaks a rule: see line, letter and number";
    case MOTION_UNKNOWN: return "no block, task, axis or group has this number";
    case MOTION_LENGTH: return "an array has more or fewer items than there are axes";
    case MOTION_RANGE: return "an input is out of every range: over 10^18, no mode, or no master axis";
    case MOTION_FULL: return "the history segment has no room for an entry: swap it";
    case MOTION_OVER: return "the history segment has no cycle left: swap it";
    case MOTION_NO_CYCLE: return "no cycle was made in the history segment yet";
    case MOTION_NULL: return "a pointer is null";
    case MOTION_OTHER: return "the two handles aren't machines of one configuration";
    case MOTION_LATER: return "earlier entries were given out or forgotten: use motion_segment_text";
    case MOTION_OTHER_VERSION: return "header and library are of two versions: take both from one release";
    default: return "unknown";
    }
}

/* What an ErrorID of a block says, and the error of an axis or a group in its row. */
static inline const char *motion_error_text(uint16_t error)
{
    switch (error) {
    case 0: return "no error";
    case 1: return "an axis is Disabled: call Power with Enable true and wait for its Status";
    case 2: return "an axis is in ErrorStop: Reset it";
    case 3: return "an axis is in Stopping: let its Stop go and wait until it rests";
    case 4: return "an axis is in Homing: wait a cycle";
    case 5: return "the axis's group holds it: GroupDisable, or move it by its group";
    case 6: return "the velocity isn't in its range";
    case 7: return "the acceleration isn't in its range";
    case 8: return "the deceleration isn't in its range";
    case 9: return "the jerk isn't 0";
    case 10: return "a target lies beyond the limits";
    case 11: return "eight commands wait already: wait until one has ended";
    case 12: return "an axis isn't in Standstill: Halt it and wait until it is Done";
    case 13: return "the gear's numerator or denominator is out of range";
    case 14: return "there is no cam table of this number";
    case 15: return "the axis is its own master";
    case 16: return "the group's state isn't one from which the block leads";
    case 17: return "a line takes no blending mode";
    case 18: return "there are no circles";
    case 19: return "there is no gear or cam to leave";
    case 101: return "the drive is in Fault: look at the drive, then Reset";
    case 102: return "the drive left Operation enabled or its mode: look at the drive, then Reset";
    case 103: return "the command would have run past a limit: Reset, and move back";
    case 104: return "the cam asks for a step that isn't safe: take more points or a slower master";
    case 105: return "the drive was enabled outside the limits: move the axis back by hand";
    case 106: return "the relative target lies beyond the limits";
    default: return "unknown";
    }
}

/* The state of an axis in PLCopen's words, as a trace has it. */
static inline const char *motion_axis_state_text(uint32_t state)
{
    switch (state) {
    case MOTION_DISABLED: return "Disabled";
    case MOTION_STANDSTILL: return "Standstill";
    case MOTION_HOMING: return "Homing";
    case MOTION_STOPPING: return "Stopping";
    case MOTION_DISCRETE_MOTION: return "DiscreteMotion";
    case MOTION_CONTINUOUS_MOTION: return "ContinuousMotion";
    case MOTION_SYNCHRONIZED_MOTION: return "SynchronizedMotion";
    case MOTION_ERROR_STOP: return "ErrorStop";
    default: return "unknown";
    }
}

/* The state of a group in PLCopen's words, as a trace has it. */
static inline const char *motion_group_state_text(uint32_t state)
{
    switch (state) {
    case MOTION_GROUP_DISABLED: return "GroupDisabled";
    case MOTION_GROUP_STANDBY: return "GroupStandby";
    case MOTION_GROUP_MOVING: return "GroupMoving";
    case MOTION_GROUP_HOMING: return "GroupHoming";
    case MOTION_GROUP_STOPPING: return "GroupStopping";
    case MOTION_GROUP_ERROR_STOP: return "GroupErrorStop";
    default: return "unknown";
    }
}

/* The states of a drive (CiA 402, IEC 61800-7-201). */
enum motion_drive_state {
    MOTION_DRIVE_NOT_READY = 0,
    MOTION_DRIVE_SWITCH_ON_DISABLED = 1,
    MOTION_DRIVE_READY_TO_SWITCH_ON = 2,
    MOTION_DRIVE_SWITCHED_ON = 3,
    MOTION_DRIVE_OPERATION_ENABLED = 4,
    MOTION_DRIVE_QUICK_STOP_ACTIVE = 5,
    MOTION_DRIVE_FAULT_REACTION_ACTIVE = 6,
    MOTION_DRIVE_FAULT = 7,
    MOTION_DRIVE_NONE = 8 /* the statusword fits no state */
};

/* The state in a statusword (6041h), as the kernel reads it. */
static inline enum motion_drive_state motion_drive_state_of(uint16_t statusword)
{
    switch (statusword & 0x4f) {
    case 0x00: return MOTION_DRIVE_NOT_READY;
    case 0x40: return MOTION_DRIVE_SWITCH_ON_DISABLED;
    case 0x0f: return MOTION_DRIVE_FAULT_REACTION_ACTIVE;
    case 0x08: return MOTION_DRIVE_FAULT;
    default: break;
    }
    switch (statusword & 0x6f) {
    case 0x21: return MOTION_DRIVE_READY_TO_SWITCH_ON;
    case 0x23: return MOTION_DRIVE_SWITCHED_ON;
    case 0x27: return MOTION_DRIVE_OPERATION_ENABLED;
    case 0x07: return MOTION_DRIVE_QUICK_STOP_ACTIVE;
    default: return MOTION_DRIVE_NONE;
    }
}

/* What a Power with Enable true waits for, by what the drive answers: so a drive that isn't ready is
 * known from one that is on and doesn't show mode 8, for which the Power waits without an error. */
static inline const char *motion_power_text(const motion_drive_in *answer)
{
    switch (motion_drive_state_of(answer->statusword)) {
    case MOTION_DRIVE_NOT_READY: return "the drive isn't ready: it waits for its own start-up";
    case MOTION_DRIVE_SWITCH_ON_DISABLED: return "the drive is in Switch on disabled";
    case MOTION_DRIVE_READY_TO_SWITCH_ON: return "the drive is ready: it waits for its power stage";
    case MOTION_DRIVE_SWITCHED_ON: return "the drive is switched on: it waits to be enabled";
    case MOTION_DRIVE_OPERATION_ENABLED:
        return answer->mode_display == 8
                   ? "the drive is on"
                   : "the drive is on, but doesn't show mode 8 in 6061h: look at its parameters";
    case MOTION_DRIVE_QUICK_STOP_ACTIVE: return "the drive makes a quick stop";
    case MOTION_DRIVE_FAULT_REACTION_ACTIVE: return "the drive reacts to a fault";
    case MOTION_DRIVE_FAULT: return "the drive has a fault: look at it, then Reset";
    default: return "the statusword fits no state of CiA 402: look at the PDO mapping";
    }
}

/* Readings of an axis, by arithmetic on its rows and on what its drive answers. All are in internal
 * units and cycles. */
typedef struct motion_reading {
    int64_t increment;       /* internal units of an increment of its drive; of "0.001" in a configuration 1000000 */
    int64_t position;        /* the setpoint of the last cycle */
    int64_t velocity;        /* by how much the setpoint changed in it; a Home is no change */
    int64_t acceleration;    /* by how much the velocity changed in it */
    int64_t reported;        /* the position that the drive answered in it */
    int64_t following_error; /* the setpoint that the drive was given before, less that position */
    int64_t unshifted;       /* of the functions below: the setpoint without the offset, */
    uint32_t cycles;         /* and how many driven cycles came one after another, at most 2 */
} motion_reading;

static inline void motion_reading_begin(motion_reading *r, int64_t increment)
{
    r->increment = increment;
    r->position = r->velocity = r->acceleration = r->reported = r->following_error = r->unshifted = 0;
    r->cycles = 0;
}

/* Takes a cycle: the row that motion_axis_look shows after it, and the answer that motion_cycle was
 * given. Call it after each cycle. Velocity and following error are 0 unless the axis was driven in
 * this cycle and in the one before, the acceleration unless in the one before that too. A drive
 * that is at each target in the next cycle has no following error. */
static inline void motion_reading_take(motion_reading *r, const motion_axis_row *row,
                                       const motion_drive_in *answer)
{
    const int64_t unshifted = row->setpoint - row->offset;
    const int64_t actual = (int64_t)answer->actual * r->increment;
    const uint32_t before = row->driven ? r->cycles : 0;
    const int64_t velocity = before >= 1 ? unshifted - r->unshifted : 0;
    r->acceleration = before >= 2 ? velocity - r->velocity : 0;
    r->velocity = velocity;
    r->following_error = before >= 1 ? r->unshifted - actual : 0;
    r->position = row->setpoint;
    r->reported = actual + row->offset;
    r->unshifted = unshifted;
    r->cycles = !row->driven ? 0 : before < 2 ? before + 1 : 2;
}

#ifdef __cplusplus
}
#endif
#endif
