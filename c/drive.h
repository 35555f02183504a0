/* A CiA 402 drive in C, which stands in for a real one: it follows its controlword, and reaches its
 * target one cycle late. */
#ifndef DRIVE_H
#define DRIVE_H

#include "motion.h"

enum drive_state {
    DRIVE_DISABLED,    /* Switch on disabled */
    DRIVE_READY,       /* Ready to switch on */
    DRIVE_SWITCHED_ON,
    DRIVE_ENABLED,     /* Operation enabled */
    DRIVE_FAULT
};

typedef struct drive {
    enum drive_state state;
    int32_t actual; /* increments */
    int32_t target; /* increments: reached in the next cycle */
    int8_t mode;
} drive;

/* What the drive answers: its position, its statusword (6041h) and its mode. */
static inline motion_drive_in drive_answer(const drive *d)
{
    static const uint16_t words[] = { 0x0240, 0x0231, 0x0233, 0x0237, 0x0218 };
    motion_drive_in answer;
    answer.actual = d->actual;
    answer.statusword = words[d->state];
    answer.mode_display = d->mode;
    return answer;
}

/* The state that a controlword (6040h) leads to. */
static inline enum drive_state drive_next(enum drive_state state, uint16_t word)
{
    if (state == DRIVE_FAULT) return word & 0x80 ? DRIVE_DISABLED : DRIVE_FAULT;
    if ((word & 0x02) == 0) return DRIVE_DISABLED; /* disable voltage */
    if ((word & 0x07) == 0x06) return DRIVE_READY; /* shutdown */
    if (state == DRIVE_READY && (word & 0x07) == 0x07) return DRIVE_SWITCHED_ON;
    if (state == DRIVE_SWITCHED_ON && (word & 0x0f) == 0x0f) return DRIVE_ENABLED;
    if (state == DRIVE_ENABLED && (word & 0x0f) == 0x07) return DRIVE_SWITCHED_ON;
    return state;
}

/* One cycle of the drive with what it is given. */
static inline void drive_step(drive *d, const motion_drive_out *given)
{
    d->actual = d->target;
    d->mode = given->mode;
    d->state = drive_next(d->state, given->controlword);
    if (d->state == DRIVE_ENABLED) d->target = given->target;
}

#endif
