/* A trajectory generator with limited jerk: whole numbers, one setpoint a cycle, no memory of its
 * own, retargeted in any cycle. From an open generator no sequence of calls leaves the limits.
 *
 * All is in internal units, and in units per cycle, per cycle^2 and per cycle^3. docs/otg.md says
 * what is proved, and how to convert.
 */
#ifndef OTG_H
#define OTG_H

#include <stdint.h>

#ifdef __cplusplus
extern "C" {
#endif

/* What a call answers. */
#define OTG_OK 0u      /* what was asked was done */
#define OTG_INVALID 1u /* the generator isn't open, or a number isn't in its range: nothing changed */

/* A generator. Fill lo to jmax, then call otg_open; from then on only the library changes it. The
 * caller promises that a pointer to it isn't null, that one thread at a time uses it, and that it
 * writes none of it itself: a changed jmax, say, changes the limits of the next step. */
typedef struct {
    int64_t lo;      /* the least setpoint, at least -10^15 */
    int64_t hi;      /* the greatest setpoint, from lo to 10^15 */
    int64_t vmax;    /* the greatest step, 1 to 10^10 */
    int64_t amax;    /* the greatest gain of speed per cycle, 1 to 10^10 */
    int64_t dmax;    /* the greatest loss of speed per cycle, amax to 10^10 */
    int64_t jmax;    /* the greatest change of such a gain or loss, 2 to 10^10 */
    int64_t first;   /* the setpoint two steps ago */
    int64_t before;  /* the setpoint one step ago */
    int64_t current; /* the setpoint of this cycle */
    int64_t target;  /* the target of a move, or the wanted velocity */
    uint64_t v;      /* the command's own rates */
    uint64_t a;
    uint64_t d;
    uint64_t j;
    uint32_t kind; /* 0 a halt, 1 a move, 2 a velocity */
} Otg;

/* Opens a generator at rest at a setpoint within its limits, with a halt. */
uint32_t otg_open(Otg *otg, int64_t setpoint);

/* 1 where the generator is open, else 0. */
uint32_t otg_is_open(const Otg *otg);

/* Commands, in any cycle. The rates are 1 to 10^10, and j at least 2. A move whose target lies
 * outside the limits goes as far as they allow. */
uint32_t otg_move(Otg *otg, int64_t target, uint64_t v, uint64_t a, uint64_t d, uint64_t j);
uint32_t otg_velocity(Otg *otg, int64_t velocity, uint64_t a, uint64_t d, uint64_t j);
uint32_t otg_halt(Otg *otg, uint64_t d, uint64_t j);

/* Goes through a cycle: the next setpoint is otg->current. */
uint32_t otg_step(Otg *otg);

/* Whether the generator stands: the last three setpoints are equal. */
static inline int otg_rests(const Otg *otg)
{
    return otg->first == otg->before && otg->before == otg->current;
}

/* Whether a move has arrived: it stands at its target. */
static inline int otg_done(const Otg *otg)
{
    return otg_rests(otg) && otg->current == otg->target;
}

/* A velocity, acceleration or jerk per second, second^2 or second^3, in units per cycle, cycle^2 or
 * cycle^3, rounded toward zero; `units` are those of one of the caller's units, and a cycle has
 * `cycle_us` microseconds. otg_velocity_of(500, 1e6, 1000) is 500 mm/s in nm per ms. */
static inline int64_t otg_velocity_of(double rate, double units, double cycle_us)
{
    return (int64_t)(rate * units * cycle_us / 1e6);
}

static inline int64_t otg_acceleration_of(double rate, double units, double cycle_us)
{
    return (int64_t)(rate * units * cycle_us / 1e6 * cycle_us / 1e6);
}

static inline int64_t otg_jerk_of(double rate, double units, double cycle_us)
{
    return (int64_t)(rate * units * cycle_us / 1e6 * cycle_us / 1e6 * cycle_us / 1e6);
}

#ifdef __cplusplus
}
#endif

#endif
