/* Random limits, commands and retargeting: a plain second opinion on the limits of libotg.a.
 *
 *   cc -O2 -I c c/otg_random.c crates/otg/out/libotg.a -o otg_random && ./otg_random 10000000
 *
 * It prints what it ran, and answers 1 where a setpoint broke a limit.
 */
#include <inttypes.h>
#include <stdio.h>
#include <stdlib.h>

#include "otg.h"

static uint64_t state = 88172645463325252u;

static int64_t between(int64_t low, int64_t high)
{
    state ^= state << 13;
    state ^= state >> 7;
    state ^= state << 17;
    return low + (int64_t)(state % (uint64_t)(high - low + 1));
}

static int64_t size(int64_t z) { return z < 0 ? -z : z; }
static int64_t lesser(int64_t a, int64_t b) { return a < b ? a : b; }
static int64_t greater(int64_t a, int64_t b) { return a < b ? b : a; }

static uint32_t command(Otg *otg)
{
    uint64_t v = (uint64_t)between(1, otg->vmax), a = (uint64_t)between(1, otg->amax);
    uint64_t d = (uint64_t)between(1, otg->dmax), j = (uint64_t)between(2, otg->jmax);
    switch (between(0, 5)) {
    case 0:
    case 1:
    case 2:
        return otg_move(otg, between(otg->lo - 5, otg->hi + 5), v, a, d, j);
    case 3:
    case 4:
        return otg_velocity(otg, between(-otg->vmax, otg->vmax), a, d, j);
    default:
        return otg_halt(otg, d, j);
    }
}

/* Whether a step kept every limit, and made only the one setpoint. */
static int keeps(const Otg *was, const Otg *is)
{
    int64_t last = was->before - was->first, old = was->current - was->before;
    int64_t step = is->current - was->current;
    int64_t least = greater(old - was->dmax, lesser(old - was->amax, 0));
    int64_t most = lesser(old + was->dmax, greater(old + was->amax, 0));
    return was->lo <= is->current && is->current <= was->hi && size(step) <= was->vmax &&
           least <= step && step <= most && size((step - old) - (old - last)) <= was->jmax &&
           !(old > 0 && step < 0) && !(old < 0 && step > 0) && is->first == was->before &&
           is->before == was->current;
}

int main(int argc, char **argv)
{
    int64_t cycles = argc > 1 ? atoll(argv[1]) : 1000000, done = 0, commands = 0, broken = 0;
    while (done < cycles) {
        int64_t wide = between(0, 1);
        Otg otg = {.lo = -between(0, wide ? 100000 : 40),
                   .hi = between(0, wide ? 100000 : 40),
                   .vmax = between(1, wide ? 500 : 8),
                   .amax = between(1, wide ? 40 : 5),
                   .jmax = between(2, wide ? 20 : 5)};
        otg.dmax = otg.amax + between(0, wide ? 40 : 4);
        if (otg_open(&otg, between(otg.lo, otg.hi)) != OTG_OK)
            return 1;
        for (int cycle = 0; cycle < 3000 && done < cycles; cycle++, done++) {
            if (between(0, 30) == 0) {
                commands++;
                if (command(&otg) != OTG_OK)
                    return 1;
            }
            Otg was = otg;
            if (otg_step(&otg) != OTG_OK)
                return 1;
            broken += !keeps(&was, &otg);
        }
    }
    printf("%" PRId64 " cycles, %" PRId64 " commands, %" PRId64 " broken limits\n", done, commands,
           broken);
    return broken != 0;
}
