/* A move with limited jerk, retargeted on its way: one line a cycle, as
 * cycle,position,step,change of step,jerk in internal units.
 *
 *   cc -O2 -I c c/otg_move.c crates/otg/out/libotg.a -o otg_move && ./otg_move
 */
#include <inttypes.h>
#include <stdio.h>

#include "otg.h"

int main(void)
{
    /* 1 unit is 1 nm and a cycle 1 ms: 500 mm/s, 2,000 mm/s^2 and 20,000 mm/s^3 within 1 m */
    const double nm = 1e6, us = 1000;
    Otg otg = {.lo = -1000000000,
               .hi = 1000000000,
               .vmax = otg_velocity_of(500, nm, us),
               .amax = otg_acceleration_of(2000, nm, us),
               .dmax = otg_acceleration_of(2000, nm, us),
               .jmax = otg_jerk_of(20000, nm, us)};
    if (otg_open(&otg, 0) != OTG_OK)
        return 1;
    if (otg_move(&otg, 200000000, 500000, 2000, 2000, 20) != OTG_OK)
        return 1;
    puts("cycle,position,step,change,jerk");
    for (int cycle = 1; !otg_done(&otg); cycle++) {
        if (cycle == 300 && otg_move(&otg, 50000000, 400000, 2000, 2000, 20) != OTG_OK)
            return 1;
        int64_t change = otg.current - 2 * otg.before + otg.first;
        if (otg_step(&otg) != OTG_OK)
            return 1;
        int64_t step = otg.current - otg.before;
        int64_t next = step - (otg.before - otg.first);
        printf("%d,%" PRId64 ",%" PRId64 ",%" PRId64 ",%" PRId64 "\n", cycle, otg.current, step,
               next, next - change);
    }
    return 0;
}
