// The pick-and-place line of blocks.c in C++, with the classes of motion.hpp: the same states, and the
// same trace. `blocks CONFIG` writes the trace to the output.
#include "bench_drive.h"
#include "motion.hpp"

#include <cstdio>
#include <fstream>
#include <iostream>
#include <iterator>

using namespace mc::literals;

namespace {

class Line {
public:
    Line()
    {
        bench_drive_begin(&drives[0], 25000, 1);
        bench_drive_begin(&drives[1], 0, 0);
        to_belt.Position = 40_u;
        set_rates(to_belt, 800_u, 4000_u, 3000_u);
        to_table.Position = 220_u;
        set_rates(to_table, 500_u, 2000_u, 2000_u);
        down.Position = 60_u;
        set_rates(down, 200_u, 2000_u, 1500_u);
        set_rates(up, 300_u, 2500_u, 2500_u);
    }

    uint32_t open(std::string_view config) { return machine.open(config, setup); }

    // One cycle: what the drives answer, the scan, the kernel, what the drives are given.
    uint32_t cycle()
    {
        std::array<motion_drive_out, 2> given{};
        const auto before = answers();
        scan();
        if (finished) return machine.code() == MOTION_OK ? machine.end(0) : machine.code();
        const uint32_t code = machine.cycle(before, given);
        // a real loop quick-stops its drives on any code but MOTION_OK: docs/c.md
        for (std::size_t i = 0; i < drives.size() && code == MOTION_OK; i++)
            bench_drive_step(&drives[i], &given[i]);
        return code;
    }

    std::string trace() { return machine.trace(answers()); }

    bool finished = false;

private:
    static void set_rates(mc::MoveAbsolute &move, mc_quantity velocity, mc_quantity acceleration,
                          mc_quantity deceleration)
    {
        move.Velocity = velocity;
        move.Acceleration = acceleration;
        move.Deceleration = deceleration;
    }

    std::array<motion_drive_in, 2> answers() const
    {
        return {bench_drive_answer(&drives[0]), bench_drive_answer(&drives[1])};
    }

    // A call with Execute true, and, where that shows Done, one with Execute false after it.
    static bool is_moved(mc::MoveAbsolute &move)
    {
        move.Execute = true;
        move.call();
        if (!move.Done) return false;
        move.Execute = false;
        move.call();
        return true;
    }

    void scan()
    {
        switch (state) {
        case 0: // both drives are switched on
            power_x.Enable = power_z.Enable = true;
            power_x.call();
            power_z.call();
            if (power_x.Status && power_z.Status) state = 1;
            break;
        case 1: // where the axes stand now is their origin
            home_x.Execute = home_z.Execute = true;
            home_x.call();
            home_z.call();
            if (home_x.Done && home_z.Done) state = 2;
            break;
        case 2:
            if (is_moved(to_belt)) state = 3;
            break;
        case 3:
            if (is_moved(down)) state = 4;
            break;
        case 4: // the part is picked, or put down where the carriage is over the table
            if (is_moved(up)) state = to_table.Done ? 6 : 5;
            break;
        case 5:
            to_table.Execute = true;
            to_table.call();
            if (to_table.Done) state = 3;
            break;
        case 6: // the next place is 60 mm further on
            to_table.Execute = false;
            to_table.call();
            to_table.Position += 60_u;
            finished = ++parts == 3;
            state = 2;
            break;
        }
    }

    // A task is begun before its blocks, which the members below add in their order.
    static mc::Setup &with_task(mc::Setup &setup)
    {
        setup.task("handling");
        return setup;
    }

    mc::Machine machine;
    mc::Setup setup{machine};
    mc::Power power_x{with_task(setup), "power_x", "X"}, power_z{setup, "power_z", "Z"};
    mc::Home home_x{setup, "home_x", "X"}, home_z{setup, "home_z", "Z"};
    mc::MoveAbsolute to_belt{setup, "to_belt", "X"}, to_table{setup, "to_table", "X"};
    mc::MoveAbsolute down{setup, "down", "Z"}, up{setup, "up", "Z"};
    std::array<bench_drive, 2> drives;
    int state = 0;
    int parts = 0;
};

} // namespace

int main(int argc, char **argv)
{
    static_assert(12.5_u == MC_THOUSANDTHS(12500) && 0.000000001_u == 1 && 1'000_u == MC_UNITS(1000));
    std::ifstream file(argc > 1 ? argv[1] : "");
    const std::string config{std::istreambuf_iterator<char>(file), {}};
    static Line line;
    uint32_t code = line.open(config);
    while (code == MOTION_OK && !line.finished) code = line.cycle();
    if (code == MOTION_OK) std::cout << line.trace();
    std::cerr << "code " << code << '\n';
    return code == MOTION_OK ? 0 : 1;
}
