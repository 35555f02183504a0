// A test of motion.hpp: all_blocks.bench with every class of the header. `all_blocks BENCH` writes the
// trace and the calls as all_blocks.c does.
#include "bench_drive.h"
#include "motion.hpp"

#include <cstdio>
#include <fstream>
#include <iostream>
#include <iterator>

namespace {

constexpr std::size_t AXES = 4;

mc::Machine machine;
std::array<bench_drive, AXES> drives;

std::array<motion_drive_in, AXES> answers()
{
    std::array<motion_drive_in, AXES> all;
    for (std::size_t i = 0; i < AXES; i++) all[i] = bench_drive_answer(&drives[i]);
    return all;
}

template <class Fields, auto Add, auto Find, auto Call>
void call_block(mc::Block<Fields, Add, Find, Call> &block, const Fields &inputs)
{
    static_cast<Fields &>(block) = inputs;
    block.call();
}

} // namespace

#define DECLARE_BLOCK(name, kind, shape) static mc::kind name{machine, #name};
#define FIND_BLOCK(name, kind, shape)
#define CALL_BLOCK(kind, name, f) call_block(name, f)
#include "all_blocks.h"

static void cycles(int count)
{
    std::array<motion_drive_out, AXES> given;
    while (count-- > 0) {
        if (machine.cycle(answers(), given) != MOTION_OK) return;
        for (std::size_t i = 0; i < AXES; i++) bench_drive_step(&drives[i], &given[i]);
    }
}

static void end()
{
    if (machine.end(0) != MOTION_OK) std::cerr << "no end\n";
}

// What a machine answers that isn't open, or whose text is none.
static void codes()
{
    mc::Machine other;
    mc::Halt none{other, "NONE"};
    if (none.call() != MOTION_CLOSED || other.code() != MOTION_CLOSED) std::cerr << "it isn't closed\n";
    if (other.open_bench("motion-bench 7\n") != MOTION_REFUSED || other.why().line != 1)
        std::cerr << "it isn't rejected\n";
    mc::Setup setup{other};
    if (other.open("", setup) != MOTION_REFUSED || other.why().letter != 'C')
        std::cerr << "the configuration isn't rejected\n";
    if (machine.axis("Y") != 3 || machine.group("XY") != 0 || machine.axis("NONE") != MOTION_NO_NUMBER)
        std::cerr << "axes or groups have other numbers\n";
    if (other.axis_count() != 0 || other.limits(0) || *other.axis_name(0).text || other.forget() != MOTION_CLOSED)
        std::cerr << "a machine that isn't open shows something\n";
}

// What a machine shows of itself.
static void readings()
{
    if (machine.axis_count() != AXES || machine.group_count() != 1 || machine.task_count() != 1 ||
        machine.block_count() == 0)
        std::cerr << "the counts are wrong\n";
    if (std::string_view{machine.axis_name(3).text} != "Y" ||
        std::string_view{machine.group_name(0).text} != "XY" || *machine.axis_name(AXES).text)
        std::cerr << "the names are wrong\n";
    if (!machine.limits(3) || machine.limits(AXES) || machine.limits(3)->velocity <= 0)
        std::cerr << "the limits are wrong\n";
    if (machine.cycle_us() != 0) std::cerr << "a bench's machine has a cycle\n";
}

// Another machine forgets its history: it has room for as many entries as at first.
static void forgets(std::string_view text)
{
    mc::Machine other;
    if (other.open_bench(text) != MOTION_OK) std::cerr << "it isn't open\n";
    const uint64_t room = other.room_left();
    if (other.end(0) != MOTION_OK || other.room_left() != room - 1) std::cerr << "an end isn't an entry\n";
    if (other.forget() != MOTION_OK || other.room_left() != room) std::cerr << "it doesn't forget\n";
    if (other.cycles_left() == 0) std::cerr << "no cycle is left\n";
}

int main(int argc, char **argv)
{
    std::ifstream file(argc > 1 ? argv[1] : "");
    const std::string text{std::istreambuf_iterator<char>(file), {}};
    for (bench_drive &drive : drives) bench_drive_begin(&drive, 0, 0);
    const std::string setup = text.substr(0, text.find("\ngo\n") + 1);
    if (machine.open_bench(setup) != MOTION_OK) return 3;
    go();
    codes();
    readings();
    forgets(setup);
    std::cout << machine.trace(answers());
    return 0;
}
