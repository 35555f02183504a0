// motion.hpp: PLCopen's function blocks as classes, over motion_blocks.h, for C++17 programs.
//
//     mc::Machine machine;
//     mc::Setup setup{machine};
//     setup.task("main");
//     mc::Power power{setup, "PX", "X"};
//     mc::MoveAbsolute move{setup, "MX", "X"};
//     if (machine.open(config, setup) != MOTION_OK) ..
//
//     in a cycle:
//     power.Enable = true;
//     power.call();
//     move.Execute = power.Status;
//     move.Position = 12.5_u;
//     move.call();
//
// A class has the inputs and outputs of its struct in motion_blocks.h, as PLCopen names them, and its
// units; `call()` takes the inputs and writes the outputs. The machine closes its handle at its end.
// Machines and blocks are neither copied nor moved, and a block doesn't outlive its machine. No call of
// a loop takes memory or throws; `trace` alone makes a string. What motion.h asks of its caller holds.
#ifndef MOTION_HPP
#define MOTION_HPP

#include "motion_blocks.h"

#include <array>
#include <cstddef>
#include <cstdint>
#include <optional>
#include <string>
#include <string_view>

namespace mc {

namespace detail {

// The billionths in a decimal number that is written in digits with at most nine after its point,
// and is at most 10^9; else -1.
constexpr mc_quantity billionths(const char *digits, std::size_t len)
{
    mc_quantity value = 0;
    int decimals = -1;
    for (std::size_t i = 0; i < len; i++) {
        if (digits[i] == '\'') continue;
        if (digits[i] == '.' && decimals < 0) {
            decimals = 0;
            continue;
        }
        if (digits[i] < '0' || digits[i] > '9' || decimals == 9) return -1;
        value = value * 10 + (digits[i] - '0');
        if (value > INT64_C(1000000000000000000)) return -1;
        if (decimals >= 0) decimals++;
    }
    for (int i = decimals < 0 ? 0 : decimals; i < 9; i++) {
        value *= 10;
        if (value > INT64_C(1000000000000000000)) return -1;
    }
    return value;
}

} // namespace detail

inline namespace literals {

// A quantity in units, exact and made by the compiler: 12.5_u, -3_u. With more than nine digits after
// the point, an exponent or a size above 10^9 it doesn't compile.
template <char... Digits>
constexpr mc_quantity operator""_u()
{
    constexpr char digits[] = {Digits...};
    constexpr mc_quantity value = detail::billionths(digits, sizeof digits);
    static_assert(value >= 0, "a quantity has at most nine digits after its point, and at most 10^9");
    return value;
}

} // namespace literals

class Setup;

// A machine and its handle, which is closed at the end.
class Machine {
public:
    Machine() = default;
    Machine(const Machine &) = delete;
    Machine &operator=(const Machine &) = delete;
    ~Machine() { motion_close(&handle_); }

    // Opens the machine by a configuration, with the tasks and blocks of a setup: the codes of mc_open.
    uint32_t open(std::string_view config, const Setup &setup);

    // Opens the machine by the machine part of a bench, whose rates count cycles; its blocks are then
    // found by their names. The codes of motion_open_text.
    uint32_t open_bench(std::string_view text)
    {
        uint32_t code = motion_same_version();
        if (code == MOTION_OK) code = motion_open(&handle_, bytes(text), text.size(), &why_);
        if (code == MOTION_OK) mc_begin(&blocks_, &handle_, MC_CYCLES);
        return code;
    }

    // mc_cycle: makes a cycle where each call of a block was made.
    template <std::size_t Axes>
    uint32_t cycle(const std::array<motion_drive_in, Axes> &answers,
                   std::array<motion_drive_out, Axes> &given)
    {
        return mc_cycle(&blocks_, answers.data(), Axes, given.data(), Axes);
    }

    // Ends a task by its number.
    uint32_t end(uint8_t task) { return motion_end(&handle_, task); }

    // The trace of all since the machine was opened; empty where motion_trace answers a code. Not for
    // a loop: it takes memory.
    template <std::size_t Axes>
    std::string trace(const std::array<motion_drive_in, Axes> &last)
    {
        std::string text;
        if (motion_trace(&handle_, last.data(), Axes) != MOTION_OK) return text;
        std::array<uint8_t, 65536> part;
        while (const uint64_t count = motion_trace_text(&handle_, text.size(), part.data(), part.size()))
            text.append(reinterpret_cast<const char *>(part.data()), static_cast<std::size_t>(count));
        return text;
    }

    // For how many entries more, and for how many cycles, there is room: motion_room_left and
    // motion_cycles_left.
    uint64_t room_left() { return motion_room_left(&handle_); }
    uint32_t cycles_left() { return motion_cycles_left(&handle_); }

    // motion_forget: empties the history of a machine that wants no trace, which goes on.
    uint32_t forget() { return motion_forget(&handle_); }

    // The number of an axis or a group; MOTION_NO_NUMBER where there is none of the name.
    uint32_t axis(std::string_view name) { return motion_axis(&handle_, bytes(name), name.size()); }
    uint32_t group(std::string_view name) { return motion_group(&handle_, bytes(name), name.size()); }

    // How many axes, groups, tasks and blocks there are; 0 where the machine isn't open.
    uint32_t axis_count() { return motion_axes(&handle_); }
    uint32_t group_count() { return motion_groups(&handle_); }
    uint32_t task_count() { return motion_tasks(&handle_); }
    uint32_t block_count() { return motion_blocks(&handle_); }

    // The microseconds of a cycle; 0 of a bench's machine, and where it isn't open.
    uint32_t cycle_us() { return motion_cycle_us(&handle_); }

    // The limits of an axis, in the machine's own units; none where there is no axis of this number.
    std::optional<motion_limits> limits(uint8_t axis)
    {
        motion_limits shown{};
        if (motion_axis_limits(&handle_, axis, &shown) != MOTION_OK) return std::nullopt;
        return shown;
    }

    // The name of an axis or a group by its number, as a string of C; empty where there is none.
    motion_name axis_name(uint8_t axis)
    {
        motion_name name{};
        motion_axis_name(&handle_, axis, &name);
        return name;
    }
    motion_name group_name(uint8_t group)
    {
        motion_name name{};
        motion_group_name(&handle_, group, &name);
        return name;
    }

    // The first code but MOTION_OK of a block's call or a cycle.
    uint32_t code() const { return blocks_.code; }
    // Where a text was rejected.
    const motion_refusal &why() const { return why_; }
    // The handle, for the other calls of motion.h.
    motion *handle() { return &handle_; }
    // The machine as the structs of motion_blocks.h take it.
    mc_machine *blocks() { return &blocks_; }

private:
    static const uint8_t *bytes(std::string_view text)
    {
        return reinterpret_cast<const uint8_t *>(text.data());
    }

    motion handle_ = MOTION_NONE;
    mc_machine blocks_ = {&handle_, MC_CYCLES, MOTION_CLOSED};
    motion_refusal why_ = {0, 0, 0};
};

// The tasks and blocks of a machine, added one by one before it is opened. Its lines have room for
// 256 blocks with the longest names.
class Setup {
public:
    explicit Setup(Machine &machine) : machine_(machine)
    {
        mc_setup_begin(&setup_, room_.data(), room_.size());
    }
    Setup(const Setup &) = delete;
    Setup &operator=(const Setup &) = delete;

    // Begins a task; the blocks that are added from here on are of it.
    void task(const char *name) { mc_setup_task(&setup_, name); }

    Machine &machine() { return machine_; }
    mc_setup *lines() { return &setup_; }
    const mc_setup *lines() const { return &setup_; }

private:
    Machine &machine_;
    mc_setup setup_;
    std::array<uint8_t, 16384> room_;
};

inline uint32_t Machine::open(std::string_view config, const Setup &setup)
{
    return mc_open(&blocks_, &handle_, bytes(config), config.size(), setup.lines(), &why_);
}

// A block: the fields of its struct, and its call.
template <class Fields, auto Add, auto Find, auto Call>
class Block : public Fields {
public:
    // A block that is added on an axis or a group, to the last task that was added.
    Block(Setup &setup, const char *name, const char *object)
        : Fields{}, machine_(setup.machine().blocks())
    {
        Add(this, setup.lines(), name, object);
    }

    // A block of an open machine by its name. Where there is none its calls answer MOTION_UNKNOWN.
    Block(Machine &machine, const char *name) : Fields{}, machine_(machine.blocks())
    {
        Find(this, machine_, name);
    }

    Block(const Block &) = delete;
    Block &operator=(const Block &) = delete;

    // Takes the inputs and writes the outputs; the code of motion_call, and where that isn't MOTION_OK
    // the outputs are as they were.
    uint32_t call() { return Call(this, machine_); }

private:
    mc_machine *machine_;
};

#define MC_CLASS(kind) \
    using kind = Block<MC_##kind, MC_##kind##_add, MC_##kind##_find, MC_##kind##_call>
MC_CLASS(Power);
MC_CLASS(Reset);
MC_CLASS(Home);
MC_CLASS(Stop);
MC_CLASS(Halt);
MC_CLASS(MoveAbsolute);
MC_CLASS(MoveRelative);
MC_CLASS(MoveAdditive);
MC_CLASS(MoveVelocity);
MC_CLASS(GearIn);
MC_CLASS(GearOut);
MC_CLASS(CamIn);
MC_CLASS(CamOut);
MC_CLASS(GroupEnable);
MC_CLASS(GroupDisable);
MC_CLASS(GroupReset);
MC_CLASS(GroupStop);
MC_CLASS(GroupHalt);
MC_CLASS(MoveLinearAbsolute);
#undef MC_CLASS

} // namespace mc

#endif
