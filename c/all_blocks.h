/* The blocks and the events of all_blocks.bench, for all_blocks.c and all_blocks.cpp: each line of the
 * bench is one here, with the inputs of the structs in place of its keys. Each call writes the block,
 * the letters of its outputs and its ErrorID to the error output.
 *
 * What the two programs have each in its own way: DECLARE_BLOCK and FIND_BLOCK(name, kind, shape), and
 * CALL_BLOCK(kind, name, f), which gives the block the inputs in f and calls it. */
#ifndef ALL_BLOCKS_H
#define ALL_BLOCKS_H

#include "motion_blocks.h"

#include <stdio.h>
#include <string.h>

/* name, kind, and how its outputs are named */
#define ALL_BLOCKS(X) \
    X(PA, Power, POWER) \
    X(PB, Power, POWER) \
    X(PX, Power, POWER) \
    X(PY, Power, POWER) \
    X(HA, Home, COMMAND) \
    X(MA, MoveAbsolute, COMMAND) \
    X(RA, MoveRelative, COMMAND) \
    X(DA, MoveAdditive, COMMAND) \
    X(VA, MoveVelocity, VELOCITY) \
    X(TA, Halt, COMMAND) \
    X(SA, Stop, COMMAND) \
    X(ZA, Reset, PLAIN) \
    X(GB, GearIn, GEAR) \
    X(OB, GearOut, PLAIN) \
    X(CB, CamIn, CAM) \
    X(UB, CamOut, PLAIN) \
    X(TB, Halt, COMMAND) \
    X(EN, GroupEnable, PLAIN) \
    X(LN, MoveLinearAbsolute, COMMAND) \
    X(GH, GroupHalt, COMMAND) \
    X(GS, GroupStop, COMMAND) \
    X(GR, GroupReset, PLAIN) \
    X(GD, GroupDisable, PLAIN)

/* The letters of a block's outputs, in a trace's order. */
static void show(const char *name, bool busy, bool active, bool done, bool aborted, bool error,
                 bool reached, unsigned id)
{
    fprintf(stderr, "%s,%s%s%s%s%s%s,%u\n", name, busy ? "B" : "", active ? "A" : "", done ? "D" : "",
            aborted ? "C" : "", error ? "E" : "", reached ? "R" : "", id);
}

#define SHOW_POWER(n, b) show(n, b.Busy, false, false, false, b.Error, b.Status, b.ErrorID)
#define SHOW_PLAIN(n, b) show(n, b.Busy, false, b.Done, false, b.Error, false, b.ErrorID)
#define SHOW_COMMAND(n, b) \
    show(n, b.Busy, b.Active, b.Done, b.CommandAborted, b.Error, false, b.ErrorID)
#define SHOW_REACHED(n, b, r) \
    show(n, b.Busy, b.Active, false, b.CommandAborted, b.Error, b.r, b.ErrorID)
#define SHOW_VELOCITY(n, b) SHOW_REACHED(n, b, InVelocity)
#define SHOW_GEAR(n, b) SHOW_REACHED(n, b, InGear)
#define SHOW_CAM(n, b) SHOW_REACHED(n, b, InSync)

#define SHOWN_AS(name, kind, shape) \
    static void show_##name(const MC_##kind *b) { SHOW_##shape(#name, (*b)); }

ALL_BLOCKS(SHOWN_AS)

/* A call with these inputs, and all else 0. */
#define CALL(kind, name, inputs) \
    do { \
        MC_##kind f; \
        memset(&f, 0, sizeof f); \
        f.block = name.block; \
        inputs; \
        CALL_BLOCK(kind, name, f); \
        show_##name(&name); \
    } while (0)
#define OFF(kind, name) CALL(kind, name, (void)0)
#define ON(kind, name, inputs) ON_##kind(kind, name, inputs)
#define ON_ANY(kind, name, inputs) CALL(kind, name, f.Execute = true; inputs)
#define ON_Power(kind, name, inputs) CALL(kind, name, f.Enable = true; inputs)
#define ON_Reset ON_ANY
#define ON_Home ON_ANY
#define ON_Stop ON_ANY
#define ON_Halt ON_ANY
#define ON_MoveAbsolute ON_ANY
#define ON_MoveRelative ON_ANY
#define ON_MoveAdditive ON_ANY
#define ON_MoveVelocity ON_ANY
#define ON_GearIn ON_ANY
#define ON_GearOut ON_ANY
#define ON_CamIn ON_ANY
#define ON_CamOut ON_ANY
#define ON_GroupEnable ON_ANY
#define ON_GroupDisable ON_ANY
#define ON_GroupReset ON_ANY
#define ON_GroupStop ON_ANY
#define ON_GroupHalt ON_ANY
#define ON_MoveLinearAbsolute ON_ANY

/* These are each program's own too: a number of cycles, and the task's end. */
static void cycles(int count);
static void end(void);

static void go(void)
{
    ALL_BLOCKS(DECLARE_BLOCK)
    ALL_BLOCKS(FIND_BLOCK)
    /* a move before Power: ErrorID 1 */
    ON(MoveAbsolute, MA, f.Position = 500; f.Velocity = 10; f.Acceleration = 1;
        f.Deceleration = 1);
    OFF(MoveAbsolute, MA);
    ON(Power, PA, (void)0);
    ON(Power, PB, (void)0);
    ON(Power, PX, (void)0);
    ON(Power, PY, (void)0);
    cycles(5);
    ON(Power, PA, (void)0);
    ON(Home, HA, f.Position = 100);
    ON(Power, PB, (void)0);
    ON(Power, PX, (void)0);
    ON(Power, PY, (void)0);
    ON(GroupEnable, EN, (void)0);
    cycles(1);
    ON(Home, HA, (void)0);
    /* a move, a relative one and an additive one after it, and one with a jerk: ErrorID 9 */
    ON(MoveAbsolute, MA, f.Position = 3000; f.Velocity = 100; f.Acceleration = 5;
        f.Deceleration = 4);
    ON(MoveRelative, RA, f.Distance = -500; f.Velocity = 80; f.Acceleration = 3;
        f.Deceleration = 3; f.BufferMode = MOTION_BUFFERED);
    ON(MoveAdditive, DA, f.Distance = 200; f.Velocity = 80; f.Acceleration = 3;
        f.Deceleration = 3; f.BufferMode = MOTION_BUFFERED);
    ON(MoveLinearAbsolute, LN, f.Position[0] = 3000; f.Position[1] = 1500; f.Velocity = 90;
        f.Acceleration = 4; f.Deceleration = 3);
    cycles(120);
    ON(MoveAbsolute, MA, (void)0);
    ON(MoveRelative, RA, (void)0);
    ON(MoveAdditive, DA, (void)0);
    ON(MoveLinearAbsolute, LN, (void)0);
    OFF(MoveRelative, RA);
    ON(MoveRelative, RA, f.Distance = 1; f.Velocity = 80; f.Acceleration = 3;
        f.Deceleration = 3; f.Jerk = 7);
    /* a velocity, a gear and a cam after it */
    ON(MoveVelocity, VA, f.Velocity = -60; f.Acceleration = 2; f.Deceleration = 2);
    ON(GearIn, GB, f.Acceleration = 9; f.Deceleration = 9; f.Master = 0; f.RatioNumerator = -2;
        f.RatioDenominator = 3);
    cycles(60);
    ON(MoveVelocity, VA, (void)0);
    ON(GearIn, GB, f.Acceleration = 9; f.Deceleration = 9; f.Master = 0; f.RatioNumerator = -2;
        f.RatioDenominator = 3);
    ON(GearOut, OB, (void)0);
    OFF(GearOut, OB);
    ON(CamIn, CB, f.Velocity = 900; f.Acceleration = 9; f.Deceleration = 9; f.Master = 0;
        f.CamTableID = 1);
    cycles(200);
    ON(CamIn, CB, f.Velocity = 900; f.Acceleration = 9; f.Deceleration = 9; f.Master = 0;
        f.CamTableID = 1);
    ON(CamOut, UB, (void)0);
    ON(Halt, TB, f.Deceleration = 5);
    cycles(50);
    ON(Halt, TB, (void)0);
    ON(CamOut, UB, (void)0);
    /* a line that is halted, and one that is stopped */
    OFF(MoveLinearAbsolute, LN);
    ON(MoveLinearAbsolute, LN, f.Position[0] = 300000; f.Position[1] = 100; f.Velocity = 200;
        f.Acceleration = 5; f.Deceleration = 5);
    cycles(20);
    ON(GroupHalt, GH, f.Deceleration = 3);
    cycles(60);
    ON(GroupHalt, GH, (void)0);
    ON(MoveLinearAbsolute, LN, (void)0);
    OFF(MoveLinearAbsolute, LN);
    ON(MoveLinearAbsolute, LN, f.Position[0] = 300000; f.Position[1] = 100; f.Velocity = 200;
        f.Acceleration = 5; f.Deceleration = 5; f.BufferMode = MOTION_BUFFERED);
    cycles(20);
    ON(GroupStop, GS, f.Deceleration = 5);
    cycles(60);
    ON(GroupStop, GS, (void)0);
    OFF(GroupStop, GS);
    ON(GroupReset, GR, (void)0);
    cycles(1);
    ON(GroupReset, GR, (void)0);
    ON(GroupDisable, GD, (void)0);
    /* the axis is halted and stopped */
    ON(Halt, TA, f.Deceleration = 2);
    cycles(60);
    ON(Halt, TA, (void)0);
    ON(MoveVelocity, VA, (void)0);
    ON(Stop, SA, f.Deceleration = 2);
    cycles(1);
    ON(Stop, SA, (void)0);
    OFF(Stop, SA);
    ON(Reset, ZA, (void)0);
    cycles(1);
    ON(Reset, ZA, (void)0);
    end();
}

#endif
