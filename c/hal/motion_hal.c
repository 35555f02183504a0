/* A component of LinuxCNC's HAL over the motion kernel: pins for each axis's drive, for each axis and
 * for each block. README.md says how it is built and loaded.
 *
 *   loadrt motion_hal machine=FILE axes=X,Y blocks=PX,MX trace=FILE
 *   addf motion.cycle THREAD */
#include "motion.h"

#include "hal.h"
#include "rtapi.h"
#include "rtapi_app.h"

#include <stdio.h>
#include <string.h>

MODULE_AUTHOR("the motion kernel's authors");
MODULE_DESCRIPTION("PLCopen motion kernel");
MODULE_LICENSE("GPL");

enum { MOST_BLOCKS = 64, MOST_TEXT = 65536 };

static char *machine = NULL;
RTAPI_MP_STRING(machine, "the file of the machine's text")
static char *trace = NULL;
RTAPI_MP_STRING(trace, "the file that takes the trace at the end")
static char *axes[MOTION_MOST_AXES] = { NULL };
RTAPI_MP_ARRAY_STRING(axes, MOTION_MOST_AXES, "the names of all axes, in their order")
static char *blocks[MOST_BLOCKS] = { NULL };
RTAPI_MP_ARRAY_STRING(blocks, MOST_BLOCKS, "the names of the blocks that are called")

typedef struct axis_pins {
    hal_u32_t *statusword, *controlword, *error, *state;
    hal_s32_t *actual, *mode_display, *target, *mode;
    hal_float_t *setpoint;
    hal_bit_t *driven;
} axis_pins;

typedef struct block_pins {
    hal_bit_t *execute, *busy, *active, *done, *aborted, *error, *reached;
    hal_float_t *position, *velocity, *acceleration, *deceleration;
    hal_u32_t *mode, *error_id;
} block_pins;

typedef struct all_pins {
    axis_pins axis[MOTION_MOST_AXES];
    block_pins block[MOST_BLOCKS];
    hal_u32_t *code;
} all_pins;

static motion m = MOTION_NONE;
static all_pins *pins;
static int component, axis_count, block_count;
static uint16_t numbers[MOST_BLOCKS];
static motion_drive_in answers[MOTION_MOST_AXES];
static motion_drive_out given[MOTION_MOST_AXES];

/* Calls a block with its pins. Positions and rates are in units and units a cycle, as the kernel has
 * them: the pins are floating, and are cut to whole units here. */
static uint32_t call_block(int i)
{
    block_pins *p = &pins->block[i];
    motion_inputs in;
    motion_outputs out;
    uint32_t code;
    memset(&in, 0, sizeof in);
    in.execute = *p->execute;
    in.positions[0] = (int64_t)*p->position;
    in.velocity = (int64_t)*p->velocity;
    in.acceleration = (int64_t)*p->acceleration;
    in.deceleration = (int64_t)*p->deceleration;
    in.mode = *p->mode;
    code = motion_call(&m, numbers[i], &in, &out);
    if (code != MOTION_OK) return code;
    *p->busy = out.busy;
    *p->active = out.active;
    *p->done = out.done;
    *p->aborted = out.aborted;
    *p->error = out.error;
    *p->reached = out.reached;
    *p->error_id = out.error_id;
    return MOTION_OK;
}

static void take_answer(int i)
{
    axis_pins *p = &pins->axis[i];
    answers[i].actual = *p->actual;
    answers[i].statusword = (uint16_t)*p->statusword;
    answers[i].mode_display = (int8_t)*p->mode_display;
}

static void give_output(int i)
{
    axis_pins *p = &pins->axis[i];
    motion_axis_row row;
    *p->target = given[i].target;
    *p->controlword = given[i].controlword;
    *p->mode = given[i].mode;
    if (motion_axis_look(&m, (uint8_t)i, &row) != MOTION_OK) return;
    *p->setpoint = (double)row.setpoint;
    *p->state = row.state;
    *p->error = row.error;
    *p->driven = row.driven;
}

/* With any code but MOTION_OK no output was made: the drive is quick-stopped where it is. */
static void quick_stop(int i)
{
    *pins->axis[i].target = answers[i].actual;
    *pins->axis[i].controlword = 0x0002;
}

static void cycle(void *arg, long period)
{
    uint32_t code = MOTION_OK;
    int i;
    (void)arg;
    (void)period;
    /* without trace=FILE nobody wants the history: it is emptied where it has no room for a cycle more */
    if (trace == NULL && (motion_cycles_left(&m) == 0 || motion_room_left(&m) <= (uint64_t)block_count))
        code = motion_forget(&m);
    for (i = 0; code == MOTION_OK && i < block_count; i++) code = call_block(i);
    for (i = 0; i < axis_count; i++) take_answer(i);
    if (code == MOTION_OK)
        code = motion_cycle(&m, answers, (size_t)axis_count, given, (size_t)axis_count);
    for (i = 0; i < axis_count; i++) {
        if (code == MOTION_OK) give_output(i);
        else quick_stop(i);
    }
    *pins->code = code;
}

#define PIN(type, dir, place, ...)                                                  \
    do {                                                                            \
        int made_ = hal_pin_##type##_newf(dir, place, component, __VA_ARGS__);      \
        if (made_ < 0) return made_;                                                \
    } while (0)

static int export_axis(const char *name, axis_pins *p)
{
    PIN(u32, HAL_IN, &p->statusword, "motion.%s.statusword", name);
    PIN(s32, HAL_IN, &p->actual, "motion.%s.actual", name);
    PIN(s32, HAL_IN, &p->mode_display, "motion.%s.mode-display", name);
    PIN(u32, HAL_OUT, &p->controlword, "motion.%s.controlword", name);
    PIN(s32, HAL_OUT, &p->target, "motion.%s.target", name);
    PIN(s32, HAL_OUT, &p->mode, "motion.%s.mode", name);
    PIN(float, HAL_OUT, &p->setpoint, "motion.%s.setpoint", name);
    PIN(u32, HAL_OUT, &p->state, "motion.%s.state", name);
    PIN(u32, HAL_OUT, &p->error, "motion.%s.error", name);
    PIN(bit, HAL_OUT, &p->driven, "motion.%s.driven", name);
    return 0;
}

static int export_block(const char *name, block_pins *p)
{
    PIN(bit, HAL_IN, &p->execute, "motion.%s.execute", name);
    PIN(float, HAL_IN, &p->position, "motion.%s.position", name);
    PIN(float, HAL_IN, &p->velocity, "motion.%s.velocity", name);
    PIN(float, HAL_IN, &p->acceleration, "motion.%s.acceleration", name);
    PIN(float, HAL_IN, &p->deceleration, "motion.%s.deceleration", name);
    PIN(u32, HAL_IN, &p->mode, "motion.%s.buffer-mode", name);
    PIN(bit, HAL_OUT, &p->busy, "motion.%s.busy", name);
    PIN(bit, HAL_OUT, &p->active, "motion.%s.active", name);
    PIN(bit, HAL_OUT, &p->done, "motion.%s.done", name);
    PIN(bit, HAL_OUT, &p->aborted, "motion.%s.aborted", name);
    PIN(bit, HAL_OUT, &p->error, "motion.%s.error", name);
    PIN(bit, HAL_OUT, &p->reached, "motion.%s.reached", name);
    PIN(u32, HAL_OUT, &p->error_id, "motion.%s.error-id", name);
    return 0;
}

static int export_all(void)
{
    int i, made;
    pins = hal_malloc(sizeof *pins);
    if (pins == NULL) return -1;
    memset(pins, 0, sizeof *pins);
    PIN(u32, HAL_OUT, &pins->code, "motion.code");
    for (i = 0; i < axis_count; i++)
        if ((made = export_axis(axes[i], &pins->axis[i])) < 0) return made;
    for (i = 0; i < block_count; i++)
        if ((made = export_block(blocks[i], &pins->block[i])) < 0) return made;
    return hal_export_funct("motion.cycle", cycle, NULL, 1, 0, component);
}

/* Opens the machine of the file. */
static int open_machine(void)
{
    static uint8_t text[MOST_TEXT];
    motion_refusal why;
    uint32_t code;
    size_t len;
    FILE *file = machine != NULL ? fopen(machine, "rb") : NULL;
    if (file == NULL) {
        rtapi_print_msg(RTAPI_MSG_ERR, "motion_hal: no machine=FILE that can be read\n");
        return -1;
    }
    len = fread(text, 1, sizeof text, file);
    fclose(file);
    code = motion_open_tested(&m, text, len, &why);
    if (code == MOTION_REFUSED)
        rtapi_print_msg(RTAPI_MSG_ERR, "motion_hal: line %u breaks %c%u\n", (unsigned)why.line,
                        why.letter, why.number);
    else if (code != MOTION_OK)
        rtapi_print_msg(RTAPI_MSG_ERR, "motion_hal: code %u\n", (unsigned)code);
    return code == MOTION_OK ? 0 : -1;
}

/* Looks up all names: axes= names every axis in its order. */
static int look_up(void)
{
    int i;
    axis_count = (int)motion_axes(&m);
    for (i = 0; i < axis_count; i++) {
        if (axes[i] == NULL
            || motion_axis(&m, (const uint8_t *)axes[i], strlen(axes[i])) != (uint32_t)i) {
            rtapi_print_msg(RTAPI_MSG_ERR, "motion_hal: axes= isn't the axes in their order\n");
            return -1;
        }
    }
    for (i = 0; i < MOST_BLOCKS && blocks[i] != NULL; i++) {
        uint32_t block = motion_block(&m, (const uint8_t *)blocks[i], strlen(blocks[i]));
        if (block == MOTION_NO_NUMBER) {
            rtapi_print_msg(RTAPI_MSG_ERR, "motion_hal: no block %s\n", blocks[i]);
            return -1;
        }
        numbers[i] = (uint16_t)block;
    }
    block_count = i;
    return 0;
}

int rtapi_app_main(void)
{
    component = hal_init("motion_hal");
    if (component < 0) return component;
    if (open_machine() < 0 || look_up() < 0 || export_all() < 0) {
        motion_close(&m);
        hal_exit(component);
        return -1;
    }
    hal_ready(component);
    return 0;
}

/* Writes the trace of the run, which `motion check` verifies. */
static void write_trace(void)
{
    static uint8_t piece[MOST_TEXT];
    uint64_t at = 0, count;
    FILE *file = trace != NULL ? fopen(trace, "wb") : NULL;
    if (file == NULL) return;
    if (motion_trace(&m, answers, (size_t)axis_count) == MOTION_OK)
        while ((count = motion_trace_text(&m, at, piece, sizeof piece)) != 0) {
            fwrite(piece, 1, (size_t)count, file);
            at += count;
        }
    fclose(file);
}

void rtapi_app_exit(void)
{
    write_trace();
    motion_close(&m);
    hal_exit(component);
}
