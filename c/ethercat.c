/* The kernel's loop with the IgH EtherCAT master 1.5: two drives in cyclic synchronous position, one
 * domain, distributed clocks, a cycle of 1 ms. Only a test has run it, over a stub of the master
 * (tools/ecrt_stub): on a bus it was never tried. PDO entries of each drive, as CiA 402 has them:
 *
 *   from the drive   6041h statusword u16, 6064h position actual s32, 6061h mode display s8
 *   to the drive     6040h controlword u16, 607Ah target position s32, 6060h mode s8
 *
 * Put your drives' numbers and their PDOs in the place of these. `ethercat [CYCLES]`. */
#define _POSIX_C_SOURCE 200809L
#include "motion_bus.h"

#include <ecrt.h>

#include <sched.h>
#include <stdio.h>
#include <stdlib.h>
#include <string.h>
#include <sys/mman.h>
#include <time.h>

enum { AXES = 2, PERIOD = 1000000, PATIENCE = 5000, MOST_LOST = 10 }; /* nanoseconds, cycles, frames */
enum { VENDOR = 0x00000001, PRODUCT = 0x00000002 };                   /* of the drives: `ethercat slaves -v` */

static const char machine_text[] =
    "motion-bench 2\n"
    "limit 1000 8000\n"
    "axis X 0 400000 500 5 5 1 0\n"
    "axis Y 0 400000 500 5 5 1 0\n"
    "task main\n"
    "block PX main Power X\nblock RX main Reset X\nblock SX main Stop X\nblock MX main MoveAbsolute X\n"
    "block PY main Power Y\nblock RY main Reset Y\nblock SY main Stop Y\nblock MY main MoveAbsolute Y\n";

static const ec_pdo_entry_info_t entries[] = {
    { 0x6040, 0, 16 }, { 0x607a, 0, 32 }, { 0x6060, 0, 8 }, /* to the drive */
    { 0x6041, 0, 16 }, { 0x6064, 0, 32 }, { 0x6061, 0, 8 }, /* from the drive */
};
static const ec_pdo_info_t pdos[] = { { 0x1600, 3, entries }, { 0x1a00, 3, entries + 3 } };
static const ec_sync_info_t syncs[] = {
    { 0, EC_DIR_OUTPUT, 0, NULL, EC_WD_DISABLE }, { 1, EC_DIR_INPUT, 0, NULL, EC_WD_DISABLE },
    { 2, EC_DIR_OUTPUT, 1, pdos, EC_WD_ENABLE },  { 3, EC_DIR_INPUT, 1, pdos + 1, EC_WD_DISABLE },
    { 0xff, EC_DIR_INVALID, 0, NULL, EC_WD_DEFAULT },
};

/* Where the objects of a drive stand in the data of the domain. */
typedef struct places {
    int controlword, target, mode, statusword, actual, mode_display;
} places;

typedef struct loop {
    ec_master_t *master;
    ec_domain_t *domain;
    uint8_t *data;
    places places[AXES];
    motion handle;
    mc_machine machine;
    mc_bus bus;
    mc_bus_axis axes[AXES];
    MC_MoveAbsolute move[AXES];
    motion_drive_in answers[AXES];
    bool is_up; /* a frame came back with all answers: before that the drives aren't in Operational */
    int lost;   /* frames since then that didn't, one after another */
} loop;

/* The drive at a position of the bus: its PDOs, its clock, and mode 8 before the first frame. */
static bool configure_drive(loop *l, uint16_t position)
{
    ec_slave_config_t *sc = ecrt_master_slave_config(l->master, 0, position, VENDOR, PRODUCT);
    places *at = &l->places[position];
    if (sc == NULL || ecrt_slave_config_pdos(sc, 4, syncs) != 0) return false;
    at->controlword = ecrt_slave_config_reg_pdo_entry(sc, 0x6040, 0, l->domain, NULL);
    at->target = ecrt_slave_config_reg_pdo_entry(sc, 0x607a, 0, l->domain, NULL);
    at->mode = ecrt_slave_config_reg_pdo_entry(sc, 0x6060, 0, l->domain, NULL);
    at->statusword = ecrt_slave_config_reg_pdo_entry(sc, 0x6041, 0, l->domain, NULL);
    at->actual = ecrt_slave_config_reg_pdo_entry(sc, 0x6064, 0, l->domain, NULL);
    at->mode_display = ecrt_slave_config_reg_pdo_entry(sc, 0x6061, 0, l->domain, NULL);
    ecrt_slave_config_dc(sc, 0x0300, PERIOD, PERIOD / 4, 0, 0);
    return at->controlword >= 0 && at->target >= 0 && at->mode >= 0 && at->statusword >= 0
           && at->actual >= 0 && at->mode_display >= 0 && ecrt_slave_config_sdo8(sc, 0x6060, 0, 8) == 0;
}

static bool open_master(loop *l)
{
    uint16_t i;
    l->master = ecrt_request_master(0);
    if (l->master == NULL || (l->domain = ecrt_master_create_domain(l->master)) == NULL) return false;
    for (i = 0; i < AXES; i++)
        if (!configure_drive(l, i)) return false;
    if (ecrt_master_activate(l->master) != 0) return false;
    l->data = ecrt_domain_data(l->domain);
    return l->data != NULL;
}

static uint32_t open_machine(loop *l)
{
    static const char *const names[AXES][4] = { { "PX", "RX", "SX", "MX" }, { "PY", "RY", "SY", "MY" } };
    motion_refusal why;
    uint32_t code = motion_open_text(&l->handle, machine_text, &why);
    int i;
    if (code != MOTION_OK) return code;
    mc_begin(&l->machine, &l->handle, MC_CYCLES);
    for (i = 0; i < AXES && code == MOTION_OK; i++) {
        code = mc_bus_find(&l->axes[i], &l->machine, names[i][0], names[i][1], names[i][2]);
        if (code == MOTION_OK) code = MC_MoveAbsolute_find(&l->move[i], &l->machine, names[i][3]);
        l->move[i].Position = 40000 - 10000 * i;
        l->move[i].Velocity = 400;
        l->move[i].Acceleration = l->move[i].Deceleration = 4;
    }
    return code == MOTION_OK ? mc_bus_begin(&l->bus, &l->machine, l->axes, AXES, PATIENCE) : code;
}

/* The answers of the drives. Of a frame that didn't come back whole they are those of the frame before:
 * the axes go on, and the drives with them, until too many are lost. */
static void read_drives(loop *l)
{
    ec_domain_state_t state;
    int i;
    ecrt_master_receive(l->master);
    ecrt_domain_process(l->domain);
    ecrt_domain_state(l->domain, &state);
    if (state.wc_state == EC_WC_COMPLETE) l->is_up = true;
    l->lost = state.wc_state == EC_WC_COMPLETE || !l->is_up ? 0 : l->lost + 1;
    for (i = 0; i < AXES && l->lost == 0; i++) {
        l->answers[i].statusword = EC_READ_U16(l->data + l->places[i].statusword);
        l->answers[i].actual = EC_READ_S32(l->data + l->places[i].actual);
        l->answers[i].mode_display = EC_READ_S8(l->data + l->places[i].mode_display);
    }
}

static void write_drives(loop *l, const motion_drive_out given[AXES], uint64_t now)
{
    int i;
    for (i = 0; i < AXES; i++) {
        EC_WRITE_U16(l->data + l->places[i].controlword, given[i].controlword);
        EC_WRITE_S32(l->data + l->places[i].target, given[i].target);
        EC_WRITE_S8(l->data + l->places[i].mode, given[i].mode);
    }
    ecrt_master_application_time(l->master, now);
    ecrt_master_sync_reference_clock(l->master);
    ecrt_master_sync_slave_clocks(l->master);
    ecrt_domain_queue(l->domain);
    ecrt_master_send(l->master);
}

/* The task: each axis goes to and fro while the bus is on. */
static void call_task(loop *l)
{
    int i;
    mc_bus_call(&l->bus, &l->machine);
    for (i = 0; i < AXES; i++) {
        MC_MoveAbsolute *move = &l->move[i];
        const bool ended = move->Done || move->Error || move->CommandAborted;
        if (move->Done) move->Position = move->Position ? 0 : 40000 - 10000 * i;
        if (l->bus.state != MC_BUS_ON && !move->Execute) continue;
        move->Execute = l->bus.state == MC_BUS_ON && !ended;
        MC_MoveAbsolute_call(move, &l->machine);
    }
}

/* One cycle of the bus. With any code but MOTION_OK, or where too many frames were lost, the drives are
 * quick-stopped, as far as frames reach them: their own watchdogs do it where none does. */
static uint32_t bus_cycle(loop *l, uint64_t now)
{
    motion_drive_out given[AXES];
    uint32_t code = MOTION_OK;
    int i;
    read_drives(l);
    if (motion_room_left(&l->handle) < 100 || motion_cycles_left(&l->handle) == 0)
        code = motion_forget(&l->handle); /* no trace is wanted */
    if (code == MOTION_OK) {
        call_task(l);
        code = mc_cycle(&l->machine, l->answers, AXES, given, AXES);
    }
    if (code == MOTION_OK) mc_bus_take(&l->bus, &l->machine, l->answers);
    if (l->lost > MOST_LOST) code = MOTION_NULL;
    for (i = 0; i < AXES && code != MOTION_OK; i++) {
        given[i].target = l->answers[i].actual;
        given[i].controlword = 0x0002;
        given[i].mode = 8;
    }
    write_drives(l, given, now);
    return code;
}

int main(int argc, char **argv)
{
    static loop l; /* as zeros */
    struct sched_param high = { 80 };
    struct timespec next;
    long cycle, cycles = argc > 1 ? atol(argv[1]) : 10000;
    uint32_t code;
    if (!open_master(&l)) {
        fprintf(stderr, "the master isn't there, or the drives aren't\n");
        return 2;
    }
    code = open_machine(&l);
    if (sched_setscheduler(0, SCHED_FIFO, &high) != 0) perror("no SCHED_FIFO");
    if (mlockall(MCL_CURRENT | MCL_FUTURE) != 0) perror("no locked memory");
    l.bus.On = true;
    clock_gettime(CLOCK_MONOTONIC, &next);
    for (cycle = 0; code == MOTION_OK && cycle < cycles; cycle++) {
        next.tv_nsec += PERIOD;
        if (next.tv_nsec >= 1000000000) {
            next.tv_nsec -= 1000000000;
            next.tv_sec++;
        }
        clock_nanosleep(CLOCK_MONOTONIC, TIMER_ABSTIME, &next, NULL);
        code = bus_cycle(&l, (uint64_t)next.tv_sec * 1000000000 + (uint64_t)next.tv_nsec);
    }
    printf("code %u, the bus %s, axes at %ld and %ld\n", (unsigned)code, mc_bus_state_text(l.bus.state),
           (long)l.answers[0].actual, (long)l.answers[1].actual);
    motion_close(&l.handle);
    ecrt_release_master(l.master);
    return code == MOTION_OK ? 0 : 1;
}
