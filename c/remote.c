/* A loop at 1 kHz whose drives are a process of their own, which answers over UDP on the loopback: the
 * shape of a field bus, with the CiA 402 objects in its frames. Two axes are switched on and go to and
 * fro; in step 1,500 the drive of X has a fault, and is reset. `remote CYCLES [TRACE]` reports how late
 * its cycles were, and how long they took from waking to the frame that was sent. Where no trace is
 * wanted the history is forgotten where it is full. */
#define _DEFAULT_SOURCE
#define _POSIX_C_SOURCE 200809L
#include "bench_drive.h"
#include "motion_blocks.h"

#include <arpa/inet.h>
#include <sched.h>
#include <stdio.h>
#include <stdlib.h>
#include <sys/mman.h>
#include <sys/socket.h>
#include <sys/time.h>
#include <sys/types.h>
#include <sys/wait.h>
#include <time.h>
#include <unistd.h>

enum { AXES = 2, ENTRY = 7, FRAME = 1 + AXES * ENTRY, PERIOD = 1000000, FAULT_STEP = 1500 };
enum { MOST_ENTRIES = 16 }; /* of a cycle: its calls and itself */
enum { READ = 0, STEP = 1, END = 2 }; /* the first byte of a frame to the drives */

static const char machine_text[] =
    "motion-bench 2\n"
    "limit 200000 1000000\n"
    "axis X 0 400000 500 5 5 1 0\n"
    "axis Y 0 400000 500 5 5 1 0\n"
    "task main\n"
    "block PX main Power X\n"
    "block PY main Power Y\n"
    "block MX main MoveAbsolute X\n"
    "block MY main MoveAbsolute Y\n"
    "block RX main Reset X\n";

/* An entry of a frame: 6064h or 607Ah, 6041h or 6040h, 6061h or 6060h, the low byte first. */
static void put_entry(uint8_t *to, int32_t position, uint16_t word, int8_t mode)
{
    int i;
    for (i = 0; i < 4; i++) to[i] = (uint8_t)((uint32_t)position >> (8 * i));
    to[4] = (uint8_t)word;
    to[5] = (uint8_t)(word >> 8);
    to[6] = (uint8_t)mode;
}

static void take_entry(const uint8_t *from, int32_t *position, uint16_t *word, int8_t *mode)
{
    uint32_t all = 0;
    int i;
    for (i = 0; i < 4; i++) all |= (uint32_t)from[i] << (8 * i);
    *position = (int32_t)all;
    *word = (uint16_t)(from[4] | from[5] << 8);
    *mode = (int8_t)from[6];
}

/* The process of the drives: makes a step with each frame of outputs, and answers. It ends by a frame,
 * or where none has come for five seconds. */
static void run_drives(int to_loop)
{
    static bench_drive drives[AXES];
    uint8_t frame[FRAME];
    long step = 0;
    int i;
    for (i = 0; i < AXES; i++) bench_drive_begin(&drives[i], 0, 0);
    while (recv(to_loop, frame, sizeof frame, 0) == FRAME && frame[0] != END) {
        if (frame[0] == STEP) step++;
        for (i = 0; i < AXES; i++) {
            motion_drive_in answer;
            motion_drive_out given;
            uint8_t *entry = frame + 1 + i * ENTRY;
            if (frame[0] == STEP) {
                take_entry(entry, &given.target, &given.controlword, &given.mode);
                bench_drive_step(&drives[i], &given);
                if (i == 0 && step == FAULT_STEP) drives[i].d.state = DRIVE_FAULT;
            }
            answer = bench_drive_answer(&drives[i]);
            put_entry(entry, answer.actual, answer.statusword, answer.mode_display);
        }
        if (send(to_loop, frame, sizeof frame, 0) != FRAME) break;
    }
}

/* Two sockets on the loopback, each of which sends to the other, and waits five seconds at most. */
static int open_wire(int ends[2])
{
    struct sockaddr_in names[2];
    struct timeval patience = { 5, 0 };
    int i;
    for (i = 0; i < 2; i++) {
        socklen_t len = sizeof names[i];
        memset(&names[i], 0, sizeof names[i]);
        names[i].sin_family = AF_INET;
        names[i].sin_addr.s_addr = htonl(INADDR_LOOPBACK);
        ends[i] = socket(AF_INET, SOCK_DGRAM, 0);
        if (ends[i] < 0 || bind(ends[i], (struct sockaddr *)&names[i], len) != 0
            || getsockname(ends[i], (struct sockaddr *)&names[i], &len) != 0
            || setsockopt(ends[i], SOL_SOCKET, SO_RCVTIMEO, &patience, sizeof patience) != 0)
            return -1;
    }
    for (i = 0; i < 2; i++)
        if (connect(ends[i], (struct sockaddr *)&names[1 - i], sizeof names[i]) != 0) return -1;
    return 0;
}

typedef struct loop {
    motion handle;
    mc_machine machine;
    int to_drives;
    MC_Power power[AXES];
    MC_MoveAbsolute move[AXES];
    MC_Reset reset;
    bool has_failed; /* X is to be reset */
    bool is_traced;  /* the history is wanted as a trace */
    int dones, errors;
} loop;

static uint32_t open_loop(loop *l)
{
    static const char *const powers[AXES] = { "PX", "PY" }, *const moves[AXES] = { "MX", "MY" };
    motion_refusal why;
    const uint32_t code = motion_open_text(&l->handle, machine_text, &why);
    int i;
    if (code != MOTION_OK) return code;
    mc_begin(&l->machine, &l->handle, MC_CYCLES);
    MC_Reset_find(&l->reset, &l->machine, "RX");
    for (i = 0; i < AXES; i++) {
        MC_Power_find(&l->power[i], &l->machine, powers[i]);
        MC_MoveAbsolute_find(&l->move[i], &l->machine, moves[i]);
        l->power[i].Enable = true;
        l->move[i].Position = 40000 - 10000 * i;
        l->move[i].Velocity = 400;
        l->move[i].Acceleration = l->move[i].Deceleration = 4;
    }
    return code;
}

/* Goes to the other end after each Done, and to the same one again after an error. */
static void call_move(loop *l, int i)
{
    MC_MoveAbsolute *move = &l->move[i];
    move->Execute = true;
    MC_MoveAbsolute_call(move, &l->machine);
    if (!move->Done && !move->Error) return;
    l->dones += move->Done;
    l->errors += move->Error;
    if (move->Error) l->has_failed = true;
    else move->Position = move->Position ? 0 : 40000 - 10000 * i;
    move->Execute = false;
    MC_MoveAbsolute_call(move, &l->machine);
}

static void call_task(loop *l)
{
    int i;
    l->reset.Execute = l->has_failed;
    MC_Reset_call(&l->reset, &l->machine);
    if (l->reset.Done) l->has_failed = false;
    for (i = 0; i < AXES; i++) {
        MC_Power_call(&l->power[i], &l->machine);
        if (l->move[i].Busy || (l->power[i].Status && !(i == 0 && l->has_failed))) call_move(l, i);
    }
}

/* Takes the frame that the drives have answered; false where none came in time. */
static bool take_answers(int to_drives, motion_drive_in answers[AXES])
{
    uint8_t frame[FRAME];
    int i;
    if (recv(to_drives, frame, sizeof frame, 0) != FRAME) return false;
    for (i = 0; i < AXES; i++)
        take_entry(frame + 1 + i * ENTRY, &answers[i].actual, &answers[i].statusword,
                   &answers[i].mode_display);
    return true;
}

static void send_frame(int to_drives, uint8_t kind, const motion_drive_out given[AXES])
{
    uint8_t frame[FRAME];
    int i;
    frame[0] = kind;
    for (i = 0; i < AXES; i++)
        put_entry(frame + 1 + i * ENTRY, given[i].target, given[i].controlword, given[i].mode);
    if (send(to_drives, frame, sizeof frame, 0) != FRAME) perror("no frame is sent");
}

/* One cycle: with any code but MOTION_OK the drives are quick-stopped. */
static uint32_t run_cycle(loop *l, motion_drive_in answers[AXES])
{
    motion_drive_out given[AXES];
    uint32_t code;
    int i;
    if (!take_answers(l->to_drives, answers)) return MOTION_NULL;
    if (!l->is_traced && (motion_cycles_left(&l->handle) == 0 || motion_room_left(&l->handle) < MOST_ENTRIES))
        l->machine.code = motion_forget(&l->handle);
    call_task(l);
    code = mc_cycle(&l->machine, answers, AXES, given, AXES);
    for (i = 0; i < AXES && code != MOTION_OK; i++) {
        given[i].target = answers[i].actual;
        given[i].controlword = 0x0002;
        given[i].mode = 8;
    }
    send_frame(l->to_drives, STEP, given);
    return code;
}

static long since(const struct timespec *then)
{
    struct timespec now;
    clock_gettime(CLOCK_MONOTONIC, &now);
    return (long)(now.tv_sec - then->tv_sec) * 1000000000 + now.tv_nsec - then->tv_nsec;
}

static void wait_until(struct timespec *next)
{
    next->tv_nsec += PERIOD;
    if (next->tv_nsec >= 1000000000) {
        next->tv_nsec -= 1000000000;
        next->tv_sec++;
    }
    clock_nanosleep(CLOCK_MONOTONIC, TIMER_ABSTIME, next, NULL);
}

static uint32_t write_trace(loop *l, const motion_drive_in last[AXES], const char *name)
{
    static uint8_t part[65536];
    uint64_t at = 0, count;
    uint32_t code = motion_trace(&l->handle, last, AXES);
    FILE *file = fopen(name, "wb");
    if (file == NULL) return MOTION_NULL;
    while (code == MOTION_OK && (count = motion_trace_text(&l->handle, at, part, sizeof part)) != 0) {
        fwrite(part, 1, (size_t)count, file);
        at += count;
    }
    fclose(file);
    return code;
}

static int by_size(const void *a, const void *b)
{
    const long x = *(const long *)a, y = *(const long *)b;
    return (x > y) - (x < y);
}

/* The middle, 99.9 of 100 and the greatest of some times, in microseconds. */
static void report(const char *what, long *times, long count)
{
    if (count == 0) return;
    qsort(times, (size_t)count, sizeof *times, by_size);
    fprintf(stderr, "%s: median %ld us, p99.9 %ld us, most %ld us\n", what, times[count / 2] / 1000,
            times[count - 1 - count / 1000] / 1000, times[count - 1] / 1000);
}

int main(int argc, char **argv)
{
    static loop l;
    static long late[200000], spent[200000];
    static const motion_drive_out none[AXES] = { { 0, 0, 0 }, { 0, 0, 0 } };
    motion_drive_in answers[AXES];
    struct timespec next;
    long cycle, cycles = argc > 1 ? atol(argv[1]) : 10000;
    uint32_t code;
    struct sched_param high = { 80 };
    int ends[2];
    pid_t drives;
    if (sched_setscheduler(0, SCHED_FIFO, &high) != 0) perror("no SCHED_FIFO"); /* of both processes */
    if (cycles > 200000 || open_wire(ends) != 0 || (drives = fork()) < 0) return 2;
    if (drives == 0) {
        run_drives(ends[1]);
        return 0;
    }
    l.to_drives = ends[0];
    l.is_traced = argc > 2;
    code = open_loop(&l);
    if (mlockall(MCL_CURRENT | MCL_FUTURE) != 0) perror("no locked memory");
    send_frame(l.to_drives, READ, none);
    clock_gettime(CLOCK_MONOTONIC, &next);
    for (cycle = 0; code == MOTION_OK && cycle < cycles; cycle++) {
        wait_until(&next);
        late[cycle] = since(&next);
        code = run_cycle(&l, answers);
        spent[cycle] = since(&next) - late[cycle];
    }
    if (code == MOTION_OK && !take_answers(l.to_drives, answers)) code = MOTION_NULL;
    send_frame(l.to_drives, END, none);
    waitpid(drives, NULL, 0);
    fprintf(stderr, "code %u cycles %ld dones %d errors %d\n", (unsigned)code, cycle, l.dones, l.errors);
    report("late", late, cycle);
    report("from waking to the frame", spent, cycle);
    if (code == MOTION_OK) code = motion_end(&l.handle, 0);
    if (code == MOTION_OK && argc > 2) code = write_trace(&l, answers, argv[2]);
    motion_close(&l.handle);
    return code == MOTION_OK ? 0 : 1;
}
