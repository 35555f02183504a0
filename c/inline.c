/* A test of the header's inline functions: names and texts as strings of C, tasks and blocks that are
 * added one by one, in each version, and pointers that are null. Silent where all is as expected. */
#include "motion_blocks.h"

#include <stdio.h>
#include <string.h>

static const char machine[] =
    "motion-bench 1\n"
    "limit 20 40\n"
    "axis A 0 50 10 4 1 0 ready\n"
    "axis XY 0 50 10 4 1 0 ready\n"
    "group G A XY\n"
    "task main\n"
    "task mainly\n"
    "block B main MoveAbsolute XY\n"
    "block C main MoveAbsolute XY\n"
    "block MX main MoveAbsolute XY";

static const char config[] =
    "cycle_us = 1000\ncycles = 20\nentries = 40\n"
    "[[axis]]\nname = \"X\"\nlo = 0\nhi = 50\nvmax = 100\namax = 1000\nincrement = 1\nstart = 0\n";

static const char program[] =
    "motion-program 1\ntask main\nblock P Power X\nblock MX MoveAbsolute X\ntask other\nblock H Halt X\n";

/* The same configuration in version 3. */
static const char third_config[] =
    "version = 3\ncycle_us = 1000\ncycles = 20\nentries = 40\n"
    "[[axis]]\nname = \"X\"\nlo = 0\nhi = 50\nvmax = 100\namax = 1000\nincrement = 1\nstart = 0\n";

static const char third_program[] =
    "motion-program 3\ntask main\nblock MX MoveAbsolute X\nblock AX MoveAdditive X\n";

static int faults;

static void want(const char *what, uint64_t found, uint64_t wanted)
{
    if (found == wanted) return;
    fprintf(stderr, "%s: %lu in place of %lu\n", what, (unsigned long)found, (unsigned long)wanted);
    faults++;
}

/* Texts and names, whole. */
static void strings(void)
{
    motion m = MOTION_NONE;
    motion_refusal why;
    want("the version", motion_version(), MOTION_VERSION);
    want("is the header's", motion_same_version(), MOTION_OK);
    want("no text", motion_text_len(""), 0);
    want("a text", motion_text_len("MX"), 2);
    want("the same", (uint64_t)motion_text_is("MX", "MX"), 1);
    want("a longer one", (uint64_t)motion_text_is("MXY", "MX"), 0);
    want("a shorter one", (uint64_t)motion_text_is("M", "MX"), 0);
    want("another one", (uint64_t)motion_text_is("MY", "MX"), 0);
    want("none at all", (uint64_t)motion_text_is("", ""), 1);
    want("open", motion_open_text(&m, machine, &why), MOTION_OK);
    want("block MX", motion_block_named(&m, "MX"), 2);
    want("block C", motion_block_named(&m, "C"), 1);
    want("no block M", motion_block_named(&m, "M"), MOTION_NO_NUMBER);
    want("no block XY", motion_block_named(&m, "XY"), MOTION_NO_NUMBER);
    want("axis XY", motion_axis_named(&m, "XY"), 1);
    want("no axis X", motion_axis_named(&m, "X"), MOTION_NO_NUMBER);
    want("no axis B", motion_axis_named(&m, "B"), MOTION_NO_NUMBER);
    want("group G", motion_group_named(&m, "G"), 0);
    want("no group XY", motion_group_named(&m, "XY"), MOTION_NO_NUMBER);
    want("task mainly", motion_task_named(&m, "mainly"), 1);
    want("no task ma", motion_task_named(&m, "ma"), MOTION_NO_NUMBER);
    want("open again", motion_open_text(&m, "", &why), MOTION_OPEN);
    want("close", motion_close(&m), MOTION_OK);
    want("an empty text", motion_open_text(&m, "", &why), MOTION_REFUSED);
}

static void add_all(motion_setup *s, uint8_t *room, size_t size)
{
    motion_setup_begin(s, room, size);
    motion_setup_task(s, "main");
    motion_setup_block(s, "P", "Power", "X");
    motion_setup_block(s, "MX", "MoveAbsolute", "X");
    motion_setup_task(s, "other");
    motion_setup_block(s, "H", "Halt", "X");
}

/* Tasks and blocks in room of each size, up to more than they take: none is written behind it, and the
 * machine is opened exactly where all fit. */
static void setups(void)
{
    static uint8_t room[200];
    size_t size, len = sizeof program - 1;
    for (size = 0; size < len + 2; size++) {
        motion m = MOTION_NONE;
        motion_refusal why;
        motion_setup s;
        uint32_t code;
        memset(room, 7, sizeof room);
        add_all(&s, room, size);
        want("the length", s.len, len);
        want("the text", (uint64_t)memcmp(room, program, size < len ? size : len), 0);
        want("behind it", room[size < len ? size : len], 7);
        code = motion_open_setup(&m, (const uint8_t *)config, sizeof config - 1, &s, &why);
        want("opened", code, size < len ? MOTION_NO_MEMORY : MOTION_OK);
        want("block H", motion_block_named(&m, "H"), size < len ? MOTION_NO_NUMBER : 2);
        want("closed", motion_close(&m), size < len ? MOTION_CLOSED : MOTION_OK);
    }
}

/* A block of a kind that version 1 doesn't have makes the program one of version 3, in room of each size:
 * it opens a machine of a configuration of version 3, and another configuration rejects it. */
static void versions(void)
{
    static uint8_t room[200];
    size_t size, len = sizeof third_program - 1;
    for (size = 0; size < len + 2; size++) {
        static MC_MoveAbsolute move;
        static MC_MoveAdditive additive;
        motion m = MOTION_NONE;
        motion_refusal why = { 0, 0, 0 };
        motion_block_row row = { 0, 0, 0, 0 };
        static mc_machine blocks;
        mc_setup s;
        uint32_t code;
        memset(room, 7, sizeof room);
        mc_setup_begin(&s, room, size);
        mc_setup_task(&s, "main");
        MC_MoveAbsolute_add(&move, &s, "MX", "X");
        want("the version before", room[15], size > 15 ? '1' : 7);
        MC_MoveAdditive_add(&additive, &s, "AX", "X");
        want("the length", s.text.len, len);
        want("the text", (uint64_t)memcmp(room, third_program, size < len ? size : len), 0);
        want("behind it", room[size < len ? size : len], 7);
        want("its number", additive.block, 1);
        code = mc_open(&blocks, &m, (const uint8_t *)third_config, sizeof third_config - 1, &s, &why);
        want("opened", code, size < len ? MOTION_NO_MEMORY : MOTION_OK);
        if (size < len) continue;
        want("the block", motion_block_look(&m, additive.block, &row), MOTION_OK);
        want("its kind", row.kind, MOTION_MOVE_ADDITIVE);
        want("found", MC_MoveAdditive_find(&additive, &blocks, "AX"), MOTION_OK);
        want("called", MC_MoveAdditive_call(&additive, &blocks), MOTION_OK);
        want("closed", motion_close(&m), MOTION_OK);
        code = mc_open(&blocks, &m, (const uint8_t *)config, sizeof config - 1, &s, &why);
        want("version 2", code, MOTION_REFUSED);
        want("its line", why.line, 1);
        want("P", why.letter, 'P');
        want("2", why.number, 2);
    }
}

/* Each pointer that is null. */
static void pointers(void)
{
    static const motion_drive_in enabled[2] = { { 0, 0x0037, 8 }, { 0, 0x0037, 8 } };
    const uint8_t *text = (const uint8_t *)machine;
    const size_t len = sizeof machine - 1;
    motion m = MOTION_NONE, spare = MOTION_NONE;
    motion_refusal why;
    motion_inputs in;
    motion_outputs out;
    motion_drive_out given[2];
    memset(&in, 0, sizeof in);
    want("open: no handle", motion_open_tested(NULL, text, len, &why), MOTION_NULL);
    want("open: no text", motion_open_tested(&m, NULL, len, &why), MOTION_NULL);
    want("open: no refusal", motion_open_tested(&m, text, len, NULL), MOTION_NULL);
    want("open", motion_open_tested(&m, text, len, &why), MOTION_OK);
    want("config: no handle", motion_open_config_tested(NULL, text, len, text, len, &why), MOTION_NULL);
    want("config: no text", motion_open_config_tested(&spare, NULL, len, text, len, &why), MOTION_NULL);
    want("config: no program", motion_open_config_tested(&spare, text, len, NULL, len, &why), MOTION_NULL);
    want("config: no refusal", motion_open_config_tested(&spare, text, len, text, len, NULL), MOTION_NULL);
    want("config: none", motion_open_config_tested(&spare, text, len, text, len, &why), MOTION_REFUSED);
    want("open spare", motion_open_text(&spare, machine, &why), MOTION_OK);
    want("call: no handle", motion_call_tested(NULL, 0, &in, &out), MOTION_NULL);
    want("call: no inputs", motion_call_tested(&m, 0, NULL, &out), MOTION_NULL);
    want("call: no outputs", motion_call_tested(&m, 0, &in, NULL), MOTION_NULL);
    want("cycle: no handle", motion_cycle_tested(NULL, enabled, 2, given, 2), MOTION_NULL);
    want("cycle: no answers", motion_cycle_tested(&m, NULL, 2, given, 2), MOTION_NULL);
    want("cycle: no room", motion_cycle_tested(&m, enabled, 2, NULL, 2), MOTION_NULL);
    want("swap: no handle", motion_swap_tested(NULL, &spare), MOTION_NULL);
    want("swap: no spare", motion_swap_tested(&m, NULL), MOTION_NULL);
    want("swap: one handle", motion_swap_tested(&m, &m), MOTION_OTHER);
    want("nothing was done", motion_room_left(&m), 40);
    want("call", motion_call_tested(&m, 0, &in, &out), MOTION_OK);
    want("cycle", motion_cycle_tested(&m, enabled, 2, given, 2), MOTION_OK);
    want("two were", motion_room_left(&m), 38);
    want("cycle: other lengths", motion_cycle_tested(&m, enabled, 1, given, 2), MOTION_LENGTH);
    want("cycle: other lengths", motion_cycle_tested(&m, enabled, 2, given, 1), MOTION_LENGTH);
    want("swap", motion_swap_tested(&m, &spare), MOTION_OK);
    want("an empty segment", motion_room_left(&m), 40);
    want("close", motion_close(&m), MOTION_OK);
    want("close spare", motion_close(&spare), MOTION_OK);
}

int main(void)
{
    strings();
    setups();
    versions();
    pointers();
    return faults != 0;
}
