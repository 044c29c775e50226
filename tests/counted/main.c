/* counted rows: the name of each row, behind `both`, or `library` where second has no such call.
 * counted check COUNT: makes so many calls of each row on both sides, and stops at the first whose answers or devices differ.
 * counted ROW library|second COUNT [nothing]: makes so many calls of a row, by its place from 0 on, or calls of nothing in their place.
 * Status 1 where something differs, 2 for a wrong call. */
#include "rows.h"

#include <inttypes.h>
#include <stdio.h>
#include <stdlib.h>
#include <string.h>

static const struct row *row;
static rainsheave_device library_device;
static struct device second_device;
static struct outcome outcome;
static struct given given[2]; /* to the calls of even and of odd places */

/* ---- Both sides, held to each other */

static void same(const char *what, int64_t one, int64_t other)
{
    if (one == other)
        return;
    fprintf(stderr, "counted: %s: %s: %" PRId64 " and %" PRId64 "\n", row->name, what, one, other);
    exit(1);
}

/* Where second has no such call the bytes that are due are given. */
static struct outcome by_both(enum call call, const struct given *to_both)
{
    struct outcome library = {.number = DONE}, second = {.number = DONE};
    call_library(call, library_function(call), &library_device, to_both, &library);
    if (second_function(call) != NULL)
        call_second(call, second_function(call), &second_device, to_both, &second);
    else
        memcpy(second.room, to_both->bytes, SDO_SIZE);
    same("numbers of library and second", library.number, second.number);
    same("values of library and second", library.value, second.value);
    same("begins of library and second", (int64_t)library.begin, (int64_t)second.begin);
    same("lengths of library and second", (int64_t)library.length, (int64_t)second.length);
    same("the rooms of library and second differ", memcmp(library.room, second.room, sizeof library.room), 0);
    return library;
}

/* All that can be read: every sub-index of every object, every query and the image. */
static void devices_same(void)
{
    struct given request = {.length = SDO_SIZE};
    for (size_t place = 0; place < ALL_OBJECTS; place++) {
        struct found found = object_at(place);
        for (uint8_t sub = 0; sub <= object_top_sub(found.object); sub++) {
            rainsheave_read_request(request.bytes, object_index(found), sub);
            by_both(CALL_SDO, &request);
        }
    }
    for (enum call call = CALL_STATE; call < CALLS; call++)
        by_both(call, &request);
    by_both(CALL_STORE, &request);
}

static uint32_t abort_in(const struct outcome *reply)
{
    const uint8_t *code = &reply->room[4];
    return reply->room[0] == ABORT ? (uint32_t)code[0] | (uint32_t)code[1] << 8 | (uint32_t)code[2] << 16 | (uint32_t)code[3] << 24 : 0;
}

/* ---- The scene of a row */

static void write_value(uint16_t index, uint8_t sub, uint8_t size, int64_t value)
{
    struct given request = {.length = SDO_SIZE};
    rainsheave_write_request(request.bytes, index, sub, size, (uint32_t)value);
    struct outcome reply = by_both(CALL_SDO, &request);
    same("number of a write for the scene, and that due", reply.number, DONE);
    same("reply to a write for the scene, and that due", reply.room[0], WRITTEN);
}

static void by_number(enum call call, uint32_t number)
{
    by_both(call, &(struct given){.number = number});
}

/* In ramp type 0 one tick in HOLD leads to the hold set point. */
static void put_position(uint16_t block, int64_t position)
{
    write_value(RAINSHEAVE_INDEX_HOLD_SET_POINT + block, 1, 2, position);
    by_number(CALL_CONTROL, RAINSHEAVE_WORD_LEAVE_DISABLED);
    by_number(CALL_TICK, 0);
}

static void put_settings(uint16_t block, uint8_t ramp_type)
{
    static const struct {
        uint16_t index;
        uint8_t sub, size;
        int32_t value;
    } settings[] = {
        {RAINSHEAVE_INDEX_SET_POINT, 1, 2, 9000},
        {RAINSHEAVE_INDEX_HOLD_SET_POINT, 1, 2, -700},
        {RAINSHEAVE_INDEX_SCALING_OFFSET, 1, 2, 5},
        {RAINSHEAVE_INDEX_ZERO_CORRECTION, 1, 2, 3},
        {RAINSHEAVE_INDEX_ACCELERATION, 1, 4, 900},
        {RAINSHEAVE_INDEX_ACCELERATION_POSITIVE, 1, 4, 700},
        {RAINSHEAVE_INDEX_ACCELERATION_NEGATIVE, 1, 4, 800},
        {RAINSHEAVE_INDEX_DECELERATION, 1, 4, 600},
        {RAINSHEAVE_INDEX_DECELERATION_POSITIVE, 1, 4, 500},
        {RAINSHEAVE_INDEX_DECELERATION_NEGATIVE, 1, 4, 400},
        {RAINSHEAVE_INDEX_DEAD_BAND_TYPE, 0, 1, 1},
        {RAINSHEAVE_INDEX_A_SIDE, 1, 2, 10},
        {RAINSHEAVE_INDEX_B_SIDE, 1, 2, 20},
        {RAINSHEAVE_INDEX_THRESHOLD, 1, 2, 30},
    };
    for (size_t i = 0; i < sizeof settings / sizeof *settings; i++)
        write_value(settings[i].index + block, settings[i].sub, settings[i].size, settings[i].value);
    write_value(RAINSHEAVE_INDEX_RAMP_TYPE + block, 0, 1, ramp_type);
}

static void put_dither(uint8_t type)
{
    write_value(RAINSHEAVE_INDEX_DITHER_TYPE, 0, 1, type);
    write_value(RAINSHEAVE_INDEX_DITHER_AMPLITUDE, 1, 2, 100);
    write_value(RAINSHEAVE_INDEX_DITHER_FREQUENCY, 1, 2, 50);
}

static void put_map(uint16_t index, const uint32_t *entries, bool none_counts)
{
    uint8_t count = 0;
    for (; count < MAP_ENTRIES && entries[count] != 0; count++)
        write_value(index, (uint8_t)(count + 1), 4, entries[count]);
    write_value(index, 0, 1, none_counts ? 0 : count);
}

static void enter_state(enum device_state state)
{
    if (state == ACTIVE)
        by_number(CALL_CONTROL, RAINSHEAVE_WORD_LEAVE_DISABLED | RAINSHEAVE_WORD_LEAVE_HOLD | RAINSHEAVE_WORD_MODE_ACTIVE);
    if (state == DISABLED)
        by_number(CALL_CONTROL, 0);
    if (state == FAULT)
        by_number(CALL_FAULT, 1);
}

static void set_scene(const struct scene *scene)
{
    uint16_t block = scene->selected == PRESSURE_BLOCK ? RAINSHEAVE_INDEX_ABOVE : 0;
    by_number(CALL_FRESH, 0);
    write_value(RAINSHEAVE_INDEX_SELECTION, 0, 1, scene->selected);
    if (scene->dither_type != 0)
        put_dither(scene->dither_type);
    put_map(RAINSHEAVE_INDEX_RECEIVE_MAP, scene->entries[RECEIVE_MAP], scene->none_counts);
    put_map(RAINSHEAVE_INDEX_TRANSMIT_MAP, scene->entries[TRANSMIT_MAP], scene->none_counts);
    put_position(block, scene->far_side ? -1000 : 1000);
    put_settings(0, scene->ramp_type); /* for the image too, which is of the position block whichever is selected */
    if (block != 0)
        put_settings(block, scene->ramp_type);
    enter_state(scene->state);
    same("state of the scene, and that due", library_device.state, scene->state);
}

/* An image, where the call is for one: that of the scene. */
static void set_given(void)
{
    struct outcome stored = by_both(CALL_STORE, &(struct given){.length = 0});
    bool of_image = row->call == CALL_LOAD || row->call == CALL_FIND || row->call == CALL_FIND_CODE;
    for (size_t i = 0; i < 2; i++) {
        size_t turn = row->in_turn ? i : 0;
        given[i].number = row->number[turn];
        given[i].length = of_image ? IMAGE_SIZE : row->call == CALL_RECEIVE ? 2 * (size_t)library_device.receive.count : SDO_SIZE;
        memset(given[i].bytes, 0, sizeof given[i].bytes);
        memcpy(given[i].bytes, of_image ? stored.room : row->bytes[turn], given[i].length);
    }
}

static void set_up(const struct row *wanted)
{
    row = wanted;
    set_scene(&row->scene);
    set_given();
    if (row->scene.spoiled == ERROR_CODE_OUTSIDE_FAULT)
        library_device.error_code = second_device.error_code = 1;
    if (row->scene.spoiled == NO_SUCH_STATE)
        library_device.state = second_device.state = STATES;
}

/* ---- The calls of a row; the position is put back before each, so that each begins with the same way to go */

static int64_t *library_position(void)
{
    return &library_device.selected_block.position;
}

static int32_t *second_position(void)
{
    return &second_device.block[second_device.selected].position;
}

static void repeat_library(function *callee, size_t count)
{
    int64_t *position = library_position(), from = *position;
    for (size_t i = 0; i < count; i++) {
        *position = from;
        call_library(row->call, callee, &library_device, &given[i % 2], &outcome);
    }
}

static void repeat_second(function *callee, size_t count)
{
    int32_t *position = second_position(), from = *position;
    for (size_t i = 0; i < count; i++) {
        *position = from;
        call_second(row->call, callee, &second_device, &given[i % 2], &outcome);
    }
}

static void check(const struct row *wanted, size_t count)
{
    set_up(wanted);
    devices_same();
    int32_t from = *second_position();
    for (size_t i = 0; i < count; i++) {
        *library_position() = *second_position() = from;
        struct outcome both = by_both(row->call, &given[i % 2]);
        same("number, and that due", both.number, row->refusal);
        if (row->call == CALL_SDO)
            same("abort code, and that due", abort_in(&both), row->abort);
    }
    devices_same();
}

/* ---- What is asked for */

_Noreturn static void usage(void)
{
    fputs("usage: counted rows | check COUNT | ROW library|second COUNT [nothing]\n", stderr);
    exit(2);
}

static size_t number_below(const char *text, size_t bound)
{
    char *end;
    unsigned long number = strtoul(text, &end, 10);
    if (end == text || *end != '\0' || number >= bound)
        usage();
    return number;
}

static void make_calls(const struct row *wanted, const char *side, size_t count, bool of_nothing)
{
    set_up(wanted);
    if (strcmp(side, "library") == 0)
        repeat_library(of_nothing ? nothing : library_function(row->call), count);
    else if (strcmp(side, "second") == 0 && second_function(row->call) != NULL)
        repeat_second(of_nothing ? nothing : second_function(row->call), count);
    else
        usage();
}

int main(int words, char **word)
{
    const size_t most = 1000000;
    if (words == 2 && strcmp(word[1], "rows") == 0)
        for (size_t i = 0; i < row_count; i++)
            printf("%s %s\n", second_function(rows[i].call) == NULL ? "library" : "both", rows[i].name);
    else if (words == 3 && strcmp(word[1], "check") == 0)
        for (size_t i = 0; i < row_count; i++)
            check(&rows[i], number_below(word[2], most));
    else if (words == 4 || (words == 5 && strcmp(word[4], "nothing") == 0))
        make_calls(&rows[number_below(word[1], row_count)], word[2], number_below(word[3], most), words == 5);
    else
        usage();
    return 0;
}
