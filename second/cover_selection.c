/* What an event file has reached of 2000h, which selects the block that drives the command, wish 6
 * of document 02, and of what wish 6 has not brought: further objects, and anything to map. */
#include <inttypes.h>

#include "cover.h"

/* Written out here, and not taken from the model: a mistake there leaves items missing. */
enum { INDEX = 0x2000 };

/* ---- 2000h ---- */

static const uint8_t high_values[] = {2, 255};
enum { HIGH_VALUES = sizeof high_values, SIZE_MOST = 4 };
static const uint8_t beyond_subs[] = {1, 255};
enum { BEYOND_SUBS = sizeof beyond_subs };

static struct {
    uint64_t taken[BLOCKS][BLOCKS];      /* from, to; equal: it stays */
    uint64_t taken_set[BLOCKS][BLOCKS];  /* with both blocks set, and not alike */
    uint64_t locked[STATES][BLOCKS][BLOCKS]; /* by what it has and what is written */
    uint64_t high[STATES][HIGH_VALUES];
    uint64_t length[STATES][SIZE_MOST + 1];
    uint64_t length_high_and_locked; /* places 6 and 8 had reason too */
    uint64_t read[STATES][BLOCKS];
    uint64_t beyond[BEYOND_SUBS][ACCESSES];
} counts;

/* The write changed the selection and nothing else. */
static void count_done(const struct seen *seen, uint8_t value)
{
    struct device wanted = *seen->before;
    wanted.selected = value;
    if (value >= BLOCKS || seen->before->state != DISABLED || !device_equal(&wanted, seen->after))
        return;
    counts.taken[seen->before->selected][value]++;
    counts.taken_set[seen->before->selected][value] += are_blocks_unlike(seen->before);
}

static void count_aborted(const struct seen *seen, const struct request *request)
{
    const struct device *before = seen->before;
    uint8_t value = (uint8_t)request->data;
    if (!device_equal(before, seen->after))
        return;
    for (size_t i = 0; i < BEYOND_SUBS; i++)
        counts.beyond[i][access_of(request)] +=
            request->sub == beyond_subs[i] && request->code == CODE_SUB_INDEX;
    if (request->sub != 0)
        return;
    if (request->size > 1 && request->code == CODE_LONG) {
        counts.length[before->state][request->size]++;
        counts.length_high_and_locked += value >= BLOCKS && before->state != DISABLED;
    } else if (request->size == 1 && value < BLOCKS) {
        counts.locked[before->state][before->selected][value] += request->code == CODE_LOCKED;
    } else if (request->size == 1) {
        for (size_t i = 0; i < HIGH_VALUES; i++)
            counts.high[before->state][i] +=
                value == high_values[i] && request->code == CODE_HIGH;
    }
}

static void count_selection(const struct seen *seen, const struct request *request)
{
    const uint8_t *reply = seen->outcome->bytes;
    const struct device *before = seen->before;
    if (request->code != 0)
        count_aborted(seen, request);
    else if (request->size == 1 && request->sub == 0)
        count_done(seen, (uint8_t)request->data);
    else if (request->size == 0 && request->sub == 0 && reply[0] == READ_1)
        counts.read[before->state][before->selected] += number_at(&reply[4]) == before->selected;
}

/* ---- What there is not ---- */

/* Beside 2000h and the objects of the pressure block, between them, and 80h above objects that
 * are not of a block. */
static const uint16_t no_objects[] = {
    0x1fff, 0x2001, 0x20ff, 0x637f, 0x6381, 0x638f, 0x6391, 0x6393, 0x6395, 0x639f,
    0x63a5, 0x63af, 0x63b7, 0x63c1, 0x63c6, 0x63e0, 0x63e1, 0x63e2, 0x63ff, 0x6400,
    0x60c0, 0x60c1, 0x60ce, 0x1680, 0x1a80, 0x2080,
};
enum { NO_OBJECTS = sizeof no_objects / sizeof no_objects[0] };
static uint64_t no_object_counts[NO_OBJECTS][ACCESSES];

/* No map takes them, although their counterparts can be mapped. */
static const uint16_t map_indexes[MAPS] = {0x1600, 0x1a00};
static const uint32_t never_mapped[] = {0x20000008, 0x63800110, 0x63900110, 0x63940110};
enum { NEVER_MAPPED = sizeof never_mapped / sizeof never_mapped[0] };
static uint64_t never_mapped_counts[MAPS][NEVER_MAPPED];

static void count_what_is_not(const struct seen *seen, const struct request *request)
{
    if (!device_equal(seen->before, seen->after))
        return;
    for (size_t i = 0; i < NO_OBJECTS; i++)
        if (request->index == no_objects[i])
            no_object_counts[i][access_of(request)] += request->code == CODE_OBJECT;
    for (size_t kind = 0; kind < MAPS; kind++)
        for (size_t i = 0; i < NEVER_MAPPED; i++)
            never_mapped_counts[kind][i] +=
                request->index == map_indexes[kind] && request->sub > 0 && request->size == 4 &&
                request->data == never_mapped[i] && request->code == CODE_ENTRY;
}

void count_selection_request(const struct seen *seen)
{
    struct request request = request_of(seen);
    if (request.index == INDEX)
        count_selection(seen, &request);
    count_what_is_not(seen, &request);
}

/* ---- The list ---- */

static void list_taken(void)
{
    for (int from = 0; from < BLOCKS; from++)
        for (int to = 0; to < BLOCKS; to++) {
            list_item(counts.taken[from][to], "2000-from-%d-takes-%d", from, to);
            list_item(counts.taken_set[from][to], "2000-from-%d-takes-%d-both-blocks-kept", from,
                      to);
        }
    for (size_t state = 0; state < STATES; state++)
        for (int selected = 0; selected < BLOCKS; selected++)
            list_item(counts.read[state][selected], "2000-read-%d-in-%s", selected,
                      state_names[state]);
}

static void list_aborts_in(size_t state)
{
    const char *name = state_names[state];
    for (int selected = 0; selected < BLOCKS && state != DISABLED; selected++)
        for (int value = 0; value < BLOCKS; value++)
            list_item(counts.locked[state][selected][value],
                      "abort-%08X-of-2000-for-%d-in-%s-while-it-has-%d", (unsigned)CODE_LOCKED,
                      value, name, selected);
    for (size_t i = 0; i < HIGH_VALUES; i++)
        list_item(counts.high[state][i], "abort-%08X-of-2000-for-%d-in-%s", (unsigned)CODE_HIGH,
                  (int)high_values[i], name);
    for (size_t size = 2; size <= SIZE_MOST; size++)
        list_item(counts.length[state][size], "2000-write-of-%d-too-long-in-%s", (int)size, name);
}

static void list_what_is_not(void)
{
    for (size_t i = 0; i < NO_OBJECTS; i++)
        for (size_t access = 0; access < ACCESSES; access++)
            list_item(no_object_counts[i][access], "abort-%08X-for-%04X-%s",
                      (unsigned)CODE_OBJECT, (unsigned)no_objects[i], access_names[access]);
    for (size_t kind = 0; kind < MAPS; kind++)
        for (size_t i = 0; i < NEVER_MAPPED; i++)
            list_item(never_mapped_counts[kind][i], "abort-%08X-of-%04X-for-%08" PRIX32,
                      (unsigned)CODE_ENTRY, (unsigned)map_indexes[kind], never_mapped[i]);
}

void list_selection_items(void)
{
    list_taken();
    for (size_t state = 0; state < STATES; state++)
        list_aborts_in(state);
    list_item(counts.length_high_and_locked, "2000-too-long-although-above-1-and-locked");
    for (size_t i = 0; i < BEYOND_SUBS; i++)
        for (size_t access = 0; access < ACCESSES; access++)
            list_item(counts.beyond[i][access], "abort-%08X-of-2000-sub-%d-%s",
                      (unsigned)CODE_SUB_INDEX, (int)beyond_subs[i], access_names[access]);
    list_what_is_not();
}
