/* What an event file has reached of the objects of the blocks, wish 6 of document 02: those of the
 * pressure block read and written, the places of the aborts that have a reason, and the objects
 * of either block while the other is selected. */
#include <inttypes.h>

#include "cover.h"

/* Written out here, and not taken from the model: a mistake there leaves items missing. */
static const uint16_t first_index[BLOCKS] = {0x6300, 0x6380};

enum { OWN_OBJECTS = 19, SIZE_MOST = 4, SUBS = 4, NEVER = 0 };

/* Where the value of an object stands in its block, beside the places of the settings. */
enum { OF_SET_POINT = SETTINGS, OF_COMMAND };

#define WORDS INT16_MIN, INT16_MAX, NEVER, NEVER
#define TIMES 0, 3600000, NEVER, CODE_HIGH

/* By the distance from the block's first index. A code is NEVER given where the type has no
 * value beyond that end of the range. */
static const struct own_object {
    uint8_t distance;
    size_t place;
    uint8_t value_sub;
    uint8_t top_sub;
    size_t size;
    bool is_signed;
    bool is_locked; /* while ACTIVE */
    int64_t low;
    int64_t high;
    uint32_t low_code;
    uint32_t high_code;
} own_objects[OWN_OBJECTS] = {
    {0x00, OF_SET_POINT, 1, 1, 2, true, false, WORDS},
    {0x10, OF_COMMAND, 1, 1, 2, true, false, WORDS},
    {0x14, HOLD_SET_POINT, 1, 1, 2, true, false, WORDS},
    {0x20, UPPER_LIMIT, 1, 1, 2, true, false, WORDS},
    {0x21, LOWER_LIMIT, 1, 1, 2, true, false, WORDS},
    {0x22, SCALING_FACTOR, 0, 0, 4, false, false, 0, UINT32_MAX, NEVER, NEVER},
    {0x23, SCALING_OFFSET, 1, 1, 2, true, false, WORDS},
    {0x24, ZERO_CORRECTION, 1, 1, 2, true, false, WORDS},
    {0x30, RAMP_TYPE, 0, 0, 1, true, true, 0, 3, CODE_ANOTHER, CODE_ANOTHER},
    {0x31, ACCELERATION_ONE, 1, 3, 4, false, true, TIMES},
    {0x32, ACCELERATION_POSITIVE, 1, 3, 4, false, true, TIMES},
    {0x33, ACCELERATION_NEGATIVE, 1, 3, 4, false, true, TIMES},
    {0x34, DECELERATION_ONE, 1, 3, 4, false, true, TIMES},
    {0x35, DECELERATION_POSITIVE, 1, 3, 4, false, true, TIMES},
    {0x36, DECELERATION_NEGATIVE, 1, 3, 4, false, true, TIMES},
    {0x42, DEAD_BAND_TYPE, 0, 0, 1, true, true, 0, 1, CODE_ANOTHER, CODE_ANOTHER},
    {0x43, DEAD_BAND_A_SIDE, 1, 1, 2, true, true, 0, 4096, CODE_LOW, CODE_HIGH},
    {0x44, DEAD_BAND_B_SIDE, 1, 1, 2, true, true, 0, 4096, CODE_LOW, CODE_HIGH},
    {0x45, DEAD_BAND_THRESHOLD, 1, 1, 2, true, true, 0, 16384, CODE_LOW, CODE_HIGH},
};

/* ---- The items ---- */

enum end { HIGHEST, LOWEST, ENDS };

static struct object_counts {
    uint64_t taken[ENDS];
    uint64_t beyond[ENDS];          /* one beyond that end */
    uint64_t read[BLOCKS];          /* not 0, by the selected block, as are the next four */
    uint64_t written[BLOCKS];       /* another value than stood there */
    uint64_t in_active[BLOCKS];     /* so written while ACTIVE */
    uint64_t locked[BLOCKS];        /* aborted while ACTIVE: another value */
    uint64_t locked_stands[BLOCKS]; /* the value that stands there */
    uint64_t beyond_in_active;
    uint64_t length[SIZE_MOST + 1];
    uint64_t no_sub[ACCESSES];
    uint64_t fixed_sub[SUBS][ACCESSES]; /* one byte that says what is in the record */
    uint64_t command_written;
} counts[BLOCKS][OWN_OBJECTS];

static struct {
    uint64_t read[STATES];
    uint64_t written[STATES];
} state_counts[BLOCKS];

/* Of the upper and the lower limit: what the limits of the other block would say of the value. */
enum limit_item {
    REFUSED_ALTHOUGH_OTHER_WOULD_NOT,
    TAKEN_ALTHOUGH_OTHER_WOULD,
    EQUAL,
    LIMIT_ITEMS
};
static uint64_t limit_counts[BLOCKS][SETTINGS][LIMIT_ITEMS];

/* ---- Values and limits ---- */

static unsigned index_of(size_t block, const struct own_object *own)
{
    return (unsigned)first_index[block] + own->distance;
}

static int64_t value_in(const struct own_object *own, uint32_t data)
{
    uint64_t range = UINT64_C(1) << (8 * own->size);
    uint64_t number = data % range;
    if (own->is_signed && number >= range / 2)
        return (int64_t)number - (int64_t)range;
    return (int64_t)number;
}

static int64_t standing(const struct block *block, const struct own_object *own)
{
    return own->place == OF_SET_POINT ? block->set_point : block->setting[own->place];
}

static void put(struct block *block, const struct own_object *own, int64_t value)
{
    if (own->place == OF_SET_POINT)
        block->set_point = (int32_t)value;
    else
        block->setting[own->place] = value;
}

static bool is_in_range(const struct own_object *own, int64_t value)
{
    return value >= own->low && value <= own->high;
}

static bool would_cross(const struct block *block, const struct own_object *own, int64_t value)
{
    return (own->place == UPPER_LIMIT && block->setting[LOWER_LIMIT] > value) ||
           (own->place == LOWER_LIMIT && block->setting[UPPER_LIMIT] < value);
}

static bool is_limit(const struct own_object *own)
{
    return own->place == UPPER_LIMIT || own->place == LOWER_LIMIT;
}

/* ---- What was done ---- */

static void count_limit_taken(enum block_kind kind, const struct own_object *own,
                              const struct device *after, int64_t value)
{
    const struct block *other = &after->block[other_block(kind)];
    const int64_t *setting = after->block[kind].setting;
    uint64_t *items = limit_counts[kind][own->place];
    items[TAKEN_ALTHOUGH_OTHER_WOULD] += would_cross(other, own, value);
    items[EQUAL] += setting[UPPER_LIMIT] == setting[LOWER_LIMIT];
}

/* The write changed this value of this block and nothing else. */
static void count_done(enum block_kind kind, size_t object, const struct seen *seen,
                       const struct request *request)
{
    const struct own_object *own = &own_objects[object];
    const struct device *before = seen->before;
    int64_t value = value_in(own, request->data);
    bool active = before->state == ACTIVE;
    if (request->sub != own->value_sub || request->size != own->size || !is_in_range(own, value) ||
        own->place == OF_COMMAND || (own->is_locked && active) ||
        would_cross(&before->block[kind], own, value))
        return;
    struct device wanted = *before;
    put(&wanted.block[kind], own, value);
    if (!device_equal(&wanted, seen->after))
        return;
    bool is_another = standing(&before->block[kind], own) != value;
    struct object_counts *to = &counts[kind][object];
    to->taken[HIGHEST] += value == own->high;
    to->taken[LOWEST] += value == own->low;
    to->written[before->selected] += is_another;
    to->in_active[before->selected] += is_another && active;
    state_counts[kind].written[before->state] += is_another;
    if (is_limit(own))
        count_limit_taken(kind, own, seen->after, value);
}

/* What the one-byte entries of a record say: so many entries, seconds, milli. */
static uint32_t fixed_byte(const struct own_object *own, uint8_t sub)
{
    if (sub == 0)
        return own->top_sub;
    return sub == 2 ? 0x03 : 0xfd;
}

static void count_read(enum block_kind kind, size_t object, const struct seen *seen,
                       const struct request *request)
{
    static const uint8_t commands[SIZE_MOST + 1] = {0, READ_1, READ_2, 0, READ_4};
    const struct own_object *own = &own_objects[object];
    const uint8_t *reply = seen->outcome->bytes;
    uint32_t told = number_at(&reply[4]);
    struct object_counts *to = &counts[kind][object];
    if (request->sub != own->value_sub) {
        to->fixed_sub[request->sub][READ_ACCESS] +=
            reply[0] == READ_1 && told == fixed_byte(own, request->sub);
        return;
    }
    if (own->place == OF_COMMAND || reply[0] != commands[own->size])
        return;
    int64_t stands = standing(&seen->before->block[kind], own);
    uint64_t range = UINT64_C(1) << (8 * own->size);
    if (told != (uint64_t)stands % range || stands == 0)
        return;
    to->read[seen->before->selected]++;
    state_counts[kind].read[seen->before->state]++;
}

/* ---- What was aborted ---- */

static void count_refused_value(enum block_kind kind, size_t object, const struct seen *seen,
                                const struct request *request)
{
    const struct own_object *own = &own_objects[object];
    const struct device *before = seen->before;
    const struct block *other = &before->block[other_block(kind)];
    int64_t value = value_in(own, request->data);
    bool active = before->state == ACTIVE;
    struct object_counts *to = &counts[kind][object];
    if (value > own->high && request->code == own->high_code) {
        to->beyond[HIGHEST] += value == own->high + 1;
        to->beyond_in_active += active && own->is_locked;
    } else if (value < own->low && request->code == own->low_code) {
        to->beyond[LOWEST] += value == own->low - 1;
    } else if (would_cross(&before->block[kind], own, value) && request->code == CODE_CROSSED) {
        limit_counts[kind][own->place][REFUSED_ALTHOUGH_OTHER_WOULD_NOT] +=
            !would_cross(other, own, value);
    } else if (is_in_range(own, value) && own->is_locked && active &&
               request->code == CODE_LOCKED) {
        bool stands = standing(&before->block[kind], own) == value;
        to->locked[before->selected] += !stands;
        to->locked_stands[before->selected] += stands;
    }
}

static void count_aborted(enum block_kind kind, size_t object, const struct seen *seen,
                          const struct request *request)
{
    const struct own_object *own = &own_objects[object];
    bool is_value = request->sub == own->value_sub;
    bool is_written = request->size > 0;
    uint32_t length_code = request->size > own->size ? CODE_LONG : CODE_SHORT;
    struct object_counts *to = &counts[kind][object];
    if (!device_equal(seen->before, seen->after))
        return;
    if (request->sub > own->top_sub)
        to->no_sub[is_written] +=
            request->sub == own->top_sub + 1 && request->code == CODE_SUB_INDEX;
    else if (!is_value && is_written)
        to->fixed_sub[request->sub][WRITE_ACCESS] += request->code == CODE_READ_ONLY;
    else if (own->place == OF_COMMAND)
        to->command_written += is_written && request->code == CODE_READ_ONLY;
    else if (is_written && request->size != own->size)
        to->length[request->size] += request->code == length_code;
    else if (is_written)
        count_refused_value(kind, object, seen, request);
}

void count_block_request(const struct seen *seen)
{
    struct request request = request_of(seen);
    for (int kind = 0; kind < BLOCKS; kind++)
        for (size_t object = 0; object < OWN_OBJECTS; object++) {
            if (request.index != index_of((size_t)kind, &own_objects[object]))
                continue;
            if (request.code != 0)
                count_aborted((enum block_kind)kind, object, seen, &request);
            else if (request.command == READ)
                count_read((enum block_kind)kind, object, seen, &request);
            else
                count_done((enum block_kind)kind, object, seen, &request);
        }
}

/* ---- The list ---- */

static void list_values(size_t object)
{
    const struct own_object *own = &own_objects[object];
    const struct object_counts *from = &counts[PRESSURE_BLOCK][object];
    unsigned index = index_of(PRESSURE_BLOCK, own);
    list_item(from->taken[LOWEST], "pressure-%04X-takes-%" PRId64, index, own->low);
    list_item(from->taken[HIGHEST], "pressure-%04X-takes-%" PRId64, index, own->high);
    if (own->high_code != NEVER)
        list_item(from->beyond[HIGHEST], "abort-%08" PRIX32 "-of-%04X-for-%" PRId64,
                  own->high_code, index, own->high + 1);
    if (own->low_code != NEVER)
        list_item(from->beyond[LOWEST], "abort-%08" PRIX32 "-of-%04X-for-%" PRId64,
                  own->low_code, index, own->low - 1);
    if (own->is_locked)
        list_item(from->beyond_in_active, "abort-%08" PRIX32 "-of-%04X-although-ACTIVE",
                  own->high_code, index);
    for (size_t size = 1; size <= SIZE_MOST; size++)
        if (size != own->size)
            list_item(from->length[size], "pressure-%04X-write-of-%d-%s", index, (int)size,
                      size > own->size ? "too-long" : "too-short");
}

static void list_subs(size_t object)
{
    const struct own_object *own = &own_objects[object];
    const struct object_counts *from = &counts[PRESSURE_BLOCK][object];
    unsigned index = index_of(PRESSURE_BLOCK, own);
    for (size_t access = 0; access < ACCESSES; access++)
        list_item(from->no_sub[access], "abort-%08X-of-%04X-sub-%d-%s", (unsigned)CODE_SUB_INDEX,
                  index, own->top_sub + 1, access_names[access]);
    for (size_t sub = 0; sub <= own->top_sub; sub++) {
        if (sub == own->value_sub)
            continue;
        list_item(from->fixed_sub[sub][READ_ACCESS], "pressure-%04X-sub-%d-read-%d", index,
                  (int)sub, (int)fixed_byte(own, (uint8_t)sub));
        list_item(from->fixed_sub[sub][WRITE_ACCESS], "abort-%08X-of-%04X-sub-%d",
                  (unsigned)CODE_READ_ONLY, index, (int)sub);
    }
}

/* Of one block while the same or the other is selected. */
static void list_selected(size_t block, size_t object, size_t selected)
{
    const struct own_object *own = &own_objects[object];
    const struct object_counts *from = &counts[block][object];
    unsigned index = index_of(block, own);
    const char *name = block_names[selected];
    list_item(from->read[selected], "%s-%04X-read-while-%s-selected", block_names[block], index,
              name);
    list_item(from->written[selected], "%s-%04X-written-while-%s-selected", block_names[block],
              index, name);
    if (!own->is_locked) {
        list_item(from->in_active[selected], "%s-%04X-written-in-ACTIVE-while-%s-selected",
                  block_names[block], index, name);
        return;
    }
    list_item(from->locked[selected], "abort-%08X-of-%04X-while-%s-selected",
              (unsigned)CODE_LOCKED, index, name);
    list_item(from->locked_stands[selected],
              "abort-%08X-of-%04X-while-%s-selected-although-value-stands", (unsigned)CODE_LOCKED,
              index, name);
}

static void list_limits(size_t block, size_t place, unsigned index, unsigned other_index)
{
    const uint64_t *items = limit_counts[block][place];
    list_item(items[REFUSED_ALTHOUGH_OTHER_WOULD_NOT], "abort-%08X-of-%04X-although-fit-for-%04X",
              (unsigned)CODE_CROSSED, index, other_index);
    list_item(items[TAKEN_ALTHOUGH_OTHER_WOULD], "%s-%04X-taken-although-crossed-with-%04X",
              block_names[block], index, other_index);
    list_item(items[EQUAL], "%s-%04X-taken-with-limits-equal", block_names[block], index);
}

void list_block_object_items(void)
{
    for (size_t object = 0; object < OWN_OBJECTS; object++) {
        list_subs(object);
        if (own_objects[object].place == OF_COMMAND) {
            list_item(counts[PRESSURE_BLOCK][object].command_written, "abort-%08X-of-6390-sub-1",
                      (unsigned)CODE_READ_ONLY);
            continue;
        }
        list_values(object);
        list_selected(PRESSURE_BLOCK, object, POSITION_BLOCK);
        list_selected(PRESSURE_BLOCK, object, PRESSURE_BLOCK);
        list_selected(POSITION_BLOCK, object, PRESSURE_BLOCK);
    }
    for (size_t state = 0; state < STATES; state++) {
        list_item(state_counts[PRESSURE_BLOCK].read[state], "pressure-read-in-%s",
                  state_names[state]);
        list_item(state_counts[PRESSURE_BLOCK].written[state], "pressure-written-in-%s",
                  state_names[state]);
    }
    list_limits(POSITION_BLOCK, UPPER_LIMIT, 0x6320, 0x63a1);
    list_limits(POSITION_BLOCK, LOWER_LIMIT, 0x6321, 0x63a0);
    list_limits(PRESSURE_BLOCK, UPPER_LIMIT, 0x63a0, 0x6321);
    list_limits(PRESSURE_BLOCK, LOWER_LIMIT, 0x63a1, 0x6320);
}
