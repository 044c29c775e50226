/* What an event file has reached of the dither's objects, 6360h to 6362h, wish 4 of document 02:
 * read and written, and the places of the aborts that have a reason. */
#include <inttypes.h>

#include "cover.h"

enum { VALUES_MOST = 4, SIZE_MOST = 4, BEYOND_SUBS = 2 };

/* An object, values worth a write in its range and beyond, and sub-indexes that it lacks. Written
 * out here, and not taken from the model: a mistake there leaves items missing. */
static const struct own_object {
    uint16_t index;
    uint8_t value_sub;
    size_t size;
    int64_t high;
    uint32_t code; /* for a value beyond the range */
    size_t good_count;
    int64_t good[VALUES_MOST];
    size_t bad_count;
    int64_t bad[VALUES_MOST];
    uint8_t beyond_sub[BEYOND_SUBS];
    uint32_t entry; /* as it would be mapped */
} own_objects[DITHER_VALUES] = {
    {0x6360, 0, 1, 2, CODE_ANOTHER, 3, {0, 1, 2}, 4, {3, 127, -1, -128}, {1, 255}, 0x63600008},
    {0x6361, 1, 2, 1024, CODE_HIGH, 4, {0, 1, 1023, 1024}, 3, {1025, 32768, 65535}, {2, 255},
     0x63610110},
    {0x6362, 1, 2, 250, CODE_HIGH, 4, {0, 1, 249, 250}, 3, {251, 32768, 65535}, {2, 255},
     0x63620110},
};

/* ---- The items ---- */

enum although_item {
    LENGTH_AND_RANGE,
    LENGTH_AND_LOCKED,
    RANGE_AND_LOCKED,
    LOCKED_VALUE_STANDS,
    LOCKED_VALUE_IS_ANOTHER,
    COUNT_AND_LENGTH,
    COUNT_AND_LOCKED,
    ALTHOUGHS
};
static const char *const although_names[ALTHOUGHS] = {
    "wrong-length-although-out-of-range",
    "wrong-length-although-ACTIVE",
    "out-of-range-although-ACTIVE",
    "locked-although-value-stands",
    "locked-value-is-another",
    "sub-0-read-only-although-wrong-length",
    "sub-0-read-only-although-ACTIVE",
};

static struct object_counts {
    uint64_t good[VALUES_MOST];
    uint64_t bad[VALUES_MOST];
    uint64_t done_in_state[STATES];
    uint64_t phase_kept; /* above 0, by a write of another value */
    uint64_t bad_in_state[STATES];
    uint64_t read_in_state[STATES]; /* a value above 0 */
    uint64_t length[SIZE_MOST + 1];
    uint64_t beyond[BEYOND_SUBS][ACCESSES];
    uint64_t count_entry[ACCESSES]; /* sub 0 of a record */
    uint64_t although[ALTHOUGHS];
    uint64_t mapped[MAPS]; /* aborted */
} counts[DITHER_VALUES];

/* What stands beside the three. */
static const uint16_t no_objects[] = {0x635f, 0x6363};
enum { NO_OBJECTS = sizeof no_objects / sizeof no_objects[0] };
static uint64_t no_object_counts[NO_OBJECTS][ACCESSES];

/* ---- One request ---- */

/* What the data bytes say in the type: one byte has a sign, two have none. */
static int64_t value_in(const struct request *request, const struct own_object *own)
{
    int64_t byte = request->data & 0xff;
    if (own->size == 2)
        return request->data & 0xffff;
    return byte > 127 ? byte - 256 : byte;
}

static bool is_in_range(const struct own_object *own, int64_t value)
{
    return value >= 0 && value <= own->high;
}

/* The write changed this value and nothing else. */
static void count_done(size_t place, const struct seen *seen, const struct request *request)
{
    const struct own_object *own = &own_objects[place];
    struct device wanted = *seen->before;
    int64_t value = value_in(request, own);
    wanted.dither[place] = value;
    if (request->sub != own->value_sub || request->size != own->size ||
        !is_in_range(own, value) || seen->before->state == ACTIVE ||
        !device_equal(&wanted, seen->after))
        return;
    for (size_t i = 0; i < own->good_count; i++)
        counts[place].good[i] += value == own->good[i];
    counts[place].done_in_state[seen->before->state]++;
    counts[place].phase_kept +=
        seen->before->phase > 0 && seen->before->dither[place] != value;
}

static void count_read(size_t place, const struct seen *seen, const struct request *request)
{
    const struct own_object *own = &own_objects[place];
    const uint8_t *reply = seen->outcome->bytes;
    int64_t stands = seen->before->dither[place];
    bool empty = reply[6] == 0 && reply[7] == 0;
    if (request->sub != own->value_sub) {
        counts[place].count_entry[READ_ACCESS] +=
            reply[0] == READ_1 && reply[4] == 1 && reply[5] == 0 && empty;
        return;
    }
    if (reply[0] == (own->size == 1 ? READ_1 : READ_2) && empty)
        counts[place].read_in_state[seen->before->state] +=
            stands > 0 && reply[4] + 256 * reply[5] == stands;
}

/* ---- Aborts ---- */

static void count_no_sub(size_t place, const struct request *request)
{
    for (size_t i = 0; i < BEYOND_SUBS; i++)
        counts[place].beyond[i][access_of(request)] +=
            own_objects[place].beyond_sub[i] == request->sub;
}

static void count_read_only(size_t place, const struct seen *seen, const struct request *request)
{
    bool active = seen->before->state == ACTIVE;
    counts[place].count_entry[WRITE_ACCESS] += request->size == 1;
    counts[place].although[COUNT_AND_LENGTH] += request->size != 1;
    counts[place].although[COUNT_AND_LOCKED] += active;
}

static void count_length(size_t place, const struct seen *seen, const struct request *request)
{
    const struct own_object *own = &own_objects[place];
    bool in_range = is_in_range(own, value_in(request, own));
    counts[place].length[request->size]++;
    counts[place].although[LENGTH_AND_RANGE] += !in_range;
    counts[place].although[LENGTH_AND_LOCKED] += in_range && seen->before->state == ACTIVE;
}

static void count_bad(size_t place, const struct seen *seen, int64_t value)
{
    const struct own_object *own = &own_objects[place];
    for (size_t i = 0; i < own->bad_count; i++)
        counts[place].bad[i] += value == own->bad[i];
    counts[place].bad_in_state[seen->before->state]++;
    counts[place].although[RANGE_AND_LOCKED] += seen->before->state == ACTIVE;
}

static void count_locked(size_t place, const struct seen *seen, int64_t value)
{
    bool stands = seen->before->dither[place] == value;
    counts[place].although[stands ? LOCKED_VALUE_STANDS : LOCKED_VALUE_IS_ANOTHER]++;
}

static void count_aborted(size_t place, const struct seen *seen, const struct request *request)
{
    const struct own_object *own = &own_objects[place];
    bool is_value = request->sub == own->value_sub;
    bool is_written = request->size > 0;
    bool own_size = request->size == own->size;
    int64_t value = value_in(request, own);
    uint32_t length_code = request->size > own->size ? CODE_LONG : CODE_SHORT;
    if (!device_equal(seen->before, seen->after))
        return;
    if (request->sub > own->value_sub && request->code == CODE_SUB_INDEX)
        count_no_sub(place, request);
    else if (!is_value && is_written && request->code == CODE_READ_ONLY)
        count_read_only(place, seen, request);
    else if (is_value && is_written && !own_size && request->code == length_code)
        count_length(place, seen, request);
    else if (is_value && own_size && !is_in_range(own, value) && request->code == own->code)
        count_bad(place, seen, value);
    else if (is_value && own_size && is_in_range(own, value) && request->code == CODE_LOCKED &&
             seen->before->state == ACTIVE)
        count_locked(place, seen, value);
}

/* An entry that names one of the three, written to a map that is open for it. */
static void count_mapping(const struct seen *seen, const struct request *request)
{
    static const uint16_t map_indexes[MAPS] = {0x1600, 0x1a00};
    if (request->code != CODE_ENTRY || request->sub == 0 ||
        !device_equal(seen->before, seen->after))
        return;
    for (size_t place = 0; place < DITHER_VALUES; place++)
        for (size_t kind = 0; kind < MAPS; kind++)
            counts[place].mapped[kind] +=
                request->index == map_indexes[kind] && request->data == own_objects[place].entry;
}

void count_dither_request(const struct seen *seen)
{
    struct request request = request_of(seen);
    for (size_t i = 0; i < NO_OBJECTS; i++)
        if (request.index == no_objects[i] && request.code == CODE_OBJECT)
            no_object_counts[i][access_of(&request)]++;
    count_mapping(seen, &request);
    for (size_t place = 0; place < DITHER_VALUES; place++) {
        if (request.index != own_objects[place].index)
            continue;
        if (request.code != 0)
            count_aborted(place, seen, &request);
        else if (request.command == READ)
            count_read(place, seen, &request);
        else
            count_done(place, seen, &request);
    }
}

/* ---- The list ---- */

static void list_values(size_t place)
{
    const struct own_object *own = &own_objects[place];
    const struct object_counts *from = &counts[place];
    unsigned index = own->index;
    for (size_t i = 0; i < own->good_count; i++)
        list_item(from->good[i], "dither-%04X-takes-%d", index, (int)own->good[i]);
    for (size_t i = 0; i < own->bad_count; i++)
        list_item(from->bad[i], "abort-%08" PRIX32 "-of-%04X-for-%d", own->code, index,
                  (int)own->bad[i]);
    for (size_t state = 0; state < STATES; state++) {
        if (state != ACTIVE)
            list_item(from->done_in_state[state], "dither-%04X-written-in-%s", index,
                      state_names[state]);
        list_item(from->bad_in_state[state], "abort-%08" PRIX32 "-of-%04X-in-%s", own->code,
                  index, state_names[state]);
        list_item(from->read_in_state[state], "dither-%04X-read-in-%s", index,
                  state_names[state]);
    }
    list_item(from->phase_kept, "dither-%04X-written-and-phase-kept", index);
}

static void list_places(size_t place)
{
    static const unsigned map_indexes[MAPS] = {0x1600, 0x1a00};
    const struct own_object *own = &own_objects[place];
    const struct object_counts *from = &counts[place];
    unsigned index = own->index;
    for (size_t size = 1; size <= SIZE_MOST; size++)
        if (size != own->size)
            list_item(from->length[size], "dither-%04X-write-of-%d-%s", index, (int)size,
                      size > own->size ? "too-long" : "too-short");
    for (size_t i = 0; i < BEYOND_SUBS; i++)
        for (size_t access = 0; access < ACCESSES; access++)
            list_item(from->beyond[i][access], "abort-%08X-of-%04X-sub-%d-%s",
                      (unsigned)CODE_SUB_INDEX, index, (int)own->beyond_sub[i],
                      access_names[access]);
    for (size_t i = 0; i < ALTHOUGHS; i++)
        if (own->value_sub == 1 || (i != COUNT_AND_LENGTH && i != COUNT_AND_LOCKED))
            list_item(from->although[i], "dither-%04X-%s", index, although_names[i]);
    for (size_t access = 0; access < ACCESSES && own->value_sub == 1; access++)
        list_item(from->count_entry[access], "dither-%04X-sub-0-%s", index,
                  access_names[access]);
    for (size_t kind = 0; kind < MAPS; kind++)
        list_item(from->mapped[kind], "abort-%08X-of-%04X-for-%08" PRIX32, (unsigned)CODE_ENTRY,
                  map_indexes[kind], own->entry);
}

void list_dither_object_items(void)
{
    for (size_t place = 0; place < DITHER_VALUES; place++) {
        list_values(place);
        list_places(place);
    }
    for (size_t i = 0; i < NO_OBJECTS; i++)
        for (size_t access = 0; access < ACCESSES; access++)
            list_item(no_object_counts[i][access], "abort-%08X-for-%04X-%s",
                      (unsigned)CODE_OBJECT, (unsigned)no_objects[i], access_names[access]);
}
