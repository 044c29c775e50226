/* What an event file has reached of the maps of process data, wish 2 of document 02: objects 1600h
 * and 1A00h read and written, and the aborts that come after place 8. */
#include <inttypes.h>

#include "cover.h"

/* Written out here, and not taken from the model: a mistake there leaves items missing. */
static const uint16_t map_indexes[MAPS] = {0x1600, 0x1a00};
static const uint32_t good_entries[MAPS][MAPPED_OBJECTS] = {
    [RECEIVE_MAP] = {0x60400010, 0x63000110, 0x63140110},
    [TRANSMIT_MAP] = {0x60410010, 0x604e0010, 0x63100110},
};

enum { WRONG_ENTRIES = 12 };
static const struct {
    uint32_t entry;
    const char *reason;
} wrong_entries[MAPS][WRONG_ENTRIES] = {
    [RECEIVE_MAP] = {{0x60400008, "wrong-bits"},
                     {0x63140120, "wrong-bits"},
                     {0x60400002, "bytes-for-bits"},
                     {0x63000102, "bytes-for-bits"},
                     {0x60400110, "wrong-sub-index"},
                     {0x63000010, "wrong-sub-index"},
                     {0x63140210, "wrong-sub-index"},
                     {0x60410010, "of-the-other-direction"},
                     {0x604e0010, "of-the-other-direction"},
                     {0x63100110, "of-the-other-direction"},
                     {0x63200110, "never-mapped"},
                     {0x60420010, "no-such-object"}},
    [TRANSMIT_MAP] = {{0x60410008, "wrong-bits"},
                      {0x63100120, "wrong-bits"},
                      {0x604e0002, "bytes-for-bits"},
                      {0x63100102, "bytes-for-bits"},
                      {0x604e0110, "wrong-sub-index"},
                      {0x63100010, "wrong-sub-index"},
                      {0x63100210, "wrong-sub-index"},
                      {0x60400010, "of-the-other-direction"},
                      {0x63000110, "of-the-other-direction"},
                      {0x63140110, "of-the-other-direction"},
                      {0x63200110, "never-mapped"},
                      {0x60420010, "no-such-object"}},
};

/* ---- The items ---- */

enum { SUBS = MAP_ENTRIES + 1, SIZE_MOST = 4 };

/* A later place, or a later step of the same one, had reason too. */
enum although {
    LOCKED_VALUE_STANDS,
    LOCKED_VALUE_ZERO,
    LOCKED_VALUE_WRONG,
    LOCKED_NOT_COUNTED,
    COUNT_HIGH_AND_ZERO,
    COUNT_HIGH_FROM_COUNTED,
    COUNT_ZERO_FROM_COUNTED,
    LONG_AND_COUNT_HIGH,
    LONG_AND_ZERO,
    SHORT_AND_LOCKED,
    SHORT_AND_WRONG,
    ALTHOUGHS
};
static const struct {
    uint32_t code;
    const char *reason;
} althoughs[ALTHOUGHS] = {
    [LOCKED_VALUE_STANDS] = {CODE_LOCKED, "value-stands-there"},
    [LOCKED_VALUE_ZERO] = {CODE_LOCKED, "value-0"},
    [LOCKED_VALUE_WRONG] = {CODE_LOCKED, "value-not-mappable"},
    [LOCKED_NOT_COUNTED] = {CODE_LOCKED, "that-entry-is-not-counted"},
    [COUNT_HIGH_AND_ZERO] = {CODE_COUNT, "entry-0-would-be-counted"},
    [COUNT_HIGH_FROM_COUNTED] = {CODE_COUNT, "entries-are-counted"},
    [COUNT_ZERO_FROM_COUNTED] = {CODE_ENTRY, "entries-are-counted"},
    [LONG_AND_COUNT_HIGH] = {CODE_LONG, "count-above-4"},
    [LONG_AND_ZERO] = {CODE_LONG, "entry-0-would-be-counted"},
    [SHORT_AND_LOCKED] = {CODE_SHORT, "entries-are-counted"},
    [SHORT_AND_WRONG] = {CODE_SHORT, "value-not-mappable"},
};

enum refused_count { COUNT_OF_5, COUNT_OF_255, REFUSED_COUNTS };
static const uint8_t refused_counts[REFUSED_COUNTS] = {5, 255};

enum beyond_sub { SUB_5, SUB_255, BEYOND_SUBS };
static const uint8_t beyond_subs[BEYOND_SUBS] = {5, 255};

static struct map_counts {
    uint64_t count[SUBS];
    uint64_t taken[MAP_ENTRIES][MAPPED_OBJECTS];
    uint64_t cleared[MAP_ENTRIES];
    uint64_t count_in_state[STATES];
    uint64_t entry_in_state[STATES];
    uint64_t raised; /* from a count above 0 */
    uint64_t lowered;
    uint64_t same_twice;
    uint64_t more_than_counted;
    uint64_t read[SUBS];
    uint64_t read_in_state[STATES];
    uint64_t locked_sub[MAP_ENTRIES];
    uint64_t locked_count[MAP_ENTRIES];
    uint64_t locked_state[STATES];
    uint64_t refused_count_state[STATES];
    uint64_t not_mappable_state[STATES];
    uint64_t refused_count[REFUSED_COUNTS];
    uint64_t wrong_entry[WRONG_ENTRIES];
    uint64_t zero_entry[MAP_ENTRIES];
    uint64_t although[ALTHOUGHS];
    uint64_t size[SUBS][SIZE_MOST + 1];
    uint64_t beyond[BEYOND_SUBS][2]; /* read, written */
} counts[MAPS];

/* What stands beside a map in CiA 301, and is no object here. */
static const uint16_t no_objects[] = {0x15ff, 0x1601, 0x1400, 0x19ff, 0x1a01, 0x1800};
enum { NO_OBJECTS = sizeof no_objects / sizeof no_objects[0] };
static uint64_t no_object_counts[NO_OBJECTS];

/* ---- Entries ---- */

static bool is_good_entry(enum map_kind kind, uint32_t entry)
{
    for (size_t i = 0; i < MAPPED_OBJECTS; i++)
        if (good_entries[kind][i] == entry)
            return true;
    return false;
}

/* The sub-index of the first zero entry up to that one; 0 for none. */
static size_t first_zero(const struct map *map, size_t last)
{
    for (size_t sub = 1; sub <= last && sub <= MAP_ENTRIES; sub++)
        if (map->entry[sub - 1] == 0)
            return sub;
    return 0;
}

/* ---- Writes that were done ---- */

static bool has_same_twice(const struct map *map)
{
    for (size_t i = 0; i < map->count; i++)
        for (size_t other = 0; other < i; other++)
            if (map->entry[i] == map->entry[other])
                return true;
    return false;
}

static void count_count(struct map_counts *to, const struct seen *seen, const struct map *before,
                        const struct map *after)
{
    to->count[after->count]++;
    to->count_in_state[seen->before->state]++;
    to->raised += before->count > 0 && after->count > before->count;
    to->lowered += after->count > 0 && after->count < before->count;
    to->same_twice += has_same_twice(after);
    to->more_than_counted += after->count < MAP_ENTRIES && after->entry[after->count] != 0;
}

static void count_entry(struct map_counts *to, enum map_kind kind, const struct seen *seen,
                        const struct request *request)
{
    size_t place = request->sub - 1u;
    to->entry_in_state[seen->before->state]++;
    to->cleared[place] += request->data == 0 && seen->before->map[kind].entry[place] != 0;
    for (size_t i = 0; i < MAPPED_OBJECTS; i++)
        to->taken[place][i] += good_entries[kind][i] == request->data;
}

/* Counts only where the entry alone has changed. */
static void count_done(enum map_kind kind, const struct seen *seen, const struct request *request)
{
    struct device wanted = *seen->before;
    struct map *map = &wanted.map[kind];
    if (request->sub == 0)
        map->count = (uint8_t)request->data;
    else
        map->entry[request->sub - 1] = request->data;
    if (!device_equal(&wanted, seen->after))
        return;
    if (request->sub == 0)
        count_count(&counts[kind], seen, &seen->before->map[kind], map);
    else
        count_entry(&counts[kind], kind, seen, request);
}

/* ---- Writes that were aborted ---- */

static void count_locked(struct map_counts *to, enum map_kind kind, const struct seen *seen,
                         const struct request *request)
{
    const struct map *map = &seen->before->map[kind];
    bool wrong = request->data != 0 && !is_good_entry(kind, request->data);
    to->locked_sub[request->sub - 1]++;
    to->locked_count[map->count - 1]++;
    to->locked_state[seen->before->state]++;
    to->although[LOCKED_VALUE_STANDS] += map->entry[request->sub - 1] == request->data;
    to->although[LOCKED_VALUE_ZERO] += request->data == 0;
    to->although[LOCKED_VALUE_WRONG] += wrong;
    to->although[LOCKED_NOT_COUNTED] += request->sub > map->count;
}

static void count_refused_count(struct map_counts *to, const struct map *map, uint8_t state,
                                uint8_t value)
{
    to->refused_count_state[state]++;
    for (size_t i = 0; i < REFUSED_COUNTS; i++)
        to->refused_count[i] += refused_counts[i] == value;
    to->although[COUNT_HIGH_AND_ZERO] += first_zero(map, MAP_ENTRIES) != 0;
    to->although[COUNT_HIGH_FROM_COUNTED] += map->count > 0;
}

static void count_not_mappable(struct map_counts *to, enum map_kind kind, const struct seen *seen,
                               const struct request *request)
{
    const struct map *map = &seen->before->map[kind];
    size_t zero = first_zero(map, (uint8_t)request->data);
    to->not_mappable_state[seen->before->state]++;
    if (request->sub == 0 && zero != 0) {
        to->zero_entry[zero - 1]++;
        to->although[COUNT_ZERO_FROM_COUNTED] += map->count > 0;
    }
    for (size_t i = 0; i < WRONG_ENTRIES; i++)
        to->wrong_entry[i] += request->sub > 0 && wrong_entries[kind][i].entry == request->data;
}

/* The value of a short write is what its data bytes say in the type. */
static void count_wrong_size(struct map_counts *to, enum map_kind kind, const struct map *map,
                             const struct request *request)
{
    uint8_t count = (uint8_t)request->data;
    bool wrong = request->data != 0 && !is_good_entry(kind, request->data);
    to->size[request->sub][request->size]++;
    if (request->sub == 0) {
        to->although[LONG_AND_COUNT_HIGH] += count > MAP_ENTRIES;
        to->although[LONG_AND_ZERO] += count <= MAP_ENTRIES && first_zero(map, count) != 0;
    } else {
        to->although[SHORT_AND_LOCKED] += map->count > 0;
        to->although[SHORT_AND_WRONG] += wrong;
    }
}

static void count_no_sub(struct map_counts *to, const struct request *request)
{
    for (size_t i = 0; i < BEYOND_SUBS; i++)
        to->beyond[i][request->size > 0] += beyond_subs[i] == request->sub;
}

static void count_aborted(enum map_kind kind, const struct seen *seen,
                          const struct request *request)
{
    const struct map *map = &seen->before->map[kind];
    size_t own_size = request->sub == 0 ? 1 : 4;
    uint32_t size_code = request->size > own_size ? CODE_LONG : CODE_SHORT;
    struct map_counts *to = &counts[kind];
    if (!device_equal(seen->before, seen->after))
        return;
    if (request->sub > MAP_ENTRIES && request->code == CODE_SUB_INDEX)
        count_no_sub(to, request);
    else if (request->size != own_size && request->code == size_code)
        count_wrong_size(to, kind, map, request);
    else if (request->code == CODE_LOCKED && request->sub > 0 && map->count > 0)
        count_locked(to, kind, seen, request);
    else if (request->code == CODE_COUNT && request->sub == 0)
        count_refused_count(to, map, seen->before->state, (uint8_t)request->data);
    else if (request->code == CODE_ENTRY)
        count_not_mappable(to, kind, seen, request);
}

/* ---- Reads ---- */

static void count_read(enum map_kind kind, const struct seen *seen, const struct request *request)
{
    const uint8_t *reply = seen->outcome->bytes;
    const struct map *map = &seen->before->map[kind];
    uint32_t stands = request->sub == 0 ? map->count : map->entry[request->sub - 1];
    uint8_t command = request->sub == 0 ? READ_1 : READ_4;
    if (reply[0] != command || number_at(&reply[4]) != stands)
        return;
    counts[kind].read[request->sub] += stands != 0;
    counts[kind].read_in_state[seen->before->state]++;
}

void count_map_request(const struct seen *seen)
{
    struct request request = request_of(seen);
    for (size_t i = 0; i < NO_OBJECTS; i++)
        no_object_counts[i] += no_objects[i] == request.index && request.code == CODE_OBJECT;
    for (int kind = 0; kind < MAPS; kind++) {
        if (request.index != map_indexes[kind])
            continue;
        if (request.code != 0)
            count_aborted((enum map_kind)kind, seen, &request);
        else if (request.command == READ)
            count_read((enum map_kind)kind, seen, &request);
        else
            count_done((enum map_kind)kind, seen, &request);
    }
}

/* ---- The list ---- */

static void list_written(unsigned index, enum map_kind kind, const struct map_counts *from)
{
    for (size_t count = 0; count < SUBS; count++)
        list_item(from->count[count], "map-%04X-count-%d", index, (int)count);
    for (size_t place = 0; place < MAP_ENTRIES; place++)
        for (size_t i = 0; i < MAPPED_OBJECTS; i++)
            list_item(from->taken[place][i], "map-%04X-sub-%d-takes-%08" PRIX32, index,
                      (int)place + 1, good_entries[kind][i]);
    for (size_t place = 0; place < MAP_ENTRIES; place++)
        list_item(from->cleared[place], "map-%04X-sub-%d-cleared", index, (int)place + 1);
    for (size_t state = 0; state < STATES; state++) {
        list_item(from->count_in_state[state], "map-%04X-count-in-%s", index, state_names[state]);
        list_item(from->entry_in_state[state], "map-%04X-entry-in-%s", index, state_names[state]);
    }
    list_item(from->raised, "map-%04X-count-raised-from-above-0", index);
    list_item(from->lowered, "map-%04X-count-lowered-to-above-0", index);
    list_item(from->same_twice, "map-%04X-counts-one-object-twice", index);
    list_item(from->more_than_counted, "map-%04X-holds-more-than-counted", index);
}

static void list_read(unsigned index, const struct map_counts *from)
{
    for (size_t sub = 0; sub < SUBS; sub++)
        list_item(from->read[sub], "map-%04X-sub-%d-read-not-0", index, (int)sub);
    for (size_t state = 0; state < STATES; state++)
        list_item(from->read_in_state[state], "map-%04X-read-in-%s", index, state_names[state]);
}

static void list_in_states(unsigned code, unsigned index, const uint64_t by_state[STATES])
{
    for (size_t state = 0; state < STATES; state++)
        list_item(by_state[state], "abort-%08X-of-%04X-in-%s", code, index, state_names[state]);
}

static void list_locked(unsigned index, const struct map_counts *from)
{
    unsigned code = CODE_LOCKED;
    for (size_t place = 0; place < MAP_ENTRIES; place++)
        list_item(from->locked_sub[place], "abort-%08X-of-%04X-sub-%d", code, index,
                  (int)place + 1);
    for (size_t place = 0; place < MAP_ENTRIES; place++)
        list_item(from->locked_count[place], "abort-%08X-of-%04X-while-count-%d", code, index,
                  (int)place + 1);
    list_in_states(CODE_LOCKED, index, from->locked_state);
    list_in_states(CODE_COUNT, index, from->refused_count_state);
    list_in_states(CODE_ENTRY, index, from->not_mappable_state);
}

static void list_refused(unsigned index, enum map_kind kind, const struct map_counts *from)
{
    for (size_t i = 0; i < REFUSED_COUNTS; i++)
        list_item(from->refused_count[i], "abort-%08X-of-%04X-count-%d", (unsigned)CODE_COUNT,
                  index, (int)refused_counts[i]);
    for (size_t i = 0; i < WRONG_ENTRIES; i++)
        list_item(from->wrong_entry[i], "abort-%08X-of-%04X-for-%08" PRIX32 "-%s",
                  (unsigned)CODE_ENTRY, index, wrong_entries[kind][i].entry,
                  wrong_entries[kind][i].reason);
    for (size_t place = 0; place < MAP_ENTRIES; place++)
        list_item(from->zero_entry[place], "abort-%08X-of-%04X-for-0-at-sub-%d",
                  (unsigned)CODE_ENTRY, index, (int)place + 1);
    for (size_t i = 0; i < ALTHOUGHS; i++)
        list_item(from->although[i], "abort-%08" PRIX32 "-of-%04X-although-%s", althoughs[i].code,
                  index, althoughs[i].reason);
}

static void list_sizes_and_subs(unsigned index, const struct map_counts *from)
{
    for (size_t sub = 0; sub < SUBS; sub++)
        for (size_t size = 1; size <= SIZE_MOST; size++)
            if (size != (sub == 0 ? 1 : 4))
                list_item(from->size[sub][size], "map-%04X-sub-%d-write-of-%d-%s", index,
                          (int)sub, (int)size, sub == 0 ? "too-long" : "too-short");
    for (size_t i = 0; i < BEYOND_SUBS; i++) {
        int sub = beyond_subs[i];
        list_item(from->beyond[i][0], "abort-%08X-of-%04X-sub-%d-read", (unsigned)CODE_SUB_INDEX,
                  index, sub);
        list_item(from->beyond[i][1], "abort-%08X-of-%04X-sub-%d-written",
                  (unsigned)CODE_SUB_INDEX, index, sub);
    }
}

void list_map_items(void)
{
    for (int kind = 0; kind < MAPS; kind++) {
        unsigned index = map_indexes[kind];
        const struct map_counts *from = &counts[kind];
        list_written(index, (enum map_kind)kind, from);
        list_read(index, from);
        list_locked(index, from);
        list_refused(index, (enum map_kind)kind, from);
        list_sizes_and_subs(index, from);
    }
    for (size_t i = 0; i < NO_OBJECTS; i++)
        list_item(no_object_counts[i], "abort-%08X-for-%04X", (unsigned)CODE_OBJECT,
                  (unsigned)no_objects[i]);
}
