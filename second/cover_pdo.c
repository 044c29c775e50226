/* What an event file has reached of PDOs received and sent, wish 2 of document 02, and of what
 * leaves the maps alone. */
#include <string.h>

#include "cover.h"

/* Sizes, entries and values are worked out here, and not taken from the model's calls of
 * process data: a mistake there leaves items missing. */
enum { OBJECT_SIZE = 2, COUNTS = MAP_ENTRIES + 1 };
static const uint16_t mapped_indexes[MAPS][MAPPED_OBJECTS] = {
    [RECEIVE_MAP] = {0x6040, 0x6300, 0x6314},
    [TRANSMIT_MAP] = {0x6041, 0x604e, 0x6310},
};
enum received_object { CONTROL_RECEIVED, SET_POINT_RECEIVED, HOLD_SET_POINT_RECEIVED };
enum sent_object { STATUS_SENT, ERROR_SENT, COMMAND_SENT };

static size_t object_place(enum map_kind kind, uint32_t entry)
{
    size_t place = 0;
    while (place < MAPPED_OBJECTS - 1 && mapped_indexes[kind][place] != entry >> 16)
        place++;
    return place;
}

/* ---- What both directions count ---- */

enum length { EXACT, ONE_LONGER, OVER_EIGHT, ONE_SHORT, EMPTY_FOR_SOME, LENGTHS };
static const char *const length_names[LENGTHS] = {
    "as-long-as-the-map", "one-byte-longer", "of-more-than-8-bytes",
    "one-byte-short",     "of-0-bytes",
};

static struct pdo_counts {
    uint64_t count_in_state[COUNTS][STATES]; /* that were done */
    uint64_t length[COUNTS][LENGTHS];        /* the first three done, the others refused */
    uint64_t refused_in_state[STATES];
    uint64_t object_at[MAP_ENTRIES][MAPPED_OBJECTS];
    uint64_t object_in_state[MAPPED_OBJECTS][STATES];
    uint64_t twice[MAPPED_OBJECTS];
    uint64_t fewer_than_written;
} counts[MAPS];

static void count_done_length(struct pdo_counts *to, const struct map *map, size_t size)
{
    size_t own = (size_t)map->count * OBJECT_SIZE;
    to->length[map->count][EXACT] += size == own;
    to->length[map->count][ONE_LONGER] += size == own + 1;
    to->length[map->count][OVER_EIGHT] += size > SDO_SIZE;
}

static void count_refused_length(struct pdo_counts *to, const struct map *map, size_t size,
                                 uint8_t state)
{
    size_t own = (size_t)map->count * OBJECT_SIZE;
    if (size >= own)
        return;
    to->length[map->count][ONE_SHORT] += size + 1 == own;
    to->length[map->count][EMPTY_FOR_SOME] += size == 0;
    to->refused_in_state[state]++;
}

static bool is_mapped_before(const struct map *map, size_t place)
{
    for (size_t i = 0; i < place; i++)
        if (map->entry[i] == map->entry[place])
            return true;
    return false;
}

static void count_objects(enum map_kind kind, const struct map *map, uint8_t state)
{
    struct pdo_counts *to = &counts[kind];
    to->count_in_state[map->count][state]++;
    for (size_t i = 0; i < map->count; i++) {
        size_t object = object_place(kind, map->entry[i]);
        to->object_at[i][object]++;
        to->object_in_state[object][state]++;
        to->twice[object] += is_mapped_before(map, i);
    }
    to->fewer_than_written += map->count < MAP_ENTRIES && map->entry[map->count] != 0;
}

/* ---- Receiving ---- */

enum receive_item {
    SHORT_ALTHOUGH_FIRST_WOULD_ACT,
    OTHER_ORDER_DIFFERS,
    TWICE_TO_ACTIVE,
    TWICE_OUT_OF_FAULT,
    SET_POINT_TWICE,
    HOLD_SET_POINT_TWICE,
    HIGH_BITS_STORED,
    HELD_RESET,
    RECEIVE_ITEMS
};
static const char *const receive_names[RECEIVE_ITEMS] = {
    "number-14-although-an-entry-that-is-there-would-act",
    "receive-in-map-order-where-the-other-order-differs",
    "receive-6040-twice-from-DISABLED-to-ACTIVE",
    "receive-6040-twice-out-of-FAULT-with-reset-stored",
    "receive-6300-twice-and-the-last-stays",
    "receive-6314-twice-and-the-last-stays",
    "receive-6040-with-bits-4-to-15",
    "receive-held-reset-stays-FAULT",
};
static uint64_t receive_counts[RECEIVE_ITEMS];
static uint64_t move_counts[STATES][STATES]; /* equal states: no move */

enum end { HIGHEST, LOWEST, ENDS };
static const char *const end_names[ENDS] = {"highest", "lowest"};
static uint64_t end_counts[MAPPED_OBJECTS][ENDS];

/* The entry at that place as an SDO write of its two bytes. */
static struct device after_write(struct device device, size_t place, const uint8_t *pdo)
{
    uint32_t entry = device.map[RECEIVE_MAP].entry[place];
    const uint8_t *bytes = &pdo[OBJECT_SIZE * place];
    const uint8_t request[SDO_SIZE] = {WRITE_2,  (uint8_t)(entry >> 16), (uint8_t)(entry >> 24),
                                       (uint8_t)(entry >> 8), bytes[0],  bytes[1]};
    uint8_t reply[SDO_SIZE];
    device_sdo(&device, request, SDO_SIZE, reply, SDO_SIZE);
    return device;
}

static struct device after_writes(struct device device, const uint8_t *pdo, bool last_first)
{
    size_t count = device.map[RECEIVE_MAP].count;
    for (size_t i = 0; i < count; i++)
        device = after_write(device, last_first ? count - 1 - i : i, pdo);
    return device;
}

static void count_move(const struct device *before, const struct device *after, uint16_t word)
{
    enum { RESET_BIT = 8, HIGH_BITS = 0xfff0 };
    bool held = (before->control_word & word & RESET_BIT) != 0;
    receive_counts[HIGH_BITS_STORED] += (word & HIGH_BITS) != 0 && after->control_word == word;
    if (before->state == FAULT && after->state == FAULT && held)
        receive_counts[HELD_RESET]++;
    else
        move_counts[before->state][after->state]++;
}

static void count_values(struct device device, const uint8_t *pdo)
{
    const struct map map = device.map[RECEIVE_MAP];
    for (size_t i = 0; i < map.count; i++) {
        struct device before = device;
        size_t object = object_place(RECEIVE_MAP, map.entry[i]);
        uint16_t value = (uint16_t)(pdo[OBJECT_SIZE * i] | pdo[OBJECT_SIZE * i + 1] << 8);
        device = after_write(device, i, pdo);
        end_counts[object][HIGHEST] += value == 0x7fff;
        end_counts[object][LOWEST] += value == 0x8000;
        if (object == CONTROL_RECEIVED)
            count_move(&before, &device, value);
    }
}

static void count_order(const struct seen *seen, const uint8_t *pdo)
{
    enum { RESET_BIT = 8 };
    const struct device *before = seen->before;
    const struct device *after = seen->after;
    struct device other = after_writes(*before, pdo, true);
    bool reset_stored = (before->control_word & RESET_BIT) != 0;
    receive_counts[OTHER_ORDER_DIFFERS] += !device_equal(&other, after);
    receive_counts[TWICE_TO_ACTIVE] += before->state == DISABLED && after->state == ACTIVE;
    receive_counts[TWICE_OUT_OF_FAULT] +=
        before->state == FAULT && after->state == DISABLED && reset_stored;
    const struct block *otherwise = &other.block[POSITION_BLOCK];
    const struct block *set = &after->block[POSITION_BLOCK];
    receive_counts[SET_POINT_TWICE] += otherwise->set_point != set->set_point;
    receive_counts[HOLD_SET_POINT_TWICE] +=
        otherwise->setting[HOLD_SET_POINT] != set->setting[HOLD_SET_POINT];
}

static void count_receive(const struct seen *seen)
{
    uint8_t pdo[WIDE_MOST];
    size_t size = at_most(seen->record->small, WIDE_MOST);
    const struct map *map = &seen->before->map[RECEIVE_MAP];
    uint8_t state = seen->before->state;
    wide_bytes(seen->record, pdo);
    if (seen->outcome->number == PDO_SHORT && device_equal(seen->before, seen->after)) {
        struct device acted = after_write(*seen->before, 0, pdo);
        count_refused_length(&counts[RECEIVE_MAP], map, size, state);
        receive_counts[SHORT_ALTHOUGH_FIRST_WOULD_ACT] +=
            size >= OBJECT_SIZE && !device_equal(seen->before, &acted);
        return;
    }
    struct device wanted = after_writes(*seen->before, pdo, false);
    if (seen->outcome->number != DONE || !device_equal(&wanted, seen->after))
        return;
    count_done_length(&counts[RECEIVE_MAP], map, size);
    count_objects(RECEIVE_MAP, map, state);
    count_values(*seen->before, pdo);
    count_order(seen, pdo);
}

/* ---- Sending ---- */

enum send_item {
    STATUS_AT_TARGET,
    ERROR_NOT_ZERO,
    COMMAND_POSITIVE,
    COMMAND_NEGATIVE,
    SEND_ITEMS
};
static const char *const send_names[SEND_ITEMS] = {
    "send-6041-at-the-target",
    "send-604E-not-0",
    "send-6310-positive",
    "send-6310-negative",
};
static uint64_t send_counts[SEND_ITEMS];

/* What was sent last of each object, to see that another value comes later. */
static struct {
    bool is_known;
    int64_t value;
    uint64_t changes;
} last_sent[MAPPED_OBJECTS];

/* The command is that of the position block: 0 while the other drives it. */
static int64_t value_to_send(const struct device *device, size_t object)
{
    static const enum query queries[MAPPED_OBJECTS] = {QUERY_STATUS, QUERY_ERROR, QUERY_COMMAND};
    if (object == COMMAND_SENT && device->selected != POSITION_BLOCK)
        return 0;
    return device_query(device, queries[object]).value;
}

static void count_sent_value(size_t object, int64_t value)
{
    enum { AT_TARGET = 256 };
    last_sent[object].changes += last_sent[object].is_known && last_sent[object].value != value;
    last_sent[object].is_known = true;
    last_sent[object].value = value;
    send_counts[STATUS_AT_TARGET] += object == STATUS_SENT && (value & AT_TARGET) != 0;
    send_counts[ERROR_NOT_ZERO] += object == ERROR_SENT && value != 0;
    send_counts[COMMAND_POSITIVE] += object == COMMAND_SENT && value > 0;
    send_counts[COMMAND_NEGATIVE] += object == COMMAND_SENT && value < 0;
}

/* The room as it should be: the values low first, the bytes behind as they were. */
static void put_wanted(const struct device *device, bool is_done, uint8_t room[PDO_ROOM_MOST])
{
    const struct map *map = &device->map[TRANSMIT_MAP];
    memset(room, ROOM_FILL, PDO_ROOM_MOST);
    for (size_t i = 0; is_done && i < map->count; i++) {
        size_t object = object_place(TRANSMIT_MAP, map->entry[i]);
        uint32_t value = (uint32_t)value_to_send(device, object);
        room[OBJECT_SIZE * i] = (uint8_t)value;
        room[OBJECT_SIZE * i + 1] = (uint8_t)(value >> 8);
    }
}

static void count_send(const struct seen *seen)
{
    uint8_t wanted[PDO_ROOM_MOST];
    const struct outcome *outcome = seen->outcome;
    const struct map *map = &seen->before->map[TRANSMIT_MAP];
    uint8_t state = seen->before->state;
    bool is_done = outcome->number == DONE;
    size_t own = (size_t)map->count * OBJECT_SIZE;
    put_wanted(seen->before, is_done, wanted);
    if (outcome->sent != (is_done ? own : 0) ||
        memcmp(wanted, outcome->bytes, outcome->byte_count) != 0)
        return;
    if (!is_done) {
        count_refused_length(&counts[TRANSMIT_MAP], map, outcome->byte_count, state);
        return;
    }
    count_done_length(&counts[TRANSMIT_MAP], map, outcome->byte_count);
    count_objects(TRANSMIT_MAP, map, state);
    for (size_t i = 0; i < map->count; i++) {
        size_t object = object_place(TRANSMIT_MAP, map->entry[i]);
        count_sent_value(object, value_to_send(seen->before, object));
    }
}

/* ---- What leaves the maps alone ---- */

static uint64_t kept_counts[KEEPERS];
static uint64_t cleared_count; /* by a fresh device */

static bool maps_are_fresh(const struct device *device)
{
    struct device other = device_fresh();
    memcpy(other.map, device->map, sizeof other.map);
    struct device fresh = device_fresh();
    return device_equal(&fresh, &other);
}

/* A store and a send change nothing; the others have to have changed something else. */
static void count_kept(const struct seen *seen)
{
    const struct device *before = seen->before;
    const struct device *after = seen->after;
    uint8_t kind = seen->record->kind;
    struct device other = *before;
    memcpy(other.map, after->map, sizeof other.map);
    bool same_maps = device_equal(before, &other);
    bool has_acted = kind == EVENT_STORE || kind == EVENT_SEND || !device_equal(before, after);
    bool counted = before->map[RECEIVE_MAP].count > 0 && before->map[TRANSMIT_MAP].count > 0;
    cleared_count += kind == EVENT_FRESH && counted && maps_are_fresh(after);
    for (size_t i = 0; i < KEEPERS; i++)
        if (keepers[i].kind == kind && seen->outcome->number == DONE)
            kept_counts[i] += counted && same_maps && has_acted;
}

void count_pdo_event(const struct seen *seen)
{
    count_kept(seen);
    if (seen->record->kind == EVENT_RECEIVE)
        count_receive(seen);
    else if (seen->record->kind == EVENT_SEND)
        count_send(seen);
}

/* ---- The list ---- */

static void list_lengths(const char *call, const struct pdo_counts *from)
{
    for (size_t count = 0; count < COUNTS; count++)
        for (size_t length = 0; length < LENGTHS; length++)
            if (count > 0 || length < ONE_SHORT) /* nothing is too short for no entries */
                list_item(from->length[count][length], "%s-of-%d-entries-%s", call, (int)count,
                          length_names[length]);
    for (size_t count = 0; count < COUNTS; count++)
        for (size_t state = 0; state < STATES; state++)
            list_item(from->count_in_state[count][state], "%s-of-%d-entries-in-%s", call,
                      (int)count, state_names[state]);
    for (size_t state = 0; state < STATES; state++)
        list_item(from->refused_in_state[state], "%s-refused-in-%s", call, state_names[state]);
}

static void list_objects(const char *call, enum map_kind kind)
{
    const struct pdo_counts *from = &counts[kind];
    for (size_t object = 0; object < MAPPED_OBJECTS; object++) {
        unsigned index = mapped_indexes[kind][object];
        for (size_t place = 0; place < MAP_ENTRIES; place++)
            list_item(from->object_at[place][object], "%s-%04X-by-entry-%d", call, index,
                      (int)place + 1);
        for (size_t state = 0; state < STATES; state++)
            list_item(from->object_in_state[object][state], "%s-%04X-in-%s", call, index,
                      state_names[state]);
        list_item(from->twice[object], "%s-%04X-twice", call, index);
    }
    list_item(from->fewer_than_written, "%s-of-fewer-entries-than-written", call);
}

static void list_received_words(void)
{
    static const uint8_t moves[][2] = {
        {DISABLED, HOLD}, {HOLD, DISABLED},   {HOLD, ACTIVE},
        {ACTIVE, HOLD},   {ACTIVE, DISABLED}, {FAULT, DISABLED},
    };
    for (size_t i = 0; i < sizeof moves / sizeof moves[0]; i++)
        list_item(move_counts[moves[i][0]][moves[i][1]], "receive-move-%s-%s",
                  state_names[moves[i][0]], state_names[moves[i][1]]);
    for (size_t state = 0; state < STATES; state++)
        list_item(move_counts[state][state], "receive-moves-nothing-in-%s", state_names[state]);
}

void list_pdo_items(void)
{
    list_lengths("receive", &counts[RECEIVE_MAP]);
    list_objects("receive", RECEIVE_MAP);
    list_received_words();
    for (size_t object = SET_POINT_RECEIVED; object <= HOLD_SET_POINT_RECEIVED; object++)
        for (size_t end = 0; end < ENDS; end++)
            list_item(end_counts[object][end], "receive-%04X-%s",
                      (unsigned)mapped_indexes[RECEIVE_MAP][object], end_names[end]);
    for (size_t i = 0; i < RECEIVE_ITEMS; i++)
        list_item(receive_counts[i], "%s", receive_names[i]);
    list_lengths("send", &counts[TRANSMIT_MAP]);
    list_objects("send", TRANSMIT_MAP);
    for (size_t i = 0; i < SEND_ITEMS; i++)
        list_item(send_counts[i], "%s", send_names[i]);
    for (size_t object = 0; object < MAPPED_OBJECTS; object++)
        list_item(last_sent[object].changes, "send-%04X-changed-since",
                  (unsigned)mapped_indexes[TRANSMIT_MAP][object]);
    for (size_t i = 0; i < KEEPERS; i++)
        list_item(kept_counts[i], "maps-kept-by-%s", keepers[i].name);
    list_item(cleared_count, "maps-cleared-by-fresh");
}
