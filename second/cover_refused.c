/* What an event file has reached of document 01's numbers handed back and of soundness. */
#include "cover.h"

static bool is_client_abort(uint8_t command)
{
    return command >= 0x80 && command <= 0x9f;
}

/* ---- Which number comes first ---- */

enum order_item {
    ORDER_2_AND_ROOM,
    ORDER_2_AND_CLIENT_ABORT,
    ORDER_3_AND_CLIENT_ABORT,
    ORDER_1_AND_CLIENT_ABORT,
    ORDER_1_AND_FAULT_CODE_0,
    ORDER_1_AND_NOT_DISABLED,
    ORDER_1_AND_NOT_FULL,
    ORDER_1_AND_PDO_SHORT,
    ORDER_1_AND_SEND_ROOM,
    ORDERS
};
static const char *const order_names[ORDERS] = {
    "number-2-although-reply-room-short",
    "number-2-although-client-abort",
    "number-3-although-client-abort",
    "number-1-although-client-abort",
    "number-1-although-fault-code-0",
    "number-1-although-load-outside-DISABLED",
    "number-1-although-not-a-full-image",
    "number-1-although-PDO-under-that-number-of-entries",
    "number-1-although-room-under-that-number-of-entries",
};
static uint64_t order_counts[ORDERS];

/* ---- Requests ---- */

enum { REQUEST_SIZES = WIDE_MOST + 1, REPLY_ROOMS = SDO_ROOM_MOST + 1 };
static uint64_t size_counts[REQUEST_SIZES]; /* refused by 2, but those of eight: done */
static uint64_t room_counts[REPLY_ROOMS];   /* refused by 3, but those of eight and more: done */

/* The command bytes on both ends of the client's abort. */
static const uint8_t edge_commands[] = {0x7f, 0x80, 0x9f, 0xa0};
enum { EDGE_COMMANDS = sizeof edge_commands };
static uint64_t command_counts[EDGE_COMMANDS];

static void count_refused_request(size_t size, size_t room, uint8_t command, uint8_t number)
{
    bool short_room = room < SDO_SIZE;
    bool client_abort = is_client_abort(command);
    if (number == REQUEST_NOT_EIGHT) {
        size_counts[size]++;
        order_counts[ORDER_2_AND_ROOM] += short_room;
        order_counts[ORDER_2_AND_CLIENT_ABORT] += size > 0 && client_abort;
    } else if (number == ROOM_SHORT) {
        room_counts[room]++;
        order_counts[ORDER_3_AND_CLIENT_ABORT] += client_abort;
    }
}

static void count_request(const struct seen *seen)
{
    const struct record *record = seen->record;
    size_t most = record->kind == EVENT_WIDE ? WIDE_MOST : SDO_SIZE;
    size_t size = at_most(record->small, most);
    size_t room = at_most(record->word, SDO_ROOM_MOST);
    uint8_t command = record->bytes[0];
    uint8_t number = seen->outcome->number;
    count_refused_request(size, room, command, number);
    if (number == DONE) {
        size_counts[size]++;
        room_counts[room]++;
    }
    if (number == DONE || number == NO_REPLY_DUE)
        for (size_t i = 0; i < EDGE_COMMANDS; i++)
            command_counts[i] += command == edge_commands[i];
}

/* ---- Faults ---- */

static uint64_t no_fault_counts[STATES]; /* a report of code 0 */

static void count_fault(const struct seen *seen)
{
    if (seen->outcome->number == FAULT_CODE_ZERO)
        no_fault_counts[seen->before->state]++;
}

/* ---- Devices that are not sound ---- */

static const char *const call_names[CALLS] = {"sdo",   "control", "fault", "tick",    "jump",
                                              "store", "load",    "query", "receive", "send"};
static const char *const unsound_names[UNSOUND_KINDS] = {
    "state-4",        "error-code", "position-above-stroke", "setting-minus-40000",
    "limits-crossed", "position-positive-or-above-stroke",
};
static const char *const broken_names[BROKEN_KINDS] = {
    "setting-above-range",
    "setting-below-range",
    "setting-most",
    "setting-least",
    "position-below-stroke",
    "position-negative-or-below-stroke",
    "set-point-above-range",
    "set-point-below-range",
    "map-count-5",
    "map-count-255",
    "map-entry-of-the-other-direction",
    "map-entry-0-counted",
    "dither-above-range",
    "dither-minus-1",
    "dither-most",
    "dither-least",
    "DISABLED-with-phase-1",
    "FAULT-with-phase-4294967295",
    "selection-2",
    "selection-255",
    "unselected-position-1",
    "unselected-position-minus-1",
    "unselected-setting-above-range",
    "unselected-setting-below-range",
    "unselected-limits-crossed",
    "unselected-set-point-above-range",
    "unselected-set-point-below-range",
    "state-255",
};
enum { SETTING_WAYS = BROKEN_SETTING_LEAST + 1, UNSELECTED_WAYS = BROKEN_SETTING_BELOW + 1 };
static const char *const setting_way_names[SETTING_WAYS] = {"above-range", "below-range", "most",
                                                            "least"};
static const char *const dither_way_names[SETTING_WAYS] = {"above-range", "minus-1", "most",
                                                           "least"};

static struct {
    uint64_t call[UNSOUND_KINDS][CALLS];
    uint64_t state[UNSOUND_KINDS][STATES];
} unsound_counts;

static struct {
    uint64_t call[BROKEN_KINDS][CALLS];
    uint64_t state[BROKEN_KINDS][STATES];
    uint64_t setting[BLOCKS][SETTINGS][SETTING_WAYS]; /* of the block while it is selected */
    uint64_t unselected[BLOCKS][SETTINGS][UNSELECTED_WAYS]; /* and while it is not */
    uint64_t dither[DITHER_VALUES][SETTING_WAYS];
    uint64_t map[MAPS][BROKEN_KINDS];
    uint64_t map_entry[MAPS][MAP_ENTRIES][BROKEN_KINDS];
    uint64_t not_counted[MAPS]; /* an entry of the other direction that is not counted */
} broken_counts;

static bool image_is_full(const struct seen *seen)
{
    struct device device = device_fresh();
    return device_load(&device, seen->image, IMAGE_SIZE) != NOT_A_FULL_IMAGE;
}

/* What a sound device would have been refused for. */
static void count_other_reasons(const struct seen *seen, uint32_t call)
{
    const struct record *record = seen->record;
    order_counts[ORDER_1_AND_CLIENT_ABORT] +=
        call == CALL_SDO && is_client_abort(record->bytes[0]);
    order_counts[ORDER_1_AND_FAULT_CODE_0] += call == CALL_FAULT && record->word == 0;
    order_counts[ORDER_1_AND_NOT_DISABLED] += call == CALL_LOAD && seen->before->state != DISABLED;
    order_counts[ORDER_1_AND_NOT_FULL] += call == CALL_LOAD && !image_is_full(seen);
}

static bool is_map_way(size_t way)
{
    return way >= BROKEN_MAP_COUNT_5 && way <= BROKEN_MAP_ENTRY_ZERO;
}

/* A map that should have more than four entries is longer than the eight bytes. */
static void count_broken_map(size_t way, const struct seen *seen, uint32_t call)
{
    struct map_place place = broken_place(seen->record);
    bool too_many = way == BROKEN_MAP_COUNT_5 || way == BROKEN_MAP_COUNT_255;
    broken_counts.map[place.kind][way]++;
    broken_counts.map_entry[place.kind][place.entry][way]++;
    broken_counts.not_counted[place.kind] +=
        way == BROKEN_MAP_ENTRY_OTHER && place.entry >= seen->before->map[place.kind].count;
    order_counts[ORDER_1_AND_PDO_SHORT] +=
        too_many && place.kind == RECEIVE_MAP && call == CALL_RECEIVE;
    order_counts[ORDER_1_AND_SEND_ROOM] +=
        too_many && place.kind == TRANSMIT_MAP && call == CALL_SEND;
}

static void count_broken(size_t way, const struct seen *seen, uint32_t call)
{
    const struct device *device = seen->before;
    size_t place = seen->record->word % SETTINGS;
    broken_counts.call[way][call]++;
    broken_counts.state[way][device->state]++;
    if (way < SETTING_WAYS)
        broken_counts.setting[device->selected][place][way]++;
    if (way == BROKEN_OTHER_SETTING_ABOVE || way == BROKEN_OTHER_SETTING_BELOW) {
        uint64_t *ways = broken_counts.unselected[other_block(device->selected)][place];
        ways[way - BROKEN_OTHER_SETTING_ABOVE]++;
    }
    if (way >= BROKEN_DITHER_ABOVE && way <= BROKEN_DITHER_LEAST)
        broken_counts.dither[seen->record->word % DITHER_VALUES][way - BROKEN_DITHER_ABOVE]++;
    if (is_map_way(way))
        count_broken_map(way, seen, call);
}

/* Only where the call handed back 1, the device as it was, and left the room alone. */
static void count_not_sound(const struct seen *seen)
{
    const struct outcome *outcome = seen->outcome;
    uint32_t call = seen->record->number % CALLS;
    size_t way = seen->record->small;
    if (outcome->number != STATE_NOT_SOUND || !outcome->same || !outcome->kept)
        return;
    count_other_reasons(seen, call);
    if (seen->record->kind == EVENT_BROKEN) {
        count_broken(at_most(way, BROKEN_STATE), seen, call);
        return;
    }
    way = way < UNSOUND_KINDS ? way : UNSOUND_STATE;
    unsound_counts.call[way][call]++;
    unsound_counts.state[way][seen->before->state]++;
}

/* ---- Sound devices at the ends ---- */

enum end { HIGHEST, LOWEST, ENDS };
static const char *const end_names[ENDS] = {"highest", "lowest"};

static struct {
    uint64_t setting[SETTINGS][ENDS];
    uint64_t set_point[ENDS];
    uint64_t position[ENDS];
    uint64_t negative[STATES];
    uint64_t limits_equal;
} sound_counts[BLOCKS];

/* An end counts when it is reached, not while the value stays there. */
static void count_end(uint64_t counts[ENDS], int64_t before, int64_t after, int64_t low,
                      int64_t high)
{
    counts[HIGHEST] += before != after && after == high;
    counts[LOWEST] += before != after && after == low;
}

static void count_sound(const struct seen *seen, enum block_kind kind)
{
    const struct block *before = &seen->before->block[kind];
    const struct block *after = &seen->after->block[kind];
    const int64_t *setting = after->setting;
    for (size_t place = 0; place < SETTINGS; place++) {
        const struct object *object = object_of_setting(place);
        count_end(sound_counts[kind].setting[place], before->setting[place], setting[place],
                  object->low, object->high);
    }
    count_end(sound_counts[kind].set_point, before->set_point, after->set_point, INT16_MIN,
              INT16_MAX);
    count_end(sound_counts[kind].position, before->position, after->position, -FULL_POSITION,
              FULL_POSITION);
    sound_counts[kind].negative[seen->after->state] += after->position < 0;
    sound_counts[kind].limits_equal += setting[LOWER_LIMIT] == setting[UPPER_LIMIT];
}

void count_refusals(const struct seen *seen)
{
    count_sound(seen, POSITION_BLOCK);
    count_sound(seen, PRESSURE_BLOCK);
    switch (seen->record->kind) {
    case EVENT_SDO:
    case EVENT_WIDE:
        count_request(seen);
        break;
    case EVENT_FAULT:
        count_fault(seen);
        break;
    case EVENT_UNSOUND:
    case EVENT_BROKEN:
        count_not_sound(seen);
        break;
    default:
        break;
    }
}

/* ---- The list ---- */

static void list_requests(void)
{
    for (size_t size = 0; size < REQUEST_SIZES; size++)
        list_item(size_counts[size], "request-of-%d-bytes", (int)size);
    for (size_t room = 0; room < REPLY_ROOMS; room++)
        list_item(room_counts[room], "reply-room-of-%d-bytes", (int)room);
    for (size_t i = 0; i < EDGE_COMMANDS; i++)
        list_item(command_counts[i], "command-%02X-%s", (unsigned)edge_commands[i],
                  is_client_abort(edge_commands[i]) ? "gets-no-reply" : "is-aborted");
    for (size_t i = 0; i < ORDERS; i++)
        list_item(order_counts[i], "%s", order_names[i]);
    for (size_t state = 0; state < STATES; state++)
        list_item(no_fault_counts[state], "fault-code-0-in-%s", state_names[state]);
}

static void list_ways(const char *group, const char *way, const uint64_t by_call[CALLS],
                      const uint64_t by_state[STATES])
{
    for (size_t call = 0; call < CALLS; call++)
        list_item(by_call[call], "%s-%s-by-%s", group, way, call_names[call]);
    for (size_t state = 0; state < STATES; state++)
        list_item(by_state[state], "%s-%s-in-%s", group, way, state_names[state]);
}

static void list_not_sound(void)
{
    for (size_t way = 0; way < UNSOUND_KINDS; way++)
        list_ways("unsound", unsound_names[way], unsound_counts.call[way],
                  unsound_counts.state[way]);
    for (size_t way = 0; way < BROKEN_KINDS; way++)
        list_ways("broken", broken_names[way], broken_counts.call[way], broken_counts.state[way]);
}

static unsigned setting_index(size_t block, size_t place)
{
    return object_index((struct found){object_of_setting(place), (enum block_kind)block});
}

static void list_broken_settings(size_t block)
{
    for (size_t place = 0; place < SETTINGS; place++)
        for (size_t way = 0; way < SETTING_WAYS; way++)
            list_item(broken_counts.setting[block][place][way], "broken-%04X-%s",
                      setting_index(block, place), setting_way_names[way]);
    for (size_t place = 0; place < SETTINGS; place++)
        for (size_t way = 0; way < UNSELECTED_WAYS; way++)
            list_item(broken_counts.unselected[block][place][way], "broken-unselected-%04X-%s",
                      setting_index(block, place), setting_way_names[way]);
}

static void list_broken_dither(void)
{
    for (size_t place = 0; place < DITHER_VALUES; place++)
        for (size_t way = 0; way < SETTING_WAYS; way++)
            list_item(broken_counts.dither[place][way], "broken-%04X-%s",
                      (unsigned)object_of_dither(place)->index, dither_way_names[way]);
}

static void list_broken_maps(void)
{
    static const unsigned indexes[MAPS] = {0x1600, 0x1a00};
    for (size_t kind = 0; kind < MAPS; kind++) {
        list_item(broken_counts.map[kind][BROKEN_MAP_COUNT_5], "broken-%04X-count-5",
                  indexes[kind]);
        list_item(broken_counts.map[kind][BROKEN_MAP_COUNT_255], "broken-%04X-count-255",
                  indexes[kind]);
        for (size_t entry = 0; entry < MAP_ENTRIES; entry++) {
            const uint64_t *ways = broken_counts.map_entry[kind][entry];
            list_item(ways[BROKEN_MAP_ENTRY_OTHER], "broken-%04X-sub-%d-of-the-other-direction",
                      indexes[kind], (int)entry + 1);
            list_item(ways[BROKEN_MAP_ENTRY_ZERO], "broken-%04X-sub-%d-counted-and-0",
                      indexes[kind], (int)entry + 1);
        }
        list_item(broken_counts.not_counted[kind], "broken-%04X-entry-that-is-not-counted",
                  indexes[kind]);
    }
}

static void list_sound(size_t block)
{
    static const unsigned set_points[BLOCKS] = {0x6300, 0x6380};
    const char *prefix = block_prefixes[block];
    for (size_t place = 0; place < SETTINGS; place++)
        for (size_t end = 0; end < ENDS; end++)
            list_item(sound_counts[block].setting[place][end], "sound-%04X-%s",
                      setting_index(block, place), end_names[end]);
    for (size_t end = 0; end < ENDS; end++)
        list_item(sound_counts[block].set_point[end], "sound-%04X-%s", set_points[block],
                  end_names[end]);
    for (size_t end = 0; end < ENDS; end++)
        list_item(sound_counts[block].position[end], "%ssound-position-%s", prefix,
                  end_names[end]);
    list_item(sound_counts[block].negative[HOLD], "%ssound-position-negative-in-HOLD", prefix);
    list_item(sound_counts[block].negative[ACTIVE], "%ssound-position-negative-in-ACTIVE",
              prefix);
    list_item(sound_counts[block].limits_equal, "%ssound-limits-equal", prefix);
}

void list_refusal_items(void)
{
    list_requests();
    list_not_sound();
    for (size_t block = 0; block < BLOCKS; block++)
        list_broken_settings(block);
    list_broken_dither();
    list_broken_maps();
    for (size_t block = 0; block < BLOCKS; block++)
        list_sound(block);
}
