/* Runs the events of README on the model. */
#include "run.h"

#include <string.h>

size_t at_most(size_t value, size_t most)
{
    return value > most ? most : value;
}

/* ---- A record ---- */

size_t record_read(FILE *file, struct record *record)
{
    uint8_t raw[RECORD_SIZE];
    size_t met = fread(raw, 1, RECORD_SIZE, file);
    if (met < RECORD_SIZE)
        return met;
    record->kind = raw[0];
    record->small = raw[1];
    record->word = (uint16_t)(raw[2] | raw[3] << 8);
    record->number = 0;
    for (size_t i = 0; i < 4; i++)
        record->number |= (uint32_t)raw[4 + i] << (8 * i);
    memcpy(record->bytes, &raw[8], SDO_SIZE);
    return met;
}

void record_write(FILE *file, const struct record *record)
{
    uint8_t raw[RECORD_SIZE] = {record->kind, record->small, (uint8_t)record->word,
                                (uint8_t)(record->word >> 8)};
    for (size_t i = 0; i < 4; i++)
        raw[4 + i] = (uint8_t)(record->number >> (8 * i));
    memcpy(&raw[8], record->bytes, SDO_SIZE);
    fwrite(raw, 1, RECORD_SIZE, file);
}

/* ---- The events ---- */

struct run run_begin(void)
{
    return (struct run){.device = device_fresh()};
}

static void fill_room(struct outcome *outcome, size_t room)
{
    outcome->byte_count = room;
    memset(outcome->bytes, ROOM_FILL, room);
}

static void run_request(struct run *run, const struct record *record, const uint8_t *request,
                        size_t request_size, struct outcome *outcome)
{
    size_t room = at_most(record->word, SDO_ROOM_MOST);
    fill_room(outcome, room);
    outcome->number =
        (uint8_t)device_sdo(&run->device, request, request_size, outcome->bytes, room);
}

static void run_sdo(struct run *run, const struct record *record, struct outcome *outcome)
{
    run_request(run, record, record->bytes, at_most(record->small, SDO_SIZE), outcome);
}

/* The eight bytes and then the four of the number, low first. */
void wide_bytes(const struct record *record, uint8_t bytes[WIDE_MOST])
{
    memcpy(bytes, record->bytes, SDO_SIZE);
    for (size_t i = SDO_SIZE; i < WIDE_MOST; i++)
        bytes[i] = (uint8_t)(record->number >> (8 * (i - SDO_SIZE)));
}

static void run_wide(struct run *run, const struct record *record, struct outcome *outcome)
{
    uint8_t request[WIDE_MOST];
    wide_bytes(record, request);
    run_request(run, record, request, at_most(record->small, WIDE_MOST), outcome);
}

static void run_receive(struct run *run, const struct record *record, struct outcome *outcome)
{
    uint8_t pdo[WIDE_MOST];
    size_t size = at_most(record->small, WIDE_MOST);
    wide_bytes(record, pdo);
    outcome->number = (uint8_t)device_receive(&run->device, pdo, size);
}

static void run_send(const struct run *run, const struct record *record, struct outcome *outcome)
{
    size_t room = at_most(record->word, PDO_ROOM_MOST);
    fill_room(outcome, room);
    struct sent sent = device_send(&run->device, outcome->bytes, room);
    outcome->number = (uint8_t)sent.number;
    outcome->sent = sent.size;
}

static void run_store(struct run *run, const struct record *record, struct outcome *outcome)
{
    size_t room = at_most(record->word, STORE_ROOM_MOST);
    fill_room(outcome, room);
    outcome->number = (uint8_t)device_store(&run->device, outcome->bytes, room);
    if (outcome->number == DONE)
        memcpy(run->image, outcome->bytes, IMAGE_SIZE);
}

/* As many of the eight bytes as there is image left. */
static void run_patch(struct run *run, const struct record *record, struct outcome *outcome)
{
    outcome->place = record->word % IMAGE_SIZE;
    size_t count = at_most(SDO_SIZE, IMAGE_SIZE - outcome->place);
    memcpy(&run->image[outcome->place], record->bytes, count);
}

static void add_bytes(struct load *load, size_t count, uint8_t byte)
{
    memset(&load->bytes[load->size], byte, count);
    load->size += count;
}

struct load load_of(const uint8_t *image, const struct record *record)
{
    struct load load = {.size = IMAGE_SIZE};
    uint8_t byte = (uint8_t)record->number;
    memcpy(load.bytes, image, IMAGE_SIZE);
    if (record->kind == EVENT_APPEND)
        add_bytes(&load, record->small, byte);
    else if (record->small == LOAD_CUT)
        load.size = at_most(record->word, IMAGE_SIZE);
    else if (record->small == LOAD_BYTE_REPLACED)
        load.bytes[record->word % IMAGE_SIZE] = byte;
    else if (record->small == LOAD_BYTE_MORE)
        add_bytes(&load, 1, byte);
    return load;
}

static void run_load(struct run *run, const struct record *record, struct outcome *outcome)
{
    struct load load = load_of(run->image, record);
    outcome->number = (uint8_t)device_load(&run->device, load.bytes, load.size);
}

static void run_find(const struct run *run, const struct record *record, struct outcome *outcome)
{
    size_t size = at_most(record->word, IMAGE_SIZE);
    struct part part = image_find(record->small, run->image, size);
    outcome->number = (uint8_t)part.number;
    outcome->place = part.size == 0 ? 0 : part.start;
    outcome->byte_count = part.size;
    memcpy(outcome->bytes, &run->image[outcome->place], part.size);
}

static void run_query(const struct run *run, struct outcome *outcome)
{
    for (int query = 0; query < QUERIES; query++)
        outcome->query[query] = device_query(&run->device, (enum query)query);
}

static void run_ticks(struct run *run, const struct record *record, struct outcome *outcome)
{
    for (uint32_t i = 0; i < record->word; i++)
        outcome->number = (uint8_t)device_tick(&run->device);
}

/* ---- Unsound and broken devices ---- */

static bool is_still(const struct device *device)
{
    return device->state == DISABLED || device->state == FAULT;
}

static void cross_limits(struct block *block)
{
    block->setting[UPPER_LIMIT] = -1;
    block->setting[LOWER_LIMIT] = 0;
}

static struct device unsound_device(struct device device, const struct record *record)
{
    enum { BEYOND_STROKE = FULL_POSITION + 1, BELOW_EVERY_RANGE = -40000 };
    struct block *block = &device.block[device.selected];
    switch (record->small) {
    case UNSOUND_ERROR_CODE:
        device.error_code = device.state == FAULT ? 0 : 1;
        break;
    case UNSOUND_POSITION:
        block->position = BEYOND_STROKE;
        break;
    case UNSOUND_SETTING:
        block->setting[record->word % SETTINGS] = BELOW_EVERY_RANGE;
        break;
    case UNSOUND_LIMITS:
        cross_limits(block);
        break;
    case UNSOUND_POSITION_BY_STATE:
        block->position = is_still(&device) ? 1 : BEYOND_STROKE;
        break;
    default:
        device.state = STATES;
    }
    return device;
}

struct map_place broken_place(const struct record *record)
{
    enum map_kind kind = record->word % 2 == 0 ? RECEIVE_MAP : TRANSMIT_MAP;
    return (struct map_place){kind, record->word / 2 % MAP_ENTRIES};
}

static struct device with_broken_map(struct device device, const struct record *record)
{
    static const uint32_t of_other_direction[MAPS] = {
        [RECEIVE_MAP] = 0x60410010,
        [TRANSMIT_MAP] = 0x60400010,
    };
    struct map_place place = broken_place(record);
    struct map *map = &device.map[place.kind];
    switch (record->small) {
    case BROKEN_MAP_COUNT_5:
        map->count = 5;
        break;
    case BROKEN_MAP_COUNT_255:
        map->count = 255;
        break;
    case BROKEN_MAP_ENTRY_OTHER:
        map->entry[place.entry] = of_other_direction[place.kind];
        break;
    default:
        map->count = MAP_ENTRIES;
        map->entry[place.entry] = 0;
    }
    return device;
}

/* What brings a value out of its range: the ways of the settings, in order. */
static int64_t value_beyond(const struct object *object, int way)
{
    switch (way) {
    case BROKEN_SETTING_ABOVE:
        return object->high + 1;
    case BROKEN_SETTING_BELOW:
        return object->low - 1;
    case BROKEN_SETTING_MOST:
        return INT64_MAX;
    default:
        return INT64_MIN;
    }
}

/* The same ways in the same order: -1 is one below, since each range begins at 0. */
static struct device with_broken_dither(struct device device, const struct record *record)
{
    size_t place = record->word % DITHER_VALUES;
    int way = record->small - BROKEN_DITHER_ABOVE + BROKEN_SETTING_ABOVE;
    device.dither[place] = value_beyond(object_of_dither(place), way);
    return device;
}

/* Nothing but the phase is wrong: it is the one past 0 in DISABLED, the one before it in FAULT. */
static struct device with_broken_phase(struct device device, const struct record *record)
{
    bool fault = record->small == BROKEN_PHASE_IN_FAULT;
    device.state = fault ? FAULT : DISABLED;
    device.error_code = fault ? 1 : 0;
    device.block[device.selected].position = 0;
    device.phase = fault ? UINT32_MAX : 1;
    return device;
}

/* A value of either block; the way is that of the selected one. */
static void break_value(struct block *block, int way, size_t place)
{
    if (way == BROKEN_SET_POINT_ABOVE)
        block->set_point = INT16_MAX + 1;
    else if (way == BROKEN_SET_POINT_BELOW)
        block->set_point = INT16_MIN - 1;
    else
        block->setting[place] = value_beyond(object_of_setting(place), way);
}

static struct device with_broken_block(struct device device, const struct record *record)
{
    enum { BELOW_STROKE = -FULL_POSITION - 1 };
    struct block *block = &device.block[device.selected];
    switch (record->small) {
    case BROKEN_POSITION:
        block->position = BELOW_STROKE;
        break;
    case BROKEN_POSITION_BY_STATE:
        block->position = is_still(&device) ? -1 : BELOW_STROKE;
        break;
    default:
        break_value(block, record->small, record->word % SETTINGS);
    }
    return device;
}

/* The block that is not selected. */
static struct device with_broken_other(struct device device, const struct record *record)
{
    static const int way_of_selected[BROKEN_KINDS] = {
        [BROKEN_OTHER_SETTING_ABOVE] = BROKEN_SETTING_ABOVE,
        [BROKEN_OTHER_SETTING_BELOW] = BROKEN_SETTING_BELOW,
        [BROKEN_OTHER_SET_POINT_ABOVE] = BROKEN_SET_POINT_ABOVE,
        [BROKEN_OTHER_SET_POINT_BELOW] = BROKEN_SET_POINT_BELOW,
    };
    struct block *block = &device.block[other_block(device.selected)];
    switch (record->small) {
    case BROKEN_OTHER_POSITION_1:
        block->position = 1;
        break;
    case BROKEN_OTHER_POSITION_MINUS_1:
        block->position = -1;
        break;
    case BROKEN_OTHER_LIMITS:
        cross_limits(block);
        break;
    default:
        break_value(block, way_of_selected[record->small], record->word % SETTINGS);
    }
    return device;
}

static struct device broken_device(struct device device, const struct record *record)
{
    enum { NO_STATE = 255 };
    if (record->small <= BROKEN_SET_POINT_BELOW)
        return with_broken_block(device, record);
    if (record->small <= BROKEN_MAP_ENTRY_ZERO)
        return with_broken_map(device, record);
    if (record->small <= BROKEN_DITHER_LEAST)
        return with_broken_dither(device, record);
    if (record->small <= BROKEN_PHASE_IN_FAULT)
        return with_broken_phase(device, record);
    if (record->small == BROKEN_SELECTION_2)
        device.selected = 2;
    else if (record->small == BROKEN_SELECTION_255)
        device.selected = 255;
    else if (record->small <= BROKEN_OTHER_SET_POINT_BELOW)
        return with_broken_other(device, record);
    else
        device.state = NO_STATE;
    return device;
}

/* The call that the record names; the room is for all 97 bytes of an image. */
static enum number call_with(struct device *device, const struct record *record,
                             const uint8_t *image, uint8_t *room)
{
    switch (record->number % CALLS) {
    case CALL_SDO:
        return device_sdo(device, record->bytes, SDO_SIZE, room, SDO_SIZE);
    case CALL_CONTROL:
        return device_control(device, record->word);
    case CALL_FAULT:
        return device_fault(device, record->word);
    case CALL_TICK:
        return device_tick(device);
    case CALL_JUMP:
        return device_jump(device, 1);
    case CALL_STORE:
        return device_store(device, room, IMAGE_SIZE);
    case CALL_LOAD:
        return device_load(device, image, IMAGE_SIZE);
    case CALL_RECEIVE:
        return device_receive(device, record->bytes, SDO_SIZE);
    case CALL_SEND:
        return device_send(device, room, SDO_SIZE).number;
    default:
        return device_query(device, QUERY_STATUS).number;
    }
}

/* A call that hands no device back, or is lent no room, leaves both as they were. */
static void run_call(const struct run *run, const struct record *record,
                     const struct device *handed, struct outcome *outcome)
{
    struct device device = *handed;
    uint8_t before[IMAGE_SIZE];
    uint8_t room[IMAGE_SIZE];
    memset(before, ROOM_FILL, IMAGE_SIZE);
    memcpy(room, before, IMAGE_SIZE);
    outcome->number = (uint8_t)call_with(&device, record, run->image, room);
    outcome->same = device_equal(&device, handed);
    outcome->kept = memcmp(room, before, IMAGE_SIZE) == 0;
}

static void run_unsound(const struct run *run, const struct record *record,
                        struct outcome *outcome)
{
    struct device device = unsound_device(run->device, record);
    run_call(run, record, &device, outcome);
}

static void run_broken(const struct run *run, const struct record *record, struct outcome *outcome)
{
    struct device device = broken_device(run->device, record);
    run_call(run, record, &device, outcome);
}

/* ---- Which event ---- */

/* The events that hand a number alone. */
static enum number run_plain(struct run *run, const struct record *record)
{
    switch (record->kind) {
    case EVENT_CONTROL:
        return device_control(&run->device, record->word);
    case EVENT_FAULT:
        return device_fault(&run->device, record->word);
    case EVENT_TICK:
        return device_tick(&run->device);
    default:
        return device_jump(&run->device, record->number);
    }
}

static void run_image_event(struct run *run, const struct record *record,
                            struct outcome *outcome)
{
    switch (record->kind) {
    case EVENT_STORE:
        run_store(run, record, outcome);
        break;
    case EVENT_FIND:
        run_find(run, record, outcome);
        break;
    case EVENT_PATCH:
        run_patch(run, record, outcome);
        break;
    default:
        run_load(run, record, outcome);
    }
}

/* The events that bytes go in or out with. */
static void run_bytes_event(struct run *run, const struct record *record,
                            struct outcome *outcome)
{
    switch (record->kind) {
    case EVENT_SDO:
        run_sdo(run, record, outcome);
        break;
    case EVENT_WIDE:
        run_wide(run, record, outcome);
        break;
    case EVENT_RECEIVE:
        run_receive(run, record, outcome);
        break;
    default:
        run_send(run, record, outcome);
    }
}

struct outcome run_event(struct run *run, const struct record *record)
{
    struct outcome outcome = {.number = DONE};
    switch (record->kind) {
    case EVENT_FRESH:
        run->device = device_fresh();
        break;
    case EVENT_SDO:
    case EVENT_WIDE:
    case EVENT_RECEIVE:
    case EVENT_SEND:
        run_bytes_event(run, record, &outcome);
        break;
    case EVENT_STORE:
    case EVENT_LOAD:
    case EVENT_APPEND:
    case EVENT_FIND:
    case EVENT_PATCH:
        run_image_event(run, record, &outcome);
        break;
    case EVENT_QUERY:
        run_query(run, &outcome);
        break;
    case EVENT_UNSOUND:
        run_unsound(run, record, &outcome);
        break;
    case EVENT_TICKS:
        run_ticks(run, record, &outcome);
        break;
    case EVENT_BROKEN:
        run_broken(run, record, &outcome);
        break;
    default:
        if (record->kind < EVENT_KINDS)
            outcome.number = (uint8_t)run_plain(run, record);
    }
    return outcome;
}
