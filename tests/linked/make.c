/* What an event hands over, by chance: mostly what a device takes, and at the edges of it; steered by the state that second is in. */
#include "agree.h"

#include <string.h>

/* ---- Bytes */

static void put_number(uint8_t *bytes, size_t size, uint32_t number)
{
    for (size_t i = 0; i < size; i++)
        bytes[i] = (uint8_t)(number >> (8 * i));
}

void put_request(uint8_t *request, uint8_t command, uint16_t index, uint8_t sub, uint32_t data)
{
    request[0] = command;
    put_number(&request[1], 2, index);
    request[3] = sub;
    put_number(&request[4], 4, data);
}

uint8_t write_command(size_t size)
{
    static const uint8_t commands[] = {WRITE_4, WRITE_1, WRITE_2, WRITE_3};
    return size < sizeof commands ? commands[size] : WRITE_4;
}

/* ---- Values */

const uint32_t mappable[MAPS][3] = {
    [RECEIVE_MAP] = {0x60400010, 0x63000110, 0x63140110},
    [TRANSMIT_MAP] = {0x60410010, 0x604e0010, 0x63100110},
};

/* Mostly what the map takes, at times one of the other map, one that is wrong in a bit, or anything. */
static uint32_t value_for_map(struct chance *chance, enum map_kind kind, uint8_t sub)
{
    if (one_in(chance, 30))
        return (uint32_t)draw(chance);
    if (sub == 0)
        return below(chance, MAP_ENTRIES + 2);
    if (one_in(chance, 15))
        return 0;
    uint32_t entry = PICK(chance, mappable[kind]);
    switch (below(chance, 30)) {
    case 0:
        return PICK(chance, mappable[RECEIVE_MAP + TRANSMIT_MAP - kind]);
    case 1:
        return entry ^ (UINT32_C(1) << below(chance, 32));
    default:
        return entry;
    }
}

/* At the other limit, above it or below it. */
static int64_t value_at_limit(struct chance *chance, const struct device *now, struct found found)
{
    const int64_t *setting = now->block[found.block].setting;
    int64_t other = setting[found.object->value == UPPER_LIMIT ? LOWER_LIMIT : UPPER_LIMIT];
    return other + between(chance, -1, 1);
}

/* Mostly near the fresh one, where a target follows its set point and a ramp takes some ticks; else anywhere in the range, an end of it or
 * one beyond. */
static int64_t value_by_range(struct chance *chance, const struct object *object)
{
    int64_t near = object->value == SCALING_FACTOR ? PER_IR : 3000;
    int64_t near_low = object->fresh - near;
    int64_t near_high = object->fresh + near;
    switch (below(chance, 12)) {
    case 0:
        return object->low;
    case 1:
        return object->high;
    case 2:
        return object->low - 1;
    case 3:
        return object->high + 1;
    case 4:
    case 5:
        return between(chance, object->low, object->high);
    default:
        return between(chance, near_low < object->low ? object->low : near_low, near_high > object->high ? object->high : near_high);
    }
}

static uint32_t value_to_write(struct chance *chance, const struct device *now, struct found found, uint8_t sub)
{
    bool is_limit = found.object->value == UPPER_LIMIT || found.object->value == LOWER_LIMIT;
    if (found.object->form == MAP_RECORD)
        return value_for_map(chance, found.object->value == RECEIVE_MAPPING ? RECEIVE_MAP : TRANSMIT_MAP, sub);
    if (is_limit && one_in(chance, 8))
        return (uint32_t)value_at_limit(chance, now, found);
    return (uint32_t)value_by_range(chance, found.object);
}

/* More often one that leads on to ACTIVE than one that leads back; now and then any. */
static uint16_t control_word(struct chance *chance)
{
    static const uint16_t words[] = {0, 1, 3, 5, 7, 7, 7, 7, 8, 9, 15, 15};
    uint16_t word = PICK(chance, words);
    return one_in(chance, 10) ? (uint16_t)draw(chance) : word;
}

/* ---- Requests */

/* Often the set point that counts now, so that the position moves, and what takes several writes until it is in use; else any. */
static struct found object_by_chance(struct chance *chance, const struct device *now)
{
    static const uint16_t often[] = {
        RAINSHEAVE_INDEX_RECEIVE_MAP,      RAINSHEAVE_INDEX_RECEIVE_MAP,     RAINSHEAVE_INDEX_RECEIVE_MAP,
        RAINSHEAVE_INDEX_TRANSMIT_MAP,     RAINSHEAVE_INDEX_TRANSMIT_MAP,    RAINSHEAVE_INDEX_TRANSMIT_MAP,
        RAINSHEAVE_INDEX_SELECTION,        RAINSHEAVE_INDEX_SELECTION,       RAINSHEAVE_INDEX_RAMP_TYPE,
        RAINSHEAVE_INDEX_DITHER_AMPLITUDE, RAINSHEAVE_INDEX_DITHER_TYPE,     RAINSHEAVE_INDEX_DITHER_FREQUENCY,
        RAINSHEAVE_INDEX_RAMP_TYPE + RAINSHEAVE_INDEX_ABOVE,
    };
    uint16_t counts_now = now->state == ACTIVE ? RAINSHEAVE_INDEX_SET_POINT : RAINSHEAVE_INDEX_HOLD_SET_POINT;
    switch (below(chance, 4)) {
    case 0:
        return (struct found){object_find(counts_now).object, now->selected};
    case 1:
        return object_find(PICK(chance, often));
    default:
        return object_at(below(chance, ALL_OBJECTS));
    }
}

static uint8_t sub_by_chance(struct chance *chance, const struct object *object)
{
    if (one_in(chance, 12))
        return one_in(chance, 4) ? (uint8_t)draw(chance) : (uint8_t)below(chance, 6);
    if (object->form == MAP_RECORD)
        return (uint8_t)below(chance, MAP_ENTRIES + 1);
    return object->form == VARIABLE ? 0 : 1;
}

/* A read, or a write that is mostly of the size that fits; the data bytes that don't count are anything. */
static void put_some_request(struct chance *chance, const struct device *now, uint8_t *request)
{
    struct found found = object_by_chance(chance, now);
    uint8_t sub = sub_by_chance(chance, found.object);
    put_request(request, READ, object_index(found), sub, (uint32_t)draw(chance));
    if (one_in(chance, 3))
        return;
    size_t size = object_entry_size(found.object, sub);
    if (one_in(chance, 15))
        size = 1 + below(chance, 4);
    request[0] = write_command(size);
    put_number(&request[4], size, value_to_write(chance, now, found, sub));
}

/* A command byte beside one in use, or any, or a client's abort; an index beside one that is there, or any. */
static void spoil_request(struct chance *chance, uint8_t *request)
{
    static const uint8_t near_commands[] = {0x3f, 0x41, 0x22, 0x24, 0x26, 0x28, 0x2a, 0x2c, 0x2e, 0x30, 0x20, 0x60, 0x7f, 0xa0};
    uint32_t index = request[1] | (uint32_t)request[2] << 8;
    switch (below(chance, 6)) {
    case 0:
        request[0] = PICK(chance, near_commands);
        break;
    case 1:
        request[0] = (uint8_t)draw(chance);
        break;
    case 2:
        request[0] = (uint8_t)(0x80 + below(chance, 0x20));
        break;
    case 3:
        put_number(&request[1], 2, index + 2 - below(chance, 5));
        break;
    case 4:
        put_number(&request[1], 2, index ^ (UINT32_C(1) << below(chance, 16)));
        break;
    default:
        put_number(&request[1], 2, (uint32_t)draw(chance));
    }
}

/* Now and then of another length than eight, or with too little room. */
void make_sdo(struct chance *chance, const struct device *now, struct event *event)
{
    put_some_request(chance, now, event->input);
    if (one_in(chance, 8))
        spoil_request(chance, event->input);
    put_number(&event->input[SDO_SIZE], 4, (uint32_t)draw(chance));
    event->input_length = one_in(chance, 30) ? below(chance, SDO_SIZE + 5) : SDO_SIZE;
    event->room_length = one_in(chance, 30) ? below(chance, SDO_SIZE) : SDO_SIZE + below(chance, SDO_SIZE);
}

void make_request(struct chance *chance, const struct device *now, struct event *event)
{
    (void)now;
    event->word = (uint16_t)draw(chance);
    event->tag = (uint8_t)draw(chance);
    event->size = one_in(chance, 5) ? (uint8_t)draw(chance) : (uint8_t)below(chance, 6);
    event->number = (uint32_t)draw(chance);
}

/* ---- Control words, faults and jumps */

void make_control(struct chance *chance, const struct device *now, struct event *event)
{
    (void)now;
    event->word = control_word(chance);
}

void make_fault(struct chance *chance, const struct device *now, struct event *event)
{
    (void)now;
    event->word = (uint16_t)draw(chance);
    if (one_in(chance, 3))
        event->word = 0;
}

/* What the way to zero takes, where a ramp may halt: the ticks to go of a device whose target is zero. */
static uint32_t ticks_to_zero(const struct device *now)
{
    struct device at_zero = *now;
    int64_t *setting = at_zero.block[now->selected].setting;
    setting[LOWER_LIMIT] = setting[UPPER_LIMIT] = 0;
    setting[SCALING_OFFSET] = setting[ZERO_CORRECTION] = 0;
    return (uint32_t)device_query(&at_zero, QUERY_TICKS_TO_GO).value;
}

/* About as many ticks as there are to go, or to zero; some of those to go, few, or any number. */
void make_jump(struct chance *chance, const struct device *now, struct event *event)
{
    uint32_t to_go = (uint32_t)device_query(now, QUERY_TICKS_TO_GO).value;
    switch (below(chance, 7)) {
    case 0:
        event->number = to_go + 1 - below(chance, 3); /* below 0 it is the most */
        break;
    case 1:
    case 2:
        event->number = ticks_to_zero(now) + 1 - below(chance, 3);
        break;
    case 3:
        event->number = below(chance, 300);
        break;
    case 4:
        event->number = (uint32_t)draw(chance);
        break;
    default:
        event->number = below(chance, to_go + 1);
    }
}

/* ---- Process data */

/* As long as the map's, longer, or now and then shorter. Any two bytes may be a control word. */
void make_receive(struct chance *chance, const struct device *now, struct event *event)
{
    uint32_t mapped = 2u * now->map[RECEIVE_MAP].count;
    for (size_t i = 0; i < 2 * MAP_ENTRIES; i += 2)
        put_number(&event->input[i], 2, one_in(chance, 2) ? control_word(chance) : (uint32_t)draw(chance));
    event->input_length = mapped + below(chance, 5);
    if (mapped > 0 && one_in(chance, 8))
        event->input_length = below(chance, mapped);
}

void make_send(struct chance *chance, const struct device *now, struct event *event)
{
    uint32_t mapped = 2u * now->map[TRANSMIT_MAP].count;
    event->room_length = mapped + below(chance, 5);
    if (mapped > 0 && one_in(chance, 8))
        event->room_length = below(chance, mapped);
}

/* ---- Images */

void make_store(struct chance *chance, const struct device *now, struct event *event)
{
    (void)now;
    event->room_length = IMAGE_SIZE + below(chance, ROOM_MOST - IMAGE_SIZE + 1);
    if (one_in(chance, 4))
        event->room_length = below(chance, IMAGE_SIZE);
}

static void spoil_bytes(struct chance *chance, uint8_t *bytes, size_t length)
{
    for (uint32_t left = 1 + below(chance, 3); left > 0; left--) {
        uint8_t *byte = &bytes[below(chance, (uint32_t)length)];
        uint8_t any = (uint8_t)draw(chance);
        *byte = one_in(chance, 2) ? any : (uint8_t)(*byte ^ (1u << any % 8));
    }
}

/* That of the device as it is, with some values anew: now and then one that is out of its range, or a limit that crosses the other. */
static void put_image(struct chance *chance, const struct device *now, uint8_t *image)
{
    device_store(now, image, IMAGE_SIZE);
    uint8_t *value = image + FIELD_HEAD;
    for (size_t place = 0; place < SETTINGS; place++) {
        const struct object *object = object_of_setting(place);
        if (one_in(chance, 5))
            put_number(value, object_size(object), (uint32_t)value_by_range(chance, object));
        value += object_size(object) + FIELD_HEAD;
    }
}

/* Whole, or with spoilt bytes, cut short, or with more behind. */
void make_load(struct chance *chance, const struct device *now, struct event *event)
{
    put_image(chance, now, event->input);
    event->input_length = IMAGE_SIZE;
    switch (below(chance, 8)) {
    case 0:
    case 1:
        spoil_bytes(chance, event->input, IMAGE_SIZE);
        break;
    case 2:
        event->input_length = below(chance, IMAGE_SIZE);
        break;
    case 3:
        event->input_length = IMAGE_SIZE + 1 + below(chance, 8);
        put_number(&event->input[IMAGE_SIZE], 4, (uint32_t)draw(chance));
        break;
    default:
        break;
    }
}

/* Short fields, one behind the other; the last may be cut. */
static void put_fields(struct chance *chance, uint8_t *bytes, size_t length)
{
    for (size_t at = 0; at + FIELD_HEAD <= length;) {
        uint8_t size = (uint8_t)below(chance, 4);
        bytes[at] = (uint8_t)below(chance, SETTINGS);
        put_number(&bytes[at + 1], 2, size);
        at += FIELD_HEAD + size;
    }
}

/* In an image, or in fields with any tags, where one may come twice. */
void make_search(struct chance *chance, const struct device *now, struct event *event)
{
    event->tag = one_in(chance, 10) ? (uint8_t)draw(chance) : (uint8_t)below(chance, SETTINGS + 2);
    if (!one_in(chance, 3)) {
        make_load(chance, now, event);
        return;
    }
    put_fields(chance, event->input, INPUT_MOST);
    event->input_length = below(chance, INPUT_MOST + 1);
    if (one_in(chance, 4))
        spoil_bytes(chance, event->input, INPUT_MOST);
}
