/* The scenes of the stored image: stores, loads, damages and searches. */
#include <string.h>

#include "maker.h"

/* ---- A full image ---- */

enum { NEVER_A_TAG = 200 };

static uint8_t tag_of(size_t place)
{
    return (uint8_t)(place + 1);
}

static size_t value_size(size_t place)
{
    return object_size(object_of_setting(place));
}

static size_t field_start(size_t place)
{
    size_t start = 0;
    for (size_t before = 0; before < place; before++)
        start += FIELD_HEAD + value_size(before);
    return start;
}

/* Whether a fresh device takes the run's image. */
static bool image_is_good(const struct maker *m)
{
    struct device device = device_fresh();
    return device_load(&device, m->run.image, IMAGE_SIZE) == DONE;
}

static void make_image_good(struct maker *m)
{
    if (!image_is_good(m))
        emit_word(m, EVENT_STORE, IMAGE_SIZE);
}

/* ---- Patches ---- */

/* Changes the first `count` bytes alone: the others of the eight repeat what is
 * there. A place is given by every word of the same rest. */
static void emit_patch(struct maker *m, size_t place, const uint8_t *bytes, size_t count)
{
    enum { ROUNDS = UINT16_MAX / IMAGE_SIZE };
    struct record record = make(m, EVENT_PATCH);
    for (size_t i = 0; i < SDO_SIZE && place + i < IMAGE_SIZE; i++)
        record.bytes[i] = i < count ? bytes[i] : m->run.image[place + i];
    record.word = (uint16_t)place;
    if (one_in(m, 4))
        record.word = (uint16_t)(place + IMAGE_SIZE * below(m, ROUNDS));
    emit(m, &record);
}

static void patch_byte(struct maker *m, size_t place, uint8_t byte)
{
    emit_patch(m, place, &byte, 1);
}

static void patch_length(struct maker *m, size_t start, size_t length)
{
    const uint8_t bytes[] = {(uint8_t)length, (uint8_t)(length >> 8)};
    emit_patch(m, start + 1, bytes, sizeof bytes);
}

static void patch_value(struct maker *m, size_t place, int64_t value)
{
    uint8_t bytes[4];
    for (size_t i = 0; i < sizeof bytes; i++)
        bytes[i] = (uint8_t)((uint64_t)value >> (8 * i));
    emit_patch(m, field_start(place) + FIELD_HEAD, bytes, value_size(place));
}

static void patch_anything(struct maker *m)
{
    emit_plain(m, EVENT_PATCH);
}

/* ---- Damages of a full image; each gives the tag worth a search ---- */

static void emit_find(struct maker *m, uint8_t tag, size_t size)
{
    struct record record = make(m, EVENT_FIND);
    record.small = tag;
    record.word = (uint16_t)size;
    emit(m, &record);
}

static uint8_t damage_tag(struct maker *m)
{
    static const uint8_t tags[] = {0, 18, 19, 128, 255};
    size_t place = one_in(m, 3) ? SETTINGS - 1 : below(m, SETTINGS);
    uint8_t tag = PICK(m, tags);
    patch_byte(m, field_start(place), tag);
    return one_in(m, 4) ? tag_of(place) : tag;
}

/* A later field takes the tag of an earlier one, and at times another value. */
static uint8_t damage_by_repeated_tag(struct maker *m)
{
    size_t first = below(m, SETTINGS - 1);
    size_t second = (size_t)between(m, (int64_t)first + 1, SETTINGS - 1);
    uint8_t head[FIELD_HEAD + 1] = {tag_of(first), (uint8_t)value_size(second), 0};
    head[FIELD_HEAD] = (uint8_t)draw(m);
    emit_patch(m, field_start(second), head, one_in(m, 2) ? 1 : sizeof head);
    return tag_of(first);
}

/* Two neighbours of one size change tags: each is there once, not ascending. */
static uint8_t damage_by_swapped_tags(struct maker *m)
{
    static const uint8_t places[] = {
        HOLD_SET_POINT,        UPPER_LIMIT,           SCALING_OFFSET,
        ACCELERATION_ONE,      ACCELERATION_POSITIVE, ACCELERATION_NEGATIVE,
        DECELERATION_ONE,      DECELERATION_POSITIVE, DEAD_BAND_A_SIDE,
        DEAD_BAND_B_SIDE,
    };
    size_t place = PICK(m, places);
    size_t start = field_start(place);
    uint8_t bytes[SDO_SIZE];
    memcpy(bytes, &m->run.image[start], SDO_SIZE);
    bytes[0] = tag_of(place + 1);
    bytes[FIELD_HEAD + value_size(place)] = tag_of(place);
    emit_patch(m, start, bytes, SDO_SIZE);
    return tag_of(place);
}

/* Two neighbours become an empty field and a longer one: the walk stays whole. Half of the time
 * both are times, so that the longer one is longer than any type. */
static uint8_t damage_by_empty_field(struct maker *m)
{
    bool times = one_in(m, 2);
    size_t place = below(m, SETTINGS - 1);
    if (times)
        place = (size_t)between(m, ACCELERATION_ONE, DECELERATION_POSITIVE);
    size_t longer = value_size(place) + value_size(place + 1);
    const uint8_t heads[] = {tag_of(place), 0, 0, tag_of(place + 1), (uint8_t)longer, 0};
    emit_patch(m, field_start(place), heads, sizeof heads);
    emit_find(m, tag_of(place + 1), IMAGE_SIZE);
    return tag_of(place);
}

/* The same with the empty field behind: its head is the image's last bytes. */
static uint8_t damage_by_empty_end(struct maker *m)
{
    const uint8_t head[] = {tag_of(DEAD_BAND_THRESHOLD), 0, 0};
    size_t longer = value_size(DEAD_BAND_B_SIDE) + value_size(DEAD_BAND_THRESHOLD);
    patch_length(m, field_start(DEAD_BAND_B_SIDE), longer);
    emit_patch(m, IMAGE_SIZE - sizeof head, head, sizeof head);
    return tag_of(DEAD_BAND_THRESHOLD);
}

/* A length above 255, whose low byte mostly fits. */
static uint8_t damage_by_long_field(struct maker *m)
{
    static const uint8_t high_bytes[] = {1, 2, 0x7f, 0x80, 0xff};
    size_t place = below(m, SETTINGS);
    size_t low = one_in(m, 4) ? below(m, 256) : value_size(place);
    size_t high = PICK(m, high_bytes);
    patch_length(m, field_start(place), high << 8 | low);
    return tag_of(one_in(m, 2) ? place : below(m, SETTINGS));
}

/* A field that reaches to the end, one byte beyond it, or leaves a head short of
 * one or two bytes behind it. */
static uint8_t damage_by_reach(struct maker *m)
{
    size_t place = below(m, SETTINGS - 1);
    size_t start = field_start(place);
    size_t beyond = below(m, 4);
    patch_length(m, start, IMAGE_SIZE - start - FIELD_HEAD - 2 + beyond);
    if (one_in(m, 3))
        return NEVER_A_TAG;
    return tag_of(one_in(m, 2) ? place : place + 1);
}

static uint8_t damage_length(struct maker *m)
{
    size_t place = one_in(m, 3) ? SETTINGS - 1 : below(m, SETTINGS);
    size_t size = value_size(place);
    bool more = one_in(m, 2);
    patch_length(m, field_start(place), more ? size + 1 : size - 1);
    return tag_of(place);
}

/* A load must tell the wrong head, not the value that it comes to first. */
static uint8_t damage_behind_value(struct maker *m)
{
    size_t place = (size_t)between(m, RAMP_TYPE, DEAD_BAND_B_SIDE);
    size_t behind = (size_t)between(m, (int64_t)place + 1, DEAD_BAND_THRESHOLD);
    patch_value(m, place, object_of_setting(place)->high + 1);
    patch_byte(m, field_start(behind), NEVER_A_TAG);
    return one_in(m, 2) ? tag_of(behind) : NEVER_A_TAG;
}

static uint8_t damage_behind_limits(struct maker *m)
{
    size_t behind = (size_t)between(m, SCALING_FACTOR, DEAD_BAND_THRESHOLD);
    patch_value(m, UPPER_LIMIT, -1);
    patch_value(m, LOWER_LIMIT, 0);
    patch_byte(m, field_start(behind), NEVER_A_TAG);
    return NEVER_A_TAG;
}

/* No damage: a value that holds the tag of a later field. */
static uint8_t hide_tag_in_value(struct maker *m)
{
    size_t place = below(m, RAMP_TYPE);
    size_t later = (size_t)between(m, (int64_t)place + 1, SETTINGS - 1);
    patch_value(m, place, tag_of(later));
    return tag_of(later);
}

static uint8_t damage_anywhere(struct maker *m)
{
    patch_anything(m);
    return tag_of(below(m, SETTINGS));
}

/* Far apart: one of the fields of tags 1 to 8, one of the others. */
static uint8_t damage_two_fields(struct maker *m)
{
    size_t first = below(m, 8);
    size_t second = (size_t)between(m, 8, SETTINGS - 1);
    patch_byte(m, field_start(first), NEVER_A_TAG);
    patch_length(m, field_start(second), one_in(m, 2) ? 0 : 3);
    return tag_of(one_in(m, 2) ? first : second);
}

static uint8_t (*const damages[])(struct maker *m) = {
    damage_tag,
    damage_by_repeated_tag,
    damage_by_swapped_tags,
    damage_by_empty_field,
    damage_by_empty_end,
    damage_by_long_field,
    damage_by_reach,
    damage_length,
    damage_behind_value,
    damage_behind_limits,
    damage_two_fields,
    damage_anywhere,
    hide_tag_in_value,
};
enum { DAMAGES = sizeof damages / sizeof damages[0] };

/* ---- Searches ---- */

/* Tags 0 to 20 in the image cut at every kind of place. */
void scene_find(struct maker *m)
{
    size_t place = below(m, SETTINGS);
    size_t start = field_start(place);
    size_t end = start + FIELD_HEAD + value_size(place);
    uint8_t tag = (uint8_t)below(m, 21);
    size_t size = (uint16_t)draw(m);
    switch (below(m, 5)) {
    case 0:
        size = (size_t)between(m, (int64_t)start, (int64_t)end);
        break;
    case 1: /* around the end of the very field */
        tag = tag_of(place);
        size = one_in(m, 2) ? end - 1 : end;
        break;
    case 2:
        size = start;
        break;
    case 3:
        size = (size_t)between(m, IMAGE_SIZE - 1, IMAGE_SIZE + 1);
        break;
    default:
        if (one_in(m, 2)) /* else both hold anything */
            break;
        tag = (uint8_t)draw(m);
    }
    emit_find(m, tag, size);
}

static void find_in_turn(struct maker *m)
{
    uint32_t turn = next_turn(m, SWEEP_FINDS);
    size_t size = IMAGE_SIZE + below(m, 3);
    emit_find(m, tag_of(turn % SETTINGS), size);
}

/* The tag in the whole image, one that walks it all, and any. */
static void search_damaged(struct maker *m, uint8_t tag)
{
    size_t size = IMAGE_SIZE + below(m, 3);
    emit_find(m, tag, size);
    if (one_in(m, 2))
        emit_find(m, NEVER_A_TAG, IMAGE_SIZE);
    if (one_in(m, 2)) {
        size_t cut = below(m, IMAGE_SIZE);
        emit_find(m, tag, cut);
    }
    if (one_in(m, 2))
        scene_find(m);
}

/* ---- Stores and loads ---- */

void scene_store(struct maker *m)
{
    static const uint16_t rooms[] = {0, 1, 96, 97, 98, 99, 100, 101, 65535};
    uint32_t turn = next_turn(m, SWEEP_STORE_ROOMS);
    emit_word(m, EVENT_STORE, rooms[turn % (sizeof rooms / sizeof rooms[0])]);
}

/* A byte of the image: of a tag, a length, or the top of a value. */
static uint16_t pick_image_place(struct maker *m)
{
    size_t place = below(m, SETTINGS);
    size_t start = field_start(place);
    switch (below(m, 4)) {
    case 0:
        return (uint16_t)(start + below(m, FIELD_HEAD));
    case 1:
        return (uint16_t)draw(m);
    default:
        return (uint16_t)(start + FIELD_HEAD + value_size(place) - 1);
    }
}

static uint16_t pick_cut(struct maker *m)
{
    static const uint16_t cuts[] = {96, 0, 96, 0, 97, 96, 0, 1, 95, 98, 65535};
    if (one_in(m, 5))
        return (uint16_t)below(m, IMAGE_SIZE);
    uint32_t turn = next_turn(m, SWEEP_LOAD_CUTS);
    return cuts[turn % (sizeof cuts / sizeof cuts[0])];
}

static void emit_load(struct maker *m)
{
    static const uint8_t low_bytes[] = {0, 1, 2, 3, 4, 0x10, 0x40, 0x7f, 0x80, 0xff};
    struct record record = make(m, EVENT_LOAD);
    record.small = (uint8_t)below(m, 5);
    record.word = record.small == LOAD_CUT ? pick_cut(m) : pick_image_place(m);
    uint8_t low_byte = PICK(m, low_bytes);
    record.number = (record.number & ~UINT32_C(0xff)) | low_byte;
    emit(m, &record);
}

void emit_load_as_it_is(struct maker *m)
{
    struct record record = make(m, EVENT_LOAD);
    record.small = LOAD_AS_IT_IS;
    emit(m, &record);
}

static void emit_load_cut(struct maker *m, uint16_t size)
{
    struct record record = make(m, EVENT_LOAD);
    record.small = LOAD_CUT;
    record.word = size;
    emit(m, &record);
}

static void emit_append(struct maker *m, uint8_t count)
{
    static const uint8_t low_bytes[] = {0, 1, 17, 18, 0xaa, 0xff};
    struct record record = make(m, EVENT_APPEND);
    uint8_t low_byte = PICK(m, low_bytes);
    record.small = count;
    if (one_in(m, 2))
        record.number = (record.number & ~UINT32_C(0xff)) | low_byte;
    emit(m, &record);
}

static void steer_outside_disabled(struct maker *m)
{
    static const enum device_state states[] = {HOLD, ACTIVE, FAULT};
    uint32_t turn = next_turn(m, SWEEP_LOAD_STATES);
    steer_to(m, states[turn % (sizeof states / sizeof states[0])]);
}

/* Mostly where a load is allowed. */
static void steer_for_load(struct maker *m)
{
    if (one_in(m, 3))
        steer_outside_disabled(m);
    else
        steer_to_disabled(m);
}

void scene_load(struct maker *m)
{
    uint32_t times = 1 + below(m, 3);
    if (one_in(m, 3))
        emit_word(m, EVENT_STORE, IMAGE_SIZE);
    if (one_in(m, 2))
        scene_write_edge(m);
    if (one_in(m, 5))
        emit_plain(m, EVENT_FRESH);
    steer_for_load(m);
    for (uint32_t i = 0; i < times; i++)
        emit_load(m);
}

/* None, one, two and many bytes more, in turn; at first of a good image and where a load is
 * allowed. */
void scene_append(struct maker *m)
{
    enum { AT_FIRST = 4 };
    static const uint8_t counts[] = {0, 1, 255, 2, 0, 1, 255, 2, 3, 254, 97};
    uint32_t turn = next_turn(m, SWEEP_APPENDS);
    uint8_t count = counts[turn % sizeof counts];
    if (turn < AT_FIRST || !one_in(m, 4))
        make_image_good(m);
    if (turn < AT_FIRST)
        steer_to_disabled(m);
    else
        steer_for_load(m);
    emit_append(m, count);
    if (one_in(m, 2))
        emit_append(m, (uint8_t)draw(m));
}

/* Equal limits in the image, after limits that cross by one. */
static void load_limits(struct maker *m)
{
    int64_t lower = between(m, -FULL_STROKE, FULL_STROKE);
    emit_word(m, EVENT_STORE, IMAGE_SIZE);
    patch_value(m, LOWER_LIMIT, lower);
    patch_value(m, UPPER_LIMIT, lower - 1);
    emit_load_as_it_is(m);
    patch_value(m, UPPER_LIMIT, lower);
    emit_load_as_it_is(m);
}

/* A good image: none and all but one of its bytes, then all of it outside DISABLED. */
static void load_good_image(struct maker *m)
{
    emit_load_cut(m, 0);
    emit_load_cut(m, IMAGE_SIZE - 1);
    for (int i = 0; i < STATES - 1; i++) {
        steer_outside_disabled(m);
        emit_load_as_it_is(m);
    }
}

/* The image that was refused for a value, now in turn also refused for something else. */
static void load_refused_again(struct maker *m, uint32_t turn)
{
    switch (turn % 4) {
    case 0:
        emit_append(m, 1);
        break;
    case 1:
        steer_outside_disabled(m);
        emit_load_as_it_is(m);
        steer_to_disabled(m);
        break;
    case 2: /* what was right of the image is lost, so it is stored again */
        patch_value(m, DEAD_BAND_TYPE, 2);
        patch_value(m, DEAD_BAND_THRESHOLD, -1);
        emit_load_as_it_is(m);
        emit_word(m, EVENT_STORE, IMAGE_SIZE);
        break;
    default:
        break;
    }
}

/* In turn: each value that an image may hold beyond its range, one beyond the
 * end and then at it; at last the limits, and what is refused of a good image. */
void scene_loaded_value(struct maker *m)
{
    enum { RANGES = SETTINGS - RAMP_TYPE };
    uint32_t turn = next_turn(m, SWEEP_LOADED_VALUES);
    size_t place = RAMP_TYPE + turn / 2 % (RANGES + 1);
    bool above = turn % 2 == 0;
    steer_to_disabled(m);
    make_image_good(m);
    if (place == SETTINGS) {
        load_limits(m);
        load_good_image(m);
        return;
    }
    const struct object *object = object_of_setting(place);
    patch_value(m, place, above ? object->high + 1 : object->low - 1);
    emit_load_as_it_is(m);
    load_refused_again(m, turn);
    patch_value(m, place, above ? object->high : object->low);
    emit_load_as_it_is(m);
}

/* ---- Damages played ---- */

/* Mostly one damage, then searches and a load, mostly then a good image again. In the first
 * round each damage stands alone, and the load is made where it is allowed. */
void scene_damage(struct maker *m)
{
    uint32_t turn = next_turn(m, SWEEP_DAMAGES);
    bool alone = turn < DAMAGES;
    if (alone || !one_in(m, 5))
        make_image_good(m);
    uint8_t tag = damages[turn % DAMAGES](m);
    if (!alone && one_in(m, 4))
        tag = damages[below(m, DAMAGES)](m);
    search_damaged(m, tag);
    if (alone)
        steer_to_disabled(m);
    else
        steer_for_load(m);
    if (one_in(m, 3))
        emit_append(m, 0);
    else
        emit_load_as_it_is(m);
    if (one_in(m, 4))
        return;
    emit_word(m, EVENT_STORE, IMAGE_SIZE);
    find_in_turn(m);
}

/* The image is all 0 only until the first store: fields of tag 0 and no bytes. */
void play_zero_image(struct maker *m)
{
    static const uint16_t cuts[] = {0, 1, 2, 3, 4, 96, 97};
    for (size_t i = 0; i < sizeof cuts / sizeof cuts[0]; i++) {
        uint8_t tag = (uint8_t)below(m, 2);
        emit_find(m, tag, cuts[i]);
    }
    emit_load(m);
}
