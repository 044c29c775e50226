/* What an event file has reached of document 01's section on the stored image. */
#include <string.h>

#include "cover.h"

static size_t field_length(const uint8_t *field)
{
    return (size_t)(field[1] | field[2] << 8);
}

/* ---- Searches ---- */

enum find_item {
    FIND_IN_NO_BYTES,
    FIND_OTHER_TAG,
    FIND_NO_KNOWN_TAG,
    FIND_NO_OTHER_TAG,
    FIND_EMPTY,
    FIND_EMPTY_AT_END,
    FIND_LONGER_THAN_ANY_TYPE,
    FIND_TO_THE_END,
    FIND_FIRST_OF_TWO,
    FIND_PASSES_EMPTY,
    FIND_PASSES_HIGHER_TAG,
    FIND_PASSES_TAG_IN_VALUE,
    FIND_BEFORE_CUT,
    FIND_CUT_HEADER_1,
    FIND_CUT_HEADER_2,
    FIND_CUT_VALUE,
    FIND_CUT_VALUE_SOUGHT,
    FIND_CUT_VALUE_BY_1,
    FIND_CUT_NO_VALUE,
    FIND_LONG_FIELD,
    FIND_LONG_FIELD_LOW_BYTE,
    FIND_ITEMS
};
static const char *const find_names[FIND_ITEMS] = {
    "in-0-bytes",
    "finds-tag-0-or-above-17",
    "of-tag-1-to-17-ends-cleanly",
    "of-tag-0-or-above-17-ends-cleanly",
    "finds-field-of-length-0",
    "finds-field-of-length-0-at-the-end",
    "finds-part-of-more-than-4-bytes",
    "finds-part-that-ends-the-slice",
    "finds-first-of-two-fields-with-one-tag",
    "passes-field-of-length-0",
    "passes-higher-tag",
    "passes-value-that-holds-the-tag",
    "finds-field-before-a-cut-one",
    "ended-by-header-cut-to-1-byte",
    "ended-by-header-cut-to-2-bytes",
    "ended-by-cut-value",
    "ended-by-cut-value-of-the-very-tag",
    "ended-by-value-cut-by-1-byte",
    "ended-by-value-of-which-nothing-is-there",
    "ended-by-length-above-255",
    "ended-by-length-above-255-whose-low-byte-fits",
};
static uint64_t find_counts[FIND_ITEMS];
static uint64_t found_counts[SETTINGS];

enum walk_end { FOUND, CLEAN_END, CUT_HEADER, CUT_VALUE };

/* A search gone over again, to see what it passes and where it ends. */
struct walk {
    enum walk_end end;
    size_t at;     /* where the field begins at which it ends */
    size_t length; /* that such a field has, by its header */
    bool passed_empty;
    bool passed_higher_tag;
    bool passed_tag_in_value;
};

enum { NO_TAG = 256 }; /* sought by a walk that goes to the end */

static void pass_field(struct walk *walk, unsigned tag, const uint8_t *field)
{
    walk->passed_empty |= walk->length == 0;
    walk->passed_higher_tag |= field[0] > tag;
    walk->passed_tag_in_value |=
        tag != NO_TAG && memchr(&field[FIELD_HEAD], (int)tag, walk->length) != NULL;
    walk->at += FIELD_HEAD + walk->length;
}

static struct walk walk_from(size_t at, unsigned tag, const uint8_t *image, size_t size)
{
    struct walk walk = {.end = CLEAN_END, .at = at};
    while (walk.at < size) {
        const uint8_t *field = &image[walk.at];
        walk.end = CUT_HEADER;
        if (size - walk.at < FIELD_HEAD)
            return walk;
        walk.length = field_length(field);
        walk.end = CUT_VALUE;
        if (size - walk.at - FIELD_HEAD < walk.length)
            return walk;
        walk.end = FOUND;
        if (field[0] == tag)
            return walk;
        walk.end = CLEAN_END;
        pass_field(&walk, tag, field);
    }
    return walk;
}

/* Whether a later field has the tag too, and another value. */
static bool is_first_of_two(const struct walk *first, const uint8_t *image, size_t size)
{
    const uint8_t *field = &image[first->at];
    size_t behind = first->at + FIELD_HEAD + first->length;
    struct walk second = walk_from(behind, field[0], image, size);
    if (second.end != FOUND)
        return false;
    return second.length != first->length ||
           memcmp(&field[FIELD_HEAD], &image[second.at + FIELD_HEAD], first->length) != 0;
}

static void count_found(const struct walk *walk, unsigned tag, const uint8_t *image, size_t size)
{
    enum { LONGEST_TYPE = 4 };
    size_t behind = walk->at + FIELD_HEAD + walk->length;
    bool known = tag >= 1 && tag <= SETTINGS;
    if (known)
        found_counts[tag - 1]++;
    find_counts[FIND_OTHER_TAG] += !known;
    find_counts[FIND_EMPTY] += walk->length == 0;
    find_counts[FIND_EMPTY_AT_END] += walk->length == 0 && behind == size;
    find_counts[FIND_LONGER_THAN_ANY_TYPE] += walk->length > LONGEST_TYPE;
    find_counts[FIND_TO_THE_END] += walk->length > 0 && behind == size;
    find_counts[FIND_FIRST_OF_TWO] += is_first_of_two(walk, image, size);
    find_counts[FIND_PASSES_EMPTY] += walk->passed_empty;
    find_counts[FIND_PASSES_HIGHER_TAG] += walk->passed_higher_tag;
    find_counts[FIND_PASSES_TAG_IN_VALUE] += walk->passed_tag_in_value;
    find_counts[FIND_BEFORE_CUT] += walk_from(behind, NO_TAG, image, size).end != CLEAN_END;
}

static void count_cut_value(const struct walk *walk, unsigned tag, const uint8_t *image,
                            size_t size)
{
    size_t there = size - walk->at - FIELD_HEAD;
    bool is_long = walk->length > UINT8_MAX;
    find_counts[FIND_CUT_VALUE]++;
    find_counts[FIND_CUT_VALUE_SOUGHT] += image[walk->at] == tag;
    find_counts[FIND_CUT_VALUE_BY_1] += walk->length == there + 1;
    find_counts[FIND_CUT_NO_VALUE] += there == 0;
    find_counts[FIND_LONG_FIELD] += is_long;
    find_counts[FIND_LONG_FIELD_LOW_BYTE] += is_long && (walk->length & UINT8_MAX) <= there;
}

static void count_find(const struct seen *seen)
{
    unsigned tag = seen->record->small;
    size_t size = at_most(seen->record->word, IMAGE_SIZE);
    struct walk walk = walk_from(0, tag, seen->image, size);
    find_counts[FIND_IN_NO_BYTES] += size == 0;
    switch (walk.end) {
    case FOUND:
        count_found(&walk, tag, seen->image, size);
        break;
    case CLEAN_END:
        if (size > 0)
            find_counts[tag >= 1 && tag <= SETTINGS ? FIND_NO_KNOWN_TAG : FIND_NO_OTHER_TAG]++;
        break;
    case CUT_HEADER:
        find_counts[size - walk.at == 1 ? FIND_CUT_HEADER_1 : FIND_CUT_HEADER_2]++;
        break;
    default:
        count_cut_value(&walk, tag, seen->image, size);
    }
}

/* ---- What is wrong with an image ---- */

/* Of 97 bytes or the first 97, by the places of a full image. A value counts
 * as long as every header up to its own is right: else it is no value. */
struct check {
    unsigned wrong_tags;
    unsigned wrong_low_lengths;
    unsigned wrong_high_lengths;
    unsigned wrong_fields;
    size_t first_wrong; /* place of the first field with a wrong header */
    size_t values;      /* so many values count */
    int64_t value[SETTINGS];
    unsigned too_high;
    unsigned too_low;
    size_t last_bad; /* place of the last value out of range */
    bool crossed;
};

static unsigned wrong_headers(const struct check *check)
{
    return check->wrong_tags + check->wrong_low_lengths + check->wrong_high_lengths;
}

static unsigned bad_values(const struct check *check)
{
    return check->too_high + check->too_low;
}

static void check_header(struct check *check, size_t place, const uint8_t *field)
{
    unsigned before = wrong_headers(check);
    check->wrong_tags += field[0] != place + 1;
    check->wrong_low_lengths += field[1] != object_size(object_of_setting(place));
    check->wrong_high_lengths += field[2] != 0;
    check->wrong_fields += wrong_headers(check) > before;
    if (wrong_headers(check) == 0)
        check->first_wrong = place + 1;
}

static void check_value(struct check *check, size_t place, const uint8_t *bytes)
{
    const struct object *object = object_of_setting(place);
    int64_t value = object_value(object, bytes);
    check->value[place] = value;
    check->values = place + 1;
    check->too_high += value > object->high;
    check->too_low += value < object->low;
    if (value > object->high || value < object->low)
        check->last_bad = place;
}

static struct check check_image(const uint8_t *image)
{
    struct check check = {0};
    const uint8_t *field = image;
    for (size_t place = 0; place < SETTINGS; place++) {
        check_header(&check, place, field);
        if (wrong_headers(&check) == 0)
            check_value(&check, place, &field[FIELD_HEAD]);
        field += FIELD_HEAD + object_size(object_of_setting(place));
    }
    check.crossed =
        check.values > LOWER_LIMIT && check.value[UPPER_LIMIT] < check.value[LOWER_LIMIT];
    return check;
}

static bool is_good(const struct check *check)
{
    return wrong_headers(check) == 0 && bad_values(check) == 0 && !check->crossed;
}

/* Whether one of the first so many values is not the device's: those of the position block,
 * whichever is selected. */
static bool values_differ(const struct check *check, const struct device *device, size_t count)
{
    const int64_t *setting = device->block[POSITION_BLOCK].setting;
    return memcmp(check->value, setting, count * sizeof check->value[0]) != 0;
}

/* ---- Loads ---- */

enum load_item {
    LOAD_APPEND_OF_0,
    LOAD_LIMITS_EQUAL,
    LOAD_7_OF_0,
    LOAD_7_OF_96,
    LOAD_7_ONE_MORE,
    LOAD_7_TWO_MORE,
    LOAD_7_255_MORE,
    LOAD_7_MORE_AND_VALUE,
    LOAD_7_TAG,
    LOAD_7_LENGTH_LOW,
    LOAD_7_LENGTH_HIGH,
    LOAD_7_TWO_DAMAGES,
    LOAD_7_TWO_FIELDS,
    LOAD_7_REPEATED_TAG,
    LOAD_7_SWAPPED_TAGS,
    LOAD_7_CLEAN_WALK,
    LOAD_7_LAST_FIELD,
    LOAD_7_AND_VALUE,
    LOAD_7_AND_CROSSED,
    LOAD_7_VALUES_DIFFER,
    LOAD_8_CROSSED,
    LOAD_8_TWO_VALUES,
    LOAD_8_VALUES_DIFFER,
    LOAD_9_AND_NOT_FULL,
    LOAD_9_AND_VALUE,
    LOAD_ITEMS
};
static const char *const load_names[LOAD_ITEMS] = {
    "done-of-image-and-0-bytes",
    "done-with-limits-equal",
    "refused-7-of-0-bytes",
    "refused-7-of-96-bytes",
    "refused-7-of-98-bytes-of-which-97-are-good",
    "refused-7-of-99-bytes-of-which-97-are-good",
    "refused-7-of-352-bytes-of-which-97-are-good",
    "refused-7-of-more-than-97-bytes-although-value-out-of-range",
    "refused-7-for-one-tag-alone",
    "refused-7-for-low-byte-of-one-length-alone",
    "refused-7-for-high-byte-of-one-length-alone",
    "refused-7-for-two-damages-at-once",
    "refused-7-for-two-fields-at-once",
    "refused-7-for-repeated-tag",
    "refused-7-for-two-tags-swapped",
    "refused-7-for-lengths-although-walk-is-clean",
    "refused-7-for-last-field",
    "refused-7-although-earlier-value-out-of-range",
    "refused-7-although-earlier-limits-crossed",
    "refused-7-although-earlier-values-would-change",
    "refused-8-for-limits-crossed-alone",
    "refused-8-for-two-values-at-once",
    "refused-8-although-earlier-values-would-change",
    "refused-9-although-not-full",
    "refused-9-although-value-out-of-range",
};
static uint64_t load_counts[LOAD_ITEMS];
static uint64_t changed_counts[SETTINGS];    /* by a load that is done */
static uint64_t refused_counts[SETTINGS][2]; /* by 8, for one value alone: low, high */
static uint64_t outside_counts[STATES];      /* by 9, of a good image */

/* It has brought the image's values to the position block, and changed nothing else. */
static void count_load_done(const struct seen *seen, const struct check *check)
{
    const int64_t *before = seen->before->block[POSITION_BLOCK].setting;
    const int64_t *after = seen->after->block[POSITION_BLOCK].setting;
    bool append = seen->record->kind == EVENT_APPEND;
    struct device wanted = *seen->before;
    memcpy(wanted.block[POSITION_BLOCK].setting, check->value, sizeof check->value);
    if (!device_equal(&wanted, seen->after))
        return;
    load_counts[LOAD_APPEND_OF_0] += append;
    load_counts[LOAD_LIMITS_EQUAL] += after[LOWER_LIMIT] == after[UPPER_LIMIT];
    for (size_t place = 0; place < SETTINGS; place++)
        changed_counts[place] += before[place] != after[place];
}

/* Refused by 7 for its size. */
static void count_load_size(const struct load *load, const struct check *check)
{
    load_counts[LOAD_7_OF_0] += load->size == 0;
    load_counts[LOAD_7_OF_96] += load->size == IMAGE_SIZE - 1;
    if (load->size < IMAGE_SIZE)
        return;
    load_counts[LOAD_7_ONE_MORE] += is_good(check) && load->size == IMAGE_SIZE + 1;
    load_counts[LOAD_7_TWO_MORE] += is_good(check) && load->size == IMAGE_SIZE + 2;
    load_counts[LOAD_7_255_MORE] += is_good(check) && load->size == IMAGE_SIZE + APPEND_MOST;
    load_counts[LOAD_7_MORE_AND_VALUE] += wrong_headers(check) == 0 && bad_values(check) > 0;
}

/* The tag of each field in turn, by the places of a full image. */
static void read_tags(const uint8_t *image, uint8_t tags[SETTINGS])
{
    for (size_t place = 0; place < SETTINGS; place++) {
        tags[place] = *image;
        image += FIELD_HEAD + object_size(object_of_setting(place));
    }
}

static bool has_swapped_tags(const uint8_t *image)
{
    uint8_t tags[SETTINGS];
    read_tags(image, tags);
    for (size_t place = 0; place < SETTINGS; place++) {
        size_t other = (size_t)tags[place] - 1;
        if (other != place && other < SETTINGS && tags[other] == place + 1)
            return true;
    }
    return false;
}

static bool has_repeated_tag(const uint8_t *image)
{
    uint8_t tags[SETTINGS];
    read_tags(image, tags);
    for (size_t place = 1; place < SETTINGS; place++)
        if (memchr(tags, tags[place], place) != NULL)
            return true;
    return false;
}

/* Refused by 7 with the right size: for its headers. */
static void count_load_headers(const struct seen *seen, const struct load *load,
                               const struct check *check)
{
    bool alone = wrong_headers(check) == 1;
    unsigned wrong_lengths = check->wrong_low_lengths + check->wrong_high_lengths;
    bool clean = walk_from(0, NO_TAG, load->bytes, load->size).end == CLEAN_END;
    load_counts[LOAD_7_TAG] += alone && check->wrong_tags == 1;
    load_counts[LOAD_7_LENGTH_LOW] += alone && check->wrong_low_lengths == 1;
    load_counts[LOAD_7_LENGTH_HIGH] += alone && check->wrong_high_lengths == 1;
    load_counts[LOAD_7_TWO_DAMAGES] += wrong_headers(check) == 2;
    load_counts[LOAD_7_TWO_FIELDS] += check->wrong_fields == 2;
    load_counts[LOAD_7_REPEATED_TAG] += wrong_lengths == 0 && has_repeated_tag(load->bytes);
    load_counts[LOAD_7_SWAPPED_TAGS] +=
        wrong_lengths == 0 && check->wrong_tags == 2 && has_swapped_tags(load->bytes);
    load_counts[LOAD_7_CLEAN_WALK] += wrong_lengths > 0 && clean;
    load_counts[LOAD_7_LAST_FIELD] += check->first_wrong == SETTINGS - 1;
    load_counts[LOAD_7_AND_VALUE] += bad_values(check) > 0;
    load_counts[LOAD_7_AND_CROSSED] += check->crossed;
    load_counts[LOAD_7_VALUES_DIFFER] += values_differ(check, seen->before, check->values);
}

/* Refused by 8. Limits have the whole range of their type and are never bad. */
static void count_load_values(const struct seen *seen, const struct check *check)
{
    bool alone = bad_values(check) == 1 && !check->crossed;
    load_counts[LOAD_8_CROSSED] += check->crossed && bad_values(check) == 0;
    load_counts[LOAD_8_TWO_VALUES] += bad_values(check) > 1;
    if (!alone)
        return;
    refused_counts[check->last_bad][check->too_high]++;
    load_counts[LOAD_8_VALUES_DIFFER] += values_differ(check, seen->before, check->last_bad);
}

static void count_load_outside(const struct seen *seen, const struct load *load,
                               const struct check *check)
{
    bool full = load->size == IMAGE_SIZE && wrong_headers(check) == 0;
    outside_counts[seen->before->state] += full && is_good(check);
    load_counts[LOAD_9_AND_NOT_FULL] += !full;
    load_counts[LOAD_9_AND_VALUE] += full && !is_good(check);
}

static void count_load(const struct seen *seen)
{
    struct load load = load_of(seen->image, seen->record);
    struct check check = check_image(load.bytes);
    switch (seen->outcome->number) {
    case DONE:
        count_load_done(seen, &check);
        break;
    case NOT_A_FULL_IMAGE:
        if (load.size == IMAGE_SIZE)
            count_load_headers(seen, &load, &check);
        else
            count_load_size(&load, &check);
        break;
    case IMAGE_VALUE_OUT_OF_RANGE:
        count_load_values(seen, &check);
        break;
    default:
        count_load_outside(seen, &load, &check);
    }
}

/* ---- Stores and patches ---- */

static const uint8_t store_rooms[] = {0, 96, 97, 98, 100};
enum { STORE_ROOMS = sizeof store_rooms };

static uint64_t store_counts[STATES];
static uint64_t room_counts[STORE_ROOMS];
static uint64_t mended_count; /* stores over an image that is not full */
static uint64_t whole_patch_count;
static uint64_t cut_patch_count;

static void count_store(const struct seen *seen)
{
    struct check check = check_image(seen->image);
    size_t room = at_most(seen->record->word, STORE_ROOM_MOST);
    for (size_t i = 0; i < STORE_ROOMS; i++)
        room_counts[i] += room == store_rooms[i];
    if (seen->outcome->number != DONE)
        return;
    store_counts[seen->before->state]++;
    mended_count += wrong_headers(&check) > 0;
}

static void count_patch(const struct seen *seen)
{
    if (seen->outcome->place + SDO_SIZE > IMAGE_SIZE)
        cut_patch_count++;
    else
        whole_patch_count++;
}

void count_image_event(const struct seen *seen)
{
    switch (seen->record->kind) {
    case EVENT_STORE:
        count_store(seen);
        break;
    case EVENT_LOAD:
    case EVENT_APPEND:
        count_load(seen);
        break;
    case EVENT_FIND:
        count_find(seen);
        break;
    case EVENT_PATCH:
        count_patch(seen);
        break;
    default:
        break;
    }
}

/* ---- The list ---- */

static void list_stores(void)
{
    for (size_t state = 0; state < STATES; state++)
        list_item(store_counts[state], "store-in-%s", state_names[state]);
    for (size_t i = 0; i < STORE_ROOMS; i++)
        list_item(room_counts[i], "store-with-room-of-%d-bytes", (int)store_rooms[i]);
    list_item(mended_count, "store-over-damaged-image");
    list_item(whole_patch_count, "patch-of-8-bytes");
    list_item(cut_patch_count, "patch-cut-by-end-of-image");
}

/* A value can be beyond its range only where its type is wider. */
static void list_refused_value(size_t place)
{
    const struct object *object = object_of_setting(place);
    if (object->low == INT16_MIN || object->high == UINT32_MAX)
        return;
    list_item(refused_counts[place][1], "load-refused-8-for-%04X-too-high",
              (unsigned)object->index);
    if (object->type != U32)
        list_item(refused_counts[place][0], "load-refused-8-for-%04X-too-low",
                  (unsigned)object->index);
}

static void list_loads(void)
{
    for (size_t i = 0; i < LOAD_ITEMS; i++)
        list_item(load_counts[i], "load-%s", load_names[i]);
    for (size_t place = 0; place < SETTINGS; place++)
        list_item(changed_counts[place], "load-changes-%04X",
                  (unsigned)object_of_setting(place)->index);
    for (size_t place = 0; place < SETTINGS; place++)
        list_refused_value(place);
    for (size_t state = 0; state < STATES; state++)
        if (state != DISABLED)
            list_item(outside_counts[state], "load-refused-9-in-%s", state_names[state]);
}

void list_image_items(void)
{
    list_stores();
    list_loads();
    for (size_t place = 0; place < SETTINGS; place++)
        list_item(found_counts[place], "search-finds-tag-%d", (int)place + 1);
    for (size_t i = 0; i < FIND_ITEMS; i++)
        list_item(find_counts[i], "search-%s", find_names[i]);
}
