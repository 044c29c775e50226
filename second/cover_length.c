/* What an event file has reached of writes of a wrong length: place 5 of document 01's aborts,
 * which says by wish 1 of document 02 which way it is wrong, and its order among the others. */
#include "cover.h"

enum length_way { TOO_LONG, TOO_SHORT, LENGTH_WAYS };
static const char *const way_names[LENGTH_WAYS] = {"too-long", "too-short"};

/* Written out, as sizes and crossed limits are worked out below, and not taken from the model:
 * a mistake there leaves items missing. */
static const uint32_t way_codes[LENGTH_WAYS] = {0x06070012, 0x06070013};

enum { SIZE_MOST = 4 };
static uint64_t size_counts[SIZE_MOST + 1][SIZE_MOST + 1]; /* of the type, of the write */

/* What comes before the length: the entry is read only. */
static uint64_t read_only_counts[LENGTH_WAYS];

/* What comes after it: places 6, 7 and 8. */
enum later_reason { OUT_OF_RANGE, LIMITS_CROSSED, LOCKED_IN_ACTIVE, LATER_REASONS };
static const char *const reason_names[LATER_REASONS] = {
    "value-out-of-range",
    "limits-crossed",
    "locked-in-ACTIVE",
};
static uint64_t reason_counts[LENGTH_WAYS][LATER_REASONS];

/* ---- What one write did ---- */

/* The size that a write command announces; 0 for every other command. */
static size_t announced_size(uint8_t command)
{
    static const uint8_t commands[SIZE_MOST] = {WRITE_1, WRITE_2, WRITE_3, WRITE_4};
    for (size_t i = 0; i < SIZE_MOST; i++)
        if (commands[i] == command)
            return i + 1;
    return 0;
}

static bool limits_cross(const struct device *device, struct found found, int64_t value)
{
    const int64_t *setting = device->block[found.block].setting;
    return (found.object->value == UPPER_LIMIT && value < setting[LOWER_LIMIT]) ||
           (found.object->value == LOWER_LIMIT && value > setting[UPPER_LIMIT]);
}

/* A write of a wrong length has no value of its own: the one meant here is what
 * the request's data bytes say in the type, those beyond a short write too. */
static void count_later_reasons(const struct seen *seen, struct found found,
                                uint64_t counts[LATER_REASONS])
{
    const struct object *object = found.object;
    int64_t value = object_value(object, &seen->record->bytes[4]);
    counts[OUT_OF_RANGE] += value < object->low || value > object->high;
    counts[LIMITS_CROSSED] += limits_cross(seen->before, found, value);
    counts[LOCKED_IN_ACTIVE] +=
        object->lock == LOCK_IN_ACTIVE && seen->before->state == ACTIVE;
}

void count_length_abort(const struct seen *seen, struct found found, uint32_t code)
{
    const struct object *object = found.object;
    const uint8_t *request = seen->record->bytes;
    bool is_map = object->form == MAP_RECORD;
    bool is_value = is_map || request[3] == (object->form == VARIABLE ? 0 : 1);
    bool is_byte = !is_value || (is_map && request[3] == 0);
    size_t own = is_byte ? 1 : object_size(object);
    size_t size = announced_size(request[0]);
    if (size == 0 || size == own)
        return;
    enum length_way way = size > own ? TOO_LONG : TOO_SHORT;
    if (object->access == READ_ONLY || !is_value) {
        read_only_counts[way] += code == ABORT_READ_ONLY;
    } else if (code == way_codes[way]) {
        size_counts[own][size]++;
        count_later_reasons(seen, found, reason_counts[way]);
    }
}

/* ---- The list ---- */

static void list_sizes(size_t own)
{
    for (size_t size = 1; size <= SIZE_MOST; size++)
        if (size != own)
            list_item(size_counts[own][size], "write-of-%d-to-type-of-%d-%s", (int)size, (int)own,
                      way_names[size > own ? TOO_LONG : TOO_SHORT]);
}

void list_length_items(void)
{
    list_sizes(1);
    list_sizes(2);
    list_sizes(4);
    for (size_t way = 0; way < LENGTH_WAYS; way++)
        list_item(read_only_counts[way], "abort-%08X-although-write-%s",
                  (unsigned)ABORT_READ_ONLY, way_names[way]);
    for (size_t way = 0; way < LENGTH_WAYS; way++)
        for (size_t reason = 0; reason < LATER_REASONS; reason++)
            list_item(reason_counts[way][reason], "abort-%08X-although-%s",
                      (unsigned)way_codes[way], reason_names[reason]);
}
