/* What an event file has reached of the two blocks side by side, wish 6 of document 02: the
 * commands of both, queries and status word that speak of the selected one, and what leaves the
 * other alone. Targets and commands are worked out here and in cover_dither.c, and not taken from
 * the model: an event that did or told anything else counts for no item. */
#include <string.h>

#include "cover.h"

static const struct block *unselected_of(const struct device *device)
{
    return &device->block[other_block(device->selected)];
}

/* ---- The target as it should be ---- */

static int64_t within(int64_t value, int64_t low, int64_t high)
{
    if (value > high)
        return high;
    return value < low ? low : value;
}

/* Scaled by the magnitude, with the sign put back. */
int64_t target_wanted(const struct block *block, uint8_t state)
{
    const int64_t *setting = block->setting;
    int64_t input = state == ACTIVE ? block->set_point : setting[HOLD_SET_POINT];
    int64_t limited = within(input, setting[LOWER_LIMIT], setting[UPPER_LIMIT]);
    uint64_t size = (uint64_t)(limited < 0 ? -limited : limited);
    int64_t scaled = (int64_t)(size * (uint64_t)setting[SCALING_FACTOR] >> 16);
    int64_t sum = setting[SCALING_OFFSET] + setting[ZERO_CORRECTION];
    sum += limited < 0 ? -scaled : scaled;
    return within(sum, -FULL_STROKE, FULL_STROKE);
}

static bool is_at_target(const struct block *block, uint8_t state)
{
    return block->position == target_wanted(block, state) * PER_IR;
}

/* ---- The commands ---- */

enum sign { NEGATIVE, ZERO, POSITIVE, SIGNS };

static struct {
    uint64_t read[STATES][SIGNS]; /* of the block while it is selected */
    uint64_t unselected[STATES];  /* 0, although the selected block's is not */
    uint64_t sent_0[STATES];      /* the same of 6310h by PDO */
} command_counts[BLOCKS];

static enum sign sign_of(int64_t value)
{
    return value < 0 ? NEGATIVE : value > 0 ? POSITIVE : ZERO;
}

/* In DISABLED and FAULT the selected block's is 0 as well. */
static void count_command(const struct device *device, enum block_kind kind, int64_t told)
{
    int64_t wanted = command_wanted(device);
    if (kind == device->selected)
        command_counts[kind].read[device->state][sign_of(told)] += told == wanted;
    else
        command_counts[kind].unselected[device->state] +=
            told == 0 && (wanted != 0 || is_idle(device));
}

static void count_command_read(const struct seen *seen)
{
    static const uint8_t low_bytes[BLOCKS] = {0x10, 0x90};
    const uint8_t *reply = seen->outcome->bytes;
    for (int kind = 0; kind < BLOCKS; kind++) {
        const uint8_t wanted[] = {READ_2, low_bytes[kind], 0x63, 1};
        if (memcmp(reply, wanted, sizeof wanted) == 0)
            count_command(seen->before, (enum block_kind)kind, signed_word_at(&reply[4]));
    }
}

/* ---- Queries and the status word ---- */

static struct {
    uint64_t target[STATES];        /* another than that of the block not selected */
    uint64_t position[STATES];      /* not 0, which the other's is */
    uint64_t status_at[TELLERS];    /* at the target, although the other block is not at its own */
    uint64_t status_not_at[TELLERS]; /* the other way round */
    uint64_t ticks_none;            /* no ticks to go, although the other block has some */
    uint64_t ticks_some;            /* the other way round */
} told_counts[BLOCKS];

static void count_status(const struct device *device, int64_t told, enum teller teller)
{
    static const int64_t words[STATES] = {8, 9, 15, 0};
    enum { AT_TARGET = 256 };
    bool at = is_at_target(selected_of(device), device->state);
    bool other_at = is_at_target(unselected_of(device), device->state);
    if (is_idle(device) || told != words[device->state] + (at ? AT_TARGET : 0))
        return;
    told_counts[device->selected].status_at[teller] += at && !other_at;
    told_counts[device->selected].status_not_at[teller] += !at && other_at;
}

static void count_query(const struct seen *seen)
{
    const struct device *device = seen->before;
    const struct answer *told = seen->outcome->query;
    const struct block *block = selected_of(device);
    const struct block *other = unselected_of(device);
    int64_t target = target_wanted(block, device->state);
    bool at = is_at_target(block, device->state);
    bool other_at = is_at_target(other, device->state);
    bool none_to_go = told[QUERY_TICKS_TO_GO].value == 0;
    size_t kind = device->selected;
    told_counts[kind].target[device->state] +=
        told[QUERY_TARGET].value == target && target != target_wanted(other, device->state);
    told_counts[kind].position[device->state] +=
        told[QUERY_POSITION].value == block->position && block->position != 0;
    count_status(device, told[QUERY_STATUS].value, BY_QUERY);
    if (is_idle(device) || none_to_go != at)
        return;
    told_counts[kind].ticks_none += at && !other_at;
    told_counts[kind].ticks_some += !at && other_at;
}

static void count_status_read(const struct seen *seen)
{
    static const uint8_t wanted[] = {READ_2, 0x41, 0x60, 0};
    const uint8_t *reply = seen->outcome->bytes;
    if (memcmp(reply, wanted, sizeof wanted) == 0)
        count_status(seen->before, reply[4] | reply[5] << 8, BY_READ);
}

static void count_send(const struct seen *seen)
{
    enum { STATUS_ENTRY = 0x60410010, COMMAND_ENTRY = 0x63100110 };
    const struct device *device = seen->before;
    const struct map *map = &device->map[TRANSMIT_MAP];
    for (size_t i = 0; i < map->count; i++) {
        const uint8_t *bytes = &seen->outcome->bytes[2 * i];
        if (map->entry[i] == STATUS_ENTRY)
            count_status(device, bytes[0] | bytes[1] << 8, BY_SEND);
        if (map->entry[i] == COMMAND_ENTRY && device->selected == PRESSURE_BLOCK)
            command_counts[PRESSURE_BLOCK].sent_0[device->state] +=
                signed_word_at(bytes) == 0 && command_wanted(device) != 0;
    }
}

/* ---- What leaves a block alone ---- */

static uint64_t kept_counts[BLOCKS][BLOCKS][KEEPERS]; /* the block kept, the selected one */

bool are_blocks_unlike(const struct device *device)
{
    struct device fresh = device_fresh();
    const struct block *position = &device->block[POSITION_BLOCK];
    const struct block *pressure = &device->block[PRESSURE_BLOCK];
    return !block_equal(position, &fresh.block[POSITION_BLOCK]) &&
           !block_equal(pressure, &fresh.block[PRESSURE_BLOCK]) &&
           memcmp(position->setting, pressure->setting, sizeof position->setting) != 0;
}

/* A tick or a jump has to have moved the selected block, a word or a fault to have led to another
 * state, the others but a store and a send to have changed the other of the two. */
static bool has_acted(const struct seen *seen, enum block_kind kept)
{
    const struct device *before = seen->before;
    const struct device *after = seen->after;
    switch (seen->record->kind) {
    case EVENT_STORE:
    case EVENT_SEND:
        return true;
    case EVENT_CONTROL:
    case EVENT_FAULT:
        return before->state != after->state;
    default:
        return !block_equal(&before->block[other_block(kept)], &after->block[other_block(kept)]);
    }
}

static void count_kept(const struct seen *seen)
{
    const struct device *before = seen->before;
    if (seen->outcome->number != DONE || !are_blocks_unlike(before))
        return;
    for (int kept = 0; kept < BLOCKS; kept++) {
        bool same = block_equal(&before->block[kept], &seen->after->block[kept]);
        if (!same || !has_acted(seen, (enum block_kind)kept))
            continue;
        for (size_t i = 0; i < KEEPERS; i++)
            kept_counts[kept][before->selected][i] += keepers[i].kind == seen->record->kind;
    }
}

/* ---- Positions set to 0 ---- */

static uint64_t cleared_counts[BLOCKS][STATES][STATES]; /* from, to */

static void count_cleared(const struct seen *seen)
{
    const struct device *before = seen->before;
    const struct device *after = seen->after;
    bool same_selected = before->selected == after->selected;
    if (seen->record->kind != EVENT_FRESH && same_selected && is_idle(after) &&
        selected_of(before)->position != 0 && selected_of(after)->position == 0)
        cleared_counts[before->selected][before->state][after->state]++;
}

/* ---- PDOs received and the stored image while the pressure block is selected ---- */

enum pressure_item {
    RECEIVED_SET_POINT,
    RECEIVED_HOLD_SET_POINT,
    STORED_POSITION,
    LOADED_POSITION,
    PRESSURE_ITEMS
};
static const char *const pressure_names[PRESSURE_ITEMS] = {
    "receive-6300-while-pressure-selected-and-pressure-kept",
    "receive-6314-while-pressure-selected-and-pressure-kept",
    "store-while-pressure-selected-of-position-settings",
    "load-while-pressure-selected-to-position-settings",
};
static uint64_t pressure_counts[PRESSURE_ITEMS];

static bool is_pressure_kept(const struct seen *seen)
{
    return block_equal(&seen->before->block[PRESSURE_BLOCK], &seen->after->block[PRESSURE_BLOCK]);
}

/* A set point that is mapped once, and the position block has what came. */
static void count_received(const struct seen *seen)
{
    enum { SET_POINT_ENTRY = 0x63000110, HOLD_SET_POINT_ENTRY = 0x63140110 };
    const struct block *before = &seen->before->block[POSITION_BLOCK];
    const struct block *after = &seen->after->block[POSITION_BLOCK];
    const struct map *map = &seen->before->map[RECEIVE_MAP];
    uint8_t pdo[WIDE_MOST];
    wide_bytes(seen->record, pdo);
    for (size_t i = 0; i < map->count; i++) {
        int64_t value = signed_word_at(&pdo[2 * i]);
        pressure_counts[RECEIVED_SET_POINT] += map->entry[i] == SET_POINT_ENTRY &&
                                               after->set_point == value &&
                                               before->set_point != value;
        pressure_counts[RECEIVED_HOLD_SET_POINT] +=
            map->entry[i] == HOLD_SET_POINT_ENTRY && after->setting[HOLD_SET_POINT] == value &&
            before->setting[HOLD_SET_POINT] != value;
    }
}

/* Whether the image has these values, low first, each with the length of its type. */
static bool is_image_of(const uint8_t *image, const int64_t *setting)
{
    static const uint8_t lengths[SETTINGS] = {2, 2, 2, 4, 2, 2, 1, 4, 4, 4, 4, 4, 4, 1, 2, 2, 2};
    const uint8_t *value = image;
    for (size_t place = 0; place < SETTINGS; place++) {
        value += FIELD_HEAD;
        for (size_t i = 0; i < lengths[place]; i++)
            if (*value++ != (uint8_t)((uint64_t)setting[place] >> (8 * i)))
                return false;
    }
    return true;
}

static void count_pressure_selected(const struct seen *seen)
{
    const int64_t *before = seen->before->block[POSITION_BLOCK].setting;
    const int64_t *after = seen->after->block[POSITION_BLOCK].setting;
    if (seen->before->selected != PRESSURE_BLOCK || seen->outcome->number != DONE ||
        !are_blocks_unlike(seen->before) || !is_pressure_kept(seen))
        return;
    if (seen->record->kind == EVENT_RECEIVE)
        count_received(seen);
    if (seen->record->kind == EVENT_STORE)
        pressure_counts[STORED_POSITION] += is_image_of(seen->outcome->bytes, before);
    if (seen->record->kind == EVENT_LOAD || seen->record->kind == EVENT_APPEND)
        pressure_counts[LOADED_POSITION] +=
            memcmp(before, after, SETTINGS * sizeof after[0]) != 0 &&
            is_image_of(load_of(seen->image, seen->record).bytes, after);
}

void count_blocks_event(const struct seen *seen)
{
    count_kept(seen);
    count_cleared(seen);
    count_pressure_selected(seen);
    if (seen->outcome->number != DONE)
        return;
    switch (seen->record->kind) {
    case EVENT_SDO:
    case EVENT_WIDE:
        count_command_read(seen);
        count_status_read(seen);
        break;
    case EVENT_QUERY:
        count_query(seen);
        break;
    case EVENT_SEND:
        count_send(seen);
        break;
    default:
        break;
    }
}

/* ---- The list ---- */

static void list_commands(size_t block, unsigned index)
{
    static const char *const sign_names[SIGNS] = {"negative", "0", "positive"};
    const char *name = block_names[block];
    for (size_t state = 0; state < STATES; state++)
        for (size_t sign = 0; sign < SIGNS; sign++)
            if (sign == ZERO || state == HOLD || state == ACTIVE)
                list_item(command_counts[block].read[state][sign],
                          "command-%04X-%s-while-%s-selected-in-%s", index, sign_names[sign],
                          name, state_names[state]);
    for (size_t state = 0; state < STATES; state++)
        list_item(command_counts[block].unselected[state],
                  "command-%04X-0-while-%s-not-selected-in-%s", index, name, state_names[state]);
}

static void list_told(size_t block)
{
    const char *name = block_names[block];
    for (size_t state = 0; state < STATES; state++)
        list_item(told_counts[block].target[state], "query-target-of-%s-in-%s", name,
                  state_names[state]);
    list_item(told_counts[block].position[HOLD], "query-position-of-%s-in-HOLD", name);
    list_item(told_counts[block].position[ACTIVE], "query-position-of-%s-in-ACTIVE", name);
    for (size_t teller = 0; teller < TELLERS; teller++) {
        list_item(told_counts[block].status_at[teller],
                  "status-by-%s-at-target-of-%s-although-other-is-not", teller_names[teller],
                  name);
        list_item(told_counts[block].status_not_at[teller],
                  "status-by-%s-not-at-target-of-%s-although-other-is", teller_names[teller],
                  name);
    }
    list_item(told_counts[block].ticks_none, "ticks-to-go-0-of-%s-although-other-has-some", name);
    list_item(told_counts[block].ticks_some, "ticks-to-go-of-%s-although-other-has-none", name);
}

/* What a load and a PDO can leave alone while it is not selected is the pressure block. */
static bool can_keep(size_t kept, size_t selected, uint8_t kind)
{
    bool writes_position = kind == EVENT_LOAD || kind == EVENT_RECEIVE;
    if (kept == selected)
        return kind == EVENT_SDO || (writes_position && kept == PRESSURE_BLOCK);
    return !writes_position || kept == PRESSURE_BLOCK;
}

static void list_kept(size_t kept, size_t selected)
{
    for (size_t i = 0; i < KEEPERS; i++)
        if (can_keep(kept, selected, keepers[i].kind))
            list_item(kept_counts[kept][selected][i], "%s-block-%s-kept-by-%s", block_names[kept],
                      kept == selected ? "selected" : "not-selected", keepers[i].name);
}

static void list_cleared(size_t block)
{
    static const enum device_state moving[] = {HOLD, ACTIVE};
    for (size_t i = 0; i < 2; i++) {
        const uint64_t *to = cleared_counts[block][moving[i]];
        list_item(to[DISABLED], "%s-position-cleared-%s-DISABLED", block_names[block],
                  state_names[moving[i]]);
        list_item(to[FAULT], "%s-position-cleared-%s-FAULT", block_names[block],
                  state_names[moving[i]]);
    }
}

void list_blocks_items(void)
{
    static const unsigned commands[BLOCKS] = {0x6310, 0x6390};
    for (size_t block = 0; block < BLOCKS; block++) {
        list_commands(block, commands[block]);
        list_told(block);
        for (size_t selected = 0; selected < BLOCKS; selected++)
            list_kept(block, selected);
        list_cleared(block);
    }
    list_item(command_counts[PRESSURE_BLOCK].sent_0[HOLD],
              "send-6310-0-while-pressure-selected-in-HOLD");
    list_item(command_counts[PRESSURE_BLOCK].sent_0[ACTIVE],
              "send-6310-0-while-pressure-selected-in-ACTIVE");
    for (size_t i = 0; i < PRESSURE_ITEMS; i++)
        list_item(pressure_counts[i], "%s", pressure_names[i]);
}
