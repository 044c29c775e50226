/* The device of document 01, in the order of that paper, with wishes 1 to 6 of document 02;
 * dither, wish 4, stands before the ramp, whose ticks advance its phase, and process data, wish
 * 2, behind SDO. What is a rule of a block, of which wish 6 makes two, stands once. */
#include "model.h"

#include <string.h>

static int64_t clamp(int64_t value, int64_t low, int64_t high)
{
    if (value < low)
        return low;
    return value > high ? high : value;
}

static int64_t magnitude(int64_t value)
{
    return value < 0 ? -value : value;
}

/* ---- Objects ---- */

#define I16_ALL INT16_MIN, INT16_MAX
#define U16_ALL 0, UINT16_MAX
#define U32_ALL 0, UINT32_MAX
#define TIMES 0, 3600000

/* The rows of a block stand together, from the set point on, and among them those of the settings
 * in the order of their tags; those of the dither stand last. */
const struct object objects[OBJECTS] = {
    /* index, form, type, access, lock, low, high, fresh, value */
    {0x1600, MAP_RECORD, U32, READ_WRITE, NO_LOCK, U32_ALL, 0, RECEIVE_MAPPING},
    {0x1a00, MAP_RECORD, U32, READ_WRITE, NO_LOCK, U32_ALL, 0, TRANSMIT_MAPPING},
    {0x2000, VARIABLE, U8, READ_WRITE, LOCK_OUTSIDE_DISABLED, 0, 1, POSITION_BLOCK, SELECTION},
    {0x6040, VARIABLE, U16, READ_WRITE, NO_LOCK, U16_ALL, 0, CONTROL_WORD},
    {0x6041, VARIABLE, U16, READ_ONLY, NO_LOCK, U16_ALL, 0, STATUS_WORD},
    {0x604e, VARIABLE, U16, READ_ONLY, NO_LOCK, U16_ALL, 0, ERROR_CODE},
    {0x6300, RECORD, I16, READ_WRITE, NO_LOCK, I16_ALL, 0, SET_POINT},
    {0x6310, RECORD, I16, READ_ONLY, NO_LOCK, I16_ALL, 0, COMMAND},
    {0x6314, RECORD, I16, READ_WRITE, NO_LOCK, I16_ALL, 0, HOLD_SET_POINT},
    {0x6320, RECORD, I16, READ_WRITE, NO_LOCK, I16_ALL, FULL_STROKE, UPPER_LIMIT},
    {0x6321, RECORD, I16, READ_WRITE, NO_LOCK, I16_ALL, -FULL_STROKE, LOWER_LIMIT},
    {0x6322, VARIABLE, U32, READ_WRITE, NO_LOCK, U32_ALL, 65536, SCALING_FACTOR},
    {0x6323, RECORD, I16, READ_WRITE, NO_LOCK, I16_ALL, 0, SCALING_OFFSET},
    {0x6324, RECORD, I16, READ_WRITE, NO_LOCK, I16_ALL, 0, ZERO_CORRECTION},
    {0x6330, VARIABLE, I8, READ_WRITE, LOCK_IN_ACTIVE, 0, 3, 0, RAMP_TYPE},
    {0x6331, TIME_RECORD, U32, READ_WRITE, LOCK_IN_ACTIVE, TIMES, 0, ACCELERATION_ONE},
    {0x6332, TIME_RECORD, U32, READ_WRITE, LOCK_IN_ACTIVE, TIMES, 0, ACCELERATION_POSITIVE},
    {0x6333, TIME_RECORD, U32, READ_WRITE, LOCK_IN_ACTIVE, TIMES, 0, ACCELERATION_NEGATIVE},
    {0x6334, TIME_RECORD, U32, READ_WRITE, LOCK_IN_ACTIVE, TIMES, 0, DECELERATION_ONE},
    {0x6335, TIME_RECORD, U32, READ_WRITE, LOCK_IN_ACTIVE, TIMES, 0, DECELERATION_POSITIVE},
    {0x6336, TIME_RECORD, U32, READ_WRITE, LOCK_IN_ACTIVE, TIMES, 0, DECELERATION_NEGATIVE},
    {0x6342, VARIABLE, I8, READ_WRITE, LOCK_IN_ACTIVE, 0, 1, 0, DEAD_BAND_TYPE},
    {0x6343, RECORD, I16, READ_WRITE, LOCK_IN_ACTIVE, 0, 4096, 0, DEAD_BAND_A_SIDE},
    {0x6344, RECORD, I16, READ_WRITE, LOCK_IN_ACTIVE, 0, 4096, 0, DEAD_BAND_B_SIDE},
    {0x6345, RECORD, I16, READ_WRITE, LOCK_IN_ACTIVE, 0, 16384, 0, DEAD_BAND_THRESHOLD},
    {0x6360, VARIABLE, I8, READ_WRITE, LOCK_IN_ACTIVE, 0, 2, 0, SHOWN_DITHER_TYPE},
    {0x6361, RECORD, U16, READ_WRITE, LOCK_IN_ACTIVE, 0, 1024, 0, SHOWN_DITHER_AMPLITUDE},
    {0x6362, RECORD, U16, READ_WRITE, LOCK_IN_ACTIVE, 0, 250, 0, SHOWN_DITHER_FREQUENCY},
};

enum {
    FIRST_DITHER_ROW = OBJECTS - DITHER_VALUES,
    FIRST_SETTING_ROW = FIRST_DITHER_ROW - SETTINGS
};

/* What subs 2 and 3 of a time record say: seconds, milli (-3 as one byte). */
enum { UNIT_SECOND = 0x03, PREFIX_MILLI = 0xfd };

/* An index of the pressure block is sought as that of its counterpart. */
struct found object_find(uint16_t index)
{
    enum { FIRST_OF_PRESSURE = 0x6380, LAST_OF_PRESSURE = 0x63c5 };
    enum block_kind block = POSITION_BLOCK;
    if (index >= FIRST_OF_PRESSURE && index <= LAST_OF_PRESSURE) {
        block = PRESSURE_BLOCK;
        index -= BLOCK_OFFSET;
    }
    for (size_t row = 0; row < OBJECTS; row++)
        if (objects[row].index == index)
            return (struct found){&objects[row], block};
    return (struct found){NULL, block};
}

uint16_t object_index(struct found found)
{
    return (uint16_t)(found.object->index + (found.block == PRESSURE_BLOCK ? BLOCK_OFFSET : 0));
}

struct found object_at(size_t place)
{
    if (place < OBJECTS)
        return (struct found){&objects[place], POSITION_BLOCK};
    return (struct found){&objects[FIRST_BLOCK_ROW + place - OBJECTS], PRESSURE_BLOCK};
}

const struct object *object_of_setting(size_t place)
{
    return &objects[FIRST_SETTING_ROW + place];
}

const struct object *object_of_dither(size_t place)
{
    return &objects[FIRST_DITHER_ROW + place];
}

size_t object_size(const struct object *object)
{
    switch (object->type) {
    case I8:
    case U8:
        return 1;
    case U32:
        return 4;
    default:
        return 2;
    }
}

uint8_t object_top_sub(const struct object *object)
{
    switch (object->form) {
    case VARIABLE:
        return 0;
    case RECORD:
        return 1;
    case MAP_RECORD:
        return MAP_ENTRIES;
    default:
        return 3;
    }
}

/* A record's value is at sub 1, a variable's at sub 0; a map holds one at every sub. */
static bool is_value_sub(const struct object *object, uint8_t sub)
{
    if (object->form == MAP_RECORD)
        return true;
    return sub == (object->form == VARIABLE ? 0 : 1);
}

static bool is_map_count(const struct object *object, uint8_t sub)
{
    return object->form == MAP_RECORD && sub == 0;
}

size_t object_entry_size(const struct object *object, uint8_t sub)
{
    if (!is_value_sub(object, sub) || is_map_count(object, sub))
        return 1;
    return object_size(object);
}

static bool in_range(const struct object *object, int64_t value)
{
    return value >= object->low && value <= object->high;
}

/* Low first, as many bytes as the size says. */
static uint32_t bytes_to_number(const uint8_t *bytes, size_t size)
{
    uint32_t number = 0;
    for (size_t i = size; i > 0; i--)
        number = (number << 8) | bytes[i - 1];
    return number;
}

static void number_to_bytes(uint32_t number, uint8_t *bytes, size_t size)
{
    for (size_t i = 0; i < size; i++)
        bytes[i] = (uint8_t)(number >> (8 * i));
}

/* The bytes of a value, read in the type of its object. */
int64_t object_value(const struct object *object, const uint8_t *bytes)
{
    int64_t value = bytes_to_number(bytes, object_size(object));
    if (object->type == I8 && value > INT8_MAX)
        return value - 256;
    if (object->type == I16 && value > INT16_MAX)
        return value - 65536;
    return value;
}

/* ---- Device states ---- */

enum control_bit {
    LEAVE_DISABLED = 1,
    LEAVE_HOLD = 2,
    MODE_ACTIVE = 4,
    RESET_FAULT = 8
};

struct device device_fresh(void)
{
    struct device device = {.state = DISABLED, .selected = POSITION_BLOCK};
    for (size_t place = 0; place < SETTINGS; place++) {
        int64_t fresh = object_of_setting(place)->fresh;
        device.block[POSITION_BLOCK].setting[place] = fresh;
        device.block[PRESSURE_BLOCK].setting[place] = fresh;
    }
    for (size_t place = 0; place < DITHER_VALUES; place++)
        device.dither[place] = object_of_dither(place)->fresh;
    return device;
}

static bool is_idle(const struct device *device)
{
    return device->state == DISABLED || device->state == FAULT;
}

/* The block that position, target, command, ticks to go and status word speak of. */
static const struct block *selected_block(const struct device *device)
{
    return &device->block[device->selected];
}

enum block_kind other_block(enum block_kind block)
{
    return block == POSITION_BLOCK ? PRESSURE_BLOCK : POSITION_BLOCK;
}

/* Reset is an edge: `before` is the word stored until now. */
static uint8_t next_state(uint8_t state, uint16_t before, uint16_t word)
{
    bool disable = (word & LEAVE_DISABLED) == 0;
    bool activate = (word & LEAVE_HOLD) != 0 && (word & MODE_ACTIVE) != 0;
    bool reset = (word & RESET_FAULT) != 0 && (before & RESET_FAULT) == 0;

    switch (state) {
    case DISABLED:
        return disable ? DISABLED : HOLD;
    case HOLD:
    case ACTIVE:
        if (disable)
            return DISABLED;
        return activate ? ACTIVE : HOLD;
    default:
        return reset ? DISABLED : FAULT;
    }
}

static void enter(struct device *device, uint8_t state, uint16_t error_code)
{
    device->state = state;
    device->error_code = error_code;
    if (is_idle(device)) {
        device->block[device->selected].position = 0; /* the other's is 0 */
        device->phase = 0;
    }
}

static void accept_control_word(struct device *device, uint16_t word)
{
    uint8_t next = next_state(device->state, device->control_word, word);
    device->control_word = word;
    if (next != device->state)
        enter(device, next, 0);
}

enum number device_control(struct device *device, uint16_t word)
{
    if (!device_sound(device))
        return STATE_NOT_SOUND;
    accept_control_word(device, word);
    return DONE;
}

enum number device_fault(struct device *device, uint16_t code)
{
    if (!device_sound(device))
        return STATE_NOT_SOUND;
    if (code == 0)
        return FAULT_CODE_ZERO;
    if (device->state != FAULT) /* in FAULT the first code stays */
        enter(device, FAULT, code);
    return DONE;
}

/* ---- From set point to target ---- */

static int64_t target_in_ir(const struct device *device)
{
    const struct block *block = selected_block(device);
    const int64_t *setting = block->setting;
    int64_t input = device->state == ACTIVE ? block->set_point : setting[HOLD_SET_POINT];
    int64_t limited = clamp(input, setting[LOWER_LIMIT], setting[UPPER_LIMIT]);
    int64_t scaled = limited * setting[SCALING_FACTOR] / 65536; /* C drops the fraction */
    int64_t corrected = scaled + setting[SCALING_OFFSET] + setting[ZERO_CORRECTION];
    return clamp(corrected, -FULL_STROKE, FULL_STROKE);
}

static int64_t target_position(const struct device *device)
{
    return target_in_ir(device) * PER_IR;
}

static uint16_t status_word(const struct device *device)
{
    static const uint16_t word_of_state[STATES] = {8, 9, 15, 0};
    enum { AT_TARGET = 256 };
    uint16_t word = word_of_state[device->state];
    if (!is_idle(device) && selected_block(device)->position == target_position(device))
        word |= AT_TARGET;
    return word;
}

/* ---- Dither ---- */

enum dither_type { DITHER_OFF, DITHER_SQUARE, DITHER_TRIANGLE };

/* So much of the phase's range of 2^32 as one tick, 1/1000 s, is of a period. */
static uint64_t phase_per_tick(const struct device *device)
{
    uint64_t frequency = (uint64_t)device->dither[DITHER_FREQUENCY];
    return (frequency << 32) / 1000;
}

/* In HOLD and ACTIVE the phase advances, whatever the type is. It runs over its end: the remainder
 * of 2^32 stays. The product is below 2^62, as no tick is more than 2^30. */
static uint32_t phase_after_ticks(const struct device *device, uint32_t ticks)
{
    return (uint32_t)(device->phase + ticks * phase_per_tick(device));
}

static int64_t square(const struct device *device)
{
    const uint32_t half = UINT32_C(1) << 31;
    int64_t amplitude = device->dither[DITHER_AMPLITUDE];
    return device->phase < half ? amplitude : -amplitude;
}

/* Up from 0, down through 0 and up again, by quarters of the period. */
static int64_t triangle(const struct device *device)
{
    enum { QUARTER = 16384 };
    int64_t amplitude = device->dither[DITHER_AMPLITUDE];
    int64_t x = device->phase / 65536; /* the fraction is dropped */
    int64_t height = x - 4 * QUARTER;
    if (x < QUARTER)
        height = x;
    else if (x < 3 * QUARTER)
        height = 2 * QUARTER - x;
    return amplitude * height / QUARTER; /* toward zero */
}

static int64_t dither(const struct device *device)
{
    switch (device->dither[DITHER_TYPE]) {
    case DITHER_SQUARE:
        return square(device);
    case DITHER_TRIANGLE:
        return triangle(device);
    default:
        return 0;
    }
}

/* ---- Ramp ---- */

enum ramp_type { RAMP_NONE, RAMP_ONE_TIME, RAMP_TWO_TIMES, RAMP_FOUR_TIMES };

static enum setting time_of(int64_t type, bool away, bool positive)
{
    switch (type) {
    case RAMP_ONE_TIME:
        return ACCELERATION_ONE;
    case RAMP_TWO_TIMES:
        return away ? ACCELERATION_ONE : DECELERATION_ONE;
    default:
        if (positive)
            return away ? ACCELERATION_POSITIVE : DECELERATION_POSITIVE;
        return away ? ACCELERATION_NEGATIVE : DECELERATION_NEGATIVE;
    }
}

static bool signs_opposite(int64_t a, int64_t b)
{
    return (a < 0 && b > 0) || (a > 0 && b < 0);
}

/* Whether a ramp halts at zero on its way to the other side. By wish 3 of document 02
 * type 1 has one rate and goes straight on. */
static bool halts_at_zero(const struct block *block, int64_t from, int64_t target)
{
    int64_t type = block->setting[RAMP_TYPE];
    bool may_halt = type == RAMP_TWO_TIMES || type == RAMP_FOUR_TIMES;
    return may_halt && signs_opposite(from, target);
}

/* The step on a way without a halt. In type 1 there is one step; in types 2 and 3 such a
 * way lies on one side of zero: away from zero the step is the acceleration of the side it
 * leads to, else the deceleration of its own. */
static int64_t step_on_way(const struct block *block, int64_t from, int64_t to)
{
    bool away = magnitude(to) > magnitude(from);
    bool positive = away ? to > 0 : from > 0;
    enum setting place = time_of(block->setting[RAMP_TYPE], away, positive);
    int64_t time = block->setting[place];
    return FULL_POSITION / (time == 0 ? 1 : time);
}

static int64_t position_after_tick(const struct block *block, int64_t target)
{
    int64_t from = block->position;
    if (block->setting[RAMP_TYPE] == RAMP_NONE)
        return target;

    int64_t to = halts_at_zero(block, from, target) ? 0 : target;
    int64_t step = step_on_way(block, from, to);
    if (magnitude(to - from) <= step)
        return to;
    return to > from ? from + step : from - step;
}

enum number device_tick(struct device *device)
{
    if (!device_sound(device))
        return STATE_NOT_SOUND;
    if (!is_idle(device)) {
        struct block *block = &device->block[device->selected];
        block->position = (int32_t)position_after_tick(block, target_position(device));
        device->phase = phase_after_ticks(device, 1);
    }
    return DONE;
}

/* Distance over the step, rounded up, on a way without a halt. */
static int64_t ticks_on_way(const struct block *block, int64_t from, int64_t to)
{
    int64_t step = step_on_way(block, from, to);
    return (magnitude(to - from) + step - 1) / step;
}

/* In HOLD and ACTIVE. */
static int64_t ticks_to_target(const struct block *block, int64_t target)
{
    int64_t from = block->position;
    if (from == target)
        return 0;
    if (block->setting[RAMP_TYPE] == RAMP_NONE)
        return 1;
    if (halts_at_zero(block, from, target))
        return ticks_on_way(block, from, 0) + ticks_on_way(block, 0, target);
    return ticks_on_way(block, from, target);
}

static int64_t ticks_to_go(const struct device *device)
{
    if (is_idle(device))
        return 0;
    return ticks_to_target(selected_block(device), target_position(device));
}

/* So many steps from here toward there; the caller knows it stays short of it. */
static int64_t steps_toward(const struct block *block, int64_t ticks, int64_t from, int64_t to)
{
    int64_t way = ticks * step_on_way(block, from, to);
    return to > from ? from + way : from - way;
}

/* The closed formula in HOLD and ACTIVE: no loop over the ticks. */
static int64_t position_after_ticks(const struct block *block, int64_t ticks, int64_t target)
{
    int64_t from = block->position;
    if (ticks == 0)
        return from;
    if (ticks >= ticks_to_target(block, target))
        return target;
    if (!halts_at_zero(block, from, target))
        return steps_toward(block, ticks, from, target);

    int64_t ticks_to_zero = ticks_on_way(block, from, 0);
    if (ticks < ticks_to_zero)
        return steps_toward(block, ticks, from, 0);
    return steps_toward(block, ticks - ticks_to_zero, 0, target);
}

/* In DISABLED and FAULT position and phase are 0 and stay so. */
enum number device_jump(struct device *device, uint32_t ticks)
{
    if (!device_sound(device))
        return STATE_NOT_SOUND;
    if (!is_idle(device)) {
        struct block *block = &device->block[device->selected];
        block->position = (int32_t)position_after_ticks(block, ticks, target_position(device));
        device->phase = phase_after_ticks(device, ticks);
    }
    return DONE;
}

/* ---- Command ---- */

enum dead_band_type { DEAD_BAND_NONE, DEAD_BAND_JUMP };

static int64_t with_dead_band(const struct block *block, int64_t r)
{
    const int64_t *setting = block->setting;
    if (setting[DEAD_BAND_TYPE] == DEAD_BAND_NONE)
        return r;
    if (r > setting[DEAD_BAND_THRESHOLD])
        return r + setting[DEAD_BAND_A_SIDE];
    if (r < -setting[DEAD_BAND_THRESHOLD])
        return r - setting[DEAD_BAND_B_SIDE];
    return 0;
}

/* The selected block drives it. Within the dead band it is the dither alone. */
static int64_t command(const struct device *device)
{
    if (is_idle(device))
        return 0;
    const struct block *block = selected_block(device);
    int64_t r = block->position / PER_IR; /* toward zero */
    return clamp(with_dead_band(block, r) + dither(device), -FULL_STROKE, FULL_STROKE);
}

/* ---- SDO ---- */

static enum map_kind map_kind_of(const struct object *object)
{
    return object->value == RECEIVE_MAPPING ? RECEIVE_MAP : TRANSMIT_MAP;
}

/* The command of the block that is not selected is 0. */
static int64_t shown_value(const struct device *device, struct found found, uint8_t sub)
{
    const struct object *object = found.object;
    const struct block *block = &device->block[found.block];
    const struct map *map = &device->map[map_kind_of(object)];
    switch (object->value) {
    case SELECTION:
        return device->selected;
    case CONTROL_WORD:
        return device->control_word;
    case STATUS_WORD:
        return status_word(device);
    case ERROR_CODE:
        return device->error_code;
    case SET_POINT:
        return block->set_point;
    case COMMAND:
        return found.block == device->selected ? command(device) : 0;
    case RECEIVE_MAPPING:
    case TRANSMIT_MAPPING:
        return sub == 0 ? map->count : map->entry[sub - 1];
    case SHOWN_DITHER_TYPE:
    case SHOWN_DITHER_AMPLITUDE:
    case SHOWN_DITHER_FREQUENCY:
        return device->dither[object->value - SHOWN_DITHER_TYPE];
    default:
        return block->setting[object->value];
    }
}

static void take_value(struct device *device, struct found found, uint8_t sub, int64_t value)
{
    const struct object *object = found.object;
    struct block *block = &device->block[found.block];
    struct map *map = &device->map[map_kind_of(object)];
    switch (object->value) {
    case SELECTION:
        device->selected = (uint8_t)value;
        break;
    case CONTROL_WORD:
        accept_control_word(device, (uint16_t)value);
        break;
    case SET_POINT:
        block->set_point = (int32_t)value;
        break;
    case RECEIVE_MAPPING:
    case TRANSMIT_MAPPING:
        if (sub == 0)
            map->count = (uint8_t)value;
        else
            map->entry[sub - 1] = (uint32_t)value;
        break;
    case SHOWN_DITHER_TYPE:
    case SHOWN_DITHER_AMPLITUDE:
    case SHOWN_DITHER_FREQUENCY:
        device->dither[object->value - SHOWN_DITHER_TYPE] = value;
        break;
    default:
        block->setting[object->value] = value;
    }
}

/* What the one-byte entries beside the value say. */
static uint8_t shown_byte(const struct object *object, uint8_t sub)
{
    switch (sub) {
    case 0:
        return object_top_sub(object);
    case 2:
        return UNIT_SECOND;
    default:
        return PREFIX_MILLI;
    }
}

static void read_entry(const struct device *device, struct found found, uint8_t sub,
                       uint8_t *reply)
{
    size_t size = object_entry_size(found.object, sub);
    uint32_t value = shown_byte(found.object, sub);
    if (is_value_sub(found.object, sub))
        value = (uint32_t)shown_value(device, found, sub);
    reply[0] = size == 1 ? READ_1 : size == 2 ? READ_2 : READ_4;
    number_to_bytes(value, &reply[4], size);
}

/* Its numbers stand for kinds, so that none is too high or too low but only another. */
static bool is_choice(const struct object *object)
{
    return object->value == RAMP_TYPE || object->value == DEAD_BAND_TYPE ||
           object->value == SHOWN_DITHER_TYPE;
}

static enum abort_code range_abort(const struct object *object, int64_t value)
{
    if (in_range(object, value))
        return NO_ABORT;
    if (is_choice(object))
        return ABORT_VALUE;
    return value > object->high ? ABORT_TOO_HIGH : ABORT_TOO_LOW;
}

/* The limits of the block that is written, whichever is selected. */
static bool crosses_limits(const struct block *block, const struct object *object, int64_t value)
{
    if (object->value == UPPER_LIMIT)
        return value < block->setting[LOWER_LIMIT];
    if (object->value == LOWER_LIMIT)
        return block->setting[UPPER_LIMIT] < value;
    return false;
}

static bool is_locked(const struct object *object, uint8_t state)
{
    if (object->lock == LOCK_IN_ACTIVE)
        return state == ACTIVE;
    return object->lock == LOCK_OUTSIDE_DISABLED && state != DISABLED;
}

/* An entry is index * 65536 + sub-index * 256 + length in bits. */
static uint16_t mapped_index(uint32_t entry)
{
    return (uint16_t)(entry >> 16);
}

static uint8_t mapped_sub(uint32_t entry)
{
    return (uint8_t)(entry >> 8);
}

static uint8_t mapped_bits(uint32_t entry)
{
    return (uint8_t)entry;
}

/* Whether the entry names an object of that direction, with its sub-index and length. */
static bool is_mappable(enum map_kind kind, uint32_t entry)
{
    enum { MAPPABLE = 3 };
    static const uint16_t indexes[MAPS][MAPPABLE] = {
        [RECEIVE_MAP] = {0x6040, 0x6300, 0x6314},
        [TRANSMIT_MAP] = {0x6041, 0x604e, 0x6310},
    };
    for (size_t i = 0; i < MAPPABLE; i++) {
        if (mapped_index(entry) != indexes[kind][i])
            continue;
        const struct object *object = object_find(indexes[kind][i]).object;
        return is_value_sub(object, mapped_sub(entry)) &&
               mapped_bits(entry) == 8 * object_size(object);
    }
    return false;
}

/* Whether so many entries may be counted: none of them is zero or anything else not mappable. */
static bool is_countable(enum map_kind kind, const struct map *map, size_t count)
{
    for (size_t i = 0; i < count; i++)
        if (!is_mappable(kind, map->entry[i]))
            return false;
    return true;
}

/* The aborts after place 8, by wish 2 of document 02 and in its order. */
static enum abort_code map_abort(const struct device *device, const struct object *object,
                                 uint8_t sub, int64_t value)
{
    enum map_kind kind = map_kind_of(object);
    const struct map *map = &device->map[kind];
    if (sub != 0 && map->count != 0)
        return ABORT_LOCKED;
    if (sub == 0 && value > MAP_ENTRIES)
        return ABORT_MAP_TOO_LONG;
    if (sub == 0 && !is_countable(kind, map, (size_t)value))
        return ABORT_NOT_MAPPABLE;
    if (sub != 0 && value != 0 && !is_mappable(kind, (uint32_t)value))
        return ABORT_NOT_MAPPABLE;
    return NO_ABORT;
}

/* The size that a write command announces; 0 for every other command. */
static size_t write_size(uint8_t command_byte)
{
    switch (command_byte) {
    case WRITE_1:
        return 1;
    case WRITE_2:
        return 2;
    case WRITE_3:
        return 3;
    case WRITE_4:
        return 4;
    default:
        return 0;
    }
}

/* The bytes of a write, read in the type of the entry: a map's count is one byte. */
static int64_t entry_value(const struct object *object, uint8_t sub, const uint8_t *bytes)
{
    return is_map_count(object, sub) ? bytes[0] : object_value(object, bytes);
}

/* Aborts 4 to 8 and those of maps in their order, then the write itself. */
static enum abort_code write_entry(struct device *device, struct found found, uint8_t sub,
                                   size_t size, const uint8_t *data)
{
    const struct object *object = found.object;
    if (object->access == READ_ONLY || !is_value_sub(object, sub))
        return ABORT_READ_ONLY;
    /* Place 5, by wish 1 of document 02: which way the length is wrong. */
    if (size > object_entry_size(object, sub))
        return ABORT_TOO_LONG;
    if (size < object_entry_size(object, sub))
        return ABORT_TOO_SHORT;
    int64_t value = entry_value(object, sub, data);
    enum abort_code code = range_abort(object, value);
    if (code != NO_ABORT)
        return code;
    if (crosses_limits(&device->block[found.block], object, value))
        return ABORT_LIMITS;
    if (is_locked(object, device->state))
        return ABORT_LOCKED;
    if (object->form == MAP_RECORD)
        code = map_abort(device, object, sub, value);
    if (code == NO_ABORT)
        take_value(device, found, sub, value);
    return code;
}

/* Aborts 1 to 3, then the read or the write; fills all of the reply but an abort. */
static enum abort_code serve(struct device *device, const uint8_t *request, uint8_t *reply)
{
    uint8_t command_byte = request[0];
    uint8_t sub = request[3];
    size_t size = write_size(command_byte);
    if (command_byte != READ && size == 0)
        return ABORT_COMMAND;
    struct found found = object_find((uint16_t)bytes_to_number(&request[1], 2));
    if (found.object == NULL)
        return ABORT_NO_OBJECT;
    if (sub > object_top_sub(found.object))
        return ABORT_NO_SUB_INDEX;
    if (command_byte == READ) {
        read_entry(device, found, sub, reply);
        return NO_ABORT;
    }
    reply[0] = WRITTEN;
    return write_entry(device, found, sub, size, &request[4]);
}

enum number device_sdo(struct device *device, const uint8_t *request, size_t request_size,
                       uint8_t *reply, size_t room)
{
    enum { TOP_THREE_BITS = 0xe0, CLIENT_ABORT = 0x80 };
    if (!device_sound(device))
        return STATE_NOT_SOUND;
    if (request_size != SDO_SIZE)
        return REQUEST_NOT_EIGHT;
    if (room < SDO_SIZE)
        return ROOM_SHORT;
    if ((request[0] & TOP_THREE_BITS) == CLIENT_ABORT)
        return NO_REPLY_DUE;

    uint8_t built[SDO_SIZE] = {0, request[1], request[2], request[3], 0, 0, 0, 0};
    enum abort_code code = serve(device, request, built);
    if (code != NO_ABORT) {
        built[0] = ABORT;
        number_to_bytes((uint32_t)code, &built[4], 4);
    }
    memcpy(reply, built, SDO_SIZE);
    return DONE;
}

/* ---- Process data ---- */

static size_t mapped_size(uint32_t entry)
{
    return mapped_bits(entry) / 8u;
}

/* The length of the map's PDO in bytes. */
static size_t map_size(const struct map *map)
{
    size_t size = 0;
    for (size_t i = 0; i < map->count; i++)
        size += mapped_size(map->entry[i]);
    return size;
}

/* Each entry acts as the same SDO write would; none of those can be aborted, since
 * what may be received has the whole range of its type and no lock. */
enum number device_receive(struct device *device, const uint8_t *pdo, size_t size)
{
    if (!device_sound(device))
        return STATE_NOT_SOUND;
    const struct map *map = &device->map[RECEIVE_MAP];
    if (size < map_size(map))
        return PDO_SHORT;
    for (size_t i = 0; i < map->count; i++) {
        uint32_t entry = map->entry[i];
        struct found found = object_find(mapped_index(entry));
        write_entry(device, found, mapped_sub(entry), mapped_size(entry), pdo);
        pdo += mapped_size(entry);
    }
    return DONE;
}

struct sent device_send(const struct device *device, uint8_t *pdo, size_t room)
{
    if (!device_sound(device))
        return (struct sent){STATE_NOT_SOUND, 0};
    const struct map *map = &device->map[TRANSMIT_MAP];
    if (room < map_size(map))
        return (struct sent){ROOM_SHORT, 0};
    for (size_t i = 0; i < map->count; i++) {
        uint32_t entry = map->entry[i];
        struct found found = object_find(mapped_index(entry));
        int64_t value = shown_value(device, found, mapped_sub(entry));
        number_to_bytes((uint32_t)value, pdo, mapped_size(entry));
        pdo += mapped_size(entry);
    }
    return (struct sent){DONE, map_size(map)};
}

/* ---- Stored image ---- */

/* It is of the position block, whichever is selected. */
enum number device_store(const struct device *device, uint8_t *image, size_t room)
{
    if (!device_sound(device))
        return STATE_NOT_SOUND;
    if (room < IMAGE_SIZE)
        return IMAGE_ROOM_UNDER_97;
    const int64_t *setting = device->block[POSITION_BLOCK].setting;
    uint8_t *field = image;
    for (size_t place = 0; place < SETTINGS; place++) {
        size_t size = object_size(object_of_setting(place));
        field[0] = (uint8_t)(place + 1);
        number_to_bytes((uint32_t)size, &field[1], 2);
        number_to_bytes((uint32_t)setting[place], &field[FIELD_HEAD], size);
        field += FIELD_HEAD + size;
    }
    return DONE;
}

/* Whether the image has each tag once, ascending, with the length of its type. */
static bool is_full_image(const uint8_t *image, size_t size)
{
    if (size != IMAGE_SIZE)
        return false;
    const uint8_t *field = image;
    for (size_t place = 0; place < SETTINGS; place++) {
        size_t length = object_size(object_of_setting(place));
        if (field[0] != place + 1 || bytes_to_number(&field[1], 2) != length)
            return false;
        field += FIELD_HEAD + length;
    }
    return true;
}

static bool settings_sound(const int64_t *setting)
{
    for (size_t place = 0; place < SETTINGS; place++)
        if (!in_range(object_of_setting(place), setting[place]))
            return false;
    return setting[LOWER_LIMIT] <= setting[UPPER_LIMIT];
}

enum number device_load(struct device *device, const uint8_t *image, size_t size)
{
    if (!device_sound(device))
        return STATE_NOT_SOUND;
    if (device->state != DISABLED)
        return LOAD_OUTSIDE_DISABLED;
    if (!is_full_image(image, size))
        return NOT_A_FULL_IMAGE;

    int64_t loaded[SETTINGS];
    const uint8_t *field = image;
    for (size_t place = 0; place < SETTINGS; place++) {
        const struct object *object = object_of_setting(place);
        loaded[place] = object_value(object, &field[FIELD_HEAD]);
        field += FIELD_HEAD + object_size(object);
    }
    if (!settings_sound(loaded))
        return IMAGE_VALUE_OUT_OF_RANGE;
    memcpy(device->block[POSITION_BLOCK].setting, loaded, sizeof loaded);
    return DONE;
}

struct part image_find(uint8_t tag, const uint8_t *image, size_t size)
{
    size_t at = 0;
    while (at < size) {
        if (size - at < FIELD_HEAD)
            return (struct part){NOT_A_FULL_IMAGE, 0, 0};
        size_t length = bytes_to_number(&image[at + 1], 2);
        size_t start = at + FIELD_HEAD;
        if (size - start < length)
            return (struct part){NOT_A_FULL_IMAGE, 0, 0};
        if (image[at] == tag)
            return (struct part){DONE, start, length};
        at = start + length;
    }
    return (struct part){TAG_NOT_FOUND, 0, 0};
}

/* ---- Numbers handed back ---- */

/* What the writes can make: an entry that is not counted may be zero, none is ever wrong. */
static bool map_sound(enum map_kind kind, const struct map *map)
{
    if (map->count > MAP_ENTRIES || !is_countable(kind, map, map->count))
        return false;
    for (size_t i = map->count; i < MAP_ENTRIES; i++)
        if (map->entry[i] != 0 && !is_mappable(kind, map->entry[i]))
            return false;
    return true;
}

static bool dither_sound(const struct device *device)
{
    for (size_t place = 0; place < DITHER_VALUES; place++)
        if (!in_range(object_of_dither(place), device->dither[place]))
            return false;
    return !is_idle(device) || device->phase == 0;
}

/* Whatever its position. */
static bool block_sound(const struct block *block)
{
    if (block->set_point < INT16_MIN || block->set_point > INT16_MAX)
        return false;
    return settings_sound(block->setting);
}

static bool positions_sound(const struct device *device)
{
    int32_t position = selected_block(device)->position;
    int32_t other = device->block[other_block(device->selected)].position;
    if (position < -FULL_POSITION || position > FULL_POSITION || other != 0)
        return false;
    return !is_idle(device) || position == 0;
}

bool device_sound(const struct device *device)
{
    if (device->state >= STATES || device->selected >= BLOCKS)
        return false;
    if (!block_sound(&device->block[POSITION_BLOCK]) ||
        !block_sound(&device->block[PRESSURE_BLOCK]) || !positions_sound(device))
        return false;
    if (!map_sound(RECEIVE_MAP, &device->map[RECEIVE_MAP]) ||
        !map_sound(TRANSMIT_MAP, &device->map[TRANSMIT_MAP]))
        return false;
    if (!dither_sound(device))
        return false;
    return (device->error_code != 0) == (device->state == FAULT);
}

static bool maps_equal(const struct map *a, const struct map *b)
{
    return a->count == b->count && memcmp(a->entry, b->entry, sizeof a->entry) == 0;
}

bool block_equal(const struct block *a, const struct block *b)
{
    return a->set_point == b->set_point && a->position == b->position &&
           memcmp(a->setting, b->setting, sizeof a->setting) == 0;
}

bool device_equal(const struct device *a, const struct device *b)
{
    return a->state == b->state && a->selected == b->selected &&
           a->control_word == b->control_word && a->error_code == b->error_code &&
           a->phase == b->phase &&
           block_equal(&a->block[POSITION_BLOCK], &b->block[POSITION_BLOCK]) &&
           block_equal(&a->block[PRESSURE_BLOCK], &b->block[PRESSURE_BLOCK]) &&
           memcmp(a->dither, b->dither, sizeof a->dither) == 0 &&
           maps_equal(&a->map[RECEIVE_MAP], &b->map[RECEIVE_MAP]) &&
           maps_equal(&a->map[TRANSMIT_MAP], &b->map[TRANSMIT_MAP]);
}

static int64_t asked_value(const struct device *device, enum query query)
{
    switch (query) {
    case QUERY_STATE:
        return device->state;
    case QUERY_STATUS:
        return status_word(device);
    case QUERY_ERROR:
        return device->error_code;
    case QUERY_POSITION:
        return selected_block(device)->position;
    case QUERY_TARGET:
        return target_in_ir(device);
    case QUERY_COMMAND:
        return command(device);
    default:
        return ticks_to_go(device);
    }
}

struct answer device_query(const struct device *device, enum query query)
{
    if (!device_sound(device))
        return (struct answer){STATE_NOT_SOUND, 0};
    return (struct answer){DONE, asked_value(device, query)};
}
