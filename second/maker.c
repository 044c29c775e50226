/* What the scenes of `second events` are made with. */
#include "maker.h"

#include <stdio.h>

/* ---- Chance ---- */

/* splitmix64 */
uint64_t draw(struct maker *m)
{
    m->random += 0x9e3779b97f4a7c15u;
    uint64_t z = m->random;
    z = (z ^ (z >> 30)) * 0xbf58476d1ce4e5b9u;
    z = (z ^ (z >> 27)) * 0x94d049bb133111ebu;
    return z ^ (z >> 31);
}

uint32_t below(struct maker *m, uint32_t bound)
{
    return (uint32_t)(draw(m) % bound);
}

int64_t between(struct maker *m, int64_t low, int64_t high)
{
    return low + (int64_t)(draw(m) % (uint64_t)(high - low + 1));
}

bool one_in(struct maker *m, uint32_t bound)
{
    return below(m, bound) == 0;
}

uint32_t next_turn(struct maker *m, enum sweep sweep)
{
    return m->turns[sweep]++;
}

/* ---- Blocks and objects ---- */

const struct block *block_now(const struct maker *m)
{
    return &m->run.device.block[m->run.device.selected];
}

enum block_kind block_of_turn(uint32_t turn)
{
    return turn % BLOCKS == 0 ? POSITION_BLOCK : PRESSURE_BLOCK;
}

enum block_kind block_by_chance(struct maker *m)
{
    return block_of_turn(below(m, BLOCKS));
}

struct found setting_of(enum block_kind block, size_t place)
{
    return (struct found){object_of_setting(place), block};
}

/* An object of the selected block, by the index that it has in the position block. */
static struct found object_now(const struct maker *m, uint16_t index)
{
    struct found found = object_find(index);
    found.block = (enum block_kind)m->run.device.selected;
    return found;
}

struct found setting_now(const struct maker *m, size_t place)
{
    return object_now(m, object_of_setting(place)->index);
}

struct found set_point_now(const struct maker *m)
{
    return object_now(m, 0x6300);
}

struct found command_now(const struct maker *m)
{
    return object_now(m, 0x6310);
}

struct found dither_object(size_t place)
{
    return object_find(object_of_dither(place)->index);
}

/* ---- Values at the edges ---- */

uint32_t pick_time(struct maker *m)
{
    static const uint32_t times[] = {0, 1, 2, 3, 512, 1000, 1024, 65536, 3599999, 3600000};
    switch (below(m, 4)) {
    case 0:
        return below(m, 3000);
    case 1:
        return below(m, 3600001);
    default:
        return PICK(m, times);
    }
}

int64_t pick_ir(struct maker *m)
{
    static const int16_t places[] = {0,     1,      -1,    2,      100,   -50,   16384,
                                     16383, -16384, -16383, 16385, -16385, 32767, -32768};
    switch (below(m, 4)) {
    case 0:
        return between(m, -100, 100);
    case 1:
        return between(m, -FULL_STROKE, FULL_STROKE);
    case 2:
        return between(m, INT16_MIN, INT16_MAX);
    default:
        return PICK(m, places);
    }
}

/* Off by one on both ends of the range, and around zero. */
int64_t pick_edge(struct maker *m, const struct object *object)
{
    switch (below(m, 12)) {
    case 0:
        return object->low - 1;
    case 1:
        return object->low;
    case 2:
        return object->low + 1;
    case 3:
        return object->high - 1;
    case 4:
        return object->high;
    case 5:
        return object->high + 1;
    case 6:
        return 0;
    case 7:
        return -1;
    case 8:
        return object->fresh;
    case 9:
        return between(m, INT16_MIN, UINT32_MAX);
    default:
        return between(m, object->low, object->high);
    }
}

struct found pick_object(struct maker *m)
{
    return object_at(below(m, ALL_OBJECTS));
}

/* ---- Events ---- */

/* Members that an event does not use hold anything, since they are ignored. */
struct record make(struct maker *m, uint8_t kind)
{
    struct record record = {.kind = kind};
    record.small = (uint8_t)draw(m);
    record.word = (uint16_t)draw(m);
    record.number = (uint32_t)draw(m);
    for (size_t i = 0; i < SDO_SIZE; i++)
        record.bytes[i] = (uint8_t)draw(m);
    return record;
}

void emit(struct maker *m, const struct record *record)
{
    if (m->left == 0)
        return;
    m->left--;
    record_write(stdout, record);
    run_event(&m->run, record);
}

void emit_plain(struct maker *m, uint8_t kind)
{
    struct record record = make(m, kind);
    emit(m, &record);
}

void emit_word(struct maker *m, uint8_t kind, uint16_t word)
{
    struct record record = make(m, kind);
    record.word = word;
    emit(m, &record);
}

void set_request(struct record *record, uint8_t command, uint16_t index, uint8_t sub,
                 uint32_t data)
{
    record->bytes[0] = command;
    record->bytes[1] = (uint8_t)index;
    record->bytes[2] = (uint8_t)(index >> 8);
    record->bytes[3] = sub;
    for (size_t i = 0; i < 4; i++)
        record->bytes[4 + i] = (uint8_t)(data >> (8 * i));
}

/* A whole request with room enough; lengths beyond eight mean eight. */
void emit_sdo(struct maker *m, uint8_t command, uint16_t index, uint8_t sub, uint32_t data)
{
    static const uint16_t rooms[] = {8, 8, 8, 8, 8, 9, 10, 11, 12, 13, 65535};
    struct record record = make(m, EVENT_SDO);
    record.small = one_in(m, 8) ? (uint8_t)between(m, SDO_SIZE, UINT8_MAX) : SDO_SIZE;
    record.word = PICK(m, rooms);
    set_request(&record, command, index, sub, data);
    emit(m, &record);
}

uint8_t write_command(size_t size)
{
    static const uint8_t commands[] = {0, WRITE_1, WRITE_2, WRITE_3, WRITE_4};
    return commands[size];
}

uint8_t value_sub(const struct object *object)
{
    return object->form == VARIABLE ? 0 : 1;
}

/* The data bytes of a read are ignored. */
void emit_read(struct maker *m, struct found found, uint8_t sub)
{
    uint32_t ignored = (uint32_t)draw(m);
    emit_sdo(m, READ, object_index(found), sub, ignored);
}

void emit_value_read(struct maker *m, struct found found)
{
    emit_read(m, found, value_sub(found.object));
}

void emit_sized_write(struct maker *m, struct found found, uint8_t sub, size_t size,
                      int64_t value)
{
    emit_sdo(m, write_command(size), object_index(found), sub, (uint32_t)value);
}

/* A write of the right size; the data bytes beyond it hold anything at times. */
void emit_entry_write(struct maker *m, struct found found, uint8_t sub, int64_t value)
{
    size_t size = object_entry_size(found.object, sub);
    uint32_t data = (uint32_t)value;
    if (size < 4 && one_in(m, 3)) {
        uint32_t kept = (UINT32_C(1) << (8 * size)) - 1;
        data = (data & kept) | ((uint32_t)draw(m) & ~kept);
    }
    emit_sized_write(m, found, sub, size, data);
}

void emit_write(struct maker *m, struct found found, int64_t value)
{
    emit_entry_write(m, found, value_sub(found.object), value);
}

void emit_setting(struct maker *m, enum setting place, int64_t value)
{
    emit_write(m, setting_now(m, place), value);
}

/* A control word, by its call or by SDO; bits 4 to 15 hold anything at times. */
void emit_control(struct maker *m, uint16_t bits)
{
    uint16_t word = bits;
    if (one_in(m, 2))
        word = (uint16_t)(bits | (draw(m) & 0xfff0u));
    if (one_in(m, 3))
        emit_write(m, object_find(0x6040), word);
    else
        emit_word(m, EVENT_CONTROL, word);
}

/* The set point that is the input in the state the device is in. */
void emit_target(struct maker *m, int64_t ir)
{
    if (m->run.device.state == ACTIVE)
        emit_write(m, set_point_now(m), ir);
    else
        emit_setting(m, HOLD_SET_POINT, ir);
}

void emit_jump(struct maker *m, uint32_t ticks)
{
    struct record record = make(m, EVENT_JUMP);
    record.number = ticks;
    emit(m, &record);
}

void emit_fault(struct maker *m)
{
    static const uint16_t codes[] = {0, 0, 1, 255, 256, 0x8000, 0xffff};
    uint16_t code = PICK(m, codes);
    if (one_in(m, 3))
        code = (uint16_t)draw(m);
    emit_word(m, EVENT_FAULT, code);
}

/* ---- Steering ---- */

bool moving_state(const struct maker *m)
{
    return m->run.device.state == HOLD || m->run.device.state == ACTIVE;
}

void steer_to_disabled(struct maker *m)
{
    if (m->run.device.state == FAULT) {
        emit_control(m, 0);
        emit_control(m, 8);
    } else if (m->run.device.state != DISABLED) {
        emit_control(m, 0);
    }
}

void steer_to_hold(struct maker *m)
{
    static const uint16_t to_hold[] = {1, 3, 5, 9, 11, 13};
    if (m->run.device.state == FAULT)
        steer_to_disabled(m);
    if (m->run.device.state != HOLD) {
        uint16_t word = PICK(m, to_hold);
        emit_control(m, word);
    }
}

/* A fault report of any code but 0 leads to FAULT, the word 7 from HOLD to ACTIVE. */
void steer_to(struct maker *m, enum device_state state)
{
    if (m->run.device.state == state)
        return;
    switch (state) {
    case DISABLED:
        steer_to_disabled(m);
        break;
    case FAULT:
        emit_word(m, EVENT_FAULT, (uint16_t)between(m, 1, UINT16_MAX));
        break;
    default:
        steer_to_hold(m);
        if (state == ACTIVE)
            emit_control(m, 7);
    }
}

/* Another block can be selected in DISABLED alone. */
void select_block(struct maker *m, enum block_kind block)
{
    if (m->run.device.selected == block)
        return;
    steer_to_disabled(m);
    emit_write(m, object_find(0x2000), block);
}

void select_by_turn(struct maker *m, uint32_t turn)
{
    select_block(m, block_of_turn(turn));
}

void select_by_chance(struct maker *m)
{
    select_block(m, block_by_chance(m));
}

uint32_t ticks_left(const struct device *device)
{
    return (uint32_t)device_query(device, QUERY_TICKS_TO_GO).value;
}

/* Ticks that the way to zero alone takes: those to go of a copy whose target is zero. In
 * type 1 they may lead beyond it. */
uint32_t ticks_left_to_zero(struct device copy)
{
    int64_t *setting = copy.block[copy.selected].setting;
    setting[SCALING_FACTOR] = 0;
    setting[SCALING_OFFSET] = 0;
    setting[ZERO_CORRECTION] = 0;
    return ticks_left(&copy);
}
