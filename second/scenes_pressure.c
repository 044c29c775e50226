/* The scenes of the two blocks: the objects of either with either selected, 2000h, which selects
 * one, ordinary work of one beside the other, and what there is not. */
#include "maker.h"

/* ---- Objects of a block ---- */

/* Whether the object shows a value that can be written: all of a block's do but the command. */
static bool is_written(const struct object *object)
{
    return object->access == READ_WRITE;
}

static int64_t standing(const struct maker *m, struct found found)
{
    const struct block *block = &m->run.device.block[found.block];
    bool is_set_point = found.object->value == SET_POINT;
    return is_set_point ? block->set_point : block->setting[found.object->value];
}

/* In range, and no limit beyond the other where the two leave room. */
static int64_t another_value(struct maker *m, struct found found)
{
    const struct object *object = found.object;
    int64_t stands = standing(m, found);
    if (object->value == LOWER_LIMIT)
        return stands > object->low ? stands - 1 : stands + 1;
    if (object->value == UPPER_LIMIT)
        return stands < object->high ? stands + 1 : stands - 1;
    int64_t value = between(m, object->low, object->high - 1);
    return value < stands ? value : value + 1;
}

static void write_another(struct maker *m, struct found found)
{
    int64_t value = another_value(m, found);
    emit_write(m, found, value);
}

/* Read while it is not 0, and written. */
static void read_and_write(struct maker *m, struct found found)
{
    bool is_zero = standing(m, found) == 0;
    if (!is_zero)
        emit_value_read(m, found);
    write_another(m, found);
    if (is_zero)
        emit_value_read(m, found);
}

/* Each wrong length, a sub-index that it lacks, and the entries that are one byte and read only. */
static void access_wrongly(struct maker *m, struct found found)
{
    const struct object *object = found.object;
    uint8_t top = object_top_sub(object);
    int64_t value = pick_edge(m, object);
    if (is_written(object))
        emit_wrong_lengths(m, found, value);
    else
        emit_write(m, found, value);
    emit_read(m, found, (uint8_t)(top + 1));
    emit_sized_write(m, found, (uint8_t)(top + 1), object_size(object), value);
    for (uint8_t sub = 0; sub <= top; sub++)
        if (sub != value_sub(object))
            emit_sized_write(m, found, sub, 1, value);
}

/* In turn some of the block's objects, first of the pressure block while the position block is
 * selected, then of both while the pressure block is. The state is any but ACTIVE. */
void scene_block_objects(struct maker *m)
{
    enum { GROUP = 5, GROUPS = (BLOCK_ROWS + GROUP - 1) / GROUP };
    static const enum device_state states[] = {HOLD, DISABLED, FAULT};
    uint32_t turn = next_turn(m, SWEEP_BLOCK_OBJECTS);
    uint32_t first = turn / BLOCKS % GROUPS * GROUP;
    enum block_kind selected = block_of_turn(turn);
    select_block(m, selected);
    steer_to(m, states[turn % 3]);
    for (uint32_t row = first; row < first + GROUP && row < BLOCK_ROWS; row++) {
        struct found found = {&objects[FIRST_BLOCK_ROW + row], PRESSURE_BLOCK};
        if (selected == POSITION_BLOCK)
            access_wrongly(m, found);
        if (!is_written(found.object))
            continue;
        read_and_write(m, found);
        found.block = POSITION_BLOCK;
        if (selected == PRESSURE_BLOCK)
            read_and_write(m, found);
    }
}

/* ---- 2000h ---- */

void scene_select(struct maker *m)
{
    select_by_turn(m, next_turn(m, SWEEP_SELECTS));
}

/* In turn in each state with each block selected: the value that it has, the other one and back,
 * those above, every wrong length, and sub-indexes that it lacks. */
void scene_selection(struct maker *m)
{
    uint32_t turn = next_turn(m, SWEEP_SELECTIONS);
    struct found found = object_find(0x2000);
    enum block_kind block = block_of_turn(turn / STATES);
    uint8_t beyond = turn % 2 == 0 ? 1 : UINT8_MAX;
    select_block(m, block);
    steer_to(m, (enum device_state)(turn % STATES));
    write_another(m, setting_of(POSITION_BLOCK, SCALING_OFFSET)); /* so that the blocks differ */
    write_another(m, setting_of(PRESSURE_BLOCK, SCALING_OFFSET));
    emit_value_read(m, found);
    emit_write(m, found, block);
    emit_write(m, found, other_block(block));
    emit_write(m, found, block);
    emit_write(m, found, 2);
    emit_write(m, found, UINT8_MAX);
    emit_wrong_lengths(m, found, turn % 2 == 0 ? 2 : block);
    emit_read(m, found, beyond);
    emit_sized_write(m, found, beyond, 1, block);
    emit_value_read(m, found);
}

/* ---- Locks ---- */

/* In ACTIVE: another value, and where that is locked the one that stands and one too high. */
static void write_in_active(struct maker *m, struct found found)
{
    write_another(m, found);
    if (found.object->lock == NO_LOCK)
        return;
    emit_write(m, found, standing(m, found));
    if (found.block == PRESSURE_BLOCK)
        emit_write(m, found, found.object->high + 1);
}

/* In turn one half of the objects of each block, with each block selected: the lock does not ask
 * which it is. */
void scene_block_locks(struct maker *m)
{
    enum { HALVES = 2 };
    uint32_t turn = next_turn(m, SWEEP_BLOCK_LOCKS);
    enum block_kind selected = block_of_turn(turn);
    select_block(m, selected);
    steer_to(m, ACTIVE);
    for (uint32_t row = turn / BLOCKS % HALVES; row < BLOCK_ROWS; row += HALVES) {
        struct found found = {&objects[FIRST_BLOCK_ROW + row], PRESSURE_BLOCK};
        if (!is_written(found.object))
            continue;
        write_in_active(m, found);
        found.block = POSITION_BLOCK;
        if (selected == PRESSURE_BLOCK)
            write_in_active(m, found);
    }
}

/* ---- Limits ---- */

/* The lowest lower limit makes way for every upper one. */
static void set_limits(struct maker *m, enum block_kind block, int64_t low, int64_t high)
{
    emit_write(m, setting_of(block, LOWER_LIMIT), INT16_MIN);
    emit_write(m, setting_of(block, UPPER_LIMIT), high);
    emit_write(m, setting_of(block, LOWER_LIMIT), low);
}

/* The limits of one block are all above those of the other: what is refused of the one would fit
 * the other, and what is taken would not. At last each pair is equal. */
void scene_block_limits(struct maker *m)
{
    uint32_t turn = next_turn(m, SWEEP_BLOCK_LIMITS);
    enum block_kind above = block_of_turn(turn);
    enum block_kind below_it = other_block(above);
    int64_t middle = between(m, -1000, 1000);
    set_limits(m, above, middle + 100, middle + 200);
    set_limits(m, below_it, middle - 200, middle - 100);
    emit_write(m, setting_of(above, UPPER_LIMIT), middle + 50);
    emit_write(m, setting_of(below_it, LOWER_LIMIT), middle - 50);
    emit_write(m, setting_of(above, LOWER_LIMIT), middle + 150);
    emit_write(m, setting_of(below_it, UPPER_LIMIT), middle - 150);
    emit_write(m, setting_of(above, UPPER_LIMIT), middle + 150);
    emit_write(m, setting_of(below_it, LOWER_LIMIT), middle - 150);
}

/* ---- One block beside the other ---- */

static void set_inputs(struct maker *m, enum block_kind block, int64_t hold, int64_t active)
{
    struct found set_point = {object_find(0x6300).object, block};
    emit_write(m, setting_of(block, HOLD_SET_POINT), hold);
    emit_write(m, set_point, active);
}

static void tell_commands(struct maker *m)
{
    emit_sdo(m, READ, 0x6310, 1, 0);
    emit_sdo(m, READ, 0x6390, 1, 0);
    emit_plain(m, EVENT_QUERY);
}

/* Both commands, that of the position block by PDO too, and the status word by all that tell it. */
static void tell_all(struct maker *m)
{
    tell_commands(m);
    emit_sdo(m, READ, 0x6041, 0, 0);
    emit_word(m, EVENT_SEND, 4);
}

/* Targets of each sign, by a tick, ticks and a jump. */
static void work_in_state(struct maker *m)
{
    int64_t up = between(m, 1, FULL_STROKE);
    int64_t down = between(m, 1, FULL_STROKE);
    emit_target(m, up);
    emit_plain(m, EVENT_TICK);
    tell_all(m);
    emit_target(m, -down);
    emit_word(m, EVENT_TICKS, 2);
    tell_all(m);
    emit_target(m, 0);
    emit_jump(m, 1);
    tell_commands(m);
}

/* The other block is at its target, the selected one is not, and then it is led to DISABLED or
 * FAULT. */
static void work_until_idle(struct maker *m, enum device_state idle)
{
    int64_t target = between(m, 1, FULL_STROKE);
    set_inputs(m, other_block(m->run.device.selected), 0, 0);
    emit_target(m, target);
    tell_all(m);
    emit_plain(m, EVENT_TICK);
    steer_to(m, idle);
    tell_commands(m);
}

/* Set points received go to the position block alone, whichever drives the command. */
static void receive_set_points(struct maker *m)
{
    const uint32_t received[] = {mappable[RECEIVE_MAP][1], mappable[RECEIVE_MAP][2]};
    build_map(m, RECEIVE_MAP, received, 2);
    struct record record = make(m, EVENT_RECEIVE);
    record.small = 4;
    emit(m, &record);
    emit_sdo(m, READ, 0x6300, 1, 0);
    emit_sdo(m, READ, 0x6380, 1, 0);
}

/* Without ramp, dead band and dither. */
static void make_plain(struct maker *m)
{
    plain_scaling_of(m, POSITION_BLOCK);
    plain_scaling_of(m, PRESSURE_BLOCK);
    emit_setting(m, RAMP_TYPE, 0);
    emit_setting(m, DEAD_BAND_TYPE, 0);
    emit_write(m, dither_object(DITHER_TYPE), 0);
}

/* In turn each block, in HOLD and ACTIVE, to DISABLED and FAULT from both. */
void scene_side_by_side(struct maker *m)
{
    const uint32_t sent[] = {mappable[TRANSMIT_MAP][0], mappable[TRANSMIT_MAP][2]};
    uint32_t turn = next_turn(m, SWEEP_SIDE_BY_SIDE);
    bool fault_first = turn / BLOCKS % 2 == 0;
    int64_t hold = between(m, 1, 9000);
    int64_t active = between(m, -9000, -1);
    select_by_turn(m, turn);
    steer_to_disabled(m);
    make_plain(m);
    build_map(m, TRANSMIT_MAP, sent, 2);
    set_inputs(m, other_block(m->run.device.selected), hold, active);
    emit_plain(m, EVENT_QUERY);
    steer_to_hold(m);
    work_in_state(m);
    steer_to(m, ACTIVE);
    work_in_state(m);
    receive_set_points(m);
    work_until_idle(m, fault_first ? FAULT : DISABLED);
    steer_to_hold(m);
    work_until_idle(m, fault_first ? DISABLED : FAULT);
}

/* ---- The stored image ---- */

/* It has the position settings, whichever block is selected, and a load changes no others. */
void scene_block_image(struct maker *m)
{
    static const enum setting places[] = {SCALING_FACTOR, SCALING_OFFSET, ZERO_CORRECTION};
    enum { PLACES = sizeof places / sizeof places[0] };
    select_by_turn(m, 1 + next_turn(m, SWEEP_BLOCK_IMAGES));
    steer_to_disabled(m);
    emit_word(m, EVENT_STORE, IMAGE_SIZE);
    for (size_t i = 0; i < PLACES; i++) {
        write_another(m, setting_of(POSITION_BLOCK, places[i]));
        write_another(m, setting_of(PRESSURE_BLOCK, places[i]));
    }
    emit_load_as_it_is(m);
    for (size_t i = 0; i < PLACES; i++) {
        emit_value_read(m, setting_of(POSITION_BLOCK, places[i]));
        emit_value_read(m, setting_of(PRESSURE_BLOCK, places[i]));
    }
    emit_word(m, EVENT_STORE, IMAGE_SIZE);
}

/* ---- What there is not ---- */

/* In turn a quarter of the indexes beside 2000h and the pressure block's, between them, and 80h
 * above objects that are of no block. */
static void access_no_objects(struct maker *m, uint32_t turn)
{
    static const uint16_t indexes[] = {
        0x1fff, 0x2001, 0x20ff, 0x637f, 0x6381, 0x638f, 0x6391, 0x6393, 0x6395, 0x639f,
        0x63a5, 0x63af, 0x63b7, 0x63c1, 0x63c6, 0x63e0, 0x63e1, 0x63e2, 0x63ff, 0x6400,
        0x60c0, 0x60c1, 0x60ce, 0x1680, 0x1a80, 0x2080,
    };
    enum { INDEXES = sizeof indexes / sizeof indexes[0], QUARTERS = 4 };
    for (uint32_t i = turn % QUARTERS; i < INDEXES; i += QUARTERS) {
        uint8_t sub = (uint8_t)below(m, 2);
        emit_sdo(m, READ, indexes[i], sub, 0);
        emit_sdo(m, write_command((size_t)between(m, 1, 4)), indexes[i], sub, 1);
    }
}

/* No map takes an object of the pressure block, nor 2000h. */
static void map_pressure_objects(struct maker *m, enum map_kind kind)
{
    static const uint16_t map_indexes[MAPS] = {0x1600, 0x1a00};
    static const uint32_t entries[] = {0x63800110, 0x63900110, 0x63940110, 0x20000008};
    if (m->run.device.map[kind].count != 0)
        emit_sdo(m, WRITE_1, map_indexes[kind], 0, 0);
    for (uint8_t i = 0; i < sizeof entries / sizeof entries[0]; i++)
        emit_sdo(m, WRITE_4, map_indexes[kind], (uint8_t)(i + 1), entries[i]);
}

void scene_block_beside(struct maker *m)
{
    uint32_t turn = next_turn(m, SWEEP_BLOCK_BESIDE);
    access_no_objects(m, turn);
    if (turn % 2 == 0)
        map_pressure_objects(m, turn / 2 % 2 == 0 ? RECEIVE_MAP : TRANSMIT_MAP);
}
