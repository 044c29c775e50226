/* `second events`: an event file made from a seed, weighted to edges. */
#include "maker.h"
#include "modes.h"

/* ---- Scenes: SDO ---- */

void scene_write_edge(struct maker *m)
{
    struct found found = pick_object(m);
    int64_t value = pick_edge(m, found.object);
    emit_write(m, found, value);
}

/* In turn: each object, sub-indexes 0 to 4, the read and every size of write. */
static void scene_sweep_entries(struct maker *m)
{
    static const uint8_t commands[] = {READ, WRITE_1, WRITE_2, WRITE_3, WRITE_4};
    enum { COMMANDS = sizeof commands, SUBS = 5 };
    uint32_t turn = next_turn(m, SWEEP_ENTRIES);
    struct found found = object_at(turn % ALL_OBJECTS);
    uint8_t sub = (uint8_t)(turn / ALL_OBJECTS % SUBS);
    uint8_t command = commands[turn / (ALL_OBJECTS * SUBS) % COMMANDS];
    int64_t value = pick_edge(m, found.object);
    emit_sdo(m, command, object_index(found), sub, (uint32_t)value);
}

/* Every size for the value of an entry. */
static void scene_write_size(struct maker *m)
{
    struct found found = pick_object(m);
    size_t size = (size_t)between(m, 1, 4);
    int64_t value = pick_edge(m, found.object);
    emit_sized_write(m, found, value_sub(found.object), size, value);
}

static void scene_read(struct maker *m)
{
    struct found found = pick_object(m);
    uint8_t sub = (uint8_t)below(m, (uint32_t)object_top_sub(found.object) + 2);
    if (one_in(m, 10))
        sub = (uint8_t)draw(m);
    emit_read(m, found, sub);
}

/* That of the block which is not selected at times. */
static void scene_read_command(struct maker *m)
{
    struct found found = command_now(m);
    if (one_in(m, 4))
        found.block = other_block(m->run.device.selected);
    emit_value_read(m, found);
}

/* In turn every command byte, and between them those next to the ones in use. */
static void scene_any_command(struct maker *m)
{
    static const uint8_t near[] = {0x7f, 0x80, 0x9f, 0xa0, 0x3f, 0x41, 0x22, 0x24, 0x26,
                                   0x28, 0x2a, 0x2c, 0x2e, 0x30, 0x20, 0x60};
    struct found found = pick_object(m);
    uint32_t turn = next_turn(m, SWEEP_COMMANDS);
    uint8_t command = turn % 2 == 0 ? near[turn / 2 % sizeof near] : (uint8_t)(turn / 2);
    uint8_t sub = (uint8_t)below(m, 5);
    uint32_t data = (uint32_t)draw(m);
    emit_sdo(m, command, object_index(found), sub, data);
}

static void scene_unknown_index(struct maker *m)
{
    static const uint8_t commands[] = {READ, WRITE_1, WRITE_2, WRITE_3, WRITE_4};
    uint16_t index = object_index(pick_object(m));
    int64_t offset = between(m, -2, 2);
    uint16_t near = (uint16_t)(index + offset);
    if (one_in(m, 5))
        near = (uint16_t)(index ^ (1u << below(m, 16)));
    uint8_t command = PICK(m, commands);
    uint8_t sub = (uint8_t)below(m, 5);
    uint32_t data = below(m, 4);
    emit_sdo(m, command, near, sub, data);
}

/* Limits of either block at, above and below one another. */
static void scene_limits(struct maker *m)
{
    enum block_kind block = block_by_chance(m);
    const int64_t *setting = m->run.device.block[block].setting;
    bool upper = one_in(m, 2);
    int64_t other = setting[upper ? LOWER_LIMIT : UPPER_LIMIT];
    int64_t offset = between(m, -1, 1);
    emit_write(m, setting_of(block, upper ? UPPER_LIMIT : LOWER_LIMIT), other + offset);
}

/* Whether its type has values beyond both ends of the setting's range. */
static bool has_both_beyond(uint32_t place)
{
    return place == RAMP_TYPE || (place >= DEAD_BAND_TYPE && place <= DEAD_BAND_THRESHOLD);
}

/* In turn: each setting and the set point of each block at both ends of its range, some after one
 * beyond that end. The other limit makes way first. */
static void scene_range_end(struct maker *m)
{
    enum { ENDS = 2, PLACES = SETTINGS + 1 };
    uint32_t turn = next_turn(m, SWEEP_RANGE_ENDS);
    uint32_t place = turn / ENDS % PLACES;
    enum block_kind block = block_of_turn(turn / (ENDS * PLACES));
    bool top = turn % ENDS == 0;
    struct found found = setting_of(block, place % SETTINGS);
    if (place == SETTINGS)
        found.object = object_find(0x6300).object;
    int64_t end = top ? found.object->high : found.object->low;
    if (found.object->lock == LOCK_IN_ACTIVE && m->run.device.state == ACTIVE)
        steer_to_hold(m);
    if (place == UPPER_LIMIT && !top)
        emit_write(m, setting_of(block, LOWER_LIMIT), end);
    if (place == LOWER_LIMIT && top)
        emit_write(m, setting_of(block, UPPER_LIMIT), end);
    if (has_both_beyond(place))
        emit_write(m, found, top ? end + 1 : end - 1);
    emit_write(m, found, end);
}

/* ---- Scenes: writes of a wrong length ---- */

/* The bytes of one value with every size but the right one. */
void emit_wrong_lengths(struct maker *m, struct found found, int64_t value)
{
    for (size_t size = 1; size <= 4; size++)
        if (size != object_size(found.object))
            emit_sized_write(m, found, value_sub(found.object), size, value);
}

static void wrong_length_for_read_only(struct maker *m)
{
    static const uint16_t indexes[] = {0x6041, 0x604e, 0x6310, 0x6390};
    uint16_t index = PICK(m, indexes);
    emit_wrong_lengths(m, object_find(index), 0);
}

static void wrong_length_out_of_range(struct maker *m, struct found found)
{
    int64_t value = one_in(m, 2) ? found.object->low - 1 : found.object->high + 1;
    emit_wrong_lengths(m, found, value);
}

/* One limit beyond the other; nothing is beyond one at the end of its range. */
static void wrong_length_limits_crossed(struct maker *m)
{
    const int64_t *setting = block_now(m)->setting;
    bool upper = one_in(m, 2);
    if (setting[LOWER_LIMIT] == INT16_MIN)
        upper = false;
    else if (setting[UPPER_LIMIT] == INT16_MAX)
        upper = true;
    int64_t value = upper ? setting[LOWER_LIMIT] - 1 : setting[UPPER_LIMIT] + 1;
    emit_wrong_lengths(m, setting_now(m, upper ? UPPER_LIMIT : LOWER_LIMIT), value);
}

static void wrong_length_locked(struct maker *m, struct found found)
{
    steer_to(m, ACTIVE);
    int64_t value = between(m, found.object->low, found.object->high);
    emit_wrong_lengths(m, found, value);
}

/* The settings of either block that are locked while ACTIVE; each has a range. By steps of four
 * the first three are of one, four and two bytes. */
static struct found locked_setting(struct maker *m, uint32_t round)
{
    enum { LOCKED_SETTINGS = DEAD_BAND_THRESHOLD - RAMP_TYPE + 1, STEP = 4 };
    enum block_kind block = block_by_chance(m);
    return setting_of(block, RAMP_TYPE + round * STEP % LOCKED_SETTINGS);
}

/* In turn: places 6, 7 and 8 of the aborts have reason too, then place 4, which comes first. */
static void scene_wrong_length(struct maker *m)
{
    enum { REASONS = 4 };
    uint32_t turn = next_turn(m, SWEEP_WRONG_LENGTHS);
    struct found locked = locked_setting(m, turn / REASONS);
    switch (turn % REASONS) {
    case 0:
        wrong_length_out_of_range(m, locked);
        break;
    case 1:
        wrong_length_limits_crossed(m);
        break;
    case 2:
        wrong_length_locked(m, locked);
        break;
    default:
        wrong_length_for_read_only(m);
    }
}

/* ---- Scenes: states ---- */

static void scene_control(struct maker *m)
{
    uint16_t bits = (uint16_t)below(m, 16);
    if (m->run.device.state == ACTIVE && one_in(m, 2))
        bits |= 7; /* it stays */
    emit_control(m, bits);
}

/* Rarely: it ends every ramp. A second code must not replace the first. */
static void scene_fault(struct maker *m)
{
    emit_fault(m);
    if (one_in(m, 3)) {
        emit_fault(m);
        emit_sdo(m, READ, 0x604e, 0, 0);
    }
    if (one_in(m, 2))
        emit_plain(m, EVENT_QUERY);
}

/* Reset as an edge and as a level. */
static void scene_reset(struct maker *m)
{
    uint32_t words = (uint32_t)between(m, 1, 5);
    emit_fault(m);
    for (uint32_t i = 0; i < words; i++) {
        uint16_t bits = (uint16_t)below(m, 8);
        emit_control(m, one_in(m, 2) ? (uint16_t)(bits | 8) : bits);
    }
    if (one_in(m, 8)) {
        emit_word(m, EVENT_CONTROL, 8);
        emit_word(m, EVENT_FAULT, 1);
        emit_word(m, EVENT_CONTROL, 8);
        emit_word(m, EVENT_CONTROL, 0);
        emit_word(m, EVENT_CONTROL, 8);
    }
}

static void scene_fresh(struct maker *m)
{
    emit_plain(m, EVENT_FRESH);
}

/* ---- Scenes: ramps ---- */

/* Fresh scaling, so that the targets spread over the whole stroke. The lower
 * limit comes twice: the first may cross the old upper one. */
void plain_scaling_of(struct maker *m, enum block_kind block)
{
    static const enum setting places[] = {LOWER_LIMIT,    UPPER_LIMIT,    LOWER_LIMIT,
                                          SCALING_FACTOR, SCALING_OFFSET, ZERO_CORRECTION};
    for (size_t i = 0; i < sizeof places / sizeof places[0]; i++) {
        int64_t fresh = object_of_setting(places[i])->fresh;
        if (m->run.device.block[block].setting[places[i]] != fresh)
            emit_write(m, setting_of(block, places[i]), fresh);
    }
}

void plain_scaling(struct maker *m)
{
    plain_scaling_of(m, (enum block_kind)m->run.device.selected);
}

static void scene_scaling(struct maker *m)
{
    static const uint32_t factors[] = {0, 1, 32768, 65535, 65536, 65537, 131072, 4294967295};
    uint32_t factor = PICK(m, factors);
    emit_setting(m, SCALING_FACTOR, factor);
    int64_t offset = between(m, -200, 200);
    emit_setting(m, SCALING_OFFSET, offset);
    int64_t correction = between(m, -200, 200);
    emit_setting(m, ZERO_CORRECTION, correction);
    emit_plain(m, EVENT_QUERY);
}

static uint32_t pick_jump(struct maker *m)
{
    uint32_t left = ticks_left(&m->run.device);
    uint32_t zero = ticks_left_to_zero(m->run.device);
    uint32_t offset = below(m, 3);
    uint32_t any = (uint32_t)draw(m);
    switch (below(m, 8)) {
    case 0:
        return offset;
    case 1:
    case 2:
        return left + offset - 1; /* from 0 it wraps: the longest jump */
    case 3:
        return zero + offset - 1;
    case 4:
        return one_in(m, 4) ? UINT32_MAX : left / 2;
    case 5:
        return any >> below(m, 32);
    default:
        return below(m, left + 2);
    }
}

static void scene_jump(struct maker *m)
{
    uint32_t ticks = pick_jump(m);
    emit_jump(m, ticks);
}

/* Runs of ticks stay short but for a rare long one. */
static void scene_ticks(struct maker *m)
{
    enum { SHORT_RUN = 3000 };
    uint32_t left = ticks_left(&m->run.device);
    uint32_t offset = below(m, 3);
    uint32_t ticks = below(m, 40);
    if (left > 1 && left < SHORT_RUN && one_in(m, 2))
        ticks = left + offset - 1;
    else if (one_in(m, 8))
        ticks = offset;
    else if (one_in(m, 200))
        ticks = UINT16_MAX;
    emit_word(m, EVENT_TICKS, (uint16_t)ticks);
}

static void scene_tick(struct maker *m)
{
    uint32_t times = 1 + below(m, 3);
    for (uint32_t i = 0; i < times; i++)
        emit_plain(m, EVENT_TICK);
}

static void move_on(struct maker *m)
{
    switch (below(m, 4)) {
    case 0:
        scene_jump(m);
        break;
    case 1:
        scene_ticks(m);
        break;
    default:
        scene_tick(m);
    }
}

/* A new target for the state the device is in, often on the other side. */
void scene_target(struct maker *m)
{
    int64_t ir = pick_ir(m);
    bool other_side = (block_now(m)->position > 0) == (ir > 0);
    if (other_side && ir > INT16_MIN && one_in(m, 2))
        ir = -ir;
    emit_target(m, ir);
    if (moving_state(m))
        move_on(m);
}

static void ramp_settings(struct maker *m)
{
    enum { RAMP_TYPES = 4 };
    int64_t type = next_turn(m, SWEEP_RAMP_TYPES) % RAMP_TYPES;
    emit_setting(m, RAMP_TYPE, type);
    for (size_t place = ACCELERATION_ONE; place <= DECELERATION_NEGATIVE; place++) {
        uint32_t time = pick_time(m);
        if (one_in(m, 2))
            emit_setting(m, (enum setting)place, time);
    }
}

/* A ramp under way in HOLD or ACTIVE, then some moves and changes of mind. */
static void scene_ramp(struct maker *m)
{
    select_by_chance(m);
    steer_to_hold(m);
    if (!one_in(m, 4))
        plain_scaling(m);
    ramp_settings(m);
    if (one_in(m, 2)) {
        scene_target(m);
        emit_control(m, 7);
    }
    uint32_t changes = 1 + below(m, 4);
    for (uint32_t i = 0; i < changes; i++) {
        scene_target(m);
        move_on(m);
        if (one_in(m, 2))
            emit_plain(m, EVENT_QUERY);
    }
}

/* While ACTIVE: a locked entry of either block, and a state to come back to. */
static void scene_locked(struct maker *m)
{
    if (m->run.device.state != ACTIVE) {
        steer_to_hold(m);
        emit_control(m, 7);
    }
    enum block_kind block = block_by_chance(m);
    struct found found = setting_of(block, (size_t)between(m, RAMP_TYPE, DEAD_BAND_THRESHOLD));
    int64_t value = pick_edge(m, found.object);
    emit_write(m, found, value);
    scene_target(m);
    if (one_in(m, 2))
        emit_control(m, 7); /* it stays */
}

/* ---- Scenes: dead band ---- */

/* Mostly without dither. */
static void scene_dead_band(struct maker *m)
{
    int64_t type = one_in(m, 4) ? 0 : 1;
    int64_t threshold = one_in(m, 2) ? between(m, 0, 100) : between(m, 0, FULL_STROKE);
    int64_t side = between(m, 0, 4096);
    select_by_turn(m, next_turn(m, SWEEP_DEAD_BANDS));
    steer_to_hold(m);
    plain_scaling(m);
    emit_setting(m, RAMP_TYPE, 0);
    if (m->run.device.dither[DITHER_TYPE] != 0 && !one_in(m, 4))
        emit_write(m, dither_object(DITHER_TYPE), 0);
    emit_setting(m, DEAD_BAND_TYPE, type);
    emit_setting(m, DEAD_BAND_THRESHOLD, threshold);
    emit_setting(m, DEAD_BAND_A_SIDE, side);
    emit_setting(m, DEAD_BAND_B_SIDE, 4096 - side);
    for (int i = 0; i < 4; i++) {
        int64_t place = i < 2 ? threshold + 1 : threshold - below(m, 2);
        emit_setting(m, HOLD_SET_POINT, i % 2 == 0 ? -place : place);
        emit_plain(m, EVENT_TICK);
        emit_plain(m, EVENT_QUERY);
        scene_read_command(m);
    }
}

/* ---- Scenes: the rest ---- */

static void scene_query(struct maker *m)
{
    emit_plain(m, EVENT_QUERY);
}

static void scene_unknown_kind(struct maker *m)
{
    uint8_t kind = (uint8_t)between(m, EVENT_KINDS, UINT8_MAX);
    emit_plain(m, kind);
}

/* ---- The file ---- */

/* The scenes of one pack, each as often as told. */
static const struct {
    uint32_t times;
    void (*play)(struct maker *m);
} scenes[] = {
    /* SDO; a scene_wrong_length is three events and more */
    {70, scene_write_edge},
    {235, scene_sweep_entries},
    {30, scene_write_size},
    {15, scene_wrong_length},
    {40, scene_read},
    {15, scene_read_command},
    {40, scene_any_command},
    {24, scene_unknown_index},
    {30, scene_sdo_refused},
    {14, scene_limits},
    {74, scene_range_end},
    /* states */
    {30, scene_control},
    {10, scene_fault},
    {6, scene_reset},
    {2, scene_fresh},
    /* ramps; a scene_ramp is some twenty events, a scene_across_zero some thirty */
    {5, scene_scaling},
    {36, scene_jump},
    {20, scene_ticks},
    {20, scene_tick},
    {28, scene_target},
    {12, scene_ramp},
    {2, scene_at_once},
    {24, scene_across_zero},
    {6, scene_locked},
    {8, scene_dead_band},
    /* image */
    {15, scene_store},
    {28, scene_load},
    {22, scene_append},
    {24, scene_loaded_value},
    {42, scene_damage},
    {30, scene_find},
    /* refusals; a scene_broken is 28 events and more, a scene_broken_setting six */
    {42, scene_wide},
    {10, scene_no_fault},
    {12, scene_unsound},
    {10, scene_broken},
    {34, scene_broken_setting},
    /* process data; a scene_process_data is some twelve events */
    {64, scene_process_data},
    {20, scene_any_pdo},
    /* dither; a scene_dither_objects is some eight events, each other twenty to forty */
    {2, scene_dither_corners},
    {8, scene_dither_band},
    {6, scene_dither_phase},
    {3, scene_dither_moves},
    {12, scene_dither_objects},
    {1, scene_dither_beside},
    /* the two blocks; a scene_side_by_side is some sixty events, the others ten to fifty */
    {24, scene_select},
    {8, scene_selection},
    {8, scene_block_objects},
    {4, scene_block_locks},
    {2, scene_block_limits},
    {4, scene_side_by_side},
    {2, scene_block_image},
    {4, scene_block_beside},
    /* the rest */
    {12, scene_query},
    {5, scene_unknown_kind},
};
enum { SCENES = sizeof scenes / sizeof scenes[0] };

/* The scenes are drawn from a pack like cards, so that with every seed each comes
 * about as often in a file, and what goes in turn is gone through. */
struct pack {
    uint32_t left[SCENES];
    uint32_t total;
};

static void fill_pack(struct pack *pack)
{
    for (size_t i = 0; i < SCENES; i++) {
        pack->left[i] = scenes[i].times;
        pack->total += scenes[i].times;
    }
}

static void play_scene(struct maker *m, struct pack *pack)
{
    if (pack->total == 0)
        fill_pack(pack);
    uint32_t chance = below(m, pack->total);
    size_t scene = 0;
    while (chance >= pack->left[scene])
        chance -= pack->left[scene++];
    pack->left[scene]--;
    pack->total--;
    scenes[scene].play(m);
}

int mode_events(uint64_t seed, uint64_t count)
{
    struct maker maker = {.random = seed, .left = count, .run = run_begin()};
    struct pack pack = {.total = 0};
    play_zero_image(&maker);
    while (maker.left > 0)
        play_scene(&maker, &pack);
    return EXIT_GOOD;
}
