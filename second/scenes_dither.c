/* The scenes of dither: the wave at its corners, at the ends of the dead band and of the stroke,
 * the phase by ticks and jumps, what keeps it and what sets it to 0, and the three objects. */
#include "maker.h"

enum { SQUARE = 1, TRIANGLE = 2, TYPES = 3 };

/* With this frequency each tick is a quarter of the period. */
enum { QUARTER_FREQUENCY = 250 };
static const uint32_t quarter = UINT32_C(1) << 30;

/* ---- Settings ---- */

/* A value that stands already is not written again. */
static void set_dither_value(struct maker *m, enum dither_value place, int64_t value)
{
    if (m->run.device.dither[place] != value)
        emit_write(m, dither_object(place), value);
}

static void set_dither(struct maker *m, int64_t type, int64_t amplitude, int64_t frequency)
{
    set_dither_value(m, DITHER_TYPE, type);
    set_dither_value(m, DITHER_AMPLITUDE, amplitude);
    set_dither_value(m, DITHER_FREQUENCY, frequency);
}

static void set_setting(struct maker *m, enum setting place, int64_t value)
{
    if (block_now(m)->setting[place] != value)
        emit_setting(m, place, value);
}

/* The next tick leads to each target at once. */
static void set_no_ramp(struct maker *m)
{
    plain_scaling(m);
    set_setting(m, RAMP_TYPE, 0);
}

static int64_t pick_frequency(struct maker *m)
{
    static const int64_t frequencies[] = {2, 50, 100, 125, 200, 248};
    return one_in(m, 2) ? PICK(m, frequencies) : between(m, 1, QUARTER_FREQUENCY);
}

static int64_t pick_amplitude(struct maker *m)
{
    static const int64_t amplitudes[] = {1024, 1, 1023, 1024, 2, 1000};
    return one_in(m, 2) ? PICK(m, amplitudes) : between(m, 1, 1024);
}

/* The command, told by queries and, in turn, by a read. */
static void tell_command(struct maker *m)
{
    enum { READ_EACH = 5 };
    if (next_turn(m, SWEEP_DITHER_TELLS) % READ_EACH == 0)
        emit_value_read(m, command_now(m));
    else
        emit_plain(m, EVENT_QUERY);
}

/* ---- Ways to a phase ---- */

static uint32_t phase_of_a_tick(int64_t frequency)
{
    return (uint32_t)(((uint64_t)frequency << 32) / 1000);
}

static uint32_t phase_of_the_next_tick(const struct maker *m)
{
    return phase_of_a_tick(m->run.device.dither[DITHER_FREQUENCY]);
}

/* Some number of ticks leads to every phase where a tick's is odd. */
static int64_t pick_odd_frequency(struct maker *m)
{
    int64_t frequency = between(m, 1, QUARTER_FREQUENCY);
    while (phase_of_a_tick(frequency) % 2 == 0) /* that of 1 Hz is odd */
        frequency--;
    return frequency;
}

/* Times the odd number it is 1 and a multiple of 2^32: right in three bits at first, and in
 * twice as many by each step. */
static uint32_t inverse_of(uint32_t odd)
{
    uint32_t inverse = odd;
    for (int step = 0; step < 4; step++)
        inverse *= 2 - odd * inverse;
    return inverse;
}

static void jump_to_phase(struct maker *m, uint32_t phase)
{
    uint32_t way = phase - m->run.device.phase;
    emit_jump(m, way * inverse_of(phase_of_the_next_tick(m)));
}

/* To the last tick before the corner, and by one tick to it or beyond. The frequency is not asked
 * of the device, which has none where no events are left for it to be written. */
static void pass_corner(struct maker *m, int64_t frequency, uint32_t corner)
{
    uint32_t way = corner - m->run.device.phase;
    uint32_t last = (way - 1) / phase_of_a_tick(frequency); /* from 0 it wraps: once round */
    emit_jump(m, last);
    tell_command(m);
    emit_plain(m, EVENT_TICK);
    tell_command(m);
}

/* ---- The wave at its corners ---- */

/* In turn both types, in ACTIVE and HOLD: at each corner, one before and one after, and where x
 * next changes. Dead band and stroke are out of the way. */
void scene_dither_corners(struct maker *m)
{
    enum { X = 65536 };
    static const uint32_t offsets[] = {0, 1, X, X - 1};
    static const size_t offset_counts[] = {3, 4, 3, 4}; /* the last at top and bottom alone */
    uint32_t turn = next_turn(m, SWEEP_DITHER_CORNERS);
    int64_t amplitude = pick_amplitude(m);
    int64_t frequency = pick_odd_frequency(m);
    int64_t target = one_in(m, 2) ? between(m, 1, 15000) : between(m, -15000, -1);
    select_by_chance(m);
    steer_to_hold(m);
    set_no_ramp(m);
    set_setting(m, DEAD_BAND_TYPE, 0);
    set_dither(m, turn % 2 == 0 ? TRIANGLE : SQUARE, amplitude, frequency);
    if (turn / 2 % 2 == 0)
        emit_control(m, 7);
    emit_target(m, target);
    for (uint32_t corner = 0; corner < 4; corner++) {
        jump_to_phase(m, corner * quarter - 1);
        tell_command(m);
        for (size_t i = 0; i < offset_counts[corner]; i++) {
            jump_to_phase(m, corner * quarter + offsets[i]);
            tell_command(m);
        }
    }
}

/* ---- The wave at the ends of the dead band and of the stroke ---- */

struct band {
    int64_t threshold;
    int64_t a_side;
    int64_t b_side;
};

/* From 0 on, to the top and then to the bottom of the wave; at times told between. */
static void tell_top_and_bottom(struct maker *m, bool between_too)
{
    emit_jump(m, m->run.device.phase == 0 ? 1 : 2);
    tell_command(m);
    if (between_too) {
        emit_plain(m, EVENT_TICK);
        tell_command(m);
        emit_plain(m, EVENT_TICK);
    } else {
        emit_jump(m, 2);
    }
    tell_command(m);
}

/* The last positions within the dead band and the first outside. */
static void play_band_ends(struct maker *m, const struct band *band)
{
    const int64_t places[] = {band->threshold, band->threshold + 1, -band->threshold,
                              -band->threshold - 1};
    static const int64_t amplitudes[] = {1, 1024, 2, 1023};
    for (size_t i = 0; i < 4; i++) {
        set_dither_value(m, DITHER_AMPLITUDE, amplitudes[i]);
        emit_target(m, places[i]);
        tell_top_and_bottom(m, i % 2 == 0);
    }
}

/* Positions that the dead band brings so far beyond full stroke that the dither brings them
 * back, and so far short of it that the dither just makes it up. */
static void play_stroke_ends(struct maker *m, const struct band *band)
{
    int64_t amplitude = pick_amplitude(m);
    int64_t beyond = between(m, 1, amplitude);
    const int64_t places[] = {FULL_STROKE - band->a_side + beyond,
                              -(FULL_STROKE - band->b_side + beyond),
                              FULL_STROKE - band->a_side - amplitude,
                              -(FULL_STROKE - band->b_side - amplitude)};
    set_dither_value(m, DITHER_AMPLITUDE, amplitude);
    for (size_t i = 0; i < 4; i++) {
        emit_target(m, places[i]);
        tell_top_and_bottom(m, false);
    }
}

/* The top and the bottom of the wave in ACTIVE without a dead band, each told by both. */
static void play_without_band(struct maker *m)
{
    int64_t target = between(m, 1, 15000);
    steer_to_hold(m);
    set_setting(m, DEAD_BAND_TYPE, 0);
    steer_to(m, ACTIVE);
    emit_target(m, one_in(m, 2) ? target : -target);
    for (int end = 0; end < 2; end++) {
        emit_jump(m, 2);
        emit_plain(m, EVENT_QUERY);
        emit_value_read(m, command_now(m));
    }
}

/* In turn both types, at the ends of the dead band and at those of the stroke, with each block. */
void scene_dither_band(struct maker *m)
{
    enum { TYPES_AND_ENDS = 4 };
    uint32_t turn = next_turn(m, SWEEP_DITHER_BANDS);
    struct band band;
    band.threshold = between(m, 1, 2000);
    band.a_side = between(m, 1024, 4096);
    band.b_side = between(m, 1024, 4096);
    select_by_turn(m, turn / TYPES_AND_ENDS);
    steer_to_disabled(m);
    set_no_ramp(m);
    set_setting(m, DEAD_BAND_TYPE, 1);
    set_setting(m, DEAD_BAND_THRESHOLD, band.threshold);
    set_setting(m, DEAD_BAND_A_SIDE, band.a_side);
    set_setting(m, DEAD_BAND_B_SIDE, band.b_side);
    set_dither_value(m, DITHER_TYPE, turn % 2 == 0 ? SQUARE : TRIANGLE);
    set_dither_value(m, DITHER_FREQUENCY, QUARTER_FREQUENCY);
    steer_to_hold(m);
    if (turn / 2 % 2 == 0)
        play_band_ends(m, &band);
    else
        play_stroke_ends(m, &band);
    if (turn / 2 % 2 != 0)
        play_without_band(m);
}

/* ---- The phase by ticks and jumps ---- */

/* A round is each type in HOLD and then in ACTIVE; some turns of it have something of their own. */
enum { ROUND = 6, WITH_QUARTERS = 0, WITH_STANDSTILL = 1, WITH_SLOW_RAMP = 4, ANY_FREQUENCY = -1 };

/* Long jumps, whose product has to be reduced. */
static uint32_t pick_long_jump(struct maker *m, uint32_t turn)
{
    static const uint32_t ticks[] = {UINT32_MAX, UINT32_C(1) << 31, UINT32_MAX - 1,
                                     (UINT32_C(1) << 31) - 1};
    if (turn / ROUND % 2 == 0)
        return ticks[turn % 4];
    return (uint32_t)draw(m) | UINT32_C(1) << 31;
}

/* To a phase above 0 that stands still: nothing of it moves without a frequency. */
static void play_standstill(struct maker *m)
{
    steer_to_hold(m);
    set_dither_value(m, DITHER_TYPE, TRIANGLE);
    set_dither_value(m, DITHER_FREQUENCY, 0);
    emit_plain(m, EVENT_TICK);
    emit_word(m, EVENT_TICKS, (uint16_t)between(m, 2, 9));
    emit_jump(m, (uint32_t)draw(m));
    tell_command(m);
    set_dither_value(m, DITHER_TYPE, SQUARE);
    set_dither_value(m, DITHER_FREQUENCY, 1);
}

/* Once round by ticks, to 0 exactly, and by a jump. */
static void play_quarters(struct maker *m)
{
    for (int i = 0; i < 4; i++) {
        emit_plain(m, EVENT_TICK);
        tell_command(m);
    }
    emit_plain(m, EVENT_TICK);
    emit_word(m, EVENT_TICKS, 3);
    emit_word(m, EVENT_TICKS, 7);
    emit_jump(m, 3);
}

/* A ramp that lasts long and knows nothing of the dither: first its settings, then its way. */
static void set_slow_ramp(struct maker *m)
{
    plain_scaling(m);
    set_setting(m, RAMP_TYPE, 1);
    set_setting(m, ACCELERATION_ONE, 3600000);
}

static void play_slow_ramp(struct maker *m)
{
    emit_target(m, one_in(m, 2) ? FULL_STROKE : -FULL_STROKE);
    emit_plain(m, EVENT_TICK);
    emit_plain(m, EVENT_QUERY);
}

/* From 0 on, in turn each type in HOLD and in ACTIVE, with several frequencies. */
void scene_dither_phase(struct maker *m)
{
    static const int64_t frequencies[ROUND] = {QUARTER_FREQUENCY, 1, 249, ANY_FREQUENCY,
                                               ANY_FREQUENCY, ANY_FREQUENCY};
    static const int64_t amplitudes[ROUND] = {1024, 0, 0, 1024, 1023, 1};
    uint32_t turn = next_turn(m, SWEEP_DITHER_PHASES);
    int64_t frequency = frequencies[turn % ROUND];
    if (frequency == ANY_FREQUENCY)
        frequency = pick_frequency(m);
    steer_to_disabled(m);
    set_dither(m, turn % TYPES, amplitudes[turn % ROUND], frequency);
    if (turn % ROUND == WITH_SLOW_RAMP)
        set_slow_ramp(m);
    steer_to(m, turn / TYPES % 2 == 0 ? HOLD : ACTIVE);
    if (turn % ROUND == WITH_SLOW_RAMP)
        play_slow_ramp(m);
    if (turn % ROUND == WITH_QUARTERS)
        play_quarters(m);
    emit_plain(m, EVENT_TICK);
    emit_word(m, EVENT_TICKS, (uint16_t)between(m, 4, 12));
    tell_command(m);
    emit_jump(m, pick_long_jump(m, turn));
    tell_command(m);
    emit_jump(m, 0);
    pass_corner(m, frequency, 2 * quarter);
    pass_corner(m, frequency, turn % 2 == 0 ? 3 * quarter : quarter);
    pass_corner(m, frequency, 0);
    if (turn % ROUND == WITH_STANDSTILL)
        play_standstill(m);
    else if (turn % TYPES == 2)
        emit_plain(m, EVENT_FRESH);
}

/* ---- What keeps the phase and what sets it to 0 ---- */

enum way { BY_CONTROL, BY_SDO, BY_RECEIVE, WAYS };

/* Two control words by one PDO, the map of which has them twice. */
static void receive_words(struct maker *m, uint16_t first, uint16_t second)
{
    const uint16_t words[] = {first, second};
    struct record record = make(m, EVENT_RECEIVE);
    for (size_t i = 0; i < 4; i++)
        record.bytes[i] = (uint8_t)(words[i / 2] >> (8 * (i % 2)));
    record.small = 4;
    emit(m, &record);
}

/* The word is held, so that twice is as once. */
static void lead_by(struct maker *m, enum way way, uint16_t word)
{
    if (way == BY_CONTROL)
        emit_word(m, EVENT_CONTROL, word);
    else if (way == BY_SDO)
        emit_write(m, object_find(0x6040), word);
    else
        receive_words(m, word, word);
}

static void map_words_and_command(struct maker *m, enum way way)
{
    const uint32_t received[] = {mappable[RECEIVE_MAP][0], mappable[RECEIVE_MAP][0]};
    const uint32_t sent[] = {mappable[TRANSMIT_MAP][2]};
    if (way == BY_RECEIVE)
        build_map(m, RECEIVE_MAP, received, 2);
    build_map(m, TRANSMIT_MAP, sent, 1);
}

/* In turn a tick, ticks and a jump, none of which moves, and each that tells the command. */
static void rest(struct maker *m, uint32_t turn)
{
    if (turn % 3 == 0) {
        emit_plain(m, EVENT_TICK);
        emit_plain(m, EVENT_QUERY);
    } else if (turn % 3 == 1) {
        emit_word(m, EVENT_TICKS, (uint16_t)between(m, 1, 9));
        emit_value_read(m, command_now(m));
    } else {
        emit_jump(m, (uint32_t)draw(m));
        emit_word(m, EVENT_SEND, 2);
    }
}

/* A tick and the command, in HOLD or ACTIVE. */
static void tick_and_send(struct maker *m)
{
    emit_plain(m, EVENT_TICK);
    emit_word(m, EVENT_SEND, 2);
}

/* HOLD, ACTIVE and back, with words that move nothing between; then from each to DISABLED. */
static void play_moves(struct maker *m, enum way way, uint32_t turn)
{
    lead_by(m, way, 0x0011);
    lead_by(m, way, 0x0007);
    tick_and_send(m);
    lead_by(m, way, 0x8007);
    lead_by(m, way, 0x0005);
    tick_and_send(m);
    lead_by(m, way, 0x0007);
    lead_by(m, way, 0x0006);
    rest(m, turn);
    lead_by(m, way, 0x0003);
    emit_plain(m, EVENT_TICK);
    lead_by(m, way, 0x0000);
    lead_by(m, way, 0x0001);
    emit_plain(m, EVENT_TICK);
}

/* In turn by control words, by SDO and by PDOs; at last a fault, from HOLD and from ACTIVE. */
void scene_dither_moves(struct maker *m)
{
    uint32_t turn = next_turn(m, SWEEP_DITHER_MOVES);
    enum way way = (enum way)(turn % WAYS);
    int64_t amplitude = between(m, 100, 1024); /* so that a triangle is seldom 0 */
    int64_t frequency = pick_odd_frequency(m);
    select_block(m, POSITION_BLOCK); /* whose command is sent */
    steer_to_hold(m);
    set_dither(m, SQUARE, amplitude, frequency);
    map_words_and_command(m, way);
    emit_plain(m, EVENT_TICK);
    play_moves(m, way, turn);
    if (way == BY_RECEIVE) {
        receive_words(m, 0, 1);
        emit_plain(m, EVENT_TICK);
    }
    set_dither_value(m, DITHER_TYPE, TRIANGLE);
    tick_and_send(m);
    if (turn % 2 == 0)
        lead_by(m, way, 0x0007);
    tick_and_send(m);
    steer_to(m, FAULT);
    emit_write(m, dither_object(DITHER_TYPE), SQUARE);
    rest(m, turn);
}

/* ---- The objects ---- */

/* Both ends of the range, and a value beyond it with a wrong length. */
static void access_in_disabled(struct maker *m, struct found found)
{
    const struct object *object = found.object;
    emit_write(m, found, object->low);
    emit_write(m, found, object->high);
    emit_sized_write(m, found, value_sub(object), 4, object->high + 1);
}

/* Sub-indexes that it lacks. */
static void access_in_hold(struct maker *m, struct found found)
{
    const struct object *object = found.object;
    const uint8_t subs[] = {(uint8_t)(value_sub(object) + 1), UINT8_MAX};
    emit_write(m, found, object->high - 1);
    for (size_t i = 0; i < sizeof subs; i++) {
        emit_read(m, found, subs[i]);
        emit_sized_write(m, found, subs[i], object_size(object), object->high + 1);
    }
}

/* A value above 0 that stands and another one, each wrong length, and a record's number of
 * entries. */
static void access_in_active(struct maker *m, struct found found, size_t place)
{
    const struct object *object = found.object;
    if (m->run.device.dither[place] == 0) {
        steer_to_hold(m);
        emit_write(m, found, between(m, 1, object->high));
        steer_to(m, ACTIVE);
    }
    int64_t stands = m->run.device.dither[place];
    emit_write(m, found, stands);
    emit_write(m, found, stands - 1);
    for (size_t size = 1; size <= 4; size++)
        if (size != object_size(object))
            emit_sized_write(m, found, value_sub(object), size, object->high);
    if (object->form == VARIABLE)
        return;
    emit_read(m, found, 0);
    emit_sized_write(m, found, 0, 1, 1);
    emit_sized_write(m, found, 0, 2, object->high + 1);
}

/* Values far beyond the range. */
static void access_in_fault(struct maker *m, struct found found)
{
    emit_write(m, found, found.object->low + 1);
    emit_write(m, found, -1);
    if (found.object->type == I8) {
        emit_write(m, found, INT8_MAX);
        emit_write(m, found, INT8_MIN);
    } else {
        emit_write(m, found, INT16_MAX + 1);
    }
}

/* In turn each object in each state; one beyond the range is refused in all. */
void scene_dither_objects(struct maker *m)
{
    uint32_t turn = next_turn(m, SWEEP_DITHER_OBJECTS);
    size_t place = turn % DITHER_VALUES;
    struct found found = dither_object(place);
    enum device_state state = (enum device_state)(turn / DITHER_VALUES % STATES);
    steer_to(m, state);
    if (state == DISABLED)
        access_in_disabled(m, found);
    else if (state == HOLD)
        access_in_hold(m, found);
    else if (state == ACTIVE)
        access_in_active(m, found, place);
    else
        access_in_fault(m, found);
    emit_write(m, found, found.object->high + 1);
    emit_value_read(m, found);
}

/* ---- Beside them ---- */

/* No image has the dither: a load leaves it. Nor has a map, and there are three objects only. */
void scene_dither_beside(struct maker *m)
{
    static const uint16_t map_indexes[MAPS] = {0x1600, 0x1a00};
    static const uint32_t entries[] = {0x63600008, 0x63610110, 0x63620110};
    static const uint16_t beside[] = {0x635f, 0x6363};
    int64_t amplitude = pick_amplitude(m);
    int64_t frequency = pick_frequency(m);
    steer_to_disabled(m);
    set_dither(m, SQUARE, amplitude, frequency);
    emit_word(m, EVENT_STORE, IMAGE_SIZE);
    struct found stored = setting_of(POSITION_BLOCK, HOLD_SET_POINT);
    int64_t stands = m->run.device.block[POSITION_BLOCK].setting[HOLD_SET_POINT];
    emit_write(m, stored, stands == 0 ? 1 : 0);
    emit_load_as_it_is(m);
    for (size_t place = 0; place < DITHER_VALUES; place++)
        emit_value_read(m, dither_object(place));
    for (size_t kind = 0; kind < MAPS; kind++) {
        emit_sdo(m, WRITE_1, map_indexes[kind], 0, 0);
        for (size_t i = 0; i < 3; i++)
            emit_sdo(m, WRITE_4, map_indexes[kind], (uint8_t)(i + 1), entries[i]);
    }
    for (size_t i = 0; i < 2; i++) {
        emit_sdo(m, READ, beside[i], (uint8_t)i, 0);
        emit_sdo(m, WRITE_2, beside[i], 1, 0);
    }
}
