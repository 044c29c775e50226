/* The scenes of what is refused: requests of any length, devices that are not sound. */
#include "maker.h"

/* ---- Requests ---- */

/* A request worth an answer, one that gets none, or one that is aborted. */
static void set_any_request(struct maker *m, struct record *record)
{
    static const uint8_t firsts[] = {READ, READ, WRITE_2, 0x80, 0x9f, 0x7f, 0xa0};
    uint8_t first = PICK(m, firsts);
    uint16_t index = object_index(pick_object(m));
    uint8_t sub = (uint8_t)below(m, 2);
    set_request(record, first, index, sub, 7);
}

/* Requests cut short and rooms too small, both at once too; whole requests with
 * every room in turn. */
void scene_sdo_refused(struct maker *m)
{
    enum { ROOMS = SDO_ROOM_MOST + 2 };
    struct record record = make(m, EVENT_SDO);
    set_any_request(m, &record);
    record.small = (uint8_t)between(m, 6, 9);
    if (one_in(m, 4))
        record.small = (uint8_t)below(m, 9);
    record.word = (uint16_t)between(m, 6, 9);
    if (one_in(m, 2)) {
        record.small = SDO_SIZE;
        record.word = (uint16_t)(next_turn(m, SWEEP_ROOMS) % ROOMS);
    }
    emit(m, &record);
}

/* In turn the lengths 0 to 12 and one above; those around eight more often. */
void scene_wide(struct maker *m)
{
    static const uint8_t sizes[] = {8, 0, 7, 1, 9, 2, 8, 12, 3, 7, 4, 8, 5, 9, 6, 10, 12, 11};
    static const uint16_t rooms[] = {8, 8, 12, 7, 8, 9, 0, 12, 13, 65535};
    struct record record = make(m, EVENT_WIDE);
    uint32_t turn = next_turn(m, SWEEP_WIDE);
    record.small = sizes[turn % sizeof sizes];
    if (one_in(m, 12))
        record.small = (uint8_t)between(m, WIDE_MOST + 1, UINT8_MAX);
    record.word = PICK(m, rooms);
    if (one_in(m, 4))
        record.word = (uint16_t)below(m, 14);
    if (!one_in(m, 8)) /* else the bytes hold anything */
        set_any_request(m, &record);
    emit(m, &record);
}

/* ---- Reports of no fault ---- */

void scene_no_fault(struct maker *m)
{
    uint32_t turn = next_turn(m, SWEEP_NO_FAULT_STATES);
    steer_to(m, (enum device_state)(turn % STATES));
    emit_word(m, EVENT_FAULT, 0);
}

/* ---- Devices that are not sound ---- */

/* The call and what it is called with, of an unsound or broken event: at times
 * a request or a fault code that a sound device would refuse as well. */
static void set_call(struct maker *m, struct record *record, uint32_t call)
{
    record->number = record->number % (UINT32_MAX / CALLS) * CALLS + call;
    if (!one_in(m, 4)) /* else the bytes hold anything */
        set_any_request(m, record);
    if (one_in(m, 3))
        record->word = 0;
}

/* So that each call is met in each state: the states shift with each round of calls. */
static enum device_state state_for(uint32_t turn)
{
    return (enum device_state)((turn + turn / CALLS) % STATES);
}

/* A device in FAULT stays there half of the time only. */
static void leave_fault(struct maker *m)
{
    if (m->run.device.state == FAULT && one_in(m, 2))
        steer_to_disabled(m);
}

/* Every way with one call in one state; call and state in turn. */
void scene_unsound(struct maker *m)
{
    uint32_t turn = next_turn(m, SWEEP_UNSOUND);
    select_by_chance(m);
    steer_to(m, state_for(turn));
    for (uint8_t way = 0; way < UNSOUND_KINDS; way++) {
        struct record record = make(m, EVENT_UNSOUND);
        set_call(m, &record, turn % CALLS);
        record.small = way;
        if (way == UNSOUND_STATE && one_in(m, 2))
            record.small = (uint8_t)between(m, UNSOUND_KINDS, UINT8_MAX);
        if (way == UNSOUND_SETTING && one_in(m, 2))
            record.word = (uint16_t)below(m, SETTINGS);
        emit(m, &record);
    }
    leave_fault(m);
}

/* A word of the setting's place. */
static uint16_t word_of_setting(struct maker *m, uint32_t place)
{
    enum { ROUNDS = UINT16_MAX / SETTINGS };
    uint32_t round = one_in(m, 3) ? 0 : below(m, ROUNDS);
    return (uint16_t)(place + SETTINGS * round);
}

/* A word of the map and its entry; the maps shift with each round of calls. */
static uint16_t word_of_map(struct maker *m, uint32_t turn)
{
    enum { PLACES = MAPS * MAP_ENTRIES, ROUNDS = UINT16_MAX / PLACES };
    uint32_t round = one_in(m, 3) ? 0 : below(m, ROUNDS);
    return (uint16_t)((turn + turn / CALLS) % PLACES + PLACES * round);
}

/* A word of one of the dither's values; they shift with each round of calls. */
static uint16_t word_of_dither(struct maker *m, uint32_t turn)
{
    enum { ROUNDS = UINT16_MAX / DITHER_VALUES };
    uint32_t round = one_in(m, 3) ? 0 : below(m, ROUNDS);
    return (uint16_t)((turn + turn / CALLS) % DITHER_VALUES + DITHER_VALUES * round);
}

static uint16_t word_of_way(struct maker *m, uint32_t turn, const struct record *record)
{
    switch (record->small) {
    case BROKEN_SETTING_ABOVE:
    case BROKEN_SETTING_BELOW:
    case BROKEN_SETTING_MOST:
    case BROKEN_SETTING_LEAST:
    case BROKEN_OTHER_SETTING_ABOVE:
    case BROKEN_OTHER_SETTING_BELOW:
        return word_of_setting(m, turn % SETTINGS);
    case BROKEN_MAP_COUNT_5:
    case BROKEN_MAP_COUNT_255:
    case BROKEN_MAP_ENTRY_OTHER:
    case BROKEN_MAP_ENTRY_ZERO:
        return word_of_map(m, turn);
    case BROKEN_DITHER_ABOVE:
    case BROKEN_DITHER_MINUS_1:
    case BROKEN_DITHER_MOST:
    case BROKEN_DITHER_LEAST:
        return word_of_dither(m, turn);
    default:
        return record->word;
    }
}

static void emit_broken(struct maker *m, uint32_t turn, uint8_t way)
{
    struct record record = make(m, EVENT_BROKEN);
    set_call(m, &record, turn % CALLS);
    record.small = way;
    if (way == BROKEN_STATE && one_in(m, 2))
        record.small = (uint8_t)between(m, BROKEN_KINDS, UINT8_MAX);
    record.word = word_of_way(m, turn, &record);
    emit(m, &record);
}

/* Every way with one call, one setting, entry of a map or value of the dither, with one block
 * selected and in one state, each in turn. What a load is given is damaged from some way on. */
void scene_broken(struct maker *m)
{
    uint32_t turn = next_turn(m, SWEEP_BROKEN);
    uint32_t damaged_from = below(m, BROKEN_KINDS);
    select_by_turn(m, turn + turn / CALLS);
    steer_to(m, state_for(turn));
    for (uint8_t way = 0; way < BROKEN_KINDS; way++) {
        if (turn % CALLS == CALL_LOAD && way == damaged_from)
            emit_plain(m, EVENT_PATCH);
        emit_broken(m, turn, way);
    }
    leave_fault(m);
}

/* The ways of the settings alone, which are the most: each setting of the selected block and of
 * the other, with each block selected. */
void scene_broken_setting(struct maker *m)
{
    static const uint8_t ways[] = {BROKEN_SETTING_ABOVE,       BROKEN_SETTING_BELOW,
                                   BROKEN_SETTING_MOST,        BROKEN_SETTING_LEAST,
                                   BROKEN_OTHER_SETTING_ABOVE, BROKEN_OTHER_SETTING_BELOW};
    uint32_t turn = next_turn(m, SWEEP_BROKEN_SETTINGS);
    select_by_turn(m, turn / SETTINGS);
    steer_to(m, state_for(turn));
    for (size_t i = 0; i < sizeof ways; i++)
        emit_broken(m, turn, ways[i]);
    leave_fault(m);
}
