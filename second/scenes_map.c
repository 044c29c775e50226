/* The scenes of process data's maps: good ones built, and writes that are aborted. */
#include <string.h>

#include "maker.h"

const uint32_t mappable[MAPS][MAPPABLE] = {
    [RECEIVE_MAP] = {0x60400010, 0x63000110, 0x63140110},
    [TRANSMIT_MAP] = {0x60410010, 0x604e0010, 0x63100110},
};

static struct found map_object(enum map_kind kind)
{
    return object_find(kind == RECEIVE_MAP ? 0x1600 : 0x1a00);
}

static const struct map *map_now(const struct maker *m, enum map_kind kind)
{
    return &m->run.device.map[kind];
}

static void emit_count(struct maker *m, enum map_kind kind, uint8_t count)
{
    emit_entry_write(m, map_object(kind), 0, count);
}

static void emit_map_entry(struct maker *m, enum map_kind kind, uint8_t sub, uint32_t entry)
{
    emit_entry_write(m, map_object(kind), sub, entry);
}

/* Entries can be written. */
static void open_map(struct maker *m, enum map_kind kind)
{
    if (map_now(m, kind)->count != 0)
        emit_count(m, kind, 0);
}

/* ---- Good maps ---- */

/* Entries that stand already are written again at times; where all do, the number
 * of entries alone is written, at times from one above 0. */
void build_map(struct maker *m, enum map_kind kind, const uint32_t *entries, uint8_t count)
{
    const struct map *map = map_now(m, kind);
    bool again = one_in(m, 6);
    bool stands = memcmp(map->entry, entries, count * sizeof entries[0]) == 0;
    if (again || !stands)
        open_map(m, kind);
    for (uint8_t i = 0; i < count; i++)
        if (again || map->entry[i] != entries[i])
            emit_map_entry(m, kind, (uint8_t)(i + 1), entries[i]);
    emit_count(m, kind, count);
}

/* In turn each count; by rounds each object at each place, then one object throughout. */
uint8_t planned_count(uint32_t turn)
{
    return (uint8_t)(turn % MAP_COUNTS);
}

uint32_t planned_round(uint32_t turn)
{
    return turn / MAP_COUNTS % MAP_ROUNDS;
}

static uint32_t planned_entry(enum map_kind kind, uint32_t turn, uint32_t place)
{
    uint32_t round = planned_round(turn);
    uint32_t cycle = turn / (MAP_COUNTS * MAP_ROUNDS);
    if (round < MAPPABLE)
        return mappable[kind][(round + place) % MAPPABLE];
    return mappable[kind][(planned_count(turn) + cycle) % MAPPABLE];
}

static void build_planned_map(struct maker *m, enum map_kind kind, uint32_t turn, uint8_t count)
{
    uint32_t entries[MAP_ENTRIES];
    for (uint32_t i = 0; i < MAP_ENTRIES; i++)
        entries[i] = planned_entry(kind, turn, i);
    build_map(m, kind, entries, count);
}

static void emit_map_read(struct maker *m, enum map_kind kind, uint8_t sub)
{
    emit_read(m, map_object(kind), sub);
}

/* Every count in every state; then one entry is read. */
void play_planned_map(struct maker *m, enum map_kind kind, uint32_t turn)
{
    uint32_t shift = planned_count(turn) + planned_round(turn);
    steer_to(m, (enum device_state)(shift % STATES));
    build_planned_map(m, kind, turn, planned_count(turn));
    emit_map_read(m, kind, (uint8_t)(shift % MAP_COUNTS));
}

/* ---- Turns of what is refused ---- */

/* The maps by turns; the states shift with each round of both. */
static enum map_kind map_of_turn(uint32_t turn)
{
    return (enum map_kind)(turn % MAPS);
}

static void steer_by_turn(struct maker *m, uint32_t turn)
{
    uint32_t round = turn / MAPS;
    steer_to(m, (enum device_state)((round + round / MAP_ENTRIES) % STATES));
}

/* ---- Entries that may not be mapped ---- */

/* Wrong bits, wrong sub-index, of the other direction, an object that is never
 * mapped, no object. */
enum { WRONG_ENTRIES = 18 };
static const uint32_t wrong_entries[MAPS][WRONG_ENTRIES] = {
    [RECEIVE_MAP] = {0x60400008, 0x60400020, 0x60400002, 0x63000108, 0x63140120, 0x63000102,
                     0x60400000, 0x60400110, 0x63000010, 0x63140210, 0x60410010, 0x604e0010,
                     0x63100110, 0x63200110, 0x60420010, 0x00000010, 0x10004060, 0xe0400010},
    [TRANSMIT_MAP] = {0x60410008, 0x60410020, 0x604e0002, 0x63100108, 0x63100120, 0x63100102,
                      0x60410000, 0x604e0110, 0x63100010, 0x63100210, 0x60400010, 0x63000110,
                      0x63140110, 0x63200110, 0x60420010, 0x00000010, 0x10004160, 0xe0410010},
};

static void scene_map_wrong_entries(struct maker *m)
{
    uint32_t turn = next_turn(m, SWEEP_MAP_WRONG_ENTRIES);
    enum map_kind kind = map_of_turn(turn);
    steer_by_turn(m, turn);
    open_map(m, kind);
    for (uint32_t i = 0; i < WRONG_ENTRIES; i++) {
        uint8_t sub = (uint8_t)(1 + (turn / MAPS + i) % MAP_ENTRIES);
        emit_map_entry(m, kind, sub, wrong_entries[kind][i]);
    }
}

/* ---- Entries written while the map is counted ---- */

/* The value that stands there, zero, one that could be mapped, one that never could. */
static uint32_t pick_refused_entry(struct maker *m, enum map_kind kind, uint8_t sub,
                                   uint32_t choice)
{
    switch (choice % 4) {
    case 0:
        return map_now(m, kind)->entry[sub - 1];
    case 1:
        return 0;
    case 2:
        return PICK(m, mappable[kind]);
    default:
        return PICK(m, wrong_entries[kind]);
    }
}

/* In turn each map, with every count from 1 on and in every state. */
static void scene_map_locked(struct maker *m)
{
    uint32_t turn = next_turn(m, SWEEP_MAP_LOCKED);
    enum map_kind kind = map_of_turn(turn);
    uint32_t round = turn / MAPS;
    uint8_t count = (uint8_t)(1 + round % MAP_ENTRIES);
    steer_by_turn(m, turn);
    build_planned_map(m, kind, round, count);
    for (uint8_t sub = 1; sub <= MAP_ENTRIES; sub++) {
        uint32_t entry = pick_refused_entry(m, kind, sub, round + sub);
        emit_map_entry(m, kind, sub, entry);
    }
}

/* ---- Numbers of entries that are refused ---- */

/* In turn each map: less counted and more; then with each entry cleared, which may not
 * be counted, and with a fifth. */
static void scene_map_counts(struct maker *m)
{
    uint32_t turn = next_turn(m, SWEEP_MAP_COUNTS);
    enum map_kind kind = map_of_turn(turn);
    uint8_t cleared = (uint8_t)(1 + turn / MAPS % MAP_ENTRIES);
    int64_t highest = turn / MAPS % 2 == 0 ? MAP_ENTRIES + 1 : UINT8_MAX;
    steer_by_turn(m, turn);
    build_planned_map(m, kind, turn, MAP_ENTRIES);
    emit_count(m, kind, (uint8_t)between(m, 1, MAP_ENTRIES - 1));
    emit_count(m, kind, MAP_ENTRIES);
    open_map(m, kind);
    emit_map_entry(m, kind, cleared, 0);
    emit_count(m, kind, (uint8_t)between(m, cleared, MAP_ENTRIES));
    emit_count(m, kind, (uint8_t)between(m, MAP_ENTRIES + 1, highest));
    emit_count(m, kind, (uint8_t)(cleared - 1));
    emit_count(m, kind, MAP_ENTRIES);
    emit_count(m, kind, UINT8_MAX);
}

/* ---- Writes of a wrong length ---- */

static void emit_map_sized(struct maker *m, enum map_kind kind, uint8_t sub, size_t size,
                           uint32_t data)
{
    emit_sized_write(m, map_object(kind), sub, size, data);
}

static void emit_wrong_entry_sizes(struct maker *m, enum map_kind kind, uint8_t sub)
{
    for (size_t size = 1; size < 4; size++) {
        uint32_t entry = pick_refused_entry(m, kind, sub, (uint32_t)size + sub);
        emit_map_sized(m, kind, sub, size, entry);
    }
}

/* A number of entries too high, or that counts the last, which is zero; then entries
 * while they may be written and while not. */
static void scene_map_sizes(struct maker *m)
{
    uint32_t turn = next_turn(m, SWEEP_MAP_SIZES);
    enum map_kind kind = map_of_turn(turn);
    uint32_t entry = PICK(m, mappable[kind]);
    steer_by_turn(m, turn);
    open_map(m, kind);
    emit_map_entry(m, kind, 1, entry);
    emit_map_entry(m, kind, MAP_ENTRIES, 0);
    emit_map_sized(m, kind, 0, 2, MAP_ENTRIES + 1);
    emit_map_sized(m, kind, 0, 3, MAP_ENTRIES);
    emit_map_sized(m, kind, 0, 4, UINT32_MAX);
    emit_wrong_entry_sizes(m, kind, 1);
    emit_wrong_entry_sizes(m, kind, 2);
    emit_count(m, kind, 1);
    emit_wrong_entry_sizes(m, kind, 3);
    emit_wrong_entry_sizes(m, kind, 4);
}

/* ---- Beyond the map ---- */

/* Sub-indexes that a map lacks, and what stands beside it in CiA 301 but not here. */
static void scene_map_beyond(struct maker *m)
{
    static const uint8_t subs[] = {MAP_ENTRIES + 1, UINT8_MAX};
    static const uint16_t indexes[MAPS][3] = {
        [RECEIVE_MAP] = {0x15ff, 0x1601, 0x1400},
        [TRANSMIT_MAP] = {0x19ff, 0x1a01, 0x1800},
    };
    uint32_t turn = next_turn(m, SWEEP_MAP_BEYOND);
    enum map_kind kind = map_of_turn(turn);
    steer_by_turn(m, turn);
    for (size_t i = 0; i < 2; i++) {
        emit_map_read(m, kind, subs[i]);
        emit_map_sized(m, kind, subs[i], 4, mappable[kind][0]);
    }
    for (size_t i = 0; i < 3; i++) {
        uint8_t command = one_in(m, 2) ? READ : WRITE_1;
        emit_sdo(m, command, indexes[kind][i], 0, 0);
    }
}

/* ---- All of them in turn ---- */

static void scene_process_data_rare(struct maker *m)
{
    static void (*const rare[])(struct maker *) = {
        scene_received_words,
        scene_map_wrong_entries,
        scene_map_sizes,
        scene_map_beyond,
    };
    uint32_t turn = next_turn(m, SWEEP_PROCESS_DATA_RARE);
    rare[turn % (sizeof rare / sizeof rare[0])](m);
}

/* Each as often as it has things to go through. */
void scene_process_data(struct maker *m)
{
    static void (*const parts[])(struct maker *) = {
        scene_receive,    scene_send,    scene_map_locked, scene_receive,
        scene_send,       scene_receive, scene_map_counts, scene_send,
        scene_receive,    scene_send,    scene_map_locked, scene_process_data_rare,
        scene_map_counts, scene_receive, scene_send,       scene_process_data_rare,
    };
    uint32_t turn = next_turn(m, SWEEP_PROCESS_DATA);
    parts[turn % (sizeof parts / sizeof parts[0])](m);
}
