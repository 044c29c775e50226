/* The scenes of PDOs: received and sent, with what is too short for their maps. */
#include "maker.h"

enum { MAPPED_SIZE = 2 }; /* bytes of every object that can be mapped */

static size_t pdo_size(const struct maker *m, enum map_kind kind)
{
    return (size_t)m->run.device.map[kind].count * MAPPED_SIZE;
}

/* ---- Receiving ---- */

static bool is_control_word(uint32_t entry)
{
    return entry == mappable[RECEIVE_MAP][0];
}

/* A control word, or a set point of either kind, its ends more often. */
static uint16_t pick_received(struct maker *m, uint32_t entry)
{
    static const uint16_t words[] = {0, 1, 3, 5, 7, 7, 7, 8, 9, 15};
    if (is_control_word(entry)) {
        uint16_t word = PICK(m, words);
        return one_in(m, 2) ? (uint16_t)(word | (draw(m) & 0xfff0u)) : word;
    }
    if (one_in(m, 3))
        return (uint16_t)(one_in(m, 2) ? INT16_MAX : INT16_MIN);
    return (uint16_t)pick_ir(m);
}

static void put_received(struct record *record, size_t place, uint16_t value)
{
    record->bytes[MAPPED_SIZE * place] = (uint8_t)value;
    record->bytes[MAPPED_SIZE * place + 1] = (uint8_t)(value >> 8);
}

/* The bytes behind the map's hold anything. */
static void emit_pdo(struct maker *m, size_t size)
{
    const struct map *map = &m->run.device.map[RECEIVE_MAP];
    struct record record = make(m, EVENT_RECEIVE);
    for (size_t i = 0; i < map->count; i++) {
        uint16_t value = pick_received(m, map->entry[i]);
        put_received(&record, i, value);
    }
    record.small = (uint8_t)size;
    emit(m, &record);
}

/* Longer than any map's: up to twelve bytes, and what means twelve. */
static size_t pick_long(struct maker *m)
{
    int64_t most = one_in(m, 4) ? UINT8_MAX : WIDE_MOST;
    return (size_t)between(m, SDO_SIZE + 1, most);
}

/* What the entry is about, counted or not: a set point received shows in no state. */
static void read_mapped(struct maker *m, size_t place)
{
    uint32_t entry = m->run.device.map[RECEIVE_MAP].entry[place % MAP_ENTRIES];
    if (entry == 0)
        entry = mappable[RECEIVE_MAP][place % MAPPABLE];
    emit_sdo(m, READ, (uint16_t)(entry >> 16), (uint8_t)(entry >> 8), 0);
}

/* In turn maps of every count in every state: too short, as long as the map, longer.
 * What the first entry did is read, and that the first behind the map did nothing. */
void scene_receive(struct maker *m)
{
    uint32_t turn = next_turn(m, SWEEP_RECEIVES);
    bool by_one = planned_round(turn) % 2 == 0;
    play_planned_map(m, RECEIVE_MAP, turn);
    size_t size = pdo_size(m, RECEIVE_MAP);
    size_t long_size = pick_long(m);
    if (size > 0)
        emit_pdo(m, by_one ? size - 1 : 0);
    emit_pdo(m, size);
    read_mapped(m, 0);
    emit_pdo(m, by_one ? size + 1 : long_size);
    read_mapped(m, planned_count(turn));
}

/* ---- Control words received ---- */

static void emit_words(struct maker *m, uint16_t first, uint16_t second)
{
    struct record record = make(m, EVENT_RECEIVE);
    put_received(&record, 0, first);
    put_received(&record, 1, second);
    record.small = (uint8_t)pdo_size(m, RECEIVE_MAP);
    emit(m, &record);
}

/* Every move and every state kept, by one word in each PDO; at times with a set point behind. */
static void receive_single_words(struct maker *m)
{
    static const uint16_t words[] = {6, 1, 1, 7, 7, 5, 7, 0, 3, 2};
    static const uint16_t words_in_fault[] = {8, 1, 8};
    const uint32_t entries[] = {mappable[RECEIVE_MAP][0], mappable[RECEIVE_MAP][1]};
    uint8_t count = one_in(m, 2) ? 1 : 2;
    steer_to_disabled(m);
    build_map(m, RECEIVE_MAP, entries, count);
    for (size_t i = 0; i < sizeof words / sizeof words[0]; i++) {
        uint16_t set_point = (uint16_t)pick_ir(m);
        emit_words(m, words[i], set_point);
    }
    emit_word(m, EVENT_FAULT, 1);
    emit_words(m, 8, 0);
    emit_word(m, EVENT_FAULT, 1);
    for (size_t i = 0; i < sizeof words_in_fault / sizeof words_in_fault[0]; i++)
        emit_words(m, words_in_fault[i], 0);
}

/* Two moves by one PDO: the words of the other order would lead elsewhere. */
static void receive_word_pairs(struct maker *m)
{
    static const uint16_t pairs[][2] = {{7, 7}, {1, 7}, {0, 1}, {7, 0}};
    const uint32_t entries[] = {mappable[RECEIVE_MAP][0], mappable[RECEIVE_MAP][0]};
    steer_to_disabled(m);
    build_map(m, RECEIVE_MAP, entries, 2);
    for (size_t i = 0; i < sizeof pairs / sizeof pairs[0]; i++)
        emit_words(m, pairs[i][0], pairs[i][1]);
    emit_word(m, EVENT_FAULT, 1);
    emit_words(m, 0, 8);
    emit_word(m, EVENT_FAULT, 1);
    emit_words(m, 8, 8);
    emit_words(m, 0, 8);
}

void scene_received_words(struct maker *m)
{
    uint32_t turn = next_turn(m, SWEEP_RECEIVED_WORDS);
    if (turn % 2 == 0)
        receive_single_words(m);
    else
        receive_word_pairs(m);
}

/* ---- Sending ---- */

static void emit_send(struct maker *m, size_t room)
{
    emit_word(m, EVENT_SEND, (uint16_t)room);
}

/* A new target, mostly not 0, and at once there. */
static void move_to_target(struct maker *m)
{
    if (one_in(m, 3))
        plain_scaling(m);
    scene_target(m);
    emit_jump(m, ticks_left(&m->run.device));
}

/* What is sent changes: the status word, the error code or the command. */
static void change_what_is_sent(struct maker *m)
{
    if (moving_state(m) && !one_in(m, 4)) {
        move_to_target(m);
        return;
    }
    switch (below(m, 3)) {
    case 0:
        emit_word(m, EVENT_FAULT, (uint16_t)between(m, 1, UINT16_MAX));
        break;
    case 1:
        steer_to_disabled(m);
        break;
    default:
        emit_control(m, 1);
    }
}

/* In turn maps of every count in every state: rooms too short, as long as the map, longer. */
void scene_send(struct maker *m)
{
    uint32_t turn = next_turn(m, SWEEP_SENDS);
    bool by_one = planned_round(turn) % 2 == 0;
    play_planned_map(m, TRANSMIT_MAP, turn);
    if (moving_state(m))
        move_to_target(m);
    size_t size = pdo_size(m, TRANSMIT_MAP);
    size_t long_size = one_in(m, 4) ? UINT16_MAX : pick_long(m);
    if (size > 0)
        emit_send(m, by_one ? size - 1 : 0);
    emit_send(m, size);
    change_what_is_sent(m);
    emit_send(m, by_one ? size + 1 : long_size);
}

/* ---- Any ---- */

/* Whatever the maps are: PDOs and rooms of every length. */
void scene_any_pdo(struct maker *m)
{
    size_t size = below(m, WIDE_MOST + 2);
    if (one_in(m, 2))
        emit_pdo(m, size);
    else
        emit_send(m, size);
}
