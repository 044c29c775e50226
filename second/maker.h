/* The maker of event files: chance, values, events and steering, shared by the scenes.
 *
 * The maker runs the model along, so that it can steer to the states worth
 * meeting and knows the ticks to go. Every draw of a random number stands in a
 * statement of its own: C leaves the order within an expression open, and the
 * file shall be the same on every machine. */
#ifndef SECOND_MAKER_H
#define SECOND_MAKER_H

#include "run.h"

/* What is gone through in turn, so that nothing is left to chance alone. */
enum sweep {
    SWEEP_ENTRIES,
    SWEEP_WRONG_LENGTHS,
    SWEEP_COMMANDS,
    SWEEP_RANGE_ENDS,
    SWEEP_RAMP_TYPES,
    SWEEP_ACROSS_ZERO,
    SWEEP_ROOMS,
    SWEEP_WIDE,
    SWEEP_NO_FAULT_STATES,
    SWEEP_UNSOUND,
    SWEEP_BROKEN,
    SWEEP_STORE_ROOMS,
    SWEEP_LOAD_CUTS,
    SWEEP_LOAD_STATES,
    SWEEP_LOADED_VALUES,
    SWEEP_DAMAGES,
    SWEEP_APPENDS,
    SWEEP_FINDS,
    SWEEP_PROCESS_DATA,
    SWEEP_PROCESS_DATA_RARE,
    SWEEP_MAP_LOCKED,
    SWEEP_MAP_COUNTS,
    SWEEP_MAP_WRONG_ENTRIES,
    SWEEP_MAP_SIZES,
    SWEEP_MAP_BEYOND,
    SWEEP_RECEIVES,
    SWEEP_RECEIVED_WORDS,
    SWEEP_SENDS,
    SWEEP_DITHER_TELLS,
    SWEEP_DITHER_CORNERS,
    SWEEP_DITHER_BANDS,
    SWEEP_DITHER_PHASES,
    SWEEP_DITHER_MOVES,
    SWEEP_DITHER_OBJECTS,
    SWEEP_BROKEN_SETTINGS,
    SWEEP_DEAD_BANDS,
    SWEEP_AT_ONCE,
    SWEEP_SELECTS,
    SWEEP_SELECTIONS,
    SWEEP_BLOCK_OBJECTS,
    SWEEP_BLOCK_LOCKS,
    SWEEP_BLOCK_LIMITS,
    SWEEP_SIDE_BY_SIDE,
    SWEEP_BLOCK_IMAGES,
    SWEEP_BLOCK_BESIDE,
    SWEEPS
};

struct maker {
    uint64_t random;
    uint64_t left; /* events still to be written; none is written at 0 */
    uint32_t turns[SWEEPS];
    struct run run;
};

/* Chance. */
uint64_t draw(struct maker *m);
uint32_t below(struct maker *m, uint32_t bound);
int64_t between(struct maker *m, int64_t low, int64_t high); /* both ends included */
bool one_in(struct maker *m, uint32_t bound);
uint32_t next_turn(struct maker *m, enum sweep sweep); /* 0, 1, 2 and so on */

#define PICK(m, table) ((table)[below((m), sizeof(table) / sizeof((table)[0]))])

/* Blocks and objects. "Now" is what the run's device has. */
const struct block *block_now(const struct maker *m); /* the selected one */
enum block_kind block_of_turn(uint32_t turn); /* the position block in even turns */
enum block_kind block_by_chance(struct maker *m);
struct found setting_of(enum block_kind block, size_t place);
struct found setting_now(const struct maker *m, size_t place); /* of the selected block */
struct found set_point_now(const struct maker *m);
struct found command_now(const struct maker *m);
struct found dither_object(size_t place);

/* Values at the edges. */
uint32_t pick_time(struct maker *m);
int64_t pick_ir(struct maker *m);
int64_t pick_edge(struct maker *m, const struct object *object);
struct found pick_object(struct maker *m);

/* Events. */
struct record make(struct maker *m, uint8_t kind);
void emit(struct maker *m, const struct record *record);
void emit_plain(struct maker *m, uint8_t kind);
void emit_word(struct maker *m, uint8_t kind, uint16_t word);
void set_request(struct record *record, uint8_t command, uint16_t index, uint8_t sub,
                 uint32_t data);
void emit_sdo(struct maker *m, uint8_t command, uint16_t index, uint8_t sub, uint32_t data);
uint8_t write_command(size_t size);
uint8_t value_sub(const struct object *object);
void emit_read(struct maker *m, struct found found, uint8_t sub);
void emit_value_read(struct maker *m, struct found found);
void emit_sized_write(struct maker *m, struct found found, uint8_t sub, size_t size,
                      int64_t value);
void emit_entry_write(struct maker *m, struct found found, uint8_t sub, int64_t value);
void emit_write(struct maker *m, struct found found, int64_t value);
void emit_setting(struct maker *m, enum setting place, int64_t value); /* of the selected block */
void emit_control(struct maker *m, uint16_t bits);
void emit_target(struct maker *m, int64_t ir);
void emit_jump(struct maker *m, uint32_t ticks);
void emit_fault(struct maker *m);

/* Steering. */
bool moving_state(const struct maker *m);
void steer_to_disabled(struct maker *m);
void steer_to_hold(struct maker *m);
void steer_to(struct maker *m, enum device_state state);
void select_block(struct maker *m, enum block_kind block);
void select_by_turn(struct maker *m, uint32_t turn);
void select_by_chance(struct maker *m);
uint32_t ticks_left(const struct device *device);
uint32_t ticks_left_to_zero(struct device copy);

/* Maps. */
enum { MAPPABLE = 3 };
extern const uint32_t mappable[MAPS][MAPPABLE]; /* what may be received, what may be sent */
enum { MAP_COUNTS = MAP_ENTRIES + 1, MAP_ROUNDS = MAPPABLE + 1 };
uint8_t planned_count(uint32_t turn);
uint32_t planned_round(uint32_t turn);
void play_planned_map(struct maker *m, enum map_kind kind, uint32_t turn);
void build_map(struct maker *m, enum map_kind kind, const uint32_t *entries, uint8_t count);

/* Scenes and parts of them that more than one file plays. */
void scene_write_edge(struct maker *m);
void emit_load_as_it_is(struct maker *m);
void scene_target(struct maker *m);
void emit_wrong_lengths(struct maker *m, struct found found, int64_t value);
void plain_scaling(struct maker *m); /* of the selected block */
void plain_scaling_of(struct maker *m, enum block_kind block);

/* Scenes of other files than events.c: of ramps across zero, of the image, of what is refused,
 * of process data, of dither, of the two blocks. */
void scene_at_once(struct maker *m);
void scene_across_zero(struct maker *m);
void scene_store(struct maker *m);
void scene_load(struct maker *m);
void scene_append(struct maker *m);
void scene_loaded_value(struct maker *m);
void scene_damage(struct maker *m);
void scene_find(struct maker *m);
void play_zero_image(struct maker *m);
void scene_sdo_refused(struct maker *m);
void scene_wide(struct maker *m);
void scene_no_fault(struct maker *m);
void scene_unsound(struct maker *m);
void scene_broken(struct maker *m);
void scene_broken_setting(struct maker *m);
void scene_process_data(struct maker *m);
void scene_receive(struct maker *m);
void scene_received_words(struct maker *m);
void scene_send(struct maker *m);
void scene_any_pdo(struct maker *m);
void scene_dither_corners(struct maker *m);
void scene_dither_band(struct maker *m);
void scene_dither_phase(struct maker *m);
void scene_dither_moves(struct maker *m);
void scene_dither_objects(struct maker *m);
void scene_dither_beside(struct maker *m);
void scene_select(struct maker *m);
void scene_selection(struct maker *m);
void scene_block_objects(struct maker *m);
void scene_block_locks(struct maker *m);
void scene_block_limits(struct maker *m);
void scene_side_by_side(struct maker *m);
void scene_block_image(struct maker *m);
void scene_block_beside(struct maker *m);

#endif
