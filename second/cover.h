/* What the files of `second cover` share. */
#ifndef SECOND_COVER_H
#define SECOND_COVER_H

#include "run.h"

/* What one event did. */
struct seen {
    const struct record *record;
    const struct outcome *outcome;
    const struct device *before;
    const struct device *after;
    const uint8_t *image; /* the run's, before the event */
};

extern const char *const state_names[STATES];
extern const char *const block_names[BLOCKS];

/* What the names of a block's items begin with; nothing for the position block. */
extern const char *const block_prefixes[BLOCKS];

const struct block *selected_of(const struct device *device);
bool is_idle(const struct device *device); /* in DISABLED or FAULT */

/* The events that may leave alone what they are not about; each has a place of its own. */
enum { KEEPERS = 10 };
struct keeper {
    uint8_t kind;
    const char *name;
};
extern const struct keeper keepers[KEEPERS];

/* What tells a value of the device. */
enum teller { BY_QUERY, BY_READ, BY_SEND, TELLERS };
extern const char *const teller_names[TELLERS];

enum { MAPPED_OBJECTS = 3 }; /* so many may be received, and so many sent */

/* A request of eight bytes that was done, and what came of it. */
struct request {
    uint8_t command;
    uint16_t index;
    uint8_t sub;
    uint32_t data;
    uint32_t code; /* of the abort; 0 for none */
    size_t size;   /* of a write; 0 for a read */
};
struct request request_of(const struct seen *seen);
uint16_t word_at(const uint8_t *bytes);   /* two of them, low first */
int64_t signed_word_at(const uint8_t *bytes);
uint32_t number_at(const uint8_t *bytes); /* four of them, low first */

enum access { READ_ACCESS, WRITE_ACCESS, ACCESSES };
extern const char *const access_names[ACCESSES];
enum access access_of(const struct request *request);

/* The abort codes, written out and not taken from the model: a mistake there leaves items
 * missing. */
enum {
    CODE_OBJECT = 0x06020000,
    CODE_SUB_INDEX = 0x06090011,
    CODE_READ_ONLY = 0x06010002,
    CODE_LONG = 0x06070012,
    CODE_SHORT = 0x06070013,
    CODE_ANOTHER = 0x06090030,
    CODE_HIGH = 0x06090031,
    CODE_LOW = 0x06090032,
    CODE_CROSSED = 0x06090036,
    CODE_LOCKED = 0x08000022,
    CODE_COUNT = 0x06040042,
    CODE_ENTRY = 0x06040041
};

/* One item of the list; its name is a format of printf. */
void list_item(uint64_t count, const char *format, ...);

/* Stored image: stores, loads, patches and searches. */
void count_image_event(const struct seen *seen);
void list_image_items(void);

/* Writes of a wrong length; the code is that of the abort seen. */
void count_length_abort(const struct seen *seen, struct found found, uint32_t code);
void list_length_items(void);

/* Maps: a request that was done, an abort included. */
void count_map_request(const struct seen *seen);
void list_map_items(void);

/* PDOs, and events that leave the maps alone. */
void count_pdo_event(const struct seen *seen);
void list_pdo_items(void);

/* Dither: the wave and the command with it. The phase is counted apart, of events after which it
 * is where it should be; `advance` is what one tick adds to it. */
void count_dither_event(const struct seen *seen);
void list_dither_items(void);

/* The command as it should be, of the run's device before the event that is counted. */
int64_t command_wanted(const struct device *device);
void count_phase_event(const struct seen *seen, uint64_t advance);
void list_phase_items(void);

/* The objects of dither: a request that was done, an abort included. */
void count_dither_request(const struct seen *seen);
void list_dither_object_items(void);

/* The objects of both blocks, and 2000h: a request that was done, an abort included. */
void count_block_request(const struct seen *seen);
void list_block_object_items(void);
void count_selection_request(const struct seen *seen);
void list_selection_items(void);

/* The two blocks side by side. The target as it should be is in ir. */
void count_blocks_event(const struct seen *seen);
void list_blocks_items(void);
bool are_blocks_unlike(const struct device *device); /* and both set */
int64_t target_wanted(const struct block *block, uint8_t state);

/* Ramps: ticks, jumps and the ticks to go that were told. */
void count_ramp_event(const struct seen *seen);
void list_ramp_items(void);

/* Numbers handed back and soundness. */
void count_refusals(const struct seen *seen);
void list_refusal_items(void);

#endif
