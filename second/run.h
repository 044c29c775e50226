/* The event records of README and a run of them. */
#ifndef SECOND_RUN_H
#define SECOND_RUN_H

#include <stdio.h>

#include "model.h"

enum { RECORD_SIZE = 16 };

enum event_kind {
    EVENT_FRESH,
    EVENT_SDO,
    EVENT_CONTROL,
    EVENT_FAULT,
    EVENT_TICK,
    EVENT_JUMP,
    EVENT_STORE,
    EVENT_LOAD,
    EVENT_FIND,
    EVENT_QUERY,
    EVENT_UNSOUND,
    EVENT_TICKS,
    EVENT_PATCH,
    EVENT_WIDE,
    EVENT_APPEND,
    EVENT_BROKEN,
    EVENT_RECEIVE,
    EVENT_SEND,
    EVENT_KINDS
};

/* What `small` of a load says. */
enum load_kind { LOAD_AS_IT_IS, LOAD_CUT, LOAD_BYTE_REPLACED, LOAD_BYTE_MORE };

/* What `small` of an unsound event says. Position, setting and limits are those of the selected
 * block. */
enum unsound_kind {
    UNSOUND_STATE,
    UNSOUND_ERROR_CODE,
    UNSOUND_POSITION,
    UNSOUND_SETTING,
    UNSOUND_LIMITS,
    UNSOUND_POSITION_BY_STATE,
    UNSOUND_KINDS
};

/* What `small` of a broken event says. Setting, position and set point are those of the selected
 * block. */
enum broken_kind {
    BROKEN_SETTING_ABOVE, /* one above its range */
    BROKEN_SETTING_BELOW,
    BROKEN_SETTING_MOST, /* of 64 bits */
    BROKEN_SETTING_LEAST,
    BROKEN_POSITION,
    BROKEN_POSITION_BY_STATE,
    BROKEN_SET_POINT_ABOVE,
    BROKEN_SET_POINT_BELOW,
    BROKEN_MAP_COUNT_5,
    BROKEN_MAP_COUNT_255,
    BROKEN_MAP_ENTRY_OTHER, /* of the other direction */
    BROKEN_MAP_ENTRY_ZERO,  /* and counted */
    BROKEN_DITHER_ABOVE,    /* one above its range */
    BROKEN_DITHER_MINUS_1,
    BROKEN_DITHER_MOST, /* of 64 bits */
    BROKEN_DITHER_LEAST,
    BROKEN_PHASE_IN_DISABLED,
    BROKEN_PHASE_IN_FAULT,
    BROKEN_SELECTION_2,
    BROKEN_SELECTION_255,
    BROKEN_OTHER_POSITION_1, /* "other": of the block that is not selected */
    BROKEN_OTHER_POSITION_MINUS_1,
    BROKEN_OTHER_SETTING_ABOVE,
    BROKEN_OTHER_SETTING_BELOW,
    BROKEN_OTHER_LIMITS,
    BROKEN_OTHER_SET_POINT_ABOVE,
    BROKEN_OTHER_SET_POINT_BELOW,
    BROKEN_STATE, /* every higher number too */
    BROKEN_KINDS
};

/* What `number` of an unsound or broken event says. */
enum unsound_call {
    CALL_SDO,
    CALL_CONTROL,
    CALL_FAULT,
    CALL_TICK,
    CALL_JUMP,
    CALL_STORE,
    CALL_LOAD,
    CALL_QUERY,
    CALL_RECEIVE,
    CALL_SEND,
    CALLS
};

enum {
    SDO_ROOM_MOST = 12,
    WIDE_MOST = 12,    /* bytes of a wide request, or of a PDO received */
    PDO_ROOM_MOST = 12,
    APPEND_MOST = 255, /* bytes more of an appended load */
    STORE_ROOM_MOST = 100,
    ROOM_FILL = 0xaa
};

struct record {
    uint8_t kind;
    uint8_t small;
    uint16_t word;
    uint32_t number;
    uint8_t bytes[SDO_SIZE];
};

/* Which entry of which map a broken event is about. */
struct map_place {
    enum map_kind kind;
    size_t entry; /* from 0 */
};

struct run {
    struct device device;
    uint8_t image[IMAGE_SIZE];
};

/* What a load or append event hands to the call. */
struct load {
    size_t size;
    uint8_t bytes[IMAGE_SIZE + APPEND_MOST];
};

/* What an event gave; which members count depends on the kind. */
struct outcome {
    uint8_t number;
    size_t place;      /* of a find or a patch */
    size_t byte_count; /* of the room, or of the found part */
    size_t sent;       /* so many bytes of the room were written by a send */
    uint8_t bytes[STORE_ROOM_MOST];
    struct answer query[QUERIES];
    bool same; /* of a broken device: handed back as it was */
    bool kept; /* of a broken device: the room left as it was */
};

size_t at_most(size_t value, size_t most);

struct run run_begin(void);
struct load load_of(const uint8_t *image, const struct record *record);
void wide_bytes(const struct record *record, uint8_t bytes[WIDE_MOST]);
struct map_place broken_place(const struct record *record);
struct outcome run_event(struct run *run, const struct record *record);

/* Reads one record; gives the number of bytes met, RECORD_SIZE for a whole one. */
size_t record_read(FILE *file, struct record *record);
void record_write(FILE *file, const struct record *record);

#endif
