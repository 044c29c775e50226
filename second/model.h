/* The device of document 01, with wishes 1 to 6 of document 02: what the other files may know
 * of it. */
#ifndef SECOND_MODEL_H
#define SECOND_MODEL_H

#include <stdbool.h>
#include <stddef.h>
#include <stdint.h>

/* Numbers that stay fixed. */
enum {
    FULL_STROKE = 16384,       /* in ir */
    PER_IR = 65536,            /* units of the ramp position in one ir */
    FULL_POSITION = 1073741824 /* full stroke as a ramp position */
};

enum device_state { DISABLED, HOLD, ACTIVE, FAULT, STATES };

/* The two blocks have the same settings and rules. One is selected and drives the command. */
enum block_kind { POSITION_BLOCK, PRESSURE_BLOCK, BLOCKS };

/* The 17 settings of a block by place. Those of the position block are stored: the tag of a
 * setting is its place plus one. */
enum setting {
    HOLD_SET_POINT,
    UPPER_LIMIT,
    LOWER_LIMIT,
    SCALING_FACTOR,
    SCALING_OFFSET,
    ZERO_CORRECTION,
    RAMP_TYPE,
    ACCELERATION_ONE,
    ACCELERATION_POSITIVE,
    ACCELERATION_NEGATIVE,
    DECELERATION_ONE,
    DECELERATION_POSITIVE,
    DECELERATION_NEGATIVE,
    DEAD_BAND_TYPE,
    DEAD_BAND_A_SIDE,
    DEAD_BAND_B_SIDE,
    DEAD_BAND_THRESHOLD,
    SETTINGS
};

/* The dither's values by place. The stored image has none of them. */
enum dither_value { DITHER_TYPE, DITHER_AMPLITUDE, DITHER_FREQUENCY, DITHER_VALUES };

/* Process data: what is received and what is sent. */
enum map_kind { RECEIVE_MAP, TRANSMIT_MAP, MAPS };
enum { MAP_ENTRIES = 4 };

/* An entry is index, sub-index and length in bits, from the high end down. */
struct map {
    uint8_t count; /* so many entries act, from the first on */
    uint32_t entry[MAP_ENTRIES];
};

/* Settings and the dither's values are 64 bits wide, so that one type holds I8, I16, U16 and U32
 * alike and a value outside its range can be written down and found unsound. The set point is
 * wider than its I16 for the same reason, and the selection is a number and no truth value. */
struct block {
    int32_t set_point;
    int32_t position;
    int64_t setting[SETTINGS];
};

struct device {
    uint8_t state;
    uint8_t selected; /* the block that drives the command; the other's position is 0 */
    uint16_t control_word;
    uint16_t error_code;
    struct block block[BLOCKS];
    struct map map[MAPS];
    int64_t dither[DITHER_VALUES];
    uint32_t phase; /* of the dither; it runs over its end on purpose */
};

/* Numbers handed back. */
enum number {
    DONE,
    STATE_NOT_SOUND,
    REQUEST_NOT_EIGHT,
    ROOM_SHORT, /* under eight for a reply, or under its map's length for a PDO */
    NO_REPLY_DUE,
    FAULT_CODE_ZERO,
    IMAGE_ROOM_UNDER_97,
    NOT_A_FULL_IMAGE, /* of a search: a field cut short */
    IMAGE_VALUE_OUT_OF_RANGE,
    LOAD_OUTSIDE_DISABLED,
    TAG_NOT_FOUND,
    PDO_SHORT = 14, /* 11 to 13 are not given */
    NUMBERS
};

/* Objects. */
enum object_form { VARIABLE, RECORD, TIME_RECORD, MAP_RECORD };
enum object_type { I8, U8, I16, U16, U32 };
enum object_access { READ_ONLY, READ_WRITE };
enum object_lock { NO_LOCK, LOCK_IN_ACTIVE, LOCK_OUTSIDE_DISABLED };

/* What an object shows: one of its block's settings, or one of these. */
enum {
    SELECTION = SETTINGS,
    CONTROL_WORD,
    STATUS_WORD,
    ERROR_CODE,
    SET_POINT, /* of its block, as is the command */
    COMMAND,
    RECEIVE_MAPPING,
    TRANSMIT_MAPPING,
    SHOWN_DITHER_TYPE, /* the dither's values in the order of their places */
    SHOWN_DITHER_AMPLITUDE,
    SHOWN_DITHER_FREQUENCY
};

struct object {
    uint16_t index;
    uint8_t form;
    uint8_t type;
    uint8_t access;
    uint8_t lock; /* in which states it is not to be written */
    int64_t low;
    int64_t high;
    int64_t fresh;
    uint8_t value; /* which value it shows */
};

/* The objects of a block stand once, under the index that the position block has them at: the
 * pressure block has each of them 80h above. */
enum { OBJECTS = 28, FIRST_BLOCK_ROW = 6, BLOCK_ROWS = 19, BLOCK_OFFSET = 0x80 };
extern const struct object objects[OBJECTS];

/* What an index names. */
struct found {
    const struct object *object; /* NULL where there is none */
    enum block_kind block;       /* whose object it is, where it is one of a block */
};

struct found object_find(uint16_t index);
uint16_t object_index(struct found found);

/* Every object that there is: the rows, and then once more those of the pressure block. */
enum { ALL_OBJECTS = OBJECTS + BLOCK_ROWS };
struct found object_at(size_t place);

const struct object *object_of_setting(size_t place);
const struct object *object_of_dither(size_t place);
size_t object_size(const struct object *object); /* of its value, in bytes */
size_t object_entry_size(const struct object *object, uint8_t sub);
uint8_t object_top_sub(const struct object *object);
int64_t object_value(const struct object *object, const uint8_t *bytes); /* by its type */

/* SDO. */
enum { SDO_SIZE = 8 };
enum sdo_command {
    READ = 0x40,
    WRITE_1 = 0x2f,
    WRITE_2 = 0x2b,
    WRITE_3 = 0x27,
    WRITE_4 = 0x23,
    WRITTEN = 0x60,
    READ_1 = 0x4f,
    READ_2 = 0x4b,
    READ_4 = 0x43,
    ABORT = 0x80
};
enum abort_code {
    NO_ABORT = 0,
    ABORT_COMMAND = 0x05040001,
    ABORT_NO_OBJECT = 0x06020000,
    ABORT_NO_SUB_INDEX = 0x06090011,
    ABORT_READ_ONLY = 0x06010002,
    ABORT_TOO_LONG = 0x06070012,
    ABORT_TOO_SHORT = 0x06070013,
    ABORT_VALUE = 0x06090030,
    ABORT_TOO_HIGH = 0x06090031,
    ABORT_TOO_LOW = 0x06090032,
    ABORT_LIMITS = 0x06090036,
    ABORT_LOCKED = 0x08000022,
    ABORT_MAP_TOO_LONG = 0x06040042,
    ABORT_NOT_MAPPABLE = 0x06040041
};

/* What a sending gave: how many bytes were written, 0 beside a refusal. */
struct sent {
    enum number number;
    size_t size;
};

/* Stored image. */
enum { IMAGE_SIZE = 97, FIELD_HEAD = 3 };
struct part {
    enum number number;
    size_t start;
    size_t size;
};

/* Queries. */
enum query {
    QUERY_STATE,
    QUERY_STATUS,
    QUERY_ERROR,
    QUERY_POSITION,
    QUERY_TARGET,
    QUERY_COMMAND,
    QUERY_TICKS_TO_GO,
    QUERIES
};
struct answer {
    enum number number;
    int64_t value;
};

struct device device_fresh(void);
bool device_sound(const struct device *device);
bool device_equal(const struct device *a, const struct device *b);
bool block_equal(const struct block *a, const struct block *b);
enum block_kind other_block(enum block_kind block);

/* Each of these changes the device and the buffer only when it gives DONE. */
enum number device_control(struct device *device, uint16_t word);
enum number device_fault(struct device *device, uint16_t code);
enum number device_tick(struct device *device);
enum number device_jump(struct device *device, uint32_t ticks);
enum number device_sdo(struct device *device, const uint8_t *request, size_t request_size,
                       uint8_t *reply, size_t room);
enum number device_store(const struct device *device, uint8_t *image, size_t room);
enum number device_load(struct device *device, const uint8_t *image, size_t size);
enum number device_receive(struct device *device, const uint8_t *pdo, size_t size);
struct sent device_send(const struct device *device, uint8_t *pdo, size_t room);

struct part image_find(uint8_t tag, const uint8_t *image, size_t size);
struct answer device_query(const struct device *device, enum query query);

#endif
