/* Rainsheave for C11, and C++11 or later: the set-point path of a proportional valve's electronics. What each call does is laid down in
 * docs/SCOPE.md; its contract stands in crates/c_api/specs/Exported.antt, and is proved. README.md says how
 * the library, target/staticlib/libc_api.a, is made, for every x86-64. Of the C library it needs memcpy alone.
 *
 * Numbers. Each call that can refuse hands back a number: RAINSHEAVE_NUMBER_DONE, an SDO abort included, or the reason of a refusal. A
 * call that refuses writes nothing: the device and every byte of a lent room are as they were.
 *
 * Pointers and lengths. No pointer is NULL, not even one with the length 0, and one to a device has the alignment of its type. A length is
 * how many bytes from the pointer on may be read or, of a room, written; no others are touched. What a call may write overlaps with
 * nothing else that it is handed. A pointer is used during the call alone. The library allocates nothing and keeps nothing of its own, so
 * calls on different devices may run at the same time; calls on one device may not, an interrupt that calls during a call included. A call
 * takes a few kilobytes of stack, and uses the registers of SSE2.
 *
 * The caller ticks a device once a millisecond. Requests for objects that are not the valve's, as those at 1xxxh but 1600h and 1A00h, are
 * the caller's to serve: here they get RAINSHEAVE_ABORT_NO_OBJECT. */
#ifndef RAINSHEAVE_H
#define RAINSHEAVE_H

#include <assert.h>
#include <stddef.h>
#include <stdint.h>

/* ---- the constants, each with the value that the library's module of that name has */

/* number: what a call hands back */
#define RAINSHEAVE_NUMBER_DONE 0
#define RAINSHEAVE_NUMBER_UNSOUND 1
#define RAINSHEAVE_NUMBER_WRONG_LENGTH 2
#define RAINSHEAVE_NUMBER_NO_ROOM 3
#define RAINSHEAVE_NUMBER_NO_REPLY_DUE 4
#define RAINSHEAVE_NUMBER_NO_FAULT 5
#define RAINSHEAVE_NUMBER_NO_IMAGE_ROOM 6
#define RAINSHEAVE_NUMBER_NOT_FULL 7
#define RAINSHEAVE_NUMBER_FIELD_CUT 7
#define RAINSHEAVE_NUMBER_BAD_VALUE 8
#define RAINSHEAVE_NUMBER_NOT_DISABLED 9
#define RAINSHEAVE_NUMBER_NOT_FOUND 10
#define RAINSHEAVE_NUMBER_SHORT_PDO 14

/* abort: the code in an SDO reply that begins with 80h */
#define RAINSHEAVE_ABORT_UNKNOWN_COMMAND 0x05040001
#define RAINSHEAVE_ABORT_NO_OBJECT 0x06020000
#define RAINSHEAVE_ABORT_NO_SUB_INDEX 0x06090011
#define RAINSHEAVE_ABORT_READ_ONLY_ENTRY 0x06010002
#define RAINSHEAVE_ABORT_TOO_MANY_BYTES 0x06070012
#define RAINSHEAVE_ABORT_TOO_FEW_BYTES 0x06070013
#define RAINSHEAVE_ABORT_TOO_HIGH 0x06090031
#define RAINSHEAVE_ABORT_TOO_LOW 0x06090032
#define RAINSHEAVE_ABORT_NO_SUCH_CHOICE 0x06090030
#define RAINSHEAVE_ABORT_LIMITS_CROSSED 0x06090036
#define RAINSHEAVE_ABORT_LOCKED_NOW 0x08000022
#define RAINSHEAVE_ABORT_MAP_TOO_LONG 0x06040042
#define RAINSHEAVE_ABORT_NOT_MAPPABLE 0x06040041

/* index: the objects; those of the pressure block stand RAINSHEAVE_INDEX_ABOVE above their counterparts */
#define RAINSHEAVE_INDEX_RECEIVE_MAP 0x1600
#define RAINSHEAVE_INDEX_TRANSMIT_MAP 0x1A00
#define RAINSHEAVE_INDEX_SELECTION 0x2000
#define RAINSHEAVE_INDEX_CONTROL_WORD 0x6040
#define RAINSHEAVE_INDEX_STATUS_WORD 0x6041
#define RAINSHEAVE_INDEX_ERROR_CODE 0x604E
#define RAINSHEAVE_INDEX_SET_POINT 0x6300
#define RAINSHEAVE_INDEX_COMMAND 0x6310
#define RAINSHEAVE_INDEX_HOLD_SET_POINT 0x6314
#define RAINSHEAVE_INDEX_UPPER_LIMIT 0x6320
#define RAINSHEAVE_INDEX_LOWER_LIMIT 0x6321
#define RAINSHEAVE_INDEX_SCALING_FACTOR 0x6322
#define RAINSHEAVE_INDEX_SCALING_OFFSET 0x6323
#define RAINSHEAVE_INDEX_ZERO_CORRECTION 0x6324
#define RAINSHEAVE_INDEX_RAMP_TYPE 0x6330
#define RAINSHEAVE_INDEX_ACCELERATION 0x6331
#define RAINSHEAVE_INDEX_ACCELERATION_POSITIVE 0x6332
#define RAINSHEAVE_INDEX_ACCELERATION_NEGATIVE 0x6333
#define RAINSHEAVE_INDEX_DECELERATION 0x6334
#define RAINSHEAVE_INDEX_DECELERATION_POSITIVE 0x6335
#define RAINSHEAVE_INDEX_DECELERATION_NEGATIVE 0x6336
#define RAINSHEAVE_INDEX_DEAD_BAND_TYPE 0x6342
#define RAINSHEAVE_INDEX_A_SIDE 0x6343
#define RAINSHEAVE_INDEX_B_SIDE 0x6344
#define RAINSHEAVE_INDEX_THRESHOLD 0x6345
#define RAINSHEAVE_INDEX_DITHER_TYPE 0x6360
#define RAINSHEAVE_INDEX_DITHER_AMPLITUDE 0x6361
#define RAINSHEAVE_INDEX_DITHER_FREQUENCY 0x6362
#define RAINSHEAVE_INDEX_ABOVE 0x80

/* word: the bits of the control word, the status word of each state, and its bit for a target that is met */
#define RAINSHEAVE_WORD_LEAVE_DISABLED 1
#define RAINSHEAVE_WORD_LEAVE_HOLD 2
#define RAINSHEAVE_WORD_MODE_ACTIVE 4
#define RAINSHEAVE_WORD_RESET_FAULT 8
#define RAINSHEAVE_WORD_STATUS_DISABLED 8
#define RAINSHEAVE_WORD_STATUS_HOLD 9
#define RAINSHEAVE_WORD_STATUS_ACTIVE 15
#define RAINSHEAVE_WORD_STATUS_FAULT 0
#define RAINSHEAVE_WORD_TARGET_MET 256

/* state: what rainsheave_state answers */
#define RAINSHEAVE_STATE_DISABLED 0
#define RAINSHEAVE_STATE_HOLD 1
#define RAINSHEAVE_STATE_ACTIVE 2
#define RAINSHEAVE_STATE_FAULT 3

/* selection: the block of a device that drives the command, by the value of 2000h */
#define RAINSHEAVE_SELECTION_POSITION 0
#define RAINSHEAVE_SELECTION_PRESSURE 1

/* length: the bytes of a request or a reply, those of an image, and the most that a PDO has */
#define RAINSHEAVE_LENGTH_FRAME 8
#define RAINSHEAVE_LENGTH_IMAGE 97
#define RAINSHEAVE_LENGTH_PDO 8

/* place: the library knows a device as so many words of 64 bits, each part of it from this word on */
#define RAINSHEAVE_PLACE_SELECTED_BLOCK 0
#define RAINSHEAVE_PLACE_OTHER_BLOCK 19
#define RAINSHEAVE_PLACE_SELECTED 38
#define RAINSHEAVE_PLACE_STATE 39
#define RAINSHEAVE_PLACE_CONTROL_WORD 40
#define RAINSHEAVE_PLACE_ERROR_CODE 41
#define RAINSHEAVE_PLACE_PHASE 42
#define RAINSHEAVE_PLACE_DITHER 43
#define RAINSHEAVE_PLACE_RECEIVE 46
#define RAINSHEAVE_PLACE_TRANSMIT 51
#define RAINSHEAVE_PLACE_WORDS 56

/* ---- the state */

/* A block: its set point in ir, its position in 1/65,536 ir, and its settings in the order of their tags in an image. */
typedef struct rainsheave_block {
    int64_t set_point;
    int64_t position;
    int64_t settings[17];
} rainsheave_block;

/* A map of process data: how many entries count, and the entries, each its index, sub-index and length in bits, as 60400010h. */
typedef struct rainsheave_map {
    int64_t count;
    int64_t entries[4];
} rainsheave_map;

/* The dither: 0 off, 1 square, 2 triangle; in ir; in Hz. */
typedef struct rainsheave_dither {
    int64_t type;
    int64_t amplitude;
    int64_t frequency;
} rainsheave_dither;

/* A device, which the caller owns. rainsheave_fresh fills it, and the calls below are the way to change it: a device that was changed
 * otherwise may be unsound, which every call on it finds out, and refuses. */
typedef struct rainsheave_device {
    rainsheave_block selected_block;
    rainsheave_block other_block;
    int64_t selected;
    int64_t state;
    int64_t control_word;
    int64_t error_code;
    int64_t phase; /* of the dither; 2^32 to a period */
    rainsheave_dither dither;
    rainsheave_map receive;
    rainsheave_map transmit;
} rainsheave_device;

/* What a query answers: the value, 0 beside a refusal, and the number. */
typedef struct rainsheave_reading {
    int64_t value;
    uint8_t number;
} rainsheave_reading;

/* What was sent: how many bytes were written, 0 beside a refusal, and the number. */
typedef struct rainsheave_sent {
    size_t length;
    uint8_t number;
} rainsheave_sent;

/* What was found: where in the image, how many bytes, both 0 beside a refusal, and the number. */
typedef struct rainsheave_part {
    size_t begin;
    size_t length;
    uint8_t number;
} rainsheave_part;

/* Size and layout are those that the library knows. */
#define RAINSHEAVE_STANDS_AT(part, place) static_assert(offsetof(rainsheave_device, part) == 8 * (place), "the place of " #part)
static_assert(sizeof(size_t) == 8, "the library is for x86-64");
static_assert(sizeof(rainsheave_device) == 8 * RAINSHEAVE_PLACE_WORDS, "the size of a device");
RAINSHEAVE_STANDS_AT(selected_block.set_point, RAINSHEAVE_PLACE_SELECTED_BLOCK);
RAINSHEAVE_STANDS_AT(selected_block.position, RAINSHEAVE_PLACE_SELECTED_BLOCK + 1);
RAINSHEAVE_STANDS_AT(selected_block.settings, RAINSHEAVE_PLACE_SELECTED_BLOCK + 2);
RAINSHEAVE_STANDS_AT(other_block, RAINSHEAVE_PLACE_OTHER_BLOCK);
RAINSHEAVE_STANDS_AT(selected, RAINSHEAVE_PLACE_SELECTED);
RAINSHEAVE_STANDS_AT(state, RAINSHEAVE_PLACE_STATE);
RAINSHEAVE_STANDS_AT(control_word, RAINSHEAVE_PLACE_CONTROL_WORD);
RAINSHEAVE_STANDS_AT(error_code, RAINSHEAVE_PLACE_ERROR_CODE);
RAINSHEAVE_STANDS_AT(phase, RAINSHEAVE_PLACE_PHASE);
RAINSHEAVE_STANDS_AT(dither.type, RAINSHEAVE_PLACE_DITHER);
RAINSHEAVE_STANDS_AT(dither.amplitude, RAINSHEAVE_PLACE_DITHER + 1);
RAINSHEAVE_STANDS_AT(dither.frequency, RAINSHEAVE_PLACE_DITHER + 2);
RAINSHEAVE_STANDS_AT(receive.count, RAINSHEAVE_PLACE_RECEIVE);
RAINSHEAVE_STANDS_AT(receive.entries, RAINSHEAVE_PLACE_RECEIVE + 1);
RAINSHEAVE_STANDS_AT(transmit, RAINSHEAVE_PLACE_TRANSMIT);
static_assert(sizeof(rainsheave_reading) == 16 && offsetof(rainsheave_reading, number) == 8, "a reading");
static_assert(sizeof(rainsheave_sent) == 16 && offsetof(rainsheave_sent, number) == 8, "what was sent");
static_assert(sizeof(rainsheave_part) == 24 && offsetof(rainsheave_part, length) == 8 && offsetof(rainsheave_part, number) == 16, "a part");

#ifdef __cplusplus
extern "C" {
#endif

/* ---- the calls */

/* Fills a device as it is when it is switched on: DISABLED, with every object fresh.
 * Whatever stood there before is overwritten; nothing is refused. */
void rainsheave_fresh(rainsheave_device *device);

/* An SDO request, of eight bytes. The reply, an abort too, goes to the first eight bytes of the room.
 * Refused: UNSOUND, WRONG_LENGTH, NO_ROOM, and NO_REPLY_DUE for a client's abort, in this order. */
uint8_t rainsheave_sdo(rainsheave_device *device, const uint8_t *request, size_t request_length, uint8_t *reply, size_t reply_room);

/* Puts into eight bytes the request that reads an entry.
 * Nothing is refused. */
void rainsheave_read_request(uint8_t request[8], uint16_t index, uint8_t sub_index);

/* Puts into eight bytes the request that writes an entry: so many bytes, 1 to 4, of a number, which stands there whole; a negative one as
 * two's complement. Nothing is refused; another size than 1 to 3 is taken for 4. */
void rainsheave_write_request(uint8_t request[8], uint16_t index, uint8_t sub_index, uint8_t size, uint32_t number);

/* A control word, as an accepted SDO write of 6040h.
 * Refused: UNSOUND. */
uint8_t rainsheave_control(rainsheave_device *device, uint16_t word);

/* A fault report with its code, which leads to FAULT; where one is there already, its code stays.
 * Refused: UNSOUND, and NO_FAULT for the code 0. */
uint8_t rainsheave_fault(rainsheave_device *device, uint16_t code);

/* One tick of 1 ms.
 * Refused: UNSOUND. */
uint8_t rainsheave_tick(rainsheave_device *device);

/* So many ticks at once, with the same end as that many calls of rainsheave_tick.
 * Refused: UNSOUND. */
uint8_t rainsheave_jump(rainsheave_device *device, uint32_t ticks);

/* The state, one of RAINSHEAVE_STATE_...
 * Refused, as every query: UNSOUND. */
rainsheave_reading rainsheave_state(const rainsheave_device *device);

/* The status word, as a read of 6041h gives it.
 * Refused: UNSOUND. */
rainsheave_reading rainsheave_status(const rainsheave_device *device);

/* The error code: that of the first fault in FAULT, and else 0.
 * Refused: UNSOUND. */
rainsheave_reading rainsheave_error(const rainsheave_device *device);

/* The position of the selected block, in 1/65,536 ir.
 * Refused: UNSOUND. */
rainsheave_reading rainsheave_position(const rainsheave_device *device);

/* The target of the selected block, in ir.
 * Refused: UNSOUND. */
rainsheave_reading rainsheave_target(const rainsheave_device *device);

/* The command, in ir: what the valve is driven with.
 * Refused: UNSOUND. */
rainsheave_reading rainsheave_command(const rainsheave_device *device);

/* The ticks until the target is met, while nothing is written and no fault comes; 0 in DISABLED and FAULT.
 * Refused: UNSOUND. */
rainsheave_reading rainsheave_ticks_to_go(const rainsheave_device *device);

/* A PDO is received: the first bytes act as its map says, the others are left alone.
 * Refused: UNSOUND, and SHORT_PDO where there are fewer bytes than the map names. */
uint8_t rainsheave_receive(rainsheave_device *device, const uint8_t *pdo, size_t pdo_length);

/* A PDO is sent: the mapped values go to the first bytes of the room, so many as the answer says.
 * Refused: UNSOUND, and NO_ROOM where the room is shorter than that; eight bytes are enough for every map. */
rainsheave_sent rainsheave_send(const rainsheave_device *device, uint8_t *room, size_t room_length);

/* The image of the position block's settings goes to the first 97 bytes of the room.
 * Refused: UNSOUND, and NO_IMAGE_ROOM where there are fewer. */
uint8_t rainsheave_store(const rainsheave_device *device, uint8_t *room, size_t room_length);

/* All the settings of a full image go to the position block of a disabled device, or none does.
 * Refused: UNSOUND, NOT_DISABLED, NOT_FULL, BAD_VALUE, in this order. */
uint8_t rainsheave_load(rainsheave_device *device, const uint8_t *image, size_t image_length);

/* Where in an image the value of the first field with a tag stands; tag 1 is 6314h, and 17 is 6345h.
 * Refused: FIELD_CUT where a field is cut short before it, NOT_FOUND. */
rainsheave_part rainsheave_find(const uint8_t *image, size_t image_length, uint8_t tag);

/* The number of that search alone.
 * DONE where the tag is found. */
uint8_t rainsheave_find_code(const uint8_t *image, size_t image_length, uint8_t tag);

#ifdef __cplusplus
}
#endif

#endif
