#include "rows.h"

#define BYTE(number, place) (uint8_t)((uint32_t)(number) >> (8 * (place)) & 0xff)
#define TWO_BYTES(number) BYTE(number, 0), BYTE(number, 1)
#define FOUR_BYTES(number) TWO_BYTES(number), BYTE(number, 2), BYTE(number, 3)
#define READ_OF(index, sub) {READ, TWO_BYTES(index), sub}
#define ONE_BYTE_TO(index, sub, value) {WRITE_1, TWO_BYTES(index), sub, value}
#define TWO_BYTES_TO(index, sub, value) {WRITE_2, TWO_BYTES(index), sub, TWO_BYTES(value)}
#define FOUR_BYTES_TO(index, sub, value) {WRITE_4, TWO_BYTES(index), sub, FOUR_BYTES(value)}

#define CONTROL_WORD_ENTRY 0x60400010
#define SET_POINT_ENTRY 0x63000110
#define STATUS_WORD_ENTRY 0x60410010
#define COMMAND_ENTRY 0x63100110
#define TWO_IN_EACH .entries = {{CONTROL_WORD_ENTRY, SET_POINT_ENTRY}, {STATUS_WORD_ENTRY, COMMAND_ENTRY}}

#define ON_ITS_WAY .state = ACTIVE, .ramp_type = 3
#define AT_REST .state = DISABLED, .ramp_type = 3

enum { TO_HOLD = 3, TO_ACTIVE = 7, FAULT_CODE = 0x1234, NEW_VALUE = 16000 };

const struct row rows[] = {
    /* ticks and jumps */
    {"`tick`, ramp type 0", {.state = ACTIVE}, .call = CALL_TICK},
    {"`tick`, type 1, from the far side of zero", {.state = ACTIVE, .ramp_type = 1, .far_side = true}, .call = CALL_TICK},
    {"`tick`, type 3", {ON_ITS_WAY}, .call = CALL_TICK},
    {"`tick`, type 3, toward zero from the far side", {ON_ITS_WAY, .far_side = true}, .call = CALL_TICK},
    {"`tick` in DISABLED", {AT_REST}, .call = CALL_TICK},
    {"`tick`, type 3, two entries in each map", {ON_ITS_WAY, TWO_IN_EACH}, .call = CALL_TICK},
    {"`tick`, type 3, with a triangular dither", {ON_ITS_WAY, .dither_type = 2}, .call = CALL_TICK},
    {"`tick`, type 3, of the pressure block", {ON_ITS_WAY, .selected = PRESSURE_BLOCK}, .call = CALL_TICK},
    {"`tick`, refused: an error code outside FAULT", {ON_ITS_WAY, .spoiled = ERROR_CODE_OUTSIDE_FAULT}, .call = CALL_TICK,
     .refusal = STATE_NOT_SOUND},
    {"`tick`, refused: no such state", {ON_ITS_WAY, .spoiled = NO_SUCH_STATE}, .call = CALL_TICK, .refusal = STATE_NOT_SOUND},
    {"`jump` of 1, type 3", {ON_ITS_WAY}, .call = CALL_JUMP, .number = {1}},
    {"`jump` of 4,294,967,295, type 3", {ON_ITS_WAY}, .call = CALL_JUMP, .number = {UINT32_MAX}},
    {"`jump` of 1 from the far side of zero, type 3", {ON_ITS_WAY, .far_side = true}, .call = CALL_JUMP, .number = {1}},
    {"`jump` of 4,294,967,295 from the far side, type 3", {ON_ITS_WAY, .far_side = true}, .call = CALL_JUMP,
     .number = {UINT32_MAX}},
    {"`jump` of 1 from the far side, type 1", {.state = ACTIVE, .ramp_type = 1, .far_side = true}, .call = CALL_JUMP, .number = {1}},

    /* requests */
    {"`sdo`: read of a setting", {ON_ITS_WAY}, .call = CALL_SDO, .bytes = {READ_OF(0x6320, 1)}},
    {"`sdo`: write of 6320h", {ON_ITS_WAY}, .call = CALL_SDO, .bytes = {TWO_BYTES_TO(0x6320, 1, NEW_VALUE)}},
    {"`sdo`: no such object", {ON_ITS_WAY}, .call = CALL_SDO, .bytes = {READ_OF(0x7020, 1)}, .abort = ABORT_NO_OBJECT},
    {"`sdo`: write of 6300h", {ON_ITS_WAY}, .call = CALL_SDO, .bytes = {TWO_BYTES_TO(0x6300, 1, NEW_VALUE)}},
    {"`sdo`: write of 6322h", {ON_ITS_WAY}, .call = CALL_SDO, .bytes = {FOUR_BYTES_TO(0x6322, 0, 65536)}},
    {"`sdo`: write of 6040h, ACTIVE stays", {ON_ITS_WAY}, .call = CALL_SDO, .bytes = {TWO_BYTES_TO(0x6040, 0, TO_ACTIVE)}},
    {"`sdo`: read of 6041h", {ON_ITS_WAY}, .call = CALL_SDO, .bytes = {READ_OF(0x6041, 0)}},
    {"`sdo`: read of 6310h", {ON_ITS_WAY}, .call = CALL_SDO, .bytes = {READ_OF(0x6310, 1)}},
    {"`sdo`: value out of range", {.state = HOLD, .ramp_type = 3}, .call = CALL_SDO, .bytes = {ONE_BYTE_TO(0x6330, 0, 9)},
     .abort = ABORT_VALUE},
    {"`sdo`: four bytes to 6320h, too many", {ON_ITS_WAY}, .call = CALL_SDO, .bytes = {FOUR_BYTES_TO(0x6320, 1, NEW_VALUE)},
     .abort = ABORT_TOO_LONG},
    {"`sdo`: two bytes to 6322h, too few", {ON_ITS_WAY}, .call = CALL_SDO, .bytes = {TWO_BYTES_TO(0x6322, 0, NEW_VALUE)},
     .abort = ABORT_TOO_SHORT},
    {"`sdo`: read of an entry of 1600h, two entries in each map", {ON_ITS_WAY, TWO_IN_EACH}, .call = CALL_SDO,
     .bytes = {READ_OF(0x1600, 1)}},
    {"`sdo`: write of an entry of 1600h, the same as before",
     {ON_ITS_WAY, .entries = {{CONTROL_WORD_ENTRY}}, .none_counts = true},
     .call = CALL_SDO,
     .bytes = {FOUR_BYTES_TO(0x1600, 1, CONTROL_WORD_ENTRY)}},
    {"`sdo`: write of sub 0 of 1600h, two entries in each map", {ON_ITS_WAY, TWO_IN_EACH}, .call = CALL_SDO,
     .bytes = {ONE_BYTE_TO(0x1600, 0, 2)}},
    {"`sdo`: write of 6361h in DISABLED", {AT_REST}, .call = CALL_SDO, .bytes = {TWO_BYTES_TO(0x6361, 1, 100)}},
    {"`sdo`: write of 2000h, the selection stays", {AT_REST}, .call = CALL_SDO, .bytes = {ONE_BYTE_TO(0x2000, 0, 0)}},
    {"`sdo`: write of 2000h, there and back", {AT_REST}, .call = CALL_SDO, .in_turn = true,
     .bytes = {ONE_BYTE_TO(0x2000, 0, 1), ONE_BYTE_TO(0x2000, 0, 0)}},
    {"`sdo`: read of 63A0h, of the other block", {ON_ITS_WAY}, .call = CALL_SDO, .bytes = {READ_OF(0x63a0, 1)}},
    {"`sdo`: write of 63A0h, of the other block", {ON_ITS_WAY}, .call = CALL_SDO,
     .bytes = {TWO_BYTES_TO(0x63a0, 1, NEW_VALUE)}},
    {"`sdo`: write of 63A0h, of the selected block", {ON_ITS_WAY, .selected = PRESSURE_BLOCK}, .call = CALL_SDO,
     .bytes = {TWO_BYTES_TO(0x63a0, 1, NEW_VALUE)}},
    {"`read_request`", {.state = ACTIVE}, .call = CALL_READ_REQUEST, .bytes = {READ_OF(0x6320, 1)}},
    {"`write_request` of two bytes", {.state = ACTIVE}, .call = CALL_WRITE_REQUEST, .bytes = {TWO_BYTES_TO(0x6320, 1, NEW_VALUE)},
     .number = {NEW_VALUE}},

    /* process data and images */
    {"`receive`, two entries", {ON_ITS_WAY, TWO_IN_EACH}, .call = CALL_RECEIVE,
     .bytes = {{TWO_BYTES(TO_ACTIVE), TWO_BYTES(NEW_VALUE)}}},
    {"`receive`, one entry, a control word", {ON_ITS_WAY, .entries = {{CONTROL_WORD_ENTRY}}}, .call = CALL_RECEIVE,
     .bytes = {{TWO_BYTES(TO_ACTIVE)}}},
    {"`receive`, one entry, a set point", {ON_ITS_WAY, .entries = {{SET_POINT_ENTRY}}}, .call = CALL_RECEIVE,
     .bytes = {{TWO_BYTES(NEW_VALUE)}}},
    {"`receive`, no entry", {ON_ITS_WAY}, .call = CALL_RECEIVE},
    {"`receive`, no entry, in DISABLED", {AT_REST}, .call = CALL_RECEIVE},
    {"`send`, two entries", {ON_ITS_WAY, TWO_IN_EACH}, .call = CALL_SEND},
    {"`store`", {ON_ITS_WAY}, .call = CALL_STORE},
    {"`load`", {AT_REST}, .call = CALL_LOAD},
    {"`load`, the pressure block selected", {AT_REST, .selected = PRESSURE_BLOCK}, .call = CALL_LOAD},
    {"`find` of tag 17", {AT_REST}, .call = CALL_FIND, .number = {17}},
    {"`find` of tag 1", {AT_REST}, .call = CALL_FIND, .number = {1}},
    {"`find` of tag 2", {AT_REST}, .call = CALL_FIND, .number = {2}},
    {"`find_code` of tag 17", {AT_REST}, .call = CALL_FIND_CODE, .number = {17}},
    {"`find_code` of tag 1", {AT_REST}, .call = CALL_FIND_CODE, .number = {1}},

    /* control words and faults */
    {"`control`, ACTIVE stays", {ON_ITS_WAY}, .call = CALL_CONTROL, .number = {TO_ACTIVE}},
    {"`control`, HOLD and ACTIVE in turn", {ON_ITS_WAY}, .call = CALL_CONTROL, .in_turn = true,
     .number = {TO_HOLD, TO_ACTIVE}},
    {"`fault`", {.state = FAULT, .ramp_type = 3}, .call = CALL_FAULT, .number = {FAULT_CODE}},

    /* queries, and a fresh device */
    {"`command`", {ON_ITS_WAY, .far_side = true}, .call = CALL_COMMAND},
    {"`command`, with a square dither", {ON_ITS_WAY, .far_side = true, .dither_type = 1}, .call = CALL_COMMAND},
    {"`command`, with a triangular dither", {ON_ITS_WAY, .far_side = true, .dither_type = 2}, .call = CALL_COMMAND},
    {"`ticks_to_go` from the far side of zero, type 3", {ON_ITS_WAY, .far_side = true}, .call = CALL_TICKS_TO_GO},
    {"`ticks_to_go` from the far side, type 1", {.state = ACTIVE, .ramp_type = 1, .far_side = true}, .call = CALL_TICKS_TO_GO},
    {"`status`", {ON_ITS_WAY, .far_side = true}, .call = CALL_STATUS},
    {"`target`", {ON_ITS_WAY, .far_side = true}, .call = CALL_TARGET},
    {"`position`", {ON_ITS_WAY, .far_side = true}, .call = CALL_POSITION},
    {"`state`", {ON_ITS_WAY, .far_side = true}, .call = CALL_STATE},
    {"`error`", {.state = FAULT, .ramp_type = 3}, .call = CALL_ERROR},
    {"`fresh`", {AT_REST}, .call = CALL_FRESH},
};
const size_t row_count = sizeof rows / sizeof *rows;
