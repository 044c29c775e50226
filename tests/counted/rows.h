/* The rows of the table: in which scene which call is counted. */
#ifndef COUNTED_ROWS_H
#define COUNTED_ROWS_H

#include "calls.h"

/* What makes a device unsound: the last that second tests, or the first. */
enum spoiled { NOT_SPOILED, ERROR_CODE_OUTSIDE_FAULT, NO_SUCH_STATE };

/* In HOLD and ACTIVE the selected block is on its way from 1000 ir. Where nothing is named the maps are empty and the dither is off. */
struct scene {
    enum device_state state;
    enum block_kind selected;
    uint8_t ramp_type;
    uint8_t dither_type;
    bool far_side;                       /* on its way from -1000 ir */
    bool none_counts;                    /* sub 0 of both maps is 0, whatever entries they have */
    uint32_t entries[MAPS][MAP_ENTRIES]; /* up to the first that is 0 */
    enum spoiled spoiled;
};

struct row {
    const char *name;
    struct scene scene;
    enum call call;
    bool in_turn;               /* every other call is given the second of these */
    uint8_t bytes[2][SDO_SIZE]; /* a request or a PDO; of a call that makes a request, the one that is due */
    uint32_t number[2];         /* as in what is given to a call */
    enum number refusal;        /* the number that is due */
    enum abort_code abort;      /* the code that is due in the reply to a request */
};

extern const struct row rows[];
extern const size_t row_count;

#endif
