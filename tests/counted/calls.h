/* Every call of the header, to be made once on a device of the library or on one of second. What is called is handed over, so that a
 * function that does nothing can stand in its place, with the same arguments and the same way there and back. */
#ifndef COUNTED_CALLS_H
#define COUNTED_CALLS_H

#include "../../include/rainsheave.h"
#include "../../second/model.h"

/* The queries stand last, in the order that second has them in. */
enum call {
    CALL_FRESH,
    CALL_SDO,
    CALL_READ_REQUEST,
    CALL_WRITE_REQUEST,
    CALL_CONTROL,
    CALL_FAULT,
    CALL_TICK,
    CALL_JUMP,
    CALL_RECEIVE,
    CALL_SEND,
    CALL_STORE,
    CALL_LOAD,
    CALL_FIND,
    CALL_FIND_CODE,
    CALL_STATE,
    CALL_STATUS,
    CALL_ERROR,
    CALL_POSITION,
    CALL_TARGET,
    CALL_COMMAND,
    CALL_TICKS_TO_GO,
    CALLS
};

struct given {
    uint8_t bytes[IMAGE_SIZE]; /* a request, a PDO or an image */
    size_t length;
    uint32_t number; /* a control word, the code of a fault, ticks or a tag */
};

struct outcome {
    uint8_t number;
    int64_t value; /* of a query */
    size_t begin;  /* of a part that was found */
    size_t length; /* of such a part, or of what was sent */
    uint8_t room[IMAGE_SIZE];
};

/* A function of any type, which is called as what it is. */
typedef void function(void);
function nothing;

function *library_function(enum call call);
function *second_function(enum call call); /* NULL where second has no such call */

void call_library(enum call call, function *callee, rainsheave_device *device, const struct given *given, struct outcome *outcome);
void call_second(enum call call, function *callee, struct device *device, const struct given *given, struct outcome *outcome);

#endif
