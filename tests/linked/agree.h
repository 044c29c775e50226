/* What the files of `agree` share: a device of the library beside one of second, and an event, which is one call made on both. */
#ifndef LINKED_AGREE_H
#define LINKED_AGREE_H

#include "../../include/rainsheave.h"
#include "../../second/model.h"
#include "chance.h"

struct pair {
    rainsheave_device library;
    struct device second;
};

enum { INPUT_MOST = 128, ROOM_MOST = 112, MARGIN = 8, ROOM_BYTES = MARGIN + ROOM_MOST + MARGIN };

struct event {
    const struct call *call;
    uint8_t input[INPUT_MOST]; /* a request, a PDO or an image; the bytes behind its length must not count */
    size_t input_length;
    size_t room_length;
    uint8_t fill;    /* what each byte of the room is before the call */
    uint16_t word;   /* a control word, the code of a fault, or the index of a request */
    uint32_t number; /* of ticks, or the one that a request writes */
    uint8_t tag;     /* of a field, or the sub-index of a request */
    uint8_t size;    /* of what a request writes */
};

/* The lent room lies between two margins, so that a byte written beside it is seen. */
struct outcome {
    unsigned number;
    int64_t value; /* of a query, or where a part begins */
    size_t length; /* of a part, or of what was sent */
    uint8_t room[ROOM_BYTES];
};

struct outcomes {
    struct outcome library;
    struct outcome second;
};

/* ---- make.c: what an event hands over, by chance and by the state that second is in */

typedef void make_function(struct chance *chance, const struct device *now, struct event *event);
make_function make_sdo, make_request, make_control, make_fault, make_jump, make_receive, make_send, make_store, make_load, make_search;

extern const uint32_t mappable[MAPS][3];
void put_request(uint8_t *request, uint8_t command, uint16_t index, uint8_t sub, uint32_t data);
uint8_t write_command(size_t size);

/* ---- calls.c: every call of the header */

typedef void act_function(struct pair *pair, const struct event *event, struct outcomes *outcomes);

enum { REFUSALS = 4 };
struct call {
    const char *name;
    uint32_t weight;            /* how often it comes, beside those of the others */
    make_function *make;        /* NULL where nothing is handed over */
    act_function *act;          /* on both */
    uint8_t refusals[REFUSALS]; /* the numbers that it can give beside DONE, and then 0 */
    rainsheave_reading (*ask)(const rainsheave_device *device); /* of a query: by the library, */
    enum query query;                                           /* and by second */
};

enum {
    FRESH, SDO, READ_REQUEST, WRITE_REQUEST, CONTROL, REPORT_FAULT, TICK, JUMP,
    ASK_STATE, ASK_STATUS, ASK_ERROR, ASK_POSITION, ASK_TARGET, ASK_COMMAND, ASK_TICKS_TO_GO,
    RECEIVE, SEND, STORE, LOAD, FIND, FIND_CODE, CALLS
};
extern const struct call calls[CALLS];

struct outcome refusal_of(const struct event *event, unsigned number);
struct outcomes act_on_both(struct pair *pair, const struct event *event);

/* ---- words.c: the state of one as the other has it, and single words of it */

rainsheave_device library_of(const struct device *second);
struct device second_of(const rainsheave_device *library); /* words are cut to second's fields */
bool same_words(const rainsheave_device *one, const rainsheave_device *other);

int64_t word_at(const rainsheave_device *device, size_t place);
const char *part_of_word(size_t place);
bool second_holds_all(size_t place); /* whatever the word there is */
size_t spoil_word(struct chance *chance, rainsheave_device *device); /* tells which */

#endif
