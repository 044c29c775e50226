/* Each call of the header, made on the library and on second. */
#include "agree.h"

#include <string.h>

static void fresh(struct pair *pair, const struct event *event, struct outcomes *outcomes)
{
    (void)outcomes; /* it answers nothing */
    memset(&pair->library, event->fill, sizeof pair->library); /* of which nothing may stay */
    rainsheave_fresh(&pair->library);
    pair->second = device_fresh();
}

static void sdo(struct pair *pair, const struct event *event, struct outcomes *outcomes)
{
    uint8_t *reply = &outcomes->library.room[MARGIN];
    outcomes->library.number = rainsheave_sdo(&pair->library, event->input, event->input_length, reply, event->room_length);
    reply = &outcomes->second.room[MARGIN];
    outcomes->second.number = device_sdo(&pair->second, event->input, event->input_length, reply, event->room_length);
}

/* Second makes no requests: what is due is put together here, and in the next one. */
static void read_request(struct pair *pair, const struct event *event, struct outcomes *outcomes)
{
    (void)pair; /* no device is needed */
    rainsheave_read_request(&outcomes->library.room[MARGIN], event->word, event->tag);
    put_request(&outcomes->second.room[MARGIN], READ, event->word, event->tag, 0);
}

static void write_request(struct pair *pair, const struct event *event, struct outcomes *outcomes)
{
    (void)pair;
    rainsheave_write_request(&outcomes->library.room[MARGIN], event->word, event->tag, event->size, event->number);
    put_request(&outcomes->second.room[MARGIN], write_command(event->size), event->word, event->tag, event->number);
}

static void control(struct pair *pair, const struct event *event, struct outcomes *outcomes)
{
    outcomes->library.number = rainsheave_control(&pair->library, event->word);
    outcomes->second.number = device_control(&pair->second, event->word);
}

static void fault(struct pair *pair, const struct event *event, struct outcomes *outcomes)
{
    outcomes->library.number = rainsheave_fault(&pair->library, event->word);
    outcomes->second.number = device_fault(&pair->second, event->word);
}

static void tick(struct pair *pair, const struct event *event, struct outcomes *outcomes)
{
    (void)event; /* nothing is handed over */
    outcomes->library.number = rainsheave_tick(&pair->library);
    outcomes->second.number = device_tick(&pair->second);
}

static void jump(struct pair *pair, const struct event *event, struct outcomes *outcomes)
{
    outcomes->library.number = rainsheave_jump(&pair->library, event->number);
    outcomes->second.number = device_jump(&pair->second, event->number);
}

static void query(struct pair *pair, const struct event *event, struct outcomes *outcomes)
{
    rainsheave_reading reading = event->call->ask(&pair->library);
    struct answer answer = device_query(&pair->second, event->call->query);
    outcomes->library.number = reading.number;
    outcomes->library.value = reading.value;
    outcomes->second.number = answer.number;
    outcomes->second.value = answer.value;
}

static void receive(struct pair *pair, const struct event *event, struct outcomes *outcomes)
{
    outcomes->library.number = rainsheave_receive(&pair->library, event->input, event->input_length);
    outcomes->second.number = device_receive(&pair->second, event->input, event->input_length);
}

static void send(struct pair *pair, const struct event *event, struct outcomes *outcomes)
{
    rainsheave_sent by_library = rainsheave_send(&pair->library, &outcomes->library.room[MARGIN], event->room_length);
    struct sent by_second = device_send(&pair->second, &outcomes->second.room[MARGIN], event->room_length);
    outcomes->library.number = by_library.number;
    outcomes->library.length = by_library.length;
    outcomes->second.number = by_second.number;
    outcomes->second.length = by_second.size;
}

static void store(struct pair *pair, const struct event *event, struct outcomes *outcomes)
{
    outcomes->library.number = rainsheave_store(&pair->library, &outcomes->library.room[MARGIN], event->room_length);
    outcomes->second.number = device_store(&pair->second, &outcomes->second.room[MARGIN], event->room_length);
}

static void load(struct pair *pair, const struct event *event, struct outcomes *outcomes)
{
    outcomes->library.number = rainsheave_load(&pair->library, event->input, event->input_length);
    outcomes->second.number = device_load(&pair->second, event->input, event->input_length);
}

static void find(struct pair *pair, const struct event *event, struct outcomes *outcomes)
{
    (void)pair;
    rainsheave_part by_library = rainsheave_find(event->input, event->input_length, event->tag);
    struct part by_second = image_find(event->tag, event->input, event->input_length);
    outcomes->library.number = by_library.number;
    outcomes->library.value = (int64_t)by_library.begin;
    outcomes->library.length = by_library.length;
    outcomes->second.number = by_second.number;
    outcomes->second.value = (int64_t)by_second.start;
    outcomes->second.length = by_second.size;
}

static void find_code(struct pair *pair, const struct event *event, struct outcomes *outcomes)
{
    (void)pair;
    outcomes->library.number = rainsheave_find_code(event->input, event->input_length, event->tag);
    outcomes->second.number = image_find(event->tag, event->input, event->input_length).number;
}

#define NUMBER(name) RAINSHEAVE_NUMBER_##name
#define QUERY(word, often, kind) \
    {.name = #word, .weight = often, .act = query, .refusals = {NUMBER(UNSOUND)}, .ask = rainsheave_##word, .query = kind}

const struct call calls[CALLS] = {
    [FRESH] = {.name = "fresh", .weight = 1, .act = fresh},
    [SDO] = {.name = "sdo", .weight = 1900, .make = make_sdo, .act = sdo,
             .refusals = {NUMBER(UNSOUND), NUMBER(WRONG_LENGTH), NUMBER(NO_ROOM), NUMBER(NO_REPLY_DUE)}},
    [READ_REQUEST] = {.name = "read_request", .weight = 8, .make = make_request, .act = read_request},
    [WRITE_REQUEST] = {.name = "write_request", .weight = 8, .make = make_request, .act = write_request},
    [CONTROL] = {.name = "control", .weight = 260, .make = make_control, .act = control, .refusals = {NUMBER(UNSOUND)}},
    [REPORT_FAULT] = {.name = "fault", .weight = 15, .make = make_fault, .act = fault, .refusals = {NUMBER(UNSOUND), NUMBER(NO_FAULT)}},
    [TICK] = {.name = "tick", .weight = 700, .act = tick, .refusals = {NUMBER(UNSOUND)}},
    [JUMP] = {.name = "jump", .weight = 200, .make = make_jump, .act = jump, .refusals = {NUMBER(UNSOUND)}},
    [ASK_STATE] = QUERY(state, 20, QUERY_STATE),
    [ASK_STATUS] = QUERY(status, 60, QUERY_STATUS),
    [ASK_ERROR] = QUERY(error, 20, QUERY_ERROR),
    [ASK_POSITION] = QUERY(position, 20, QUERY_POSITION),
    [ASK_TARGET] = QUERY(target, 100, QUERY_TARGET),
    [ASK_COMMAND] = QUERY(command, 150, QUERY_COMMAND),
    [ASK_TICKS_TO_GO] = QUERY(ticks_to_go, 120, QUERY_TICKS_TO_GO),
    [RECEIVE] = {.name = "receive", .weight = 250, .make = make_receive, .act = receive, .refusals = {NUMBER(UNSOUND), NUMBER(SHORT_PDO)}},
    [SEND] = {.name = "send", .weight = 150, .make = make_send, .act = send, .refusals = {NUMBER(UNSOUND), NUMBER(NO_ROOM)}},
    [STORE] = {.name = "store", .weight = 40, .make = make_store, .act = store, .refusals = {NUMBER(UNSOUND), NUMBER(NO_IMAGE_ROOM)}},
    [LOAD] = {.name = "load", .weight = 120, .make = make_load, .act = load,
              .refusals = {NUMBER(UNSOUND), NUMBER(NOT_DISABLED), NUMBER(NOT_FULL), NUMBER(BAD_VALUE)}},
    [FIND] = {.name = "find", .weight = 40, .make = make_search, .act = find, .refusals = {NUMBER(FIELD_CUT), NUMBER(NOT_FOUND)}},
    [FIND_CODE] = {.name = "find_code", .weight = 30, .make = make_search, .act = find_code, .refusals = {NUMBER(FIELD_CUT), NUMBER(NOT_FOUND)}},
};

/* A room that was not written, and no answer. */
struct outcome refusal_of(const struct event *event, unsigned number)
{
    struct outcome outcome = {.number = number};
    memset(outcome.room, event->fill, ROOM_BYTES);
    return outcome;
}

struct outcomes act_on_both(struct pair *pair, const struct event *event)
{
    struct outcome untouched = refusal_of(event, RAINSHEAVE_NUMBER_DONE);
    struct outcomes outcomes = {untouched, untouched};
    event->call->act(pair, event, &outcomes);
    return outcomes;
}
