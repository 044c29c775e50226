/* Nothing here asks what a call answered, so that calls of nothing take the same way. */
#include "calls.h"

/* In assembly, since it is called as a function of every type. */
__asm__(".text\n"
        ".globl nothing\n"
        ".type nothing, @function\n"
        "nothing:\n"
        "\tret\n"
        ".size nothing, . - nothing\n");

#define AS(name, callee) ((__typeof__(&name))(callee))

/* ---- The library */

function *library_function(enum call call)
{
    static function *const functions[CALLS] = {
        [CALL_FRESH] = (function *)rainsheave_fresh,
        [CALL_SDO] = (function *)rainsheave_sdo,
        [CALL_READ_REQUEST] = (function *)rainsheave_read_request,
        [CALL_WRITE_REQUEST] = (function *)rainsheave_write_request,
        [CALL_CONTROL] = (function *)rainsheave_control,
        [CALL_FAULT] = (function *)rainsheave_fault,
        [CALL_TICK] = (function *)rainsheave_tick,
        [CALL_JUMP] = (function *)rainsheave_jump,
        [CALL_RECEIVE] = (function *)rainsheave_receive,
        [CALL_SEND] = (function *)rainsheave_send,
        [CALL_STORE] = (function *)rainsheave_store,
        [CALL_LOAD] = (function *)rainsheave_load,
        [CALL_FIND] = (function *)rainsheave_find,
        [CALL_FIND_CODE] = (function *)rainsheave_find_code,
        [CALL_STATE] = (function *)rainsheave_state,
        [CALL_STATUS] = (function *)rainsheave_status,
        [CALL_ERROR] = (function *)rainsheave_error,
        [CALL_POSITION] = (function *)rainsheave_position,
        [CALL_TARGET] = (function *)rainsheave_target,
        [CALL_COMMAND] = (function *)rainsheave_command,
        [CALL_TICKS_TO_GO] = (function *)rainsheave_ticks_to_go,
    };
    return functions[call];
}

static void find_library(function *callee, const struct given *given, struct outcome *outcome)
{
    rainsheave_part part = AS(rainsheave_find, callee)(given->bytes, given->length, (uint8_t)given->number);
    outcome->number = part.number;
    outcome->begin = part.begin;
    outcome->length = part.length;
}

static void send_library(function *callee, const rainsheave_device *device, struct outcome *outcome)
{
    rainsheave_sent sent = AS(rainsheave_send, callee)(device, outcome->room, sizeof outcome->room);
    outcome->number = sent.number;
    outcome->length = sent.length;
}

static void query_library(function *callee, const rainsheave_device *device, struct outcome *outcome)
{
    rainsheave_reading reading = AS(rainsheave_state, callee)(device);
    outcome->number = reading.number;
    outcome->value = reading.value;
}

/* The calls that answer with more than a number, or with none. */
static void answer_library(enum call call, function *callee, rainsheave_device *device, const struct given *given, struct outcome *outcome)
{
    switch (call) {
    case CALL_FRESH:
        AS(rainsheave_fresh, callee)(device);
        break;
    case CALL_READ_REQUEST:
        AS(rainsheave_read_request, callee)(outcome->room, RAINSHEAVE_INDEX_UPPER_LIMIT, 1);
        break;
    case CALL_WRITE_REQUEST:
        AS(rainsheave_write_request, callee)(outcome->room, RAINSHEAVE_INDEX_UPPER_LIMIT, 1, 2, given->number);
        break;
    case CALL_SEND:
        send_library(callee, device, outcome);
        break;
    case CALL_FIND:
        find_library(callee, given, outcome);
        break;
    default:
        query_library(callee, device, outcome);
    }
}

void call_library(enum call call, function *callee, rainsheave_device *device, const struct given *given, struct outcome *outcome)
{
    switch (call) {
    case CALL_SDO:
        outcome->number = AS(rainsheave_sdo, callee)(device, given->bytes, given->length, outcome->room, sizeof outcome->room);
        break;
    case CALL_CONTROL:
    case CALL_FAULT:
        outcome->number = AS(rainsheave_control, callee)(device, (uint16_t)given->number);
        break;
    case CALL_TICK:
        outcome->number = AS(rainsheave_tick, callee)(device);
        break;
    case CALL_JUMP:
        outcome->number = AS(rainsheave_jump, callee)(device, given->number);
        break;
    case CALL_RECEIVE:
    case CALL_LOAD:
        outcome->number = AS(rainsheave_load, callee)(device, given->bytes, given->length);
        break;
    case CALL_STORE:
        outcome->number = AS(rainsheave_store, callee)(device, outcome->room, sizeof outcome->room);
        break;
    case CALL_FIND_CODE:
        outcome->number = AS(rainsheave_find_code, callee)(given->bytes, given->length, (uint8_t)given->number);
        break;
    default:
        answer_library(call, callee, device, given, outcome);
    }
}

/* ---- Second */

function *second_function(enum call call)
{
    static function *const functions[CALL_STATE] = {
        [CALL_FRESH] = (function *)device_fresh,
        [CALL_SDO] = (function *)device_sdo,
        [CALL_CONTROL] = (function *)device_control,
        [CALL_FAULT] = (function *)device_fault,
        [CALL_TICK] = (function *)device_tick,
        [CALL_JUMP] = (function *)device_jump,
        [CALL_RECEIVE] = (function *)device_receive,
        [CALL_SEND] = (function *)device_send,
        [CALL_STORE] = (function *)device_store,
        [CALL_LOAD] = (function *)device_load,
        [CALL_FIND] = (function *)image_find,
        [CALL_FIND_CODE] = (function *)image_find,
    };
    return call >= CALL_STATE ? (function *)device_query : functions[call];
}

static void find_second(function *callee, const struct given *given, struct outcome *outcome)
{
    struct part part = AS(image_find, callee)((uint8_t)given->number, given->bytes, given->length);
    outcome->number = (uint8_t)part.number;
    outcome->begin = part.start;
    outcome->length = part.size;
}

static void send_second(function *callee, const struct device *device, struct outcome *outcome)
{
    struct sent sent = AS(device_send, callee)(device, outcome->room, sizeof outcome->room);
    outcome->number = (uint8_t)sent.number;
    outcome->length = sent.size;
}

static void query_second(function *callee, enum query query, const struct device *device, struct outcome *outcome)
{
    struct answer answer = AS(device_query, callee)(device, query);
    outcome->number = (uint8_t)answer.number;
    outcome->value = answer.value;
}

static void answer_second(enum call call, function *callee, struct device *device, const struct given *given, struct outcome *outcome)
{
    switch (call) {
    case CALL_FRESH:
        *device = AS(device_fresh, callee)();
        break;
    case CALL_SEND:
        send_second(callee, device, outcome);
        break;
    case CALL_FIND:
        find_second(callee, given, outcome);
        break;
    case CALL_FIND_CODE:
        outcome->number = (uint8_t)AS(image_find, callee)((uint8_t)given->number, given->bytes, given->length).number;
        break;
    default:
        query_second(callee, (enum query)(call - CALL_STATE), device, outcome);
    }
}

void call_second(enum call call, function *callee, struct device *device, const struct given *given, struct outcome *outcome)
{
    switch (call) {
    case CALL_SDO:
        outcome->number = (uint8_t)AS(device_sdo, callee)(device, given->bytes, given->length, outcome->room, sizeof outcome->room);
        break;
    case CALL_CONTROL:
    case CALL_FAULT:
        outcome->number = (uint8_t)AS(device_control, callee)(device, (uint16_t)given->number);
        break;
    case CALL_TICK:
        outcome->number = (uint8_t)AS(device_tick, callee)(device);
        break;
    case CALL_JUMP:
        outcome->number = (uint8_t)AS(device_jump, callee)(device, given->number);
        break;
    case CALL_RECEIVE:
    case CALL_LOAD:
        outcome->number = (uint8_t)AS(device_load, callee)(device, given->bytes, given->length);
        break;
    case CALL_STORE:
        outcome->number = (uint8_t)AS(device_store, callee)(device, outcome->room, sizeof outcome->room);
        break;
    default:
        answer_second(call, callee, device, given, outcome);
    }
}
