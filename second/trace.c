/* `second trace`: the transcript of an event file, as README says. */
#include <inttypes.h>
#include <stdio.h>

#include "modes.h"
#include "run.h"

static const char *const event_name[EVENT_KINDS] = {
    "fresh", "sdo",  "control", "fault", "tick",    "jump",
    "store", "load", "find",    "query", "unsound", "ticks",
    "patch", "wide", "append",  "broken", "receive", "send",
};

static void print_bytes(const struct outcome *outcome)
{
    for (size_t i = 0; i < outcome->byte_count; i++)
        printf(" %02x", (unsigned)outcome->bytes[i]);
}

static void print_queries(const struct outcome *outcome)
{
    for (size_t i = 0; i < QUERIES; i++)
        printf(" %d/%" PRId64, (int)outcome->query[i].number, outcome->query[i].value);
}

static void print_result(const struct record *record, const struct outcome *outcome)
{
    switch (record->kind) {
    case EVENT_FRESH:
        break;
    case EVENT_QUERY:
        print_queries(outcome);
        break;
    case EVENT_FIND:
        printf(" %d %d", (int)outcome->number, (int)outcome->place);
        print_bytes(outcome);
        break;
    case EVENT_PATCH:
        printf(" %d", (int)outcome->place);
        break;
    case EVENT_BROKEN:
        printf(" %d %s %s", (int)outcome->number, outcome->same ? "same" : "other",
               outcome->kept ? "kept" : "written");
        break;
    case EVENT_SEND:
        printf(" %d %d", (int)outcome->number, (int)outcome->sent);
        print_bytes(outcome);
        break;
    default: /* only sdo, wide and store have bytes */
        printf(" %d", (int)outcome->number);
        print_bytes(outcome);
    }
}

static void print_line(const struct run *run, const struct record *record,
                       const struct outcome *outcome)
{
    if (record->kind < EVENT_KINDS) {
        fputs(event_name[record->kind], stdout);
        print_result(record, outcome);
    } else {
        printf("unknown %d", (int)record->kind);
    }
    printf(" | %" PRId64 " %" PRId64 " %" PRId64 " %" PRIu32 "\n",
           device_query(&run->device, QUERY_STATE).value,
           device_query(&run->device, QUERY_STATUS).value,
           device_query(&run->device, QUERY_POSITION).value, run->device.phase);
}

int mode_trace(void)
{
    struct run run = run_begin();
    struct record record;
    size_t met;
    while ((met = record_read(stdin, &record)) == RECORD_SIZE) {
        struct outcome outcome = run_event(&run, &record);
        print_line(&run, &record, &outcome);
    }
    if (met > 0)
        printf("part %d\n", (int)met);
    return EXIT_GOOD;
}
