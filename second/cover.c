/* `second cover`: what of document 01 and wishes 1 to 6 of document 02 an event file has
 * reached. */
#include <inttypes.h>
#include <stdarg.h>
#include <stdio.h>
#include <string.h>

#include "cover.h"
#include "modes.h"

/* ---- The items ---- */

static const enum abort_code abort_codes[] = {
    ABORT_COMMAND,  ABORT_NO_OBJECT, ABORT_NO_SUB_INDEX, ABORT_READ_ONLY,
    ABORT_TOO_LONG, ABORT_TOO_SHORT, ABORT_VALUE,        ABORT_TOO_HIGH,
    ABORT_TOO_LOW,  ABORT_LIMITS,    ABORT_LOCKED,       ABORT_MAP_TOO_LONG,
    ABORT_NOT_MAPPABLE,
};
enum { ABORT_CODES = sizeof abort_codes / sizeof abort_codes[0] };

const char *const state_names[STATES] = {"DISABLED", "HOLD", "ACTIVE", "FAULT"};
const char *const block_names[BLOCKS] = {"position", "pressure"};
const char *const block_prefixes[BLOCKS] = {"", "pressure-"};
const char *const teller_names[TELLERS] = {"query", "read", "send"};
const char *const access_names[ACCESSES] = {"read", "written"};

const struct keeper keepers[KEEPERS] = {
    {EVENT_SDO, "sdo"},     {EVENT_CONTROL, "control"}, {EVENT_FAULT, "fault"},
    {EVENT_TICK, "tick"},   {EVENT_JUMP, "jump"},       {EVENT_STORE, "store"},
    {EVENT_LOAD, "load"},   {EVENT_TICKS, "ticks"},     {EVENT_RECEIVE, "receive"},
    {EVENT_SEND, "send"},
};

enum { DEAD_BAND_TYPES = 2 };
enum band { BAND_POSITIVE, BAND_NEGATIVE, BAND_INSIDE, BANDS };
static const char *const band_names[BANDS] = {"positive", "negative", "in-band"};

enum example { ABOVE_BAND, BELOW_BAND, RESET_EDGE, LIMITS_EQUAL, FRESH_STATUS, EXAMPLES };
static const char *const example_names[EXAMPLES] = {
    "21-gives-321",
    "minus-21-gives-minus-221",
    "FAULT-with-8-stored-8-stays-0-then-8-leaves",
    "with-00-C0-for-FF-BF-it-is-accepted",
    "fresh-40-41-60-00-gives-4B-41-60-00-08",
};

enum { SUBS = MAP_ENTRIES + 1 }; /* maps have the most */

static struct {
    uint64_t abort[ABORT_CODES];
    uint64_t number[NUMBERS];
    uint64_t move[STATES][STATES]; /* by a control word; equal states: no move */
    uint64_t fault[STATES];
    uint64_t held_reset;
    uint64_t band[BLOCKS][DEAD_BAND_TYPES][BANDS];
    uint64_t write[BLOCKS][OBJECTS]; /* what is of no block stands with the position block */
    uint64_t read[BLOCKS][OBJECTS][SUBS];
    uint64_t example[EXAMPLES];
} counts;

/* ---- What one event did ---- */

/* FAULT with 8 stored: how many of the words 8, 0, 8 have come in a row. */
static int reset_steps;

static void follow_reset_edge(const struct seen *seen, uint16_t word)
{
    bool was_fault = seen->before->state == FAULT;
    bool is_fault = seen->after->state == FAULT;
    if (reset_steps == 2 && was_fault && word == 8 && !is_fault) {
        counts.example[RESET_EDGE]++;
        reset_steps = 0;
    } else if (reset_steps == 1 && was_fault && word == 0 && is_fault) {
        reset_steps = 2;
    } else {
        reset_steps = was_fault && seen->before->control_word == 8 && word == 8 && is_fault;
    }
}

static void count_control(const struct seen *seen, uint16_t word)
{
    enum { RESET_BIT = 8 };
    uint8_t from = seen->before->state;
    uint8_t to = seen->after->state;
    bool held = (seen->before->control_word & word & RESET_BIT) != 0;
    if (from == FAULT && to == FAULT && held)
        counts.held_reset++;
    else
        counts.move[from][to]++;
    follow_reset_edge(seen, word);
}

const struct block *selected_of(const struct device *device)
{
    return &device->block[device->selected];
}

bool is_idle(const struct device *device)
{
    return device->state == DISABLED || device->state == FAULT;
}

/* The command that was told without dither: it is 0 exactly within the band. */
static void count_command(const struct device *device, int64_t command)
{
    const int64_t *setting = selected_of(device)->setting;
    int64_t r = selected_of(device)->position / PER_IR;
    if (is_idle(device) || device->dither[DITHER_TYPE] != 0)
        return;
    enum band band = command > 0 ? BAND_POSITIVE : command < 0 ? BAND_NEGATIVE : BAND_INSIDE;
    counts.band[device->selected][setting[DEAD_BAND_TYPE]][band]++;
    if (setting[DEAD_BAND_TYPE] != 1 || setting[DEAD_BAND_THRESHOLD] != 20 ||
        setting[DEAD_BAND_A_SIDE] != 300 || setting[DEAD_BAND_B_SIDE] != 200)
        return;
    counts.example[ABOVE_BAND] += r == 21 && command == 321;
    counts.example[BELOW_BAND] += r == -21 && command == -221;
}

/* ---- SDO ---- */

uint16_t word_at(const uint8_t *bytes)
{
    return (uint16_t)(bytes[0] | bytes[1] << 8);
}

int64_t signed_word_at(const uint8_t *bytes)
{
    int64_t word = word_at(bytes);
    return word > INT16_MAX ? word - 65536 : word;
}

uint32_t number_at(const uint8_t *bytes)
{
    return word_at(bytes) | (uint32_t)word_at(&bytes[2]) << 16;
}

static size_t size_of_write(uint8_t command)
{
    static const uint8_t commands[] = {WRITE_1, WRITE_2, WRITE_3, WRITE_4};
    for (size_t i = 0; i < sizeof commands; i++)
        if (commands[i] == command)
            return i + 1;
    return 0;
}

struct request request_of(const struct seen *seen)
{
    const uint8_t *bytes = seen->record->bytes;
    const uint8_t *reply = seen->outcome->bytes;
    return (struct request){
        .command = bytes[0],
        .index = word_at(&bytes[1]),
        .sub = bytes[3],
        .data = number_at(&bytes[4]),
        .code = reply[0] == ABORT ? number_at(&reply[4]) : 0,
        .size = size_of_write(bytes[0]),
    };
}

enum access access_of(const struct request *request)
{
    return request->size == 0 ? READ_ACCESS : WRITE_ACCESS;
}

static void count_abort(const struct seen *seen, struct found found)
{
    uint32_t code = request_of(seen).code;
    for (size_t i = 0; i < ABORT_CODES; i++)
        if ((uint32_t)abort_codes[i] == code)
            counts.abort[i]++;
    if (found.object != NULL)
        count_length_abort(seen, found, code);
}

static void count_read(const struct seen *seen, struct found found)
{
    const uint8_t *reply = seen->outcome->bytes;
    uint8_t sub = reply[3];
    counts.read[found.block][found.object - objects][sub]++;
    if (found.object->value == COMMAND && found.block == seen->before->selected && sub == 1)
        count_command(seen->before, signed_word_at(&reply[4]));
}

static void count_exchanges(const struct seen *seen)
{
    static const uint8_t exchanges[][2 * SDO_SIZE] = {
        {0x2b, 0x20, 0x63, 0x01, 0x00, 0xc0, 0, 0, 0x60, 0x20, 0x63, 0x01, 0, 0, 0, 0},
        {0x40, 0x41, 0x60, 0x00, 0, 0, 0, 0, 0x4b, 0x41, 0x60, 0x00, 0x08, 0, 0, 0},
    };
    struct device fresh = device_fresh();
    if (!device_equal(seen->before, &fresh))
        return;
    for (size_t i = 0; i < 2; i++)
        if (memcmp(exchanges[i], seen->record->bytes, SDO_SIZE) == 0 &&
            memcmp(&exchanges[i][SDO_SIZE], seen->outcome->bytes, SDO_SIZE) == 0)
            counts.example[LIMITS_EQUAL + i]++;
}

static void count_sdo(const struct seen *seen)
{
    const uint8_t *reply = seen->outcome->bytes;
    if (seen->outcome->number != DONE)
        return;
    struct found found = object_find(word_at(&reply[1]));
    if (reply[0] == ABORT) {
        count_abort(seen, found);
    } else if (reply[0] == WRITTEN) {
        counts.write[found.block][found.object - objects]++;
        if (found.object->value == CONTROL_WORD)
            count_control(seen, word_at(&seen->record->bytes[4]));
    } else {
        count_read(seen, found);
    }
    count_map_request(seen);
    count_dither_request(seen);
    count_block_request(seen);
    count_selection_request(seen);
    count_exchanges(seen);
}

static bool hands_number(uint8_t kind)
{
    return kind < EVENT_KINDS && kind != EVENT_FRESH && kind != EVENT_PATCH;
}

static void count_event(const struct seen *seen)
{
    const struct record *record = seen->record;
    if (hands_number(record->kind))
        counts.number[seen->outcome->number]++;
    count_image_event(seen);
    count_pdo_event(seen);
    count_ramp_event(seen);
    count_dither_event(seen);
    count_blocks_event(seen); /* behind the dither, which its commands have */
    count_refusals(seen);
    switch (record->kind) {
    case EVENT_FRESH:
    case EVENT_RECEIVE: /* its words are counted apart */
        reset_steps = 0;
        break;
    case EVENT_SDO:
    case EVENT_WIDE:
        count_sdo(seen);
        break;
    case EVENT_CONTROL:
        count_control(seen, record->word);
        break;
    case EVENT_FAULT:
        if (seen->outcome->number == DONE)
            counts.fault[seen->before->state]++;
        break;
    case EVENT_QUERY:
        count_command(seen->before, seen->outcome->query[QUERY_COMMAND].value);
        break;
    default:
        break;
    }
}

/* ---- The list ---- */

static bool list_missing; /* the second pass: only the items never met */
static bool any_missing;

void list_item(uint64_t count, const char *format, ...)
{
    enum { NAME_ROOM = 100 };
    char name[NAME_ROOM];
    va_list arguments;
    va_start(arguments, format);
    vsnprintf(name, sizeof name, format, arguments);
    va_end(arguments);
    if (!list_missing)
        printf("%s %" PRIu64 "\n", name, count);
    else if (count == 0)
        printf("missing %s\n", name);
    any_missing = any_missing || count == 0;
}

static void list_answers(void)
{
    for (size_t i = 0; i < ABORT_CODES; i++)
        list_item(counts.abort[i], "abort-%08" PRIX32, (uint32_t)abort_codes[i]);
    for (size_t i = 0; i < NUMBERS; i++)
        if (i <= TAG_NOT_FOUND || i == PDO_SHORT)
            list_item(counts.number[i], "number-%d", (int)i);
}

static void list_transitions(void)
{
    static const uint8_t moves[][2] = {
        {DISABLED, HOLD}, {HOLD, DISABLED},   {HOLD, ACTIVE},
        {ACTIVE, HOLD},   {ACTIVE, DISABLED}, {FAULT, DISABLED},
    };
    for (size_t i = 0; i < sizeof moves / sizeof moves[0]; i++) {
        uint8_t from = moves[i][0];
        uint8_t to = moves[i][1];
        list_item(counts.move[from][to], "move-%s-%s", state_names[from], state_names[to]);
    }
    for (size_t state = 0; state < STATES; state++)
        list_item(counts.fault[state], "fault-%s-FAULT", state_names[state]);
    list_item(counts.held_reset, "held-reset-stays-FAULT");
    for (size_t state = 0; state < STATES; state++)
        list_item(counts.move[state][state], "word-moves-nothing-in-%s", state_names[state]);
}

static void list_bands(void)
{
    for (size_t block = 0; block < BLOCKS; block++)
        for (size_t type = 0; type < DEAD_BAND_TYPES; type++)
            for (size_t band = 0; band < BANDS; band++)
                list_item(counts.band[block][type][band], "%sdead-band-%d-%s",
                          block_prefixes[block], (int)type, band_names[band]);
}

static void list_entries(void)
{
    for (size_t i = 0; i < ALL_OBJECTS; i++) {
        struct found found = object_at(i);
        if (found.object->access == READ_WRITE)
            list_item(counts.write[found.block][found.object - objects], "write-%04X",
                      (unsigned)object_index(found));
    }
    for (size_t i = 0; i < ALL_OBJECTS; i++) {
        struct found found = object_at(i);
        const uint64_t *by_sub = counts.read[found.block][found.object - objects];
        for (size_t sub = 0; sub <= object_top_sub(found.object); sub++)
            list_item(by_sub[sub], "read-%04X-sub-%d", (unsigned)object_index(found), (int)sub);
    }
}

static void list_all(void)
{
    list_answers();
    list_transitions();
    list_ramp_items();
    list_bands();
    list_entries();
    list_length_items();
    list_map_items();
    list_pdo_items();
    list_dither_items();
    list_dither_object_items();
    list_block_object_items();
    list_selection_items();
    list_blocks_items();
    for (size_t i = 0; i < EXAMPLES; i++)
        list_item(counts.example[i], "example-%s", example_names[i]);
    list_image_items();
    list_refusal_items();
}

int mode_cover(void)
{
    struct run run = run_begin();
    struct record record;
    while (record_read(stdin, &record) == RECORD_SIZE) {
        struct run before = run;
        struct outcome outcome = run_event(&run, &record);
        struct seen seen = {&record, &outcome, &before.device, &run.device, before.image};
        count_event(&seen);
    }
    list_all();
    list_missing = true;
    list_all();
    return any_missing ? EXIT_MISSING : EXIT_GOOD;
}
