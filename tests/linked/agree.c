/* agree SEED COUNT: makes COUNT events from the seed and does each on the library and on second, in one process. After each it compares
 * the number, what was answered, every byte of the room and the whole state, and stops at the first difference. At the end it tells how
 * often what can come came. Status 1 where something differs or never came, 2 for a wrong call. */
#include "agree.h"

#include <inttypes.h>
#include <stdio.h>
#include <stdlib.h>
#include <string.h>

/* ---- What differs */

/* The event that is being done, and both devices before it. */
static struct {
    uint64_t count;
    struct event event;
    struct pair before;
} now;

static void print_now(void)
{
    const struct event *event = &now.event;
    printf("event %" PRIu64 ", %s: word or index %u, number %" PRIu32 ", tag or sub-index %u, size %u, room of %zu filled with %02x\n",
           now.count, event->call->name, event->word, event->number, event->tag, event->size, event->room_length, event->fill);
    printf("handed over, %zu bytes:", event->input_length);
    for (size_t i = 0; i < event->input_length; i++)
        printf(" %02x", event->input[i]);
    printf("\nwords of the device before:");
    for (size_t place = 0; place < RAINSHEAVE_PLACE_WORDS; place++)
        printf(" %" PRId64, word_at(&now.before.library, place));
    printf("\n");
}

static void compare(const char *what, int64_t library, int64_t due)
{
    if (library == due)
        return;
    print_now();
    printf("%s is %" PRId64 " by the library, and due is %" PRId64 "\n", what, library, due);
    exit(1);
}

static void compare_outcomes(const struct outcome *library, const struct outcome *due)
{
    char what[40];
    compare("the number", library->number, due->number);
    compare("the value", library->value, due->value);
    compare("the length", (int64_t)library->length, (int64_t)due->length);
    for (int i = 0; i < ROOM_BYTES; i++) {
        if (library->room[i] == due->room[i])
            continue;
        snprintf(what, sizeof what, "byte %d of the room", i - MARGIN);
        compare(what, library->room[i], due->room[i]);
    }
}

static void compare_devices(const rainsheave_device *library, const rainsheave_device *due)
{
    char what[40];
    if (same_words(library, due))
        return;
    for (size_t place = 0; place < RAINSHEAVE_PLACE_WORDS; place++) {
        snprintf(what, sizeof what, "word %zu, of %s,", place, part_of_word(place));
        compare(what, word_at(library, place), word_at(due, place));
    }
}

/* ---- What came */

enum { ABORTS = 13, RAMP_TYPES = 4, DITHER_TYPES = 3 };
enum jump_end { SHORT_OF_TARGET, JUST_AT_TARGET, BEYOND_TARGET, JUMP_ENDS };

static const uint32_t abort_codes[ABORTS] = {
    RAINSHEAVE_ABORT_UNKNOWN_COMMAND, RAINSHEAVE_ABORT_NO_OBJECT,      RAINSHEAVE_ABORT_NO_SUB_INDEX,
    RAINSHEAVE_ABORT_READ_ONLY_ENTRY, RAINSHEAVE_ABORT_TOO_MANY_BYTES, RAINSHEAVE_ABORT_TOO_FEW_BYTES,
    RAINSHEAVE_ABORT_TOO_HIGH,        RAINSHEAVE_ABORT_TOO_LOW,        RAINSHEAVE_ABORT_NO_SUCH_CHOICE,
    RAINSHEAVE_ABORT_LIMITS_CROSSED,  RAINSHEAVE_ABORT_LOCKED_NOW,     RAINSHEAVE_ABORT_MAP_TOO_LONG,
    RAINSHEAVE_ABORT_NOT_MAPPABLE,
};

static struct {
    uint64_t numbers[CALLS][NUMBERS];
    uint64_t aborts[ABORTS];
    uint64_t states[STATES];
    uint64_t selections[BLOCKS];
    uint64_t moves[BLOCKS][RAMP_TYPES];       /* by ticks and jumps */
    uint64_t jumps[JUMP_ENDS];                /* those that moved the position */
    uint64_t dithers[DITHER_TYPES];           /* off, or with an amplitude and on its way */
    uint64_t pdos[MAPS][MAP_ENTRIES + 1];     /* by the entries that count */
    uint64_t unsound[RAINSHEAVE_PLACE_WORDS]; /* by the word that was spoilt */
    uint64_t unheld[RAINSHEAVE_PLACE_WORDS];  /* those of them that second cannot be handed */
} came;

static void count_abort(const uint8_t *reply)
{
    uint32_t code = reply[4] | (uint32_t)reply[5] << 8 | (uint32_t)reply[6] << 16 | (uint32_t)reply[7] << 24;
    for (size_t i = 0; i < ABORTS; i++)
        came.aborts[i] += code == abort_codes[i];
}

static void count_outcome(const struct outcome *outcome)
{
    const struct call *call = now.event.call;
    came.numbers[call - calls][outcome->number]++;
    if (call == &calls[SDO] && outcome->number == DONE && outcome->room[MARGIN] == ABORT)
        count_abort(&outcome->room[MARGIN]);
    if (call == &calls[RECEIVE] && outcome->number == DONE)
        came.pdos[RECEIVE_MAP][now.before.second.map[RECEIVE_MAP].count]++;
    if (call == &calls[SEND] && outcome->number == DONE)
        came.pdos[TRANSMIT_MAP][now.before.second.map[TRANSMIT_MAP].count]++;
}

/* Of a jump that changes the position. */
static enum jump_end end_of_jump(void)
{
    int64_t to_go = device_query(&now.before.second, QUERY_TICKS_TO_GO).value;
    if (now.event.number < to_go)
        return SHORT_OF_TARGET;
    return now.event.number == to_go ? JUST_AT_TARGET : BEYOND_TARGET;
}

static void count_state(const struct device *device)
{
    const struct block *block = &device->block[device->selected];
    const struct call *call = now.event.call;
    bool wave = device->dither[DITHER_AMPLITUDE] != 0 && device->phase != 0;
    came.states[device->state]++;
    came.selections[device->selected]++;
    came.dithers[wave ? device->dither[DITHER_TYPE] : 0]++;
    if (block->position == now.before.second.block[device->selected].position)
        return;
    if (call == &calls[TICK] || call == &calls[JUMP])
        came.moves[device->selected][block->setting[RAMP_TYPE]]++;
    if (call == &calls[JUMP])
        came.jumps[end_of_jump()]++;
}

/* ---- The events */

static struct event make_event(struct chance *chance, const struct device *device)
{
    struct event event = {.call = calls, .room_length = ROOM_MOST};
    uint32_t place = 0;
    for (size_t i = 0; i < CALLS; i++)
        place += calls[i].weight;
    place = below(chance, place);
    while (place >= event.call->weight) {
        place -= event.call->weight;
        event.call++;
    }
    event.fill = (uint8_t)draw(chance);
    if (event.call->make != NULL)
        event.call->make(chance, device, &event);
    return event;
}

/* What second does is due. Words that second has no fields for are no device: they are refused as an unsound one is. */
static unsigned do_event(struct pair *pair, bool held)
{
    struct event handed = now.event;
    now.before = *pair;
    struct outcomes outcomes = act_on_both(pair, &handed);
    rainsheave_device due = library_of(&pair->second);
    if (!held) {
        outcomes.second = refusal_of(&now.event, RAINSHEAVE_NUMBER_UNSOUND);
        due = now.before.library;
    }
    compare("changes in what was handed over", memcmp(handed.input, now.event.input, INPUT_MOST) != 0, 0);
    compare_outcomes(&outcomes.library, &outcomes.second);
    compare_devices(&pair->library, &due);
    count_outcome(&outcomes.library);
    return outcomes.library.number;
}

/* With one word spoilt, on copies: the sound devices go on afterwards. */
static void do_spoilt(struct chance *chance, const struct pair *pair)
{
    struct pair spoilt = *pair;
    size_t place = spoil_word(chance, &spoilt.library);
    spoilt.second = second_of(&spoilt.library);
    rainsheave_device by_second = library_of(&spoilt.second);
    bool held = same_words(&by_second, &spoilt.library);
    unsigned number = do_event(&spoilt, held);
    came.unsound[place] += number == RAINSHEAVE_NUMBER_UNSOUND;
    came.unheld[place] += !held;
}

static void do_events(uint64_t seed, uint64_t count)
{
    struct chance chance = {seed};
    struct pair pair = {0};
    now.event = (struct event){.call = &calls[FRESH]};
    do_event(&pair, true);
    for (now.count = 1; now.count <= count; now.count++) {
        now.event = make_event(&chance, &pair.second);
        if (now.event.call->refusals[0] == RAINSHEAVE_NUMBER_UNSOUND && one_in(&chance, 8)) {
            do_spoilt(&chance, &pair);
            continue;
        }
        do_event(&pair, true);
        count_state(&pair.second);
    }
}

/* ---- The summary */

static unsigned wrong; /* so many things never came, or came although they cannot */

static void tell_count(uint64_t count, bool due)
{
    printf(" %" PRIu64 "%s", count, (count != 0) == due ? "" : due ? " MISSING" : " NOT DUE");
    wrong += (count != 0) != due;
}

static void tell(const char *what, const uint64_t *counts, size_t length)
{
    printf("%s:", what);
    for (size_t i = 0; i < length; i++)
        tell_count(counts[i], true);
    printf("\n");
}

static void tell_numbers(size_t call)
{
    printf("%s, by number:", calls[call].name);
    for (int number = 0; number < NUMBERS; number++) {
        bool due = number == DONE || memchr(calls[call].refusals, number, REFUSALS) != NULL;
        if (!due && came.numbers[call][number] == 0)
            continue;
        printf(" %d:", number);
        tell_count(came.numbers[call][number], due);
    }
    printf("\n");
}

static void tell_aborts(void)
{
    printf("aborts, by code:");
    for (size_t i = 0; i < ABORTS; i++) {
        printf(" %08" PRIX32 "h:", abort_codes[i]);
        tell_count(came.aborts[i], true);
    }
    printf("\n");
}

static void tell_unheld(void)
{
    printf("devices with a word that second cannot be handed, by its place:");
    for (size_t place = 0; place < RAINSHEAVE_PLACE_WORDS; place++)
        tell_count(came.unheld[place], !second_holds_all(place));
    printf("\n");
}

static void tell_all(void)
{
    for (size_t call = 0; call < CALLS; call++)
        tell_numbers(call);
    tell_aborts();
    tell("states, DISABLED, HOLD, ACTIVE, FAULT", came.states, STATES);
    tell("selections, position, pressure", came.selections, BLOCKS);
    tell("moves of the position block, by ramp type", came.moves[POSITION_BLOCK], RAMP_TYPES);
    tell("moves of the pressure block, by ramp type", came.moves[PRESSURE_BLOCK], RAMP_TYPES);
    tell("jumps short of the target, just there, beyond", came.jumps, JUMP_ENDS);
    tell("dither none, square, triangle", came.dithers, DITHER_TYPES);
    tell("PDOs received, by entries", came.pdos[RECEIVE_MAP], MAP_ENTRIES + 1);
    tell("PDOs sent, by entries", came.pdos[TRANSMIT_MAP], MAP_ENTRIES + 1);
    tell("devices unsound by one word, by its place", came.unsound, RAINSHEAVE_PLACE_WORDS);
    tell_unheld();
}

static bool read_number(const char *text, uint64_t *number)
{
    char *end;
    *number = strtoull(text, &end, 10);
    return *text >= '0' && *text <= '9' && *end == '\0';
}

int main(int argc, char **argv)
{
    uint64_t seed;
    uint64_t count;
    if (argc != 3 || !read_number(argv[1], &seed) || !read_number(argv[2], &count)) {
        fprintf(stderr, "usage: agree SEED COUNT\n");
        return 2;
    }
    do_events(seed, count);
    tell_all();
    if (wrong > 0) {
        printf("%" PRIu64 " events from seed %" PRIu64 ", no difference, but %u counts above are MISSING or NOT DUE\n", count, seed, wrong);
        return 1;
    }
    printf("%" PRIu64 " events from seed %" PRIu64 ", no difference\n", count, seed);
    return 0;
}
