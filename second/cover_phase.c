/* What an event file has reached of the dither's phase: how ticks and jumps advance it, what
 * keeps it and what sets it to 0. Only events after which the phase is where it should be come
 * here; cover_dither.c works that out. */
#include "cover.h"

enum { TYPES = 3 };
static const char *const type_names[TYPES] = {"off", "square", "triangle"};

static const uint64_t phase_range = UINT64_C(1) << 32;

/* ---- Advances ---- */

enum mover { BY_TICK, BY_TICKS, BY_JUMP, MOVERS };
static const char *const mover_names[MOVERS] = {"tick", "ticks", "jump"};

static const int64_t frequencies[] = {0, 1, 249, 250};
enum { FREQUENCIES = sizeof frequencies / sizeof frequencies[0] };

static struct {
    uint64_t advanced[STATES][TYPES];
    uint64_t frequency[FREQUENCIES]; /* where it is 0, a phase above 0 stands still */
    uint64_t end_to_0;
    uint64_t end_to_more;
    uint64_t fraction; /* of the ticks would add up to one and more */
    uint64_t idle[STATES];
} mover_counts[MOVERS];

enum jump_item {
    JUMP_OF_0,
    JUMP_ONCE_ROUND,
    JUMP_2_TO_32,
    JUMP_2_TO_53,
    JUMP_2_TO_61,
    JUMP_OF_HALF,
    JUMP_LONGEST,
    JUMP_ITEMS
};
static const char *const jump_names[JUMP_ITEMS] = {
    "of-0-keeps-it",
    "over-the-end-by-a-product-below-2-to-32",
    "by-a-product-of-2-to-32-and-more",
    "by-a-product-of-2-to-53-and-more",
    "by-a-product-of-2-to-61-and-more",
    "of-2-to-31-ticks-and-more",
    "of-4294967295-ticks",
};
static uint64_t jump_counts[JUMP_ITEMS];

static enum mover mover_of(const struct record *record)
{
    switch (record->kind) {
    case EVENT_TICK:
        return BY_TICK;
    case EVENT_TICKS:
        return BY_TICKS;
    case EVENT_JUMP:
        return BY_JUMP;
    default:
        return MOVERS;
    }
}

static uint64_t ticks_of(const struct record *record, enum mover mover)
{
    if (mover == BY_TICK)
        return 1;
    return mover == BY_TICKS ? record->word : record->number;
}

/* A product that leaves no remainder would hide how it is reduced. */
static void count_jump(const struct seen *seen, uint64_t ticks, uint64_t advance)
{
    uint64_t product = ticks * advance;
    bool told = product % phase_range != 0;
    bool round = seen->before->phase + product >= phase_range;
    jump_counts[JUMP_OF_0] += ticks == 0 && seen->before->phase != 0 && advance != 0;
    jump_counts[JUMP_ONCE_ROUND] += round && product < phase_range;
    jump_counts[JUMP_2_TO_32] += told && product >= phase_range;
    jump_counts[JUMP_2_TO_53] += told && product >= UINT64_C(1) << 53;
    jump_counts[JUMP_2_TO_61] += told && product >= UINT64_C(1) << 61;
    jump_counts[JUMP_OF_HALF] += told && ticks >= phase_range / 2;
    jump_counts[JUMP_LONGEST] += told && ticks == phase_range - 1;
}

/* 2^32 is 296 more than a multiple of 1000: so much of each hertz is dropped of a tick. */
static bool is_fraction_seen(const struct device *device, uint64_t ticks)
{
    uint64_t dropped = (uint64_t)device->dither[DITHER_FREQUENCY] * 296 % 1000;
    return ticks * dropped >= 1000;
}

static void count_mover(const struct seen *seen, enum mover mover, uint64_t advance)
{
    const struct device *before = seen->before;
    uint64_t ticks = ticks_of(seen->record, mover);
    bool moved = before->phase != seen->after->phase;
    bool over = before->phase + ticks * advance >= phase_range;
    if (is_idle(before)) {
        mover_counts[mover].idle[before->state] += ticks > 0 && advance > 0;
        return;
    }
    mover_counts[mover].advanced[before->state][before->dither[DITHER_TYPE]] += moved;
    for (size_t i = 0; i < FREQUENCIES; i++)
        if (before->dither[DITHER_FREQUENCY] == frequencies[i])
            mover_counts[mover].frequency[i] += moved || (advance == 0 && before->phase > 0);
    mover_counts[mover].end_to_0 += over && moved && seen->after->phase == 0;
    mover_counts[mover].end_to_more += over && moved && seen->after->phase > 0;
    mover_counts[mover].fraction += is_fraction_seen(before, ticks);
    if (mover == BY_JUMP)
        count_jump(seen, ticks, advance);
}

/* ---- Moves of the device ---- */

enum way { BY_CONTROL, BY_SDO, BY_RECEIVE, WAYS };
static const char *const way_names[WAYS] = {"control", "sdo", "receive"};

static uint64_t kept_counts[STATES][STATES][WAYS]; /* equal states: another word, no move */
static uint64_t cleared_counts[STATES][WAYS];      /* to DISABLED, from this state */
static uint64_t fault_counts[STATES];              /* to FAULT, from this state */
static uint64_t fresh_counts[STATES];
static uint64_t through_count; /* by a PDO to DISABLED and on */

static enum way way_of(const struct record *record)
{
    switch (record->kind) {
    case EVENT_CONTROL:
        return BY_CONTROL;
    case EVENT_SDO:
    case EVENT_WIDE:
        return BY_SDO;
    case EVENT_RECEIVE:
        return BY_RECEIVE;
    default:
        return WAYS;
    }
}

/* Of a device with a phase above 0. */
static void count_move(const struct seen *seen)
{
    const struct device *before = seen->before;
    const struct device *after = seen->after;
    enum way way = way_of(seen->record);
    fault_counts[before->state] += after->state == FAULT;
    fresh_counts[before->state] += seen->record->kind == EVENT_FRESH;
    if (way == WAYS)
        return;
    if (after->state == DISABLED)
        cleared_counts[before->state][way]++;
    else if (after->phase == 0)
        through_count++;
    else if (after->control_word != before->control_word)
        kept_counts[before->state][after->state][way]++;
}

/* ---- What leaves the dither's values alone ---- */

static uint64_t keeper_counts[KEEPERS];
static uint64_t values_cleared_count; /* by a fresh device */

/* A store and a send change nothing; the others have to have changed something else. */
static void count_keepers(const struct seen *seen)
{
    const int64_t *before = seen->before->dither;
    const int64_t *after = seen->after->dither;
    uint8_t kind = seen->record->kind;
    bool has_acted =
        kind == EVENT_STORE || kind == EVENT_SEND || !device_equal(seen->before, seen->after);
    bool kept = true;
    bool cleared = true;
    for (size_t place = 0; place < DITHER_VALUES; place++) {
        kept = kept && before[place] != 0 && before[place] == after[place];
        cleared = cleared && before[place] != 0 && after[place] == 0;
    }
    values_cleared_count += cleared && kind == EVENT_FRESH;
    for (size_t i = 0; i < KEEPERS; i++)
        if (keepers[i].kind == kind && seen->outcome->number == DONE)
            keeper_counts[i] += kept && has_acted;
}

void count_phase_event(const struct seen *seen, uint64_t advance)
{
    enum mover mover = mover_of(seen->record);
    if (mover != MOVERS)
        count_mover(seen, mover, advance);
    if (seen->before->phase > 0)
        count_move(seen);
    count_keepers(seen);
}

/* ---- The list ---- */

static void list_mover(size_t mover)
{
    static const enum device_state moving[] = {HOLD, ACTIVE};
    const char *name = mover_names[mover];
    for (size_t i = 0; i < 2; i++)
        for (size_t type = 0; type < TYPES; type++)
            list_item(mover_counts[mover].advanced[moving[i]][type],
                      "phase-advanced-by-%s-in-%s-%s", name, state_names[moving[i]],
                      type_names[type]);
    for (size_t i = 0; i < FREQUENCIES; i++)
        list_item(mover_counts[mover].frequency[i], "phase-by-%s-at-frequency-%d", name,
                  (int)frequencies[i]);
    list_item(mover_counts[mover].end_to_0, "phase-over-the-end-to-0-by-%s", name);
    list_item(mover_counts[mover].end_to_more, "phase-over-the-end-beyond-0-by-%s", name);
    if (mover != BY_TICK)
        list_item(mover_counts[mover].fraction, "phase-with-fractions-dropped-by-%s", name);
    list_item(mover_counts[mover].idle[DISABLED], "phase-stays-0-by-%s-in-DISABLED", name);
    list_item(mover_counts[mover].idle[FAULT], "phase-stays-0-by-%s-in-FAULT", name);
}

static void list_moves(void)
{
    for (size_t way = 0; way < WAYS; way++) {
        const char *name = way_names[way];
        list_item(kept_counts[ACTIVE][HOLD][way], "phase-kept-ACTIVE-HOLD-by-%s", name);
        list_item(kept_counts[HOLD][ACTIVE][way], "phase-kept-HOLD-ACTIVE-by-%s", name);
        list_item(kept_counts[HOLD][HOLD][way], "phase-kept-in-HOLD-by-%s", name);
        list_item(kept_counts[ACTIVE][ACTIVE][way], "phase-kept-in-ACTIVE-by-%s", name);
        list_item(cleared_counts[HOLD][way], "phase-cleared-HOLD-DISABLED-by-%s", name);
        list_item(cleared_counts[ACTIVE][way], "phase-cleared-ACTIVE-DISABLED-by-%s", name);
    }
    list_item(fault_counts[HOLD], "phase-cleared-HOLD-FAULT");
    list_item(fault_counts[ACTIVE], "phase-cleared-ACTIVE-FAULT");
    list_item(fresh_counts[HOLD], "phase-cleared-HOLD-fresh");
    list_item(fresh_counts[ACTIVE], "phase-cleared-ACTIVE-fresh");
    list_item(through_count, "phase-cleared-through-DISABLED-by-receive");
}

void list_phase_items(void)
{
    for (size_t mover = 0; mover < MOVERS; mover++)
        list_mover(mover);
    for (size_t i = 0; i < JUMP_ITEMS; i++)
        list_item(jump_counts[i], "phase-by-jump-%s", jump_names[i]);
    list_moves();
    for (size_t i = 0; i < KEEPERS; i++)
        list_item(keeper_counts[i], "dither-values-kept-by-%s", keepers[i].name);
    list_item(values_cleared_count, "dither-values-cleared-by-fresh");
}
