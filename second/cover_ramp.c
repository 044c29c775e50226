/* What an event file has reached of document 01's ramps and of wish 3 of document 02: on the
 * way to the other side of zero type 1 goes straight on, types 2 and 3 halt at zero. The steps,
 * where ticks should lead and how many are to go are worked out here and not taken from the
 * model: an event that did anything else counts for no item. */
#include "cover.h"

enum { RAMP_TYPES = 4, ONE_TIME = 1 };

/* ---- The items ---- */

/* One tick's way. A crossing is in types 0 and 1 the tick from one side of zero to the other,
 * in types 2 and 3 the one that halts at zero on the way there. */
enum way_item {
    UP_POSITIVE,
    DOWN_POSITIVE,
    UP_NEGATIVE,
    DOWN_NEGATIVE,
    CROSS_DOWN,
    CROSS_UP,
    WAY_ITEMS
};
static const char *const way_names[WAY_ITEMS] = {
    "up-on-positive-side",   "down-on-positive-side", "up-on-negative-side",
    "down-on-negative-side", "positive-to-negative",  "negative-to-positive",
};

/* All other items come in both directions. They are of ways from one side of zero to the
 * other, but for the stop at zero where that is the target. */
enum direction { DOWN, UP, DIRECTIONS };
static const char *const direction_names[DIRECTIONS] = {"positive-to-negative",
                                                        "negative-to-positive"};

/* Up to the end at zero they are of type 1; the halts are of types 2 and 3. */
enum tick_item {
    ACROSS_SHORT_OF_TARGET,
    ACROSS_TO_TARGET_BY_PART, /* of a step */
    ACROSS_TO_TARGET_BY_STEP,
    ENDS_AT_ZERO,
    HALTS_BY_PART,
    HALTS_BY_STEP,
    HALTS_NEAR_TARGET,
    GOES_ON,
    TICK_ITEMS
};
static const char *const tick_names[TICK_ITEMS] = {
    "short-of-target",
    "to-target-by-part-of-a-step",
    "to-target-by-a-whole-step",
    "ends-at-zero",
    "halts-by-part-of-a-step",
    "halts-by-a-whole-step",
    "halts-although-target-within-a-step",
    "goes-on-from-zero",
};

/* Ticks to go that a query told. The first two are of type 1, the third of types 2 and 3. */
enum told_item { FEWER_THAN_BY_LEGS, AS_MANY_AS_BY_LEGS, BY_LEGS, MOST, TOLD_ITEMS };
static const char *const told_names[MOST] = {
    "ticks-to-go-one-fewer-than-by-legs",
    "ticks-to-go-as-many-as-by-legs",
    "ticks-to-go-by-legs",
};

/* The most ticks to go, from end to end with this time, by type. */
enum { SLOWEST = 3600000 };
static const int64_t most_ticks[RAMP_TYPES] = {[ONE_TIME] = 7206321, 7206322, 7206322};

enum jump_item {
    JUMP_BEFORE_ZERO,
    JUMP_TO_ZERO,
    JUMP_TICKS_TO_ZERO,
    JUMP_SHORT_OF_TARGET,
    JUMP_BEFORE_LAST,
    JUMP_LAST,
    JUMP_BEYOND,
    JUMP_ITEMS
};
static const char *const jump_names[JUMP_ITEMS] = {
    "jump-one-tick-short-of-zero",
    "jump-to-zero-by-whole-steps",
    "jump-by-the-ticks-to-zero",
    "jump-short-of-target",
    "jump-one-tick-before-the-last",
    "jump-to-the-last-tick",
    "jump-beyond-the-last-tick",
};

static struct type_counts {
    uint64_t way[WAY_ITEMS];
    uint64_t tick[DIRECTIONS][TICK_ITEMS];
    uint64_t stop_at_target_zero[DIRECTIONS];
    uint64_t told[DIRECTIONS][TOLD_ITEMS];
    uint64_t jump[DIRECTIONS][JUMP_ITEMS];
} counts[BLOCKS][RAMP_TYPES];

/* ---- A way and where it should lead ---- */

enum side { POSITIVE, NEGATIVE, SIDES };
enum course { OUTWARD, INWARD, COURSES };

/* Of the selected block. The times are those toward zero on the side where it starts and away
 * from zero on the side where it leads; type 0 has none. */
struct way {
    size_t block;
    size_t type;
    int64_t from;
    int64_t target;
    int64_t time_in;
    int64_t time_out;
};

static struct way way_of(const struct device *device)
{
    static const enum setting times[RAMP_TYPES][SIDES][COURSES] = {
        [ONE_TIME] = {{ACCELERATION_ONE, ACCELERATION_ONE}, {ACCELERATION_ONE, ACCELERATION_ONE}},
        [2] = {{ACCELERATION_ONE, DECELERATION_ONE}, {ACCELERATION_ONE, DECELERATION_ONE}},
        [3] = {{ACCELERATION_POSITIVE, DECELERATION_POSITIVE},
               {ACCELERATION_NEGATIVE, DECELERATION_NEGATIVE}},
    };
    const struct block *block = selected_of(device);
    const int64_t *setting = block->setting;
    struct way way = {.block = device->selected, .type = (size_t)setting[RAMP_TYPE]};
    way.from = block->position;
    way.target = target_wanted(block, device->state) * PER_IR;
    if (way.type == 0)
        return way;
    way.time_in = setting[times[way.type][way.from < 0 ? NEGATIVE : POSITIVE][INWARD]];
    way.time_out = setting[times[way.type][way.target < 0 ? NEGATIVE : POSITIVE][OUTWARD]];
    return way;
}

static int64_t length(int64_t from, int64_t to)
{
    return from < to ? to - from : from - to;
}

static int64_t whole_length(const struct way *way)
{
    return length(way->from, way->target);
}

static int64_t length_to_zero(const struct way *way)
{
    return length(way->from, 0);
}

static int64_t length_past_zero(const struct way *way)
{
    return length(0, way->target);
}

static int64_t least(int64_t a, int64_t b)
{
    return a < b ? a : b;
}

static int64_t step_of(int64_t time)
{
    return time == 0 ? FULL_POSITION : FULL_POSITION / time;
}

static int64_t step_in(const struct way *way)
{
    return step_of(way->time_in);
}

static int64_t step_out(const struct way *way)
{
    return step_of(way->time_out);
}

/* The one step of a way without a halt: by whether it ends farther out. */
static int64_t straight_step(const struct way *way)
{
    bool farther_out = length_past_zero(way) > length_to_zero(way);
    return farther_out ? step_out(way) : step_in(way);
}

static int64_t rounded_up(int64_t distance, int64_t step)
{
    return distance / step + (distance % step != 0);
}

static bool leads_across(const struct way *way)
{
    return (way->from > 0 && way->target < 0) || (way->from < 0 && way->target > 0);
}

static enum direction direction_of(const struct way *way)
{
    return way->target < way->from ? DOWN : UP;
}

static int64_t ticks_to_zero(const struct way *way)
{
    return rounded_up(length_to_zero(way), step_in(way));
}

/* By legs: to zero, and on from there. */
static int64_t ticks_by_legs(const struct way *way)
{
    return ticks_to_zero(way) + rounded_up(length_past_zero(way), step_out(way));
}

static int64_t ticks_straight(const struct way *way)
{
    return rounded_up(whole_length(way), straight_step(way));
}

static int64_t led_by_legs(const struct way *way, int64_t ticks)
{
    int64_t on = ticks - ticks_to_zero(way);
    if (on < 0)
        return ticks * step_in(way);
    return length_to_zero(way) + least(on * step_out(way), length_past_zero(way));
}

static int64_t led_straight(const struct way *way, int64_t ticks)
{
    return least(ticks * straight_step(way), whole_length(way));
}

/* So far along the way so many ticks should lead; there is one at least. */
static int64_t should_lead(const struct way *way, int64_t ticks)
{
    if (way->type == 0)
        return whole_length(way);
    if (way->type == ONE_TIME || !leads_across(way))
        return led_straight(way, ticks);
    return led_by_legs(way, ticks);
}

/* So far along the way it is; below 0 it is off it. */
static int64_t led_to(const struct way *way, int64_t position)
{
    return direction_of(way) == DOWN ? way->from - position : position - way->from;
}

/* Whether so many ticks lead elsewhere without a halt at zero than with one. */
static bool is_told_apart(const struct way *way, int64_t ticks)
{
    return led_straight(way, ticks) != led_by_legs(way, ticks);
}

static bool is_ramp_across(const struct device *device, const struct way *way)
{
    return !is_idle(device) && way->type != 0 && leads_across(way);
}

/* ---- Ticks ---- */

static enum way_item way_item_of(const struct way *way, int64_t to)
{
    bool other_side = way->from > 0 ? to < 0 : to > 0;
    bool crosses = leads_across(way) && (way->type > ONE_TIME ? to == 0 : other_side);
    if (crosses)
        return way->from > 0 ? CROSS_DOWN : CROSS_UP;
    if (way->from > 0 || to > 0)
        return to > way->from ? UP_POSITIVE : DOWN_POSITIVE;
    return to > way->from ? UP_NEGATIVE : DOWN_NEGATIVE;
}

/* Of a tick in type 1 that led where it should. */
static void count_straight_tick(const struct way *way, uint64_t items[TICK_ITEMS])
{
    int64_t to_zero = length_to_zero(way);
    int64_t whole = whole_length(way);
    int64_t step = straight_step(way);
    items[ACROSS_SHORT_OF_TARGET] += to_zero < step && step < whole;
    items[ACROSS_TO_TARGET_BY_PART] += whole < step;
    items[ACROSS_TO_TARGET_BY_STEP] += whole == step;
    items[ENDS_AT_ZERO] += to_zero == step;
}

/* The same in types 2 and 3. */
static void count_halting_tick(const struct way *way, uint64_t items[TICK_ITEMS])
{
    int64_t to_zero = length_to_zero(way);
    int64_t step = step_in(way);
    items[HALTS_BY_PART] += to_zero < step && is_told_apart(way, 1);
    items[HALTS_BY_STEP] += to_zero == step;
    items[HALTS_NEAR_TARGET] += whole_length(way) <= step;
}

/* As the last tick that ended at zero on the way to the other side left it. */
static struct device left_at_zero;

static void count_tick_across(const struct way *way, const struct device *after)
{
    uint64_t *items = counts[way->block][way->type].tick[direction_of(way)];
    if (way->type == ONE_TIME)
        count_straight_tick(way, items);
    else
        count_halting_tick(way, items);
    if (selected_of(after)->position == 0)
        left_at_zero = *after;
}

static void count_tick(const struct device *before, const struct device *after)
{
    struct way way = way_of(before);
    enum direction direction = direction_of(&way);
    int64_t to = selected_of(after)->position;
    if (is_idle(before) || to == way.from || led_to(&way, to) != should_lead(&way, 1))
        return;
    struct type_counts *from = &counts[way.block][way.type];
    from->way[way_item_of(&way, to)]++;
    if (way.type == 0)
        return;
    from->tick[direction][GOES_ON] += device_equal(before, &left_at_zero);
    from->stop_at_target_zero[direction] +=
        way.target == 0 && whole_length(&way) < step_in(&way);
    if (leads_across(&way))
        count_tick_across(&way, after);
}

static void count_ticks(const struct seen *seen, uint32_t ticks)
{
    struct device device = *seen->before;
    for (uint32_t i = 0; i < ticks; i++) {
        struct device before = device;
        device_tick(&device);
        count_tick(&before, &device);
    }
}

/* ---- Ticks to go ---- */

static bool is_slowest_end_to_end(const struct way *way)
{
    return whole_length(way) == 2 * (int64_t)FULL_POSITION && way->time_in == SLOWEST &&
           way->time_out == SLOWEST;
}

static void count_told(const struct seen *seen)
{
    struct way way = way_of(seen->before);
    int64_t told = seen->outcome->query[QUERY_TICKS_TO_GO].value;
    if (!is_ramp_across(seen->before, &way))
        return;
    int64_t straight = ticks_straight(&way);
    int64_t by_legs = ticks_by_legs(&way);
    uint64_t *items = counts[way.block][way.type].told[direction_of(&way)];
    items[FEWER_THAN_BY_LEGS] += told == straight && told == by_legs - 1;
    items[AS_MANY_AS_BY_LEGS] += told == straight && told == by_legs;
    items[BY_LEGS] += told == by_legs && told != straight;
    items[MOST] += told == most_ticks[way.type] && is_slowest_end_to_end(&way);
}

/* ---- Jumps ---- */

static void count_jump(const struct seen *seen)
{
    struct way way = way_of(seen->before);
    int64_t ticks = seen->record->number;
    int64_t led = led_to(&way, selected_of(seen->after)->position);
    if (!is_ramp_across(seen->before, &way) || ticks == 0 || led != should_lead(&way, ticks))
        return;
    bool straight = way.type == ONE_TIME;
    bool apart = is_told_apart(&way, ticks);
    bool beyond_zero = led > length_to_zero(&way);
    bool whole_steps = length_to_zero(&way) % step_in(&way) == 0;
    int64_t to_zero = ticks_to_zero(&way);
    int64_t last = straight ? ticks_straight(&way) : ticks_by_legs(&way);
    uint64_t *items = counts[way.block][way.type].jump[direction_of(&way)];
    items[JUMP_BEFORE_ZERO] += ticks == to_zero - 1;
    items[JUMP_TO_ZERO] += ticks == to_zero && whole_steps;
    items[JUMP_TICKS_TO_ZERO] += ticks == to_zero && !whole_steps && apart;
    items[JUMP_SHORT_OF_TARGET] += beyond_zero && led < whole_length(&way) && apart;
    items[JUMP_BEFORE_LAST] += beyond_zero && ticks == last - 1 && apart;
    items[JUMP_LAST] += ticks == last && (apart || !straight);
    items[JUMP_BEYOND] += ticks > last;
}

void count_ramp_event(const struct seen *seen)
{
    if (seen->outcome->number != DONE)
        return;
    switch (seen->record->kind) {
    case EVENT_TICK:
        count_ticks(seen, 1);
        break;
    case EVENT_TICKS:
        count_ticks(seen, seen->record->word);
        break;
    case EVENT_JUMP:
        count_jump(seen);
        break;
    case EVENT_QUERY:
        count_told(seen);
        break;
    default:
        break;
    }
}

/* ---- The list ---- */

static bool is_tick_item_of(size_t type, size_t item)
{
    bool halts = item == HALTS_BY_PART || item == HALTS_BY_STEP || item == HALTS_NEAR_TARGET;
    return item == GOES_ON || halts == (type != ONE_TIME);
}

static bool is_told_item_of(size_t type, size_t item)
{
    return (item == BY_LEGS) == (type != ONE_TIME);
}

static void list_across(size_t block, size_t type, size_t direction)
{
    const struct type_counts *from = &counts[block][type];
    const char *prefix = block_prefixes[block];
    const char *name = direction_names[direction];
    for (size_t i = 0; i < TICK_ITEMS; i++)
        if (is_tick_item_of(type, i))
            list_item(from->tick[direction][i], "%sramp-%d-%s-%s", prefix, (int)type, name,
                      tick_names[i]);
    for (size_t i = 0; i < MOST; i++)
        if (is_told_item_of(type, i))
            list_item(from->told[direction][i], "%sramp-%d-%s-%s", prefix, (int)type, name,
                      told_names[i]);
    list_item(from->told[direction][MOST], "%sramp-%d-%s-ticks-to-go-%d", prefix, (int)type, name,
              (int)most_ticks[type]);
    for (size_t i = 0; i < JUMP_ITEMS; i++)
        list_item(from->jump[direction][i], "%sramp-%d-%s-%s", prefix, (int)type, name,
                  jump_names[i]);
}

static void list_block(size_t block)
{
    const char *prefix = block_prefixes[block];
    const uint64_t *stops = counts[block][ONE_TIME].stop_at_target_zero;
    for (size_t type = 0; type < RAMP_TYPES; type++)
        for (size_t i = 0; i < WAY_ITEMS; i++)
            list_item(counts[block][type].way[i], "%sramp-%d-%s", prefix, (int)type,
                      way_names[i]);
    for (size_t type = ONE_TIME; type < RAMP_TYPES; type++)
        for (size_t direction = 0; direction < DIRECTIONS; direction++)
            list_across(block, type, direction);
    list_item(stops[DOWN], "%sramp-1-positive-stops-at-target-zero", prefix);
    list_item(stops[UP], "%sramp-1-negative-stops-at-target-zero", prefix);
}

void list_ramp_items(void)
{
    for (size_t block = 0; block < BLOCKS; block++)
        list_block(block);
}
