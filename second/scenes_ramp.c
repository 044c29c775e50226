/* The scenes of ways across zero: at once in type 0; straight on in type 1 and with a halt in
 * types 2 and 3, by single ticks and by jumps to each edge of the way, from either side. */
#include "maker.h"

/* ---- Without a ramp ---- */

/* Up and down on both sides, and across. */
void scene_at_once(struct maker *m)
{
    static const int8_t places[] = {1, 2, 1, -1, -2, -1, 1};
    int64_t unit = between(m, 1, FULL_STROKE / 2);
    select_by_turn(m, next_turn(m, SWEEP_AT_ONCE));
    steer_to_hold(m);
    plain_scaling(m);
    emit_setting(m, RAMP_TYPE, 0);
    for (size_t i = 0; i < sizeof places; i++) {
        emit_target(m, places[i] * unit);
        emit_plain(m, EVENT_TICK);
    }
}

/* ---- A ramp ---- */

enum { ONE_TIME = 1, RAMPS = 3, SIDES = 2 };

/* The ramp type, the side from which the ways lead, and their steps in ir: toward zero on that
 * side, and away from zero on the other. */
struct slope {
    int64_t type;
    int64_t side; /* 1 or -1 */
    int64_t step_in;
    int64_t step_out;
};

/* Times with a step of whole ir; in types 2 and 3 another one for the way on. */
static struct slope set_slope(struct maker *m, uint32_t ramp, uint32_t side)
{
    static const enum setting places[RAMPS][SIDES][2] = {
        {{ACCELERATION_ONE, ACCELERATION_ONE}, {ACCELERATION_ONE, ACCELERATION_ONE}},
        {{DECELERATION_ONE, ACCELERATION_ONE}, {DECELERATION_ONE, ACCELERATION_ONE}},
        {{DECELERATION_POSITIVE, ACCELERATION_NEGATIVE},
         {DECELERATION_NEGATIVE, ACCELERATION_POSITIVE}},
    };
    static const int64_t times[] = {64, 128, 256, 512, 1024, 2048};
    enum { TIMES = sizeof times / sizeof times[0] };
    int64_t type = ramp + ONE_TIME;
    uint32_t in = below(m, TIMES);
    uint32_t other = (in + 1 + below(m, TIMES - 1)) % TIMES;
    uint32_t out = type == ONE_TIME ? in : other;
    emit_setting(m, RAMP_TYPE, type);
    emit_setting(m, places[ramp][side][0], times[in]);
    if (type != ONE_TIME)
        emit_setting(m, places[ramp][side][1], times[out]);
    return (struct slope){type, side == 0 ? 1 : -1, FULL_STROKE / times[in],
                          FULL_STROKE / times[out]};
}

/* From rest so far out to a target so far out on the other side. */
static void start_way(struct maker *m, const struct slope *slope, int64_t from, int64_t past)
{
    emit_target(m, slope->side * from);
    uint32_t more = below(m, 3);
    emit_jump(m, ticks_left(&m->run.device) + more);
    emit_target(m, -slope->side * past);
}

/* ---- By ticks ---- */

/* Some whole steps and then the rest, by the tick that meets zero and one more. */
static void play_ticks(struct maker *m, const struct slope *slope, int64_t rest, int64_t past)
{
    uint32_t steps = 1 + below(m, 2);
    start_way(m, slope, steps * slope->step_in + rest, past);
    emit_plain(m, EVENT_QUERY);
    emit_word(m, EVENT_TICKS, (uint16_t)steps);
    emit_plain(m, EVENT_TICK);
    emit_plain(m, EVENT_TICK);
}

/* A rest of less than a step, with the target beyond that step and at its end, and a rest of a
 * whole step. In type 1 the target is also within the step, and zero. */
static void play_tick_edges(struct maker *m, const struct slope *slope)
{
    int64_t step = slope->step_in;
    int64_t rest = between(m, 1, step - 2);
    if (rest == slope->step_out) /* a tick without a halt would end at zero too */
        rest--;
    int64_t far = between(m, step, 3 * step);
    int64_t near = between(m, 1, step - rest - 1);
    play_ticks(m, slope, rest, far);
    play_ticks(m, slope, rest, step - rest);
    play_ticks(m, slope, step, far);
    if (slope->type == ONE_TIME) {
        play_ticks(m, slope, rest, near);
        play_ticks(m, slope, rest, 0);
    }
}

/* ---- By jumps ---- */

/* Whole steps to zero, then some with a rest. In type 1 that rest and the one behind zero are
 * a step at most: so the way takes one tick fewer than it would with a halt. */
static void play_jump_edges(struct maker *m, const struct slope *slope)
{
    enum edge { BEFORE_ZERO, AT_ZERO, BEFORE_LAST, LAST, BEYOND, EDGES };
    int64_t rest = between(m, 1, slope->step_in - 1);
    int64_t most = slope->type == ONE_TIME ? slope->step_in - rest : slope->step_out;
    int64_t from = between(m, 2, 5) * slope->step_in;
    int64_t past = between(m, 1, 4) * slope->step_out;
    past += between(m, 1, most);
    start_way(m, slope, from, past);
    emit_jump(m, ticks_left_to_zero(m->run.device));
    for (int edge = 0; edge < EDGES; edge++) {
        start_way(m, slope, from + rest, past);
        uint32_t zero = ticks_left_to_zero(m->run.device);
        uint32_t last = ticks_left(&m->run.device);
        const uint32_t ticks[EDGES] = {
            [BEFORE_ZERO] = zero - 1, [AT_ZERO] = zero,    [BEFORE_LAST] = last - 1,
            [LAST] = last,            [BEYOND] = last + 1,
        };
        emit_jump(m, ticks[edge]);
    }
}

/* ---- All of them in turn ---- */

/* In turn each type from each side, by ticks and by jumps, of each block; in HOLD or ACTIVE. */
void scene_across_zero(struct maker *m)
{
    enum { WAYS = RAMPS * SIDES, TICKS_AND_JUMPS = 2 };
    uint32_t turn = next_turn(m, SWEEP_ACROSS_ZERO);
    select_by_turn(m, turn / (WAYS * TICKS_AND_JUMPS));
    steer_to_hold(m);
    plain_scaling(m);
    struct slope slope = set_slope(m, turn % RAMPS, turn / RAMPS % SIDES);
    if (one_in(m, 2))
        emit_control(m, 7);
    if (turn / WAYS % TICKS_AND_JUMPS == 0)
        play_jump_edges(m, &slope);
    else
        play_tick_edges(m, &slope);
}
