/* What an event file has reached of dither, wish 4 of document 02: the wave in the command, and
 * the phase. Where the phase should be is worked out here from the ticks since it was last 0, the
 * triangle by folding, and the command from both: none of that is taken from the model, and an
 * event that did or told anything else counts for no item. */
#include <string.h>

#include "cover.h"

enum { TYPES = 3, SQUARE = 1, TRIANGLE = 2 };
static const char *const type_names[TYPES] = {"off", "square", "triangle"};

static const uint64_t phase_range = UINT64_C(1) << 32;

/* ---- The phase as it should be ---- */

/* From where it was when it was last 0 or the frequency last changed, and the ticks since. */
static struct {
    uint64_t start;
    uint64_t ticks;
    uint64_t frequency;
} course;

/* 2^32 is 4294967 * 1000 + 296. */
static uint64_t phase_of_a_tick(uint64_t frequency)
{
    return frequency * 4294967 + frequency * 296 / 1000;
}

static uint64_t wanted_phase(void)
{
    uint64_t ticks = course.ticks % phase_range; /* so that the product fits */
    return (course.start + ticks * phase_of_a_tick(course.frequency)) % phase_range;
}

/* The ticks that the event is, whatever the state. */
static uint64_t ticks_of(const struct record *record)
{
    switch (record->kind) {
    case EVENT_TICK:
        return 1;
    case EVENT_TICKS:
        return record->word;
    case EVENT_JUMP:
        return record->number;
    default:
        return 0;
    }
}

/* Whether a PDO brought a control word that led to DISABLED; a later one may have led on. */
static bool is_led_through_idle(const struct seen *seen)
{
    const uint32_t control_word = 0x60400010;
    struct device device = *seen->before;
    const struct map *map = &seen->before->map[RECEIVE_MAP];
    uint8_t pdo[WIDE_MOST];
    if (seen->record->kind != EVENT_RECEIVE || seen->outcome->number != DONE)
        return false;
    wide_bytes(seen->record, pdo);
    for (size_t i = 0; i < map->count; i++) {
        if (map->entry[i] != control_word)
            continue;
        device_control(&device, (uint16_t)(pdo[2 * i] | pdo[2 * i + 1] << 8));
        if (is_idle(&device))
            return true;
    }
    return false;
}

static void follow_course(const struct seen *seen)
{
    uint64_t frequency = (uint64_t)seen->after->dither[DITHER_FREQUENCY];
    bool cleared = is_idle(seen->after) || is_led_through_idle(seen);
    if (!cleared)
        course.ticks += ticks_of(seen->record);
    if (cleared || frequency != course.frequency) {
        course.start = cleared ? 0 : wanted_phase();
        course.ticks = 0;
        course.frequency = frequency;
    }
}

/* ---- The command as it should be ---- */

enum { QUARTERS = 4, QUARTER = 16384 }; /* of x */

static int64_t toward_zero(int64_t value, int64_t divisor)
{
    return value < 0 ? -(-value / divisor) : value / divisor;
}

/* The triangle is amplitude times this over a quarter: folded around the top, at one quarter. */
static int64_t folded(uint64_t x)
{
    int64_t from_top = (int64_t)((x + QUARTER) % (QUARTERS * QUARTER)) - 2 * QUARTER;
    return from_top < 0 ? QUARTER + from_top : QUARTER - from_top;
}

struct wave {
    size_t type;
    int64_t amplitude;
    uint64_t phase;
    uint64_t x;
    int64_t product; /* of the triangle, before it is divided */
    int64_t value;
};

static int64_t triangle_of(int64_t amplitude, uint64_t x)
{
    return toward_zero(amplitude * folded(x), QUARTER);
}

static struct wave wave_of(const struct device *device)
{
    struct wave wave = {.type = (size_t)device->dither[DITHER_TYPE],
                        .amplitude = device->dither[DITHER_AMPLITUDE],
                        .phase = wanted_phase()};
    wave.x = wave.phase >> 16;
    if (wave.type == TRIANGLE) {
        wave.product = wave.amplitude * folded(wave.x);
        wave.value = triangle_of(wave.amplitude, wave.x);
    } else if (wave.type == SQUARE) {
        wave.value = wave.phase >> 31 == 0 ? wave.amplitude : -wave.amplitude;
    }
    return wave;
}

static int64_t within_stroke(int64_t value)
{
    if (value < -FULL_STROKE)
        return -FULL_STROKE;
    return value < FULL_STROKE ? value : FULL_STROKE;
}

struct path {
    int64_t r;
    int64_t threshold; /* below 0 for no dead band, which r is never within */
    int64_t banded;    /* r after the dead band */
    int64_t sum;       /* with the dither */
};

static struct path path_of(const struct device *device, const struct wave *wave)
{
    const int64_t *setting = selected_of(device)->setting;
    int64_t r = toward_zero(selected_of(device)->position, PER_IR);
    struct path path = {.r = r, .threshold = -1, .banded = r};
    if (setting[DEAD_BAND_TYPE] == 1) {
        path.threshold = setting[DEAD_BAND_THRESHOLD];
        bool above = r > path.threshold;
        bool below = -r > path.threshold;
        path.banded = above ? r + setting[DEAD_BAND_A_SIDE] : r - setting[DEAD_BAND_B_SIDE];
        if (!above && !below)
            path.banded = 0;
    }
    path.sum = path.banded + wave->value;
    return path;
}

/* ---- The command told: the wave ---- */

enum near { ONE_BEFORE, AT, ONE_AFTER, NEARS };
static const char *const near_names[NEARS] = {"one-before", "at", "one-after"};
static const char *const corner_names[QUARTERS] = {"0", "quarter", "half", "three-quarters"};

static const int64_t amplitudes[] = {0, 1, 2, 1023, 1024};
enum { AMPLITUDES = sizeof amplitudes / sizeof amplitudes[0], HALVES = 2 };

static struct {
    uint64_t corner[QUARTERS][NEARS];
    uint64_t inside[QUARTERS];
    uint64_t amplitude[AMPLITUDES][HALVES];
    uint64_t told[BLOCKS][STATES][TELLERS];
    uint64_t next_x[QUARTERS];    /* the first x after the corner */
    uint64_t fraction[QUARTERS];  /* of x: rounded it would make another triangle */
    uint64_t remainder[QUARTERS]; /* of the triangle's division */
    uint64_t downward;            /* the triangle is 0, and rounded downward -1 */
} wave_counts[TYPES];

static uint64_t off_count; /* type 0 with an amplitude and a phase */

static size_t quarter_of(const struct wave *wave)
{
    return (size_t)(wave->x / QUARTER);
}

static void count_corners(const struct wave *wave)
{
    for (size_t quarter = 0; quarter < QUARTERS; quarter++) {
        uint64_t corner = phase_range / QUARTERS * quarter;
        uint64_t *to = wave_counts[wave->type].corner[quarter];
        to[ONE_BEFORE] += wave->phase == (corner + phase_range - 1) % phase_range;
        to[AT] += wave->phase == corner;
        to[ONE_AFTER] += wave->phase == corner + 1;
    }
}

static void count_rounding(const struct wave *wave)
{
    enum { HALF = 32768 };
    size_t quarter = quarter_of(wave);
    bool upper_half = wave->phase % (2 * HALF) >= HALF;
    int64_t next = triangle_of(wave->amplitude, (wave->x + 1) % (QUARTERS * QUARTER));
    wave_counts[TRIANGLE].next_x[quarter] += wave->x % QUARTER == 1;
    wave_counts[TRIANGLE].fraction[quarter] += upper_half && next != wave->value;
    wave_counts[TRIANGLE].remainder[quarter] += wave->product % QUARTER != 0;
    wave_counts[TRIANGLE].downward += wave->product < 0 && wave->value == 0;
}

static void count_wave(const struct wave *wave, const struct device *device, enum teller teller)
{
    if (wave->type == 0) {
        off_count += wave->amplitude > 0 && wave->phase > 0;
        return;
    }
    for (size_t i = 0; i < AMPLITUDES; i++)
        wave_counts[wave->type].amplitude[i][wave->phase >> 31] +=
            wave->amplitude == amplitudes[i];
    if (wave->amplitude == 0)
        return;
    wave_counts[wave->type].inside[quarter_of(wave)] += wave->x % QUARTER != 0;
    wave_counts[wave->type].told[device->selected][device->state][teller] += wave->value != 0;
    count_corners(wave);
    if (wave->type == TRIANGLE)
        count_rounding(wave);
}

/* ---- The command told: dead band and clamp ---- */

enum path_item {
    IN_BAND_POSITIVE,
    IN_BAND_NEGATIVE,
    IN_BAND_ALTHOUGH_SUM_ABOVE,
    IN_BAND_ALTHOUGH_SUM_BELOW,
    ABOVE_BAND_POSITIVE,
    ABOVE_BAND_NEGATIVE,
    ABOVE_BAND_ALTHOUGH_SUM_WITHIN,
    BELOW_BAND_POSITIVE,
    BELOW_BAND_NEGATIVE,
    BELOW_BAND_ALTHOUGH_SUM_WITHIN,
    NO_BAND_POSITIVE,
    NO_BAND_NEGATIVE,
    CLAMPED_ABOVE,
    CLAMPED_BELOW,
    JUST_FULL_STROKE,
    JUST_MINUS_FULL_STROKE,
    BACK_FROM_ABOVE_STROKE,
    BACK_FROM_BELOW_STROKE,
    PATH_ITEMS
};
static const char *const path_names[PATH_ITEMS] = {
    "in-band-positive",
    "in-band-negative",
    "in-band-although-sum-above",
    "in-band-although-sum-below",
    "above-band-positive",
    "above-band-negative",
    "above-band-although-sum-within",
    "below-band-positive",
    "below-band-negative",
    "below-band-although-sum-within",
    "no-band-positive",
    "no-band-negative",
    "clamped-to-full-stroke",
    "clamped-to-minus-full-stroke",
    "just-full-stroke",
    "just-minus-full-stroke",
    "back-from-above-full-stroke",
    "back-from-below-minus-full-stroke",
};
static uint64_t path_counts[BLOCKS][TYPES][PATH_ITEMS];
static uint64_t triangle_in_band_0; /* the triangle at 0 within the dead band */

/* "Sum" is here r and the dither, as if that were added before the dead band. */
static void count_band(const struct path *path, const struct wave *wave, uint64_t *items)
{
    int64_t sum = path->r + wave->value;
    int64_t threshold = path->threshold;
    bool positive = wave->value > 0;
    if (threshold < 0) {
        items[positive ? NO_BAND_POSITIVE : NO_BAND_NEGATIVE] += path->r != 0;
    } else if (path->r > threshold) {
        items[positive ? ABOVE_BAND_POSITIVE : ABOVE_BAND_NEGATIVE] += path->banded != path->r;
        items[ABOVE_BAND_ALTHOUGH_SUM_WITHIN] += sum <= threshold;
    } else if (-path->r > threshold) {
        items[positive ? BELOW_BAND_POSITIVE : BELOW_BAND_NEGATIVE] += path->banded != path->r;
        items[BELOW_BAND_ALTHOUGH_SUM_WITHIN] += -sum <= threshold;
    } else {
        items[positive ? IN_BAND_POSITIVE : IN_BAND_NEGATIVE] += path->r != 0;
        items[IN_BAND_ALTHOUGH_SUM_ABOVE] += sum > threshold;
        items[IN_BAND_ALTHOUGH_SUM_BELOW] += -sum > threshold;
    }
}

/* "Back": a clamp before the dither would make another command. */
static void count_clamp(const struct path *path, const struct wave *wave, uint64_t *items)
{
    bool back = within_stroke(path->sum) != within_stroke(path->banded) + wave->value;
    items[CLAMPED_ABOVE] += wave->value > 0 && path->sum > FULL_STROKE;
    items[CLAMPED_BELOW] += wave->value < 0 && path->sum < -FULL_STROKE;
    items[JUST_FULL_STROKE] += wave->value > 0 && path->sum == FULL_STROKE;
    items[JUST_MINUS_FULL_STROKE] += wave->value < 0 && path->sum == -FULL_STROKE;
    items[BACK_FROM_ABOVE_STROKE] += wave->value < 0 && path->banded > FULL_STROKE && back;
    items[BACK_FROM_BELOW_STROKE] += wave->value > 0 && path->banded < -FULL_STROKE && back;
}

static uint64_t idle_counts[STATES][TELLERS]; /* 0 told, where the square would not be */

static void count_told(const struct seen *seen, enum teller teller, int64_t told)
{
    const struct device *device = seen->before;
    struct wave wave = wave_of(device);
    struct path path = path_of(device, &wave);
    if (is_idle(device)) {
        idle_counts[device->state][teller] += told == 0 && wave.value != 0;
        return;
    }
    if (told != within_stroke(path.sum))
        return;
    count_wave(&wave, device, teller);
    if (wave.value != 0) {
        count_band(&path, &wave, path_counts[device->selected][wave.type]);
        count_clamp(&path, &wave, path_counts[device->selected][wave.type]);
    } else if (wave.type == TRIANGLE && wave.amplitude > 0 && wave.phase > 0) {
        triangle_in_band_0 += path.threshold >= 0 && path.r != 0 && path.banded == 0;
    }
}

/* ---- What told it ---- */

/* Of the selected block: 6310h, or 6390h. */
static void count_read_command(const struct seen *seen)
{
    const uint8_t *reply = seen->outcome->bytes;
    bool pressure = seen->before->selected == PRESSURE_BLOCK;
    const uint8_t wanted[] = {READ_2, pressure ? 0x90 : 0x10, 0x63, 1};
    if (memcmp(reply, wanted, sizeof wanted) == 0)
        count_told(seen, BY_READ, signed_word_at(&reply[4]));
}

/* That of the pressure block is never sent. */
static void count_sent_command(const struct seen *seen)
{
    const uint32_t command_entry = 0x63100110;
    const struct map *map = &seen->before->map[TRANSMIT_MAP];
    for (size_t i = 0; i < map->count; i++)
        if (map->entry[i] == command_entry && seen->before->selected == POSITION_BLOCK)
            count_told(seen, BY_SEND, signed_word_at(&seen->outcome->bytes[2 * i]));
}

/* What a query told of a device whose dither is not 0, and of the same device without any. */
enum untouched_item { TARGET_TOLD, AT_TARGET_TOLD, NOT_AT_TARGET_TOLD, TICKS_TOLD, UNTOUCHED };
static const char *const untouched_names[UNTOUCHED] = {"target", "status-at-target",
                                                       "status-not-at-target", "ticks-to-go"};
static uint64_t untouched_counts[UNTOUCHED];

static void count_untouched(const struct seen *seen)
{
    static const enum query queries[] = {QUERY_STATUS, QUERY_POSITION, QUERY_TARGET,
                                         QUERY_TICKS_TO_GO};
    const struct answer *told = seen->outcome->query;
    struct device without = *seen->before;
    memset(without.dither, 0, sizeof without.dither);
    without.phase = 0;
    if (is_idle(&without) || wave_of(seen->before).value == 0)
        return;
    for (size_t i = 0; i < sizeof queries / sizeof queries[0]; i++)
        if (told[queries[i]].value != device_query(&without, queries[i]).value)
            return;
    bool at_target = told[QUERY_POSITION].value == told[QUERY_TARGET].value * PER_IR;
    untouched_counts[TARGET_TOLD] += told[QUERY_TARGET].value != 0;
    untouched_counts[AT_TARGET_TOLD] += at_target;
    untouched_counts[NOT_AT_TARGET_TOLD] += !at_target;
    untouched_counts[TICKS_TOLD] += told[QUERY_TICKS_TO_GO].value > 1;
}

int64_t command_wanted(const struct device *device)
{
    struct wave wave = wave_of(device);
    return is_idle(device) ? 0 : within_stroke(path_of(device, &wave).sum);
}

void count_dither_event(const struct seen *seen)
{
    follow_course(seen);
    if (seen->after->phase != wanted_phase())
        return;
    count_phase_event(seen, phase_of_a_tick(course.frequency));
    if (seen->outcome->number != DONE)
        return;
    switch (seen->record->kind) {
    case EVENT_QUERY:
        count_told(seen, BY_QUERY, seen->outcome->query[QUERY_COMMAND].value);
        count_untouched(seen);
        break;
    case EVENT_SDO:
    case EVENT_WIDE:
        count_read_command(seen);
        break;
    case EVENT_SEND:
        count_sent_command(seen);
        break;
    default:
        break;
    }
}

/* ---- The list ---- */

static void list_amplitudes(size_t type)
{
    static const char *const half_names[HALVES] = {"first", "second"};
    for (size_t i = 0; i < AMPLITUDES; i++)
        for (size_t half = 0; half < HALVES; half++)
            list_item(wave_counts[type].amplitude[i][half], "dither-%s-amplitude-%d-%s-half",
                      type_names[type], (int)amplitudes[i], half_names[half]);
}

static void list_wave(size_t type)
{
    const char *name = type_names[type];
    for (size_t i = 0; i < QUARTERS; i++)
        for (size_t near = 0; near < NEARS; near++)
            list_item(wave_counts[type].corner[i][near], "dither-%s-phase-%s-%s", name,
                      near_names[near], corner_names[i]);
    for (size_t i = 0; i < QUARTERS; i++)
        list_item(wave_counts[type].inside[i], "dither-%s-in-quarter-%d", name, (int)i + 1);
    list_amplitudes(type);
}

/* The command with the wave, whichever block drives it. */
static void list_told(size_t block, size_t type)
{
    const char *prefix = block_prefixes[block];
    const char *name = type_names[type];
    size_t tellers = block == PRESSURE_BLOCK ? BY_SEND : TELLERS;
    for (size_t teller = 0; teller < tellers; teller++) {
        list_item(wave_counts[type].told[block][HOLD][teller], "%sdither-%s-told-by-%s-in-HOLD",
                  prefix, name, teller_names[teller]);
        list_item(wave_counts[type].told[block][ACTIVE][teller],
                  "%sdither-%s-told-by-%s-in-ACTIVE", prefix, name, teller_names[teller]);
    }
    for (size_t i = 0; i < PATH_ITEMS; i++)
        list_item(path_counts[block][type][i], "%sdither-%s-%s", prefix, name, path_names[i]);
}

static void list_triangle(void)
{
    for (size_t i = 0; i < QUARTERS; i++) {
        list_item(wave_counts[TRIANGLE].next_x[i], "dither-triangle-first-x-after-%s",
                  corner_names[i]);
        list_item(wave_counts[TRIANGLE].fraction[i], "dither-triangle-quarter-%d-x-not-rounded",
                  (int)i + 1);
        list_item(wave_counts[TRIANGLE].remainder[i], "dither-triangle-quarter-%d-with-remainder",
                  (int)i + 1);
    }
    list_item(wave_counts[TRIANGLE].downward, "dither-triangle-0-where-downward-is-minus-1");
    list_item(triangle_in_band_0, "dither-triangle-in-band-0");
}

void list_dither_items(void)
{
    list_wave(SQUARE);
    list_wave(TRIANGLE);
    for (size_t block = 0; block < BLOCKS; block++) {
        list_told(block, SQUARE);
        list_told(block, TRIANGLE);
    }
    list_triangle();
    list_item(off_count, "dither-off-with-amplitude-and-phase");
    for (size_t teller = 0; teller < TELLERS; teller++) {
        list_item(idle_counts[DISABLED][teller], "dither-0-told-by-%s-in-DISABLED",
                  teller_names[teller]);
        list_item(idle_counts[FAULT][teller], "dither-0-told-by-%s-in-FAULT",
                  teller_names[teller]);
    }
    for (size_t i = 0; i < UNTOUCHED; i++)
        list_item(untouched_counts[i], "dither-leaves-%s", untouched_names[i]);
    list_phase_items();
}
