/* The state of a device as the library has it, in words of 64 bits, and as second has it, in fields; and words that are spoilt. */
#include "agree.h"

#include <string.h>

/* ---- From one to the other */

/* The library has the selected block first, second has each by its number. Beside a selection that is none, either way will do. */
static enum block_kind first_block(int64_t selected)
{
    return selected == PRESSURE_BLOCK ? PRESSURE_BLOCK : POSITION_BLOCK;
}

static rainsheave_block library_block(const struct block *second)
{
    rainsheave_block block = {.set_point = second->set_point, .position = second->position};
    memcpy(block.settings, second->setting, sizeof block.settings);
    return block;
}

static rainsheave_map library_map(const struct map *second)
{
    rainsheave_map map = {.count = second->count};
    for (size_t i = 0; i < MAP_ENTRIES; i++)
        map.entries[i] = second->entry[i];
    return map;
}

rainsheave_device library_of(const struct device *second)
{
    enum block_kind first = first_block(second->selected);
    return (rainsheave_device){
        .selected_block = library_block(&second->block[first]),
        .other_block = library_block(&second->block[other_block(first)]),
        .selected = second->selected,
        .state = second->state,
        .control_word = second->control_word,
        .error_code = second->error_code,
        .phase = second->phase,
        .dither = {second->dither[DITHER_TYPE], second->dither[DITHER_AMPLITUDE], second->dither[DITHER_FREQUENCY]},
        .receive = library_map(&second->map[RECEIVE_MAP]),
        .transmit = library_map(&second->map[TRANSMIT_MAP]),
    };
}

static struct block second_block(const rainsheave_block *library)
{
    struct block block = {.set_point = (int32_t)library->set_point, .position = (int32_t)library->position};
    memcpy(block.setting, library->settings, sizeof block.setting);
    return block;
}

static struct map second_map(const rainsheave_map *library)
{
    struct map map = {.count = (uint8_t)library->count};
    for (size_t i = 0; i < MAP_ENTRIES; i++)
        map.entry[i] = (uint32_t)library->entries[i];
    return map;
}

struct device second_of(const rainsheave_device *library)
{
    struct device second = {
        .state = (uint8_t)library->state,
        .selected = (uint8_t)library->selected,
        .control_word = (uint16_t)library->control_word,
        .error_code = (uint16_t)library->error_code,
        .map = {[RECEIVE_MAP] = second_map(&library->receive), [TRANSMIT_MAP] = second_map(&library->transmit)},
        .dither = {library->dither.type, library->dither.amplitude, library->dither.frequency},
        .phase = (uint32_t)library->phase,
    };
    enum block_kind first = first_block(second.selected);
    second.block[first] = second_block(&library->selected_block);
    second.block[other_block(first)] = second_block(&library->other_block);
    return second;
}

bool same_words(const rainsheave_device *one, const rainsheave_device *other)
{
    return memcmp(one, other, sizeof *one) == 0; /* there is nothing between the words */
}

/* ---- Single words */

int64_t word_at(const rainsheave_device *device, size_t place)
{
    int64_t word;
    memcpy(&word, (const char *)device + sizeof word * place, sizeof word);
    return word;
}

const char *part_of_word(size_t place)
{
    static const struct {
        size_t end;
        const char *name;
    } parts[] = {
        {RAINSHEAVE_PLACE_OTHER_BLOCK, "selected_block"}, {RAINSHEAVE_PLACE_SELECTED, "other_block"},
        {RAINSHEAVE_PLACE_STATE, "selected"},             {RAINSHEAVE_PLACE_CONTROL_WORD, "state"},
        {RAINSHEAVE_PLACE_ERROR_CODE, "control_word"},    {RAINSHEAVE_PLACE_PHASE, "error_code"},
        {RAINSHEAVE_PLACE_DITHER, "phase"},               {RAINSHEAVE_PLACE_RECEIVE, "dither"},
        {RAINSHEAVE_PLACE_TRANSMIT, "receive"},           {RAINSHEAVE_PLACE_WORDS, "transmit"},
    };
    size_t part = 0;
    while (place >= parts[part].end)
        part++;
    return parts[part].name;
}

/* ---- Words that are spoilt */

/* The one whose value the word is, of those that second has 64 bits for: a setting, or a value of the dither. */
static const struct object *object_of_word(size_t place)
{
    enum { FIRST_SETTING = offsetof(rainsheave_block, settings) / sizeof(int64_t) };
    size_t within = place % RAINSHEAVE_PLACE_OTHER_BLOCK;
    if (place < RAINSHEAVE_PLACE_SELECTED)
        return within < FIRST_SETTING ? NULL : object_of_setting(within - FIRST_SETTING);
    if (place < RAINSHEAVE_PLACE_DITHER || place >= RAINSHEAVE_PLACE_RECEIVE)
        return NULL;
    return object_of_dither(place - RAINSHEAVE_PLACE_DITHER);
}

bool second_holds_all(size_t place)
{
    return object_of_word(place) != NULL;
}

struct range {
    int64_t low;
    int64_t high;
};

/* What a word may be at the most, whatever the others are. */
static struct range range_of_word(size_t place)
{
    const struct object *object = object_of_word(place);
    if (object != NULL)
        return (struct range){object->low, object->high};
    switch (place) {
    case RAINSHEAVE_PLACE_SELECTED_BLOCK:
    case RAINSHEAVE_PLACE_OTHER_BLOCK:
        return (struct range){INT16_MIN, INT16_MAX};
    case RAINSHEAVE_PLACE_SELECTED_BLOCK + 1:
    case RAINSHEAVE_PLACE_OTHER_BLOCK + 1:
        return (struct range){-FULL_POSITION, FULL_POSITION};
    case RAINSHEAVE_PLACE_SELECTED:
        return (struct range){0, BLOCKS - 1};
    case RAINSHEAVE_PLACE_STATE:
        return (struct range){0, STATES - 1};
    case RAINSHEAVE_PLACE_CONTROL_WORD:
    case RAINSHEAVE_PLACE_ERROR_CODE:
        return (struct range){0, UINT16_MAX};
    case RAINSHEAVE_PLACE_RECEIVE:
    case RAINSHEAVE_PLACE_TRANSMIT:
        return (struct range){0, MAP_ENTRIES};
    default: /* the phase, and the entries of maps */
        return (struct range){0, UINT32_MAX};
    }
}

/* So far away that the low bits stay: whoever cuts the word to its field takes it for the one before. */
static int64_t word_with_more_bits(struct chance *chance, int64_t word)
{
    static const uint8_t bits[] = {8, 16, 31, 32, 33, 48, 63};
    uint64_t away = UINT64_C(1) << PICK(chance, bits);
    return (int64_t)(one_in(chance, 2) ? (uint64_t)word + away : (uint64_t)word - away);
}

/* What may be mapped, in this map or the other, is of interest for an entry alone, but wrong for most other words too. */
static int64_t spoilt_word(struct chance *chance, size_t place, int64_t word)
{
    struct range range = range_of_word(place);
    uint32_t map = below(chance, MAPS);
    switch (below(chance, 8)) {
    case 0:
        return range.low - 1;
    case 1:
        return range.high + 1;
    case 2:
        return one_in(chance, 2) ? INT64_MIN : INT64_MAX;
    case 3:
        return 0;
    case 4:
        return PICK(chance, mappable[map]);
    case 5:
        return between(chance, range.low, range.high);
    default:
        return word_with_more_bits(chance, word);
    }
}

size_t spoil_word(struct chance *chance, rainsheave_device *device)
{
    size_t place = below(chance, RAINSHEAVE_PLACE_WORDS);
    int64_t word = spoilt_word(chance, place, word_at(device, place));
    memcpy((char *)device + sizeof word * place, &word, sizeof word);
    return place;
}
