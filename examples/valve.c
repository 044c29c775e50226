/* A valve from switching on to the reset of its faults: set up by SDO, made ACTIVE and ticked along a ramp of type 2. Each line tells what
 * was done, and what became of it. crates/example is the same program in Rattle. */
#include "rainsheave.h"

#include <stdio.h>

/* ---- What this program names of the device */

/* Where a value stands (at sub-index 0 of a variable, at 1 of a record), and how many bytes it has. */
struct entry {
    uint16_t index;
    uint8_t sub_index;
    uint8_t size;
};

static const struct entry status_word = {RAINSHEAVE_INDEX_STATUS_WORD, 0, 2};
static const struct entry set_point = {RAINSHEAVE_INDEX_SET_POINT, 1, 2};
static const struct entry upper_limit = {RAINSHEAVE_INDEX_UPPER_LIMIT, 1, 2};
static const struct entry lower_limit = {RAINSHEAVE_INDEX_LOWER_LIMIT, 1, 2};
static const struct entry ramp_type = {RAINSHEAVE_INDEX_RAMP_TYPE, 0, 1};
static const struct entry acceleration = {RAINSHEAVE_INDEX_ACCELERATION, 1, 4};
static const struct entry deceleration = {RAINSHEAVE_INDEX_DECELERATION, 1, 4};

enum { GO_ACTIVE = RAINSHEAVE_WORD_LEAVE_DISABLED + RAINSHEAVE_WORD_LEAVE_HOLD + RAINSHEAVE_WORD_MODE_ACTIVE };
enum { HARDWARE_FAULT = 0x5000 };

/* The first byte of a reply, but for that to a read. */
enum { WRITTEN = 0x60, ABORTED = 0x80 };

/* ---- Showing what became of a call */

/* No query refuses here: a device that the library has filled or changed is sound. */
static void show_device(const rainsheave_device *valve)
{
    static const char *const state_names[] = {
        [RAINSHEAVE_STATE_DISABLED] = "DISABLED",
        [RAINSHEAVE_STATE_HOLD] = "HOLD",
        [RAINSHEAVE_STATE_ACTIVE] = "ACTIVE",
        [RAINSHEAVE_STATE_FAULT] = "FAULT",
    };
    const char *state = state_names[rainsheave_state(valve).value];
    long long status = rainsheave_status(valve).value;
    long long command = rainsheave_command(valve).value;
    long long ticks_to_go = rainsheave_ticks_to_go(valve).value;
    printf("%s, status %lld, command %lld, ticks to go %lld\n", state, status, command, ticks_to_go);
}

/* A call that is refused leaves the device as it was. */
static void show_change(const rainsheave_device *valve, uint8_t number)
{
    if (number == RAINSHEAVE_NUMBER_DONE)
        show_device(valve);
    else
        printf("refused by %d\n", number);
}

/* The last four bytes of a reply, low first: the code of an abort, or what was read. */
static unsigned long data_of(const uint8_t *reply)
{
    return reply[4] | (unsigned long)reply[5] << 8 | (unsigned long)reply[6] << 16 | (unsigned long)reply[7] << 24;
}

static void show_reply(const uint8_t *reply)
{
    if (reply[0] == WRITTEN)
        printf("done\n");
    else if (reply[0] == ABORTED)
        printf("abort %08lxh\n", data_of(reply));
    else
        printf("value %lu\n", data_of(reply));
}

/* ---- The calls */

/* A request comes from the bus, and the reply goes back to it. There is a reply, an abort too, where the number is DONE. */
static void ask(rainsheave_device *valve, const uint8_t request[RAINSHEAVE_LENGTH_FRAME])
{
    uint8_t reply[RAINSHEAVE_LENGTH_FRAME];
    uint8_t number = rainsheave_sdo(valve, request, RAINSHEAVE_LENGTH_FRAME, reply, sizeof reply);
    if (number == RAINSHEAVE_NUMBER_DONE)
        show_reply(reply);
    else
        printf("refused by %d\n", number);
}

/* A negative value goes into a request as its two's complement, which the conversion makes. */
static void set(rainsheave_device *valve, struct entry entry, int32_t value)
{
    uint8_t request[RAINSHEAVE_LENGTH_FRAME];
    rainsheave_write_request(request, entry.index, entry.sub_index, entry.size, (uint32_t)value);
    printf("set %04xh to %ld: ", entry.index, (long)value);
    ask(valve, request);
}

static void get(rainsheave_device *valve, struct entry entry)
{
    uint8_t request[RAINSHEAVE_LENGTH_FRAME];
    rainsheave_read_request(request, entry.index, entry.sub_index);
    printf("get %04xh: ", entry.index);
    ask(valve, request);
}

static void control(rainsheave_device *valve, uint16_t word)
{
    printf("control %04xh: ", word);
    show_change(valve, rainsheave_control(valve, word));
}

static void fault(rainsheave_device *valve, uint16_t code)
{
    printf("fault %04xh: ", code);
    show_change(valve, rainsheave_fault(valve, code));
}

/* Writes the set point and ticks as often as the device says. Firmware ticks from a timer, once a millisecond, and puts the command
 * out. */
static void go_to(rainsheave_device *valve, int32_t value)
{
    set(valve, set_point, value);
    long long ticks = rainsheave_ticks_to_go(valve).value;
    for (long long tick = 1; tick <= ticks; tick++) {
        printf("tick %lld: ", tick);
        show_change(valve, rainsheave_tick(valve));
    }
}

/* ---- The program */

static void set_up(rainsheave_device *valve)
{
    set(valve, upper_limit, 5000);
    set(valve, lower_limit, -2000);
    set(valve, upper_limit, -3000); /* aborted: it would stand below the lower one */
    set(valve, ramp_type, 2);
    set(valve, acceleration, 32); /* so many ms for the full stroke of 16384 ir: 512 ir a tick */
    set(valve, deceleration, 16); /* 1024 ir a tick */
}

static void fail_and_reset(rainsheave_device *valve)
{
    fault(valve, 0); /* refused: this is the code of no fault */
    fault(valve, HARDWARE_FAULT);
    control(valve, RAINSHEAVE_WORD_RESET_FAULT);
    fault(valve, HARDWARE_FAULT);
    control(valve, RAINSHEAVE_WORD_RESET_FAULT); /* no reset: the bit has to rise, and was set already */
    control(valve, 0);
    control(valve, RAINSHEAVE_WORD_RESET_FAULT);
}

int main(void)
{
    rainsheave_device valve;
    rainsheave_fresh(&valve);
    printf("fresh: ");
    show_device(&valve);
    set_up(&valve);
    control(&valve, GO_ACTIVE); /* a word makes one move at most: this one to HOLD */
    control(&valve, GO_ACTIVE);
    go_to(&valve, 8000); /* the upper limit makes 5000 of it */
    get(&valve, status_word);
    go_to(&valve, -1000); /* toward zero by the deceleration, a halt there, away by the acceleration */
    fail_and_reset(&valve);
    return 0;
}
