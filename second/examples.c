/* `second examples`: the worked examples of document 01, and some of wishes 2 to 6 of document
 * 02, as events, by hand. */
#include <stdio.h>
#include <string.h>

#include "modes.h"
#include "run.h"

/* ---- Events ---- */

static void give(struct record record)
{
    record_write(stdout, &record);
}

static void fresh(void)
{
    give((struct record){.kind = EVENT_FRESH});
}

static void query(void)
{
    give((struct record){.kind = EVENT_QUERY});
}

static void control(uint16_t word)
{
    give((struct record){.kind = EVENT_CONTROL, .word = word});
}

static void fault(uint16_t code)
{
    give((struct record){.kind = EVENT_FAULT, .word = code});
}

/* Single ticks, a line of the transcript for each. */
static void tick(int times)
{
    for (int i = 0; i < times; i++)
        give((struct record){.kind = EVENT_TICK});
}

static void jump(uint32_t ticks)
{
    give((struct record){.kind = EVENT_JUMP, .number = ticks});
}

static void sdo(const uint8_t request[SDO_SIZE])
{
    struct record record = {.kind = EVENT_SDO, .small = SDO_SIZE, .word = SDO_SIZE};
    memcpy(record.bytes, request, SDO_SIZE);
    give(record);
}

/* A write with the size of the entry. */
static void set_entry(uint16_t index, uint8_t sub, uint32_t data)
{
    static const uint8_t commands[] = {0, WRITE_1, WRITE_2, WRITE_3, WRITE_4};
    uint8_t request[SDO_SIZE] = {commands[object_entry_size(object_find(index).object, sub)],
                                 (uint8_t)index,
                                 (uint8_t)(index >> 8),
                                 sub,
                                 (uint8_t)data,
                                 (uint8_t)(data >> 8),
                                 (uint8_t)(data >> 16),
                                 (uint8_t)(data >> 24)};
    sdo(request);
}

/* A write of the value of an object. */
static void set(uint16_t index, int64_t value)
{
    set_entry(index, object_find(index).object->form == VARIABLE ? 0 : 1, (uint32_t)value);
}

static void receive(const uint8_t *pdo, uint8_t size)
{
    struct record record = {.kind = EVENT_RECEIVE, .small = size};
    memcpy(record.bytes, pdo, size);
    give(record);
}

static void send(uint16_t room)
{
    give((struct record){.kind = EVENT_SEND, .word = room});
}

static void read_entry(uint16_t index, uint8_t sub)
{
    const uint8_t request[SDO_SIZE] = {READ, (uint8_t)index, (uint8_t)(index >> 8), sub};
    sdo(request);
}

/* A fresh device in HOLD, where the hold set point is the input. */
static void fresh_in_hold(void)
{
    fresh();
    control(1);
}

/* An object of a block by its index in the position block. */
static void set_in(enum block_kind block, uint16_t index, int64_t value)
{
    set((uint16_t)(index + (block == PRESSURE_BLOCK ? BLOCK_OFFSET : 0)), value);
}

/* Ramp type 0 sets the position with one tick. */
static void place_in(enum block_kind block, int64_t ir)
{
    set_in(block, 0x6330, 0);
    set_in(block, 0x6314, ir);
    tick(1);
}

static void place_at(int64_t ir)
{
    place_in(POSITION_BLOCK, ir);
}

/* ---- The examples in their order ---- */

static void example_targets(void)
{
    fresh();
    set(0x6321, -5000);
    set(0x6320, 10000);
    set(0x6322, 131072);
    set(0x6323, 100);
    set(0x6324, -50);
    set(0x6314, -32768);
    query(); /* target -9950 */

    fresh();
    set(0x6322, 32768);
    set(0x6314, -1);
    query(); /* target 0 */
    set(0x6314, -3);
    query(); /* target -1 */

    fresh();
    set(0x6322, 4294967295);
    set(0x6314, -16384);
    query(); /* target -16384 */
}

static void example_times(void)
{
    fresh_in_hold();
    set(0x6330, 1);
    set(0x6331, 1000);
    set(0x6314, 16384);
    query(); /* 1001 ticks to go */
    tick(1); /* 1073741 */
    jump(999);
    query(); /* 1 to go, from 1073741000 */
    tick(1); /* 1073741824 */

    fresh_in_hold();
    set(0x6330, 1);
    set(0x6331, 3600000);
    set(0x6314, 16384);
    tick(2); /* 298, 596 */
}

enum { TIME_OF_16_IR = 1024, TIME_OF_32_IR = 512 }; /* a step of 16 ir, of 32 ir */

/* From 100 to -50 ir by ticks, and then by jumps: every n from the same start. */
static void go_from_100_to_minus_50(int64_t type, int ticks)
{
    place_at(100);
    set(0x6330, type);
    set(0x6314, -50);
    query();
    tick(ticks);
    query(); /* at -50 ir */

    for (int n = 0; n <= ticks + 1; n++) {
        place_at(100);
        set(0x6330, type);
        set(0x6314, -50);
        jump((uint32_t)n);
    }
}

/* 8 ticks to go: 68, 36, 4, 0, -16, -32, -48, -50. */
static void example_two_times(void)
{
    fresh_in_hold();
    set(0x6331, TIME_OF_16_IR);
    set(0x6334, TIME_OF_32_IR);
    go_from_100_to_minus_50(2, 8);
}

/* No halt at zero in type 1. 5 ticks to go: 68, 36, 4, -28, -50. */
static void example_one_time(void)
{
    fresh_in_hold();
    set(0x6331, TIME_OF_32_IR);
    go_from_100_to_minus_50(1, 5);
}

/* The most ticks to go, from end to end in both directions. */
static void example_end_to_end(enum block_kind block, int64_t type, uint32_t ticks)
{
    fresh();
    set(0x2000, block);
    control(1);
    place_in(block, 16384);
    for (uint16_t index = 0x6331; index <= 0x6336; index++)
        set_in(block, index, 3600000);
    set_in(block, 0x6330, type);
    set_in(block, 0x6314, -16384);
    query();
    jump(ticks - 1);
    query(); /* 1 to go */
    tick(1);
    set_in(block, 0x6314, 16384);
    query();
    jump(ticks);
    query(); /* none to go */
}

static void example_dead_band(void)
{
    static const int16_t places[] = {20, 21, -20, -21, -16300};
    fresh_in_hold();
    set(0x6342, 1);
    set(0x6345, 20);
    set(0x6343, 300);
    set(0x6344, 200);
    for (size_t i = 0; i < sizeof places / sizeof places[0]; i++) {
        place_at(places[i]);
        query(); /* command 0, 321, 0, -221, -16384 */
        read_entry(0x6310, 1);
    }
}

static void example_states(void)
{
    fresh();
    control(7); /* HOLD */
    control(7); /* ACTIVE */

    fault(0x1000); /* FAULT with 7 stored */
    control(8);    /* DISABLED */

    fault(0x2000); /* FAULT with 8 stored */
    fault(0x3000); /* the first code stays */
    query();
    control(8); /* stays */
    control(0); /* stays */
    control(8); /* leaves */
    query();

    fault(0x4000); /* the same once more, the words written by SDO */
    set(0x6040, 8);
    set(0x6040, 0);
    set(0x6040, 8);
}

static void example_requests(void)
{
    static const uint8_t crossed[SDO_SIZE] = {0x2b, 0x20, 0x63, 0x01, 0xff, 0xbf, 0, 0};
    static const uint8_t equal[SDO_SIZE] = {0x2b, 0x20, 0x63, 0x01, 0x00, 0xc0, 0, 0};
    static const uint8_t status[SDO_SIZE] = {0x40, 0x41, 0x60, 0x00, 0, 0, 0, 0};
    fresh();
    sdo(crossed); /* 80 20 63 01 36 00 09 06 */
    sdo(status);  /* 4b 41 60 00 08 00 00 00; the abort has changed nothing */
    sdo(equal);   /* 60 20 63 01 00 00 00 00 */
    fresh();
    sdo(status);
}

/* 6040h and 6300h in one PDO: twice the same leads to ACTIVE with the set point 1000. */
static void example_receive(void)
{
    static const uint8_t pdo[] = {0x07, 0x00, 0xe8, 0x03, 0xff};
    fresh();
    receive(pdo, 0); /* a fresh map takes any PDO */
    receive(pdo, 4);
    set_entry(0x1600, 1, 0x60400010); /* 23 00 16 01 10 00 40 60 */
    set_entry(0x1600, 2, 0x63000110);
    set_entry(0x1600, 0, 2);
    receive(pdo, 4); /* HOLD */
    receive(pdo, 3); /* 14 */
    receive(pdo, 5); /* ACTIVE; the first four bytes count */
    query();         /* target 1000 */
    set_entry(0x1600, 2, 0x63000110); /* 08000022h, although it stands there */
    set_entry(0x1600, 0, 5);          /* 06040042h */
    set_entry(0x1600, 0, 3);          /* 06040041h: the third is zero */
    set_entry(0x1600, 0, 0);
    set_entry(0x1600, 3, 0x63140010); /* 06040041h: the value is at sub-index 1 */
    set_entry(0x1600, 3, 0x60410010); /* 06040041h: that may be sent only */
}

/* 6041h and 6310h in one PDO, of the device that was led to ACTIVE. */
static void example_send(void)
{
    send(0);
    send(2); /* a fresh map writes nothing */
    set_entry(0x1a00, 1, 0x60410010);
    set_entry(0x1a00, 2, 0x63100110);
    set_entry(0x1a00, 0, 2);
    send(4); /* 0f 00 00 00: not there yet */
    tick(1);
    send(6); /* 0f 01 e8 03 and two bytes as they were */
    send(3); /* 3 */
    set_entry(0x1a00, 0, 1);
    send(3); /* 0f 01 and one byte as it was */
}

/* Once round, with the command at each quarter of the phase, and back to 0. */
static void tell_quarters(void)
{
    for (int i = 0; i < 4; i++) {
        tick(1);
        query();
    }
}

/* With 250 Hz a tick is a quarter of the period. */
static void example_dither_by_quarters(void)
{
    fresh_in_hold();
    set(0x6362, 250);
    set(0x6361, 1024);
    set(0x6360, 1);
    query();         /* command 1024 */
    tell_quarters(); /* 1024, -1024, -1024, 1024 */
    set(0x6360, 2);
    query();         /* 0 */
    tell_quarters(); /* 1024, 0, -1024, 0 */
    set(0x6361, 1);
    tell_quarters(); /* 1, 0, -1, 0 */
}

/* With 1 Hz a tick is 4294967 of the phase. */
static void example_dither_by_hertz(void)
{
    fresh_in_hold();
    set(0x6360, 2);
    set(0x6361, 1024);
    set(0x6362, 1);
    jump(250); /* 74 short of the quarter: x is 16383 */
    query();   /* command 1023 */
    tick(1);
    query(); /* 1019 */
    jump(250);
    query();          /* x is 32833: -4, not -5 */
    jump(4294967295); /* as far as one tick back: x is 32767 */
    query();          /* 0 */
    set(0x6360, 1);
    query(); /* 1024 */
    tick(1);
    query();    /* -1024 */
    control(7); /* ACTIVE: the phase goes on */
    tick(1);
    control(0); /* DISABLED: it is 0 */
    query();    /* 0 */
}

/* The pressure block selected: it alone moves, and the command of the other reads 0. */
static void example_pressure(void)
{
    fresh();
    set(0x2000, 2); /* 06090031h */
    set(0x2000, 1);
    set(0x63a1, 0);
    set(0x63a0, -1);    /* 06090036h, although the position block's lower limit is -16384 */
    set(0x6320, -1);    /* taken, although the pressure block's lower limit is 0 */
    set(0x63a0, 12000); /* limits 0 to 12000 */
    set(0x63b0, 1);
    set(0x63b1, TIME_OF_32_IR);
    set(0x6314, -5000);
    set(0x6394, 100);
    control(1);     /* HOLD */
    set(0x2000, 2); /* 06090031h comes before the lock */
    set(0x2000, 1); /* 08000022h, although it is the value that it has */
    query();        /* target 100, 4 ticks to go */
    tick(2);
    query();               /* at 64 ir */
    read_entry(0x6390, 1); /* 64 */
    read_entry(0x6310, 1); /* 0 */
    set(0x6380, 16000);
    control(7);      /* ACTIVE */
    set(0x63b0, 0);  /* 08000022h */
    set(0x6330, 1);  /* 08000022h, whichever block is selected */
    jump(373);       /* so many steps of 32 ir to the upper limit */
    query();         /* target and position 12000 */
    control(0);      /* DISABLED: the position is 0 */
    set(0x2000, 0);  /* the position block with the settings that it had */
    control(1);      /* HOLD */
    tick(1);
    query();               /* at its target, -5000 ir */
    read_entry(0x6310, 1); /* -5000 */
    read_entry(0x6390, 1); /* 0 */
    read_entry(0x63b1, 1); /* 512 */
}

/* Ends fresh, so that a made file may follow as if from the start. */
int mode_examples(void)
{
    example_targets();
    example_times();
    example_two_times();
    example_dead_band();
    example_states();
    example_requests();
    example_receive();
    example_send();
    example_one_time();
    for (int block = 0; block < BLOCKS; block++) {
        example_end_to_end((enum block_kind)block, 1, 7206321);
        example_end_to_end((enum block_kind)block, 2, 7206322); /* a halt at zero */
        example_end_to_end((enum block_kind)block, 3, 7206322);
    }
    example_dither_by_quarters();
    example_dither_by_hertz();
    example_pressure();
    fresh();
    return EXIT_GOOD;
}
