/* `second cases` and `second judge`: case files, records of a request and its expected reply. */
#include <inttypes.h>
#include <stdio.h>
#include <string.h>

#include "modes.h"
#include "run.h"

enum {
    CASE_SIZE = 2 * SDO_SIZE,
    SPOILT_EACH = 100, /* one expected reply of so many is wrong in one byte */
    PART_SIZE = 7      /* the bytes of the part record at the end */
};

/* ---- Making ---- */

static void write_case(struct device *device, const uint8_t *request, uint64_t number)
{
    uint8_t reply[SDO_SIZE] = {0};
    device_sdo(device, request, SDO_SIZE, reply, SDO_SIZE);
    if (number % SPOILT_EACH == SPOILT_EACH - 1)
        reply[number / SPOILT_EACH % SDO_SIZE] ^= 1;
    fwrite(request, 1, SDO_SIZE, stdout);
    fwrite(reply, 1, SDO_SIZE, stdout);
}

/* A request that gets no reply is a case too: it fails whatever is expected. */
int mode_cases(void)
{
    const uint8_t part[PART_SIZE] = {0};
    struct device device = device_fresh();
    struct record record;
    uint64_t number = 0;
    while (record_read(stdin, &record) == RECORD_SIZE)
        if (record.kind == EVENT_SDO)
            write_case(&device, record.bytes, number++);
    fwrite(part, 1, PART_SIZE, stdout);
    return EXIT_GOOD;
}

/* ---- Judging ---- */

static bool case_passes(struct device *device, const uint8_t *one)
{
    uint8_t reply[SDO_SIZE] = {0};
    return device_sdo(device, one, SDO_SIZE, reply, SDO_SIZE) == DONE &&
           memcmp(reply, &one[SDO_SIZE], SDO_SIZE) == 0;
}

int mode_judge(void)
{
    struct device device = device_fresh();
    uint8_t one[CASE_SIZE];
    uint64_t cases = 0;
    uint64_t failed = 0;
    while (fread(one, 1, CASE_SIZE, stdin) == CASE_SIZE) {
        cases++;
        if (!case_passes(&device, one))
            failed++;
    }
    printf("cases %" PRIu64 " failed %" PRIu64 "\n", cases, failed);
    return EXIT_GOOD;
}
