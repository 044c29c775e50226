/* second: a second, independent program for the device of document 01. */
#include <errno.h>
#include <stdbool.h>
#include <stdio.h>
#include <stdlib.h>
#include <string.h>

#include "modes.h"

static const char usage[] = "usage: second events SEED COUNT\n"
                            "       second trace    < EVENTS\n"
                            "       second cover    < EVENTS\n"
                            "       second examples\n"
                            "       second cases    < EVENTS\n"
                            "       second judge    < CASES\n";

/* A decimal number without sign; strtoull alone would take a sign and blanks. */
static bool parse_number(const char *text, uint64_t *number)
{
    char *end = NULL;
    if (text[0] < '0' || text[0] > '9')
        return false;
    errno = 0;
    unsigned long long value = strtoull(text, &end, 10);
    if (errno != 0 || *end != '\0' || value > UINT64_MAX)
        return false;
    *number = (uint64_t)value;
    return true;
}

static int run_mode(int count, char **arguments)
{
    uint64_t seed = 0;
    uint64_t events = 0;
    if (count == 4 && strcmp(arguments[1], "events") == 0 && parse_number(arguments[2], &seed) &&
        parse_number(arguments[3], &events))
        return mode_events(seed, events);
    if (count == 2 && strcmp(arguments[1], "trace") == 0)
        return mode_trace();
    if (count == 2 && strcmp(arguments[1], "cover") == 0)
        return mode_cover();
    if (count == 2 && strcmp(arguments[1], "examples") == 0)
        return mode_examples();
    if (count == 2 && strcmp(arguments[1], "cases") == 0)
        return mode_cases();
    if (count == 2 && strcmp(arguments[1], "judge") == 0)
        return mode_judge();
    fputs(usage, stderr);
    return EXIT_TROUBLE;
}

int main(int argc, char **argv)
{
    int status = run_mode(argc, argv);
    if (ferror(stdin)) {
        fputs("second: reading failed\n", stderr);
        status = EXIT_TROUBLE;
    }
    if (fflush(stdout) != 0 || ferror(stdout)) {
        fputs("second: writing failed\n", stderr);
        status = EXIT_TROUBLE;
    }
    return status;
}
