/* The modes of the program. Each gives the status to exit with. */
#ifndef SECOND_MODES_H
#define SECOND_MODES_H

#include <stdint.h>

enum { EXIT_GOOD = 0, EXIT_MISSING = 1, EXIT_TROUBLE = 2 };

int mode_events(uint64_t seed, uint64_t count);
int mode_trace(void);
int mode_cover(void);
int mode_examples(void);
int mode_cases(void);
int mode_judge(void);

#endif
