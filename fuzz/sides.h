/* Both programs on the same bytes: the calls, the comparison, and what must hold of each alone. */
#ifndef FUZZ_SIDES_H
#define FUZZ_SIDES_H

#include "report.h"

enum { NUMBERS = 21, READS = 0, WRITES = 1, ASKS = 2, CALLS = 3 };

/* The trial at hand, for whoever must tell of a disagreement. */
typedef struct {
    uint64_t seed, input;
    const char *kind, *step;
    const uint8_t *bytes, *read; /* the input, and what was read last: the input or a written report */
    size_t length, read_length;
    const reading *base, *given; /* the accepted reading, and what was handed to writer or question */
    lengths lent;
    bool cr_alone; /* how the lines were to end: TRF_CR_LF or TRF_CR */
    size_t room;
    uint32_t place, round;
} trial;

extern trial now;
/* How often each call gave each number. */
extern uint64_t counts[CALLS][NUMBERS];

void prepare_sides(void);

/* Each call is made on both sides, with equal tables and equal bytes around them; it is compared, and the answer is handed back. The tables that the
   proved side has read stay in the reading. */
trf_answer read_both(chance *c, const uint8_t *bytes, size_t length, const lengths *lent, reading *found);
trf_written write_both(chance *c, const reading *given, const lengths *lent, bool cr_alone, size_t room);
trf_score ask_both(const reading *given, const lengths *lent, uint32_t place, uint32_t round);

/* The length of the longest report. */
static inline size_t most_written(bool cr_alone) { return cr_alone ? TRF_MOST_WRITTEN_CR : TRF_MOST_WRITTEN; }

/* The bytes that the last writing left. */
const uint8_t *written_bytes(void);

/* Equal in every part and every listed cell; the line numbers too where they are looked at. */
void expect_reading(const reading *found, const reading *expected, int with_lines, const char *law);

/* Tells of the disagreement and ends the program. */
void disagree(const char *what, ...) __attribute__((noreturn));

#endif
