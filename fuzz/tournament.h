/* Lawful tournaments, drawn as the reading that a report of theirs must give. */
#ifndef FUZZ_TOURNAMENT_H
#define FUZZ_TOURNAMENT_H

#include "tables.h"

enum { NOT_STATED = 1000 };

typedef struct {
    reading r;
    uint32_t stated_rounds; /* what 142 says, or NOT_STATED */
    int is_longest;         /* its report is the longest that can be written */
} tournament;

extern const uint32_t DEFAULT_VALUES[6];
extern const char *const TEXT_CODES[16]; /* 012 first, 112 last */
enum { KNOWN_FITTING = 12, FITTING = 13 };
extern const char FITS[FITTING][3]; /* two results of a game that fit each other, each way round; the unknown ones last */

void draw_tournament(chance *c, tournament *to);
/* Columns 10 to 79 of a player's line. */
void draw_kept(chance *c, uint8_t *kept);
uint8_t draw_text_byte(chance *c);
/* A kept text line without its CR, its bytes in all; 0 if it cannot have this length. */
size_t draw_text_line(chance *c, const char *code, size_t length, uint8_t *line);
int add_text(reading *r, const uint8_t *line, size_t length);
trf_acceleration draw_acceleration(chance *c, const reading *r);
int overlaps(const trf_acceleration *one, const trf_acceleration *other);
/* Makes the stated points the sum of the entries, cut to what a points field can state. */
void fix_points(reading *r);

#endif
