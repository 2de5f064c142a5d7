/* A report as a list of lines, the spellings of a tournament, and the bytes of a file. */
#ifndef FUZZ_REPORT_H
#define FUZZ_REPORT_H

#include "tournament.h"

enum { LINE_ROOM = 1024, MOST_LINES = 1600, FILE_ROOM = 80000 };

enum { END_CR, END_CRLF, END_LF, END_LFCR, END_CRLFLF, END_NONE, ENDS };

typedef struct {
    size_t length;
    int end;
    uint8_t bytes[LINE_ROOM];
} line;

typedef struct {
    size_t count, taken;
    uint16_t order[MOST_LINES];
    line pool[MOST_LINES];
} report;

typedef struct {
    size_t length;
    uint8_t bytes[FILE_ROOM];
} file;

static inline line *line_at(report *r, size_t at) { return &r->pool[r->order[at]]; }

/* A new line of these bytes at a place in the report; 0 where the report is full. */
line *insert_line(report *r, size_t at, const uint8_t *bytes, size_t length, int end);
void remove_line(report *r, size_t at);
/* A line's byte at a column from 1; the line grows by blanks. */
void put_column(line *l, size_t column, uint8_t byte);
/* A number in the columns from first to last, filled with blanks or, where zeros says so, with zeros. */
void put_number(line *l, size_t first, size_t last, uint32_t number, int zeros);
void put_points(line *l, size_t first, uint32_t tenths, int zero);
void spell_acceleration(chance *c, line *l, const trf_acceleration *a);

/* One of the many spellings of a tournament. Tells the tournament its line numbers. */
void spell(chance *c, tournament *to, report *out);
void join_lines(report *r, file *out);
void part_lines(const uint8_t *bytes, size_t length, report *out);

#endif
