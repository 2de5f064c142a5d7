/* The lent tables, each with cells past its listed size, and a reading: an answer with its tables. */
#ifndef FUZZ_TABLES_H
#define FUZZ_TABLES_H

#include "base.h"

enum { MORE = 40 }; /* cells past each listed size; they part one table from the next */

typedef struct {
    uint8_t before[64];
    uint32_t starts[TRF_PLAYER_CELLS + MORE];
    uint32_t points[TRF_PLAYER_CELLS + MORE];
    uint32_t ranks[TRF_PLAYER_CELLS + MORE];
    uint8_t kept[TRF_KEPT_CELLS + MORE];
    uint32_t opponents[TRF_ENTRY_CELLS + MORE];
    uint8_t colours[TRF_ENTRY_CELLS + MORE];
    uint8_t results[TRF_ENTRY_CELLS + MORE];
    uint8_t text[TRF_TEXT_CELLS + MORE];
    trf_acceleration accelerations[TRF_ACCELERATION_CELLS + MORE];
    uint32_t lines[TRF_LINE_CELLS + MORE];
} tables;

enum { STARTS, POINTS, RANKS, KEPT, OPPONENTS, COLOURS, RESULTS, TEXT, ACCELERATIONS, LINES, ALL_TABLES };

/* One table: its place in the struct, the bytes of a cell, the listed cells. */
typedef struct {
    const char *name;
    size_t at;
    size_t cell;
    size_t listed;
} table;

extern const table TABLE[ALL_TABLES];

/* The cells lent of each table. */
typedef struct { size_t cells[ALL_TABLES]; } lengths;

typedef struct {
    trf_answer answer;
    tables t;
} reading;

enum { KEPT_COLUMNS = 70 };

/* An answer's scoring values, in its order. */
enum { VALUE_W, VALUE_D, VALUE_L, VALUE_A, VALUE_P, VALUE_X };

uint8_t *cell_of(tables *t, int which, size_t cell);
lengths listed_lengths(void);
int is_short(const lengths *lent, int tables_lent);
/* Puts zero in every listed cell, and leaves the others. */
void clear_listed(tables *t);
/* The cells of a table that a reading uses. */
size_t used_cells(const reading *r, int which);
/* The first cell that differs, by table and cell, or 0 where all listed cells of the first few tables are equal. */
int listed_difference(const tables *one, const tables *other, int tables_looked_at, int *which, size_t *cell);
/* The place of the player who has a start number; the number of players where nobody has it. */
uint32_t place_of(const reading *r, uint32_t start);
/* The tenths that a result earns. */
uint32_t worth(const trf_answer *answer, uint8_t result);
uint32_t earned(const reading *r, uint32_t player, uint32_t rounds);

static inline size_t entry_cell(uint32_t player, uint32_t round) { return (size_t)player * TRF_MOST_ROUNDS + round; }

#endif
