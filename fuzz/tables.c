#include "tables.h"

#define TABLE_ROW(field, listed_cells) \
    { #field, __builtin_offsetof(tables, field), sizeof(((tables *)0)->field[0]), listed_cells }

const table TABLE[ALL_TABLES] = {
    TABLE_ROW(starts, TRF_PLAYER_CELLS),
    TABLE_ROW(points, TRF_PLAYER_CELLS),
    TABLE_ROW(ranks, TRF_PLAYER_CELLS),
    TABLE_ROW(kept, TRF_KEPT_CELLS),
    TABLE_ROW(opponents, TRF_ENTRY_CELLS),
    TABLE_ROW(colours, TRF_ENTRY_CELLS),
    TABLE_ROW(results, TRF_ENTRY_CELLS),
    TABLE_ROW(text, TRF_TEXT_CELLS),
    TABLE_ROW(accelerations, TRF_ACCELERATION_CELLS),
    TABLE_ROW(lines, TRF_LINE_CELLS),
};

uint8_t *cell_of(tables *t, int which, size_t cell)
{
    return (uint8_t *)t + TABLE[which].at + cell * TABLE[which].cell;
}

lengths listed_lengths(void)
{
    lengths lent;
    for (int i = 0; i < ALL_TABLES; i++) lent.cells[i] = TABLE[i].listed;
    return lent;
}

int is_short(const lengths *lent, int tables_lent)
{
    for (int i = 0; i < tables_lent; i++)
        if (lent->cells[i] < TABLE[i].listed) return 1;
    return 0;
}

void clear_listed(tables *t)
{
    for (int i = 0; i < ALL_TABLES; i++) memset(cell_of(t, i, 0), 0, TABLE[i].listed * TABLE[i].cell);
}

size_t used_cells(const reading *r, int which)
{
    switch (which) {
    case STARTS: case POINTS: case RANKS: return r->answer.players;
    case KEPT: return (size_t)r->answer.players * KEPT_COLUMNS;
    case OPPONENTS: case COLOURS: case RESULTS: return (size_t)r->answer.players * TRF_MOST_ROUNDS;
    case TEXT: return r->answer.text;
    case ACCELERATIONS: return r->answer.accelerations;
    default: return TRF_LINE_CELLS;
    }
}

int listed_difference(const tables *one, const tables *other, int tables_looked_at, int *which, size_t *cell)
{
    for (int i = 0; i < tables_looked_at; i++) {
        const uint8_t *a = (const uint8_t *)one + TABLE[i].at, *b = (const uint8_t *)other + TABLE[i].at;
        if (memcmp(a, b, TABLE[i].listed * TABLE[i].cell) == 0) continue;
        size_t at = 0;
        while (a[at] == b[at]) at++;
        *which = i;
        *cell = at / TABLE[i].cell;
        return 1;
    }
    return 0;
}

uint32_t place_of(const reading *r, uint32_t start)
{
    uint32_t place = 0;
    while (place < r->answer.players && r->t.starts[place] != start) place++;
    return place;
}

uint32_t worth(const trf_answer *answer, uint8_t result)
{
    switch (result) {
    case '1': case 'W': case '+': case 'F': return answer->values[VALUE_W];
    case '=': case 'D': case 'H': return answer->values[VALUE_D];
    case '0': case 'L': return answer->values[VALUE_L];
    case '-': case 'Z': return answer->values[VALUE_A];
    case 'U': return answer->values[VALUE_P];
    case '?': return answer->values[VALUE_X];
    default: return 0;
    }
}

uint32_t earned(const reading *r, uint32_t player, uint32_t rounds)
{
    uint32_t sum = 0;
    for (uint32_t round = 0; round < rounds; round++) sum += worth(&r->answer, r->t.results[entry_cell(player, round)]);
    return sum;
}
