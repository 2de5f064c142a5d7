/* Lists a report file from standard input, read by plain_read. Then it writes the reading with either line end, reads that back and says on standard error if
   they differ. */
#include <stdio.h>
#include <string.h>
#include "plain.h"

typedef struct {
    uint32_t starts[TRF_PLAYER_CELLS], points[TRF_PLAYER_CELLS], ranks[TRF_PLAYER_CELLS];
    uint8_t kept[TRF_KEPT_CELLS];
    uint32_t opponents[TRF_ENTRY_CELLS];
    uint8_t colours[TRF_ENTRY_CELLS], results[TRF_ENTRY_CELLS], text[TRF_TEXT_CELLS];
    trf_acceleration accelerations[TRF_ACCELERATION_CELLS];
    uint32_t lines[TRF_LINE_CELLS];
} tables;

static trf_answer read_file(const uint8_t *file, size_t bytes, tables *t)
{
    return plain_read(file, bytes, t->starts, TRF_PLAYER_CELLS, t->points, TRF_PLAYER_CELLS, t->ranks, TRF_PLAYER_CELLS, t->kept, TRF_KEPT_CELLS,
                      t->opponents, TRF_ENTRY_CELLS, t->colours, TRF_ENTRY_CELLS, t->results, TRF_ENTRY_CELLS, t->text, TRF_TEXT_CELLS,
                      t->accelerations, TRF_ACCELERATION_CELLS, t->lines, TRF_LINE_CELLS);
}

static void list(const trf_answer *a, const tables *t)
{
    if (a->number != 0) {
        printf("refused\t%u\t%u\t%u\n", a->number, a->line.line, a->round);
        return;
    }
    printf("accepted\t%u\t%u\t%u\n", a->players, a->rounds, a->accelerations);
    for (uint32_t place = 0; place < a->players; place++) {
        printf("%u\t%u\t%u", t->starts[place], t->points[place], t->ranks[place]);
        for (uint32_t i = 0; i < a->rounds; i++) {
            uint32_t cell = place * TRF_MOST_ROUNDS + i;
            printf("\t%u%c%c", t->opponents[cell], t->colours[cell], t->results[cell]);
        }
        printf("\n");
    }
}

static int same_answer(const trf_answer *a, const trf_answer *b)
{
    return a->number == b->number && a->line.line == b->line.line && a->round == b->round && a->players == b->players && a->rounds == b->rounds
        && a->accelerations == b->accelerations && a->text == b->text && a->colour == b->colour && memcmp(a->values, b->values, sizeof a->values) == 0;
}

static int round_trip(trf_answer answer, const tables *t, bool cr_alone)
{
    static uint8_t out[TRF_MOST_WRITTEN];
    static tables again;
    trf_written w = plain_write(answer, t->starts, TRF_PLAYER_CELLS, t->points, TRF_PLAYER_CELLS, t->ranks, TRF_PLAYER_CELLS, t->kept, TRF_KEPT_CELLS,
                                t->opponents, TRF_ENTRY_CELLS, t->colours, TRF_ENTRY_CELLS, t->results, TRF_ENTRY_CELLS, t->text, TRF_TEXT_CELLS,
                                t->accelerations, TRF_ACCELERATION_CELLS, cr_alone, out, sizeof out);
    if (answer.number != 0)
        return w.number == TRF_NO_READING;
    trf_answer back = read_file(out, w.length, &again);
    memcpy(again.lines, t->lines, sizeof again.lines);
    return w.number == 0 && same_answer(&back, &answer) && memcmp(&again, t, sizeof again) == 0;
}

int main(void)
{
    static uint8_t file[TRF_MOST_FILE + 1];
    static tables t;
    size_t bytes = fread(file, 1, sizeof file, stdin);
    trf_answer answer = read_file(file, bytes, &t);
    list(&answer, &t);
    if (!round_trip(answer, &t, TRF_CR_LF) || !round_trip(answer, &t, TRF_CR)) {
        fprintf(stderr, "what was written reads differently\n");
        return 1;
    }
    return 0;
}
