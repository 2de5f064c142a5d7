/* The refusals that no file gives: 1, 18, 19 and 20 are about what the caller lends and asks. Each is brought about over an accepted report, with what the
   rules say of the memory that was lent. */
#include "report.h"

#include <string.h>

#include "penumbrico.h"

static trf_tables tables;
static uint8_t out[TRF_MOST_WRITTEN];

enum { BEFORE = 0xA5 };

/* How many of the bytes hold something else than before. */
static size_t changed(const void *memory, size_t n)
{
    const uint8_t *bytes = memory;
    size_t count = 0;
    for (size_t i = 0; i < n; i++)
        count += bytes[i] != BEFORE;
    return count;
}

/* The last table is lent one cell short: no table may be touched. */
static trf_answer short_table(const uint8_t *file, size_t file_bytes)
{
    memset(&tables, BEFORE, sizeof tables);
    return trf_read(file, file_bytes, TRF_LENT(tables), tables.lines, TRF_LINE_CELLS - 1);
}

/* A tenth of a point more than the first player's rounds give. */
static trf_written changed_cell(trf_answer answer, bool cr_alone)
{
    memset(out, BEFORE, sizeof out);
    tables.points[0]++;
    trf_written written = trf_write(answer, TRF_LENT(tables), cr_alone, out, sizeof out);
    tables.points[0]--;
    return written;
}

/* One byte less than the report takes with these line ends. */
static trf_written short_output(trf_answer answer, bool cr_alone)
{
    size_t length = trf_write(answer, TRF_LENT(tables), cr_alone, out, sizeof out).length;
    memset(out, BEFORE, sizeof out);
    return trf_write(answer, TRF_LENT(tables), cr_alone, out, length - 1);
}

/* The place after the last player's. */
static trf_score no_player(trf_answer answer)
{
    return trf_ask(answer, TRF_LENT(tables), (trf_place){answer.players}, 1);
}

static int told(uint32_t wanted, uint32_t number, uint32_t line, uint32_t round, size_t touched)
{
    print_refused(stdout, number, line, round);
    if (touched != 0)
        fprintf(stderr, "report: %lu bytes were touched\n", (unsigned long)touched);
    return number == wanted && touched == 0 ? DONE : FAILED;
}

/* A writing that is to be refused, with either line end. Of the one with CR alone is told only what is wrong. */
static int told_of_writing(uint32_t wanted, trf_answer answer, trf_written provoked(trf_answer answer, bool cr_alone))
{
    trf_written cr = provoked(answer, TRF_CR);
    size_t touched = changed(out, sizeof out);
    if (cr.number != wanted || touched != 0)
        return told(wanted, cr.number, cr.line.line, cr.round, touched);
    trf_written cr_lf = provoked(answer, TRF_CR_LF);
    return told(wanted, cr_lf.number, cr_lf.line.line, cr_lf.round, changed(out, sizeof out));
}

int provoke(uint32_t number, const uint8_t *file, size_t file_bytes)
{
    if (number == TRF_TABLE_SHORT) {
        trf_answer refused = short_table(file, file_bytes);
        return told(number, refused.number, refused.line.line, refused.round, changed(&tables, sizeof tables));
    }
    trf_answer answer = trf_read(file, file_bytes, TRF_LENT(tables), tables.lines, TRF_LINE_CELLS);
    if (answer.number != TRF_ACCEPTED) {
        print_refused(stderr, answer.number, answer.line.line, answer.round);
        return REFUSED;
    }
    if (number == TRF_NO_READING)
        return told_of_writing(number, answer, changed_cell);
    if (number == TRF_OUT_SHORT)
        return told_of_writing(number, answer, short_output);
    if (number == TRF_NO_PLACE) {
        trf_score refused = no_player(answer);
        return told(number, refused.number, refused.line.line, refused.round, 0);
    }
    fprintf(stderr, "report: %u is no refusal that a caller brings about; those are 1, 18, 19 and 20\n", (unsigned)number);
    return UNUSABLE;
}
