/* Penumbrico, the hall box: report files (TRF16, with individual records of the TRF25 draft) read into tables, written, and asked for a score.

   Link with target/staticlib/libface.a, which `tools/link-c` writes for x86-64 (level v2).

   The calls ask nothing of what stands in the memory that they are lent: every input gets an answer. A table is lent as a pointer and the number of its
   cells; the memory must be there, aligned as its type asks, and what a call writes to may overlap nothing else that it is lent. The calls keep nothing
   from one to the next, use no heap, and of the C library need memcpy and memset alone. A call took at most some 14,000 bytes of stack where that was measured. */
#ifndef PENUMBRICO_H
#define PENUMBRICO_H

/* The version of this header and of what the calls answer, for people and for #if (10000 a first number, 100 a second, 1 a third). The first moves where a
   caller must change: a struct, a size, a call or what a part of an answer means. The second moves where the box carries more or gives a file another
   answer, the third where neither does. Since 2, trf_write takes how the lines end: what was compiled for 1, or declares the calls by itself, as a program
   in another language does, links with this archive all the same and must be made again. */
#define TRF_VERSION "2.2.0"
#define TRF_VERSION_NUMBER 20200

#ifdef PENUMBRICO_NO_HEADERS /* for a compiler without the C library's headers: the names that gcc and clang have built in */
typedef __UINT8_TYPE__ uint8_t;
typedef __UINT32_TYPE__ uint32_t;
typedef __SIZE_TYPE__ size_t;
#if !defined __cplusplus && (!defined __STDC_VERSION__ || __STDC_VERSION__ < 202311L)
#define bool _Bool
#endif
#else
#include <stdbool.h>
#include <stddef.h>
#include <stdint.h>
#endif

#ifdef __cplusplus
extern "C" {
#endif

/* What the box carries at most. */
enum {
    TRF_MOST_FILE = 65535,       /* bytes of a file */
    TRF_MOST_LINE = 512,         /* bytes of a line, terminator not counted */
    TRF_MOST_PLAYERS = 200,
    TRF_MOST_ROUNDS = 20,
    TRF_MOST_ACCELERATIONS = 32, /* 250 records */
    TRF_MOST_TEXT = 2048,        /* bytes of kept text lines, each with its CR */
    TRF_MOST_WRITTEN = 61887,    /* the longest report that trf_write produces, with CR LF */
    TRF_MOST_WRITTEN_CR = 61141  /* and with CR alone */
};

/* How trf_write ends the lines; each call says which. 0 is CR LF and every other number CR alone, since C makes it a bool. */
enum {
    TRF_CR_LF = 0, /* CR and LF, which most programs on a desktop want */
    TRF_CR = 1     /* CR alone, which the card slot's uploader wants */
};

/* The cells that each lent table must have; cells past these are never written. Places count from 0 and rounds from 1. */
enum {
    TRF_PLAYER_CELLS = 200,      /* starts, points (in tenths), ranks: cell place */
    TRF_KEPT_CELLS = 14000,      /* columns 10 to 79 of the players' lines: 70 cells from 70 * place on */
    TRF_ENTRY_CELLS = 4000,      /* opponents, colours, results: cell 20 * place + round - 1 */
    TRF_TEXT_CELLS = 2048,       /* the kept text lines, each ended by one CR */
    TRF_ACCELERATION_CELLS = 32, /* the 250 records, in file order */
    TRF_LINE_CELLS = 232         /* line numbers: of the player at cell place, of the 250 record i at cell 200 + i */
};

/* A cell of results holds what the report has, a letter as a capital, and a bye that was left blank as 'Z'. Beside an opponent a blank is a result that is not
   known yet: trf_read makes it this byte, which is no result of a report, and trf_write makes it a blank again. */
enum { TRF_UNKNOWN_RESULT = '?' };

/* The refusals: number, name, words. docs/REFUSALS.md says of each where its line and round point and what to do about it. The words stand here once: this
   table makes the names and trf_words below, and ./list and ./rewrite print them from it. */
#define TRF_REFUSALS(X) \
    X(1, TRF_TABLE_SHORT, "a lent table is too short")                                            \
    X(2, TRF_FILE_BIG, "the file is over 65,535 bytes")                                           \
    X(3, TRF_BAD_BYTE, "the line has a byte that is not allowed")                                 \
    X(4, TRF_NO_CR, "the last line has no CR")                                                    \
    X(5, TRF_LINE_LONG, "the line is over 512 bytes")                                             \
    X(6, TRF_UNLISTED, "the line is a record that the box does not carry")                        \
    X(7, TRF_BAD_FIELD, "a field or column of the line is against its rule")                      \
    X(8, TRF_AGAIN, "a record that may stand once, or a start number, stands again")              \
    X(9, TRF_TOO_MANY, "more players, acceleration records or text than the box carries")         \
    X(10, TRF_INCOMPLETE, "no tournament name (012) or no player (001)")                          \
    X(11, TRF_PAST_ROUNDS, "an entry in a round past the number of rounds (142)")                 \
    X(12, TRF_NO_ENTRY, "an entry is neither a bye nor a game")                                   \
    X(13, TRF_NOT_MUTUAL, "the opponent's entry does not name this player with the other colour") \
    X(14, TRF_RESULTS, "the two results of a game do not fit each other")                         \
    X(15, TRF_SECOND_U, "a second pairing-allocated bye (U) in one round")                        \
    X(16, TRF_POINTS, "the stated points are not the sum of the rounds")                          \
    X(17, TRF_OVERLAP, "two acceleration records (250) share a round and a start number")         \
    X(18, TRF_NO_READING, "writing or asking: no accepted file has this reading")                 \
    X(19, TRF_OUT_SHORT, "writing: the output is too short")                                      \
    X(20, TRF_NO_PLACE, "asking: no such player or round")

#define TRF_NAMED(number, name, words) , name = number
enum trf_refusal { TRF_ACCEPTED = 0 TRF_REFUSALS(TRF_NAMED) };
#undef TRF_NAMED

/* The words of an answer's number, in one line without a full stop. */
static inline const char *trf_words(uint32_t number)
{
    switch (number) {
    case TRF_ACCEPTED:
        return "accepted";
#define TRF_CASE(number, name, words) \
    case name:                        \
        return words;
        TRF_REFUSALS(TRF_CASE)
#undef TRF_CASE
    default:
        return "no refusal has this number";
    }
}

/* A player's place in the tables, from 0: not a start number, not a rank. */
typedef struct { uint32_t place; } trf_place;

/* A line of the file, from 1, comments and empty lines counted too; 0 where a refusal has no line. */
typedef struct { uint32_t line; } trf_line;

/* One 250 record: points in tenths for the rounds and start numbers from first to last. */
typedef struct {
    uint32_t points;
    uint32_t first_round;
    uint32_t last_round;
    uint32_t first_start;
    uint32_t last_start;
} trf_acceleration;

/* What a reading answers: the refusal with its line and round, all else 0; or 0 in those three, and the counts, the bytes of kept text, the initial
   colour ('W', 'B' or 0) and the values of W D L A P X in tenths. A letter that the file's 162 does not give has its default (10, 5, 0, 0 for W D L A), P the
   event's own W and X its own D. */
typedef struct {
    uint32_t number;
    trf_line line;
    uint32_t round;
    uint32_t players;
    uint32_t rounds;
    uint32_t accelerations;
    size_t text;
    uint8_t colour;
    uint32_t values[6];
} trf_answer;

/* What a writing answers: the refusal, or the bytes written. */
typedef struct {
    uint32_t number;
    trf_line line;
    uint32_t round;
    size_t length;
} trf_written;

/* What a question answers: the refusal, or the points earned before the round and the acceleration for it, in tenths. */
typedef struct {
    uint32_t number;
    trf_line line;
    uint32_t round;
    uint32_t points;
    uint32_t acceleration;
} trf_score;

/* The archive has the structs as x86-64 lays them out; a compiler that does otherwise is refused here. */
typedef char trf_structs_as_on_x86_64[sizeof(trf_acceleration) == 20 && sizeof(trf_answer) == 64 && sizeof(trf_written) == 24 && sizeof(trf_score) == 20 ? 1 : -1];

/* Reads a file into the tables. A refusal of 2 to 17 puts zero in every listed cell; 1 touches none. */
trf_answer trf_read(const uint8_t *file, size_t file_bytes,
                    uint32_t *starts, size_t starts_cells,
                    uint32_t *points, size_t points_cells,
                    uint32_t *ranks, size_t ranks_cells,
                    uint8_t *kept, size_t kept_cells,
                    uint32_t *opponents, size_t opponents_cells,
                    uint8_t *colours, size_t colours_cells,
                    uint8_t *results, size_t results_cells,
                    uint8_t *text, size_t text_cells,
                    trf_acceleration *accelerations, size_t accelerations_cells,
                    uint32_t *lines, size_t lines_cells);

/* Writes the tournament of a reading as a report, in lines that end as cr_alone says: TRF_CR_LF or TRF_CR. A refusal (1, 18 or 19) changes no byte of the
   output; 19 is given where out_bytes is less than the report takes with those line ends. */
trf_written trf_write(trf_answer answer,
                      const uint32_t *starts, size_t starts_cells,
                      const uint32_t *points, size_t points_cells,
                      const uint32_t *ranks, size_t ranks_cells,
                      const uint8_t *kept, size_t kept_cells,
                      const uint32_t *opponents, size_t opponents_cells,
                      const uint8_t *colours, size_t colours_cells,
                      const uint8_t *results, size_t results_cells,
                      const uint8_t *text, size_t text_cells,
                      const trf_acceleration *accelerations, size_t accelerations_cells,
                      bool cr_alone,
                      uint8_t *out, size_t out_bytes);

/* Asks a reading what the player at a place earned before a round (1 to the number of rounds), and the acceleration for that round. Refusals: 1, 18, 20. */
trf_score trf_ask(trf_answer answer,
                  const uint32_t *starts, size_t starts_cells,
                  const uint32_t *points, size_t points_cells,
                  const uint32_t *ranks, size_t ranks_cells,
                  const uint8_t *kept, size_t kept_cells,
                  const uint32_t *opponents, size_t opponents_cells,
                  const uint8_t *colours, size_t colours_cells,
                  const uint8_t *results, size_t results_cells,
                  const uint8_t *text, size_t text_cells,
                  const trf_acceleration *accelerations, size_t accelerations_cells,
                  trf_place place, uint32_t round);

/* The tables in one struct, for those who keep them together; no call asks for it. TRF_LENT lends all but the line numbers, as the three calls take them:
       trf_read(file, file_bytes, TRF_LENT(t), t.lines, TRF_LINE_CELLS) */
typedef struct {
    uint32_t starts[TRF_PLAYER_CELLS];
    uint32_t points[TRF_PLAYER_CELLS];
    uint32_t ranks[TRF_PLAYER_CELLS];
    uint8_t kept[TRF_KEPT_CELLS];
    uint32_t opponents[TRF_ENTRY_CELLS];
    uint8_t colours[TRF_ENTRY_CELLS];
    uint8_t results[TRF_ENTRY_CELLS];
    uint8_t text[TRF_TEXT_CELLS];
    trf_acceleration accelerations[TRF_ACCELERATION_CELLS];
    uint32_t lines[TRF_LINE_CELLS];
} trf_tables;

#define TRF_LENT(t)                                                                                                                                      \
    (t).starts, TRF_PLAYER_CELLS, (t).points, TRF_PLAYER_CELLS, (t).ranks, TRF_PLAYER_CELLS, (t).kept, TRF_KEPT_CELLS, (t).opponents, TRF_ENTRY_CELLS,   \
        (t).colours, TRF_ENTRY_CELLS, (t).results, TRF_ENTRY_CELLS, (t).text, TRF_TEXT_CELLS, (t).accelerations, TRF_ACCELERATION_CELLS

#ifdef __cplusplus
}
#endif

#endif
