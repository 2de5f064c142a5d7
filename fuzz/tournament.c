#include "tournament.h"

const uint32_t DEFAULT_VALUES[6] = {10, 5, 0, 0, 10, 5};
const char *const TEXT_CODES[16] = {"012", "022", "032", "042", "052", "062", "072", "092",
                                    "102", "122", "132", "192", "202", "212", "222", "112"};
const char FITS[FITTING][3] = {"10", "01", "==", "=0", "0=", "00", "WL", "LW", "DD", "+-", "-+", "--", "??"};
enum { ONCE_CODES = 14 };       /* TEXT_CODES 1 to 14 */
enum { MOST_TEXT_LINES = 511 }; /* 012 and three bytes, 510 times a bare 112 */

/* Mostly small, at times as large as can be. */
static uint32_t draw_players(chance *c)
{
    uint32_t size = below(c, 200);
    if (size < 130) return between(c, 1, 6);
    if (size < 176) return between(c, 7, 24);
    if (size < 195) return between(c, 25, 80);
    if (size < 199) return between(c, 81, 199);
    return TRF_MOST_PLAYERS;
}

static uint32_t draw_rounds(chance *c)
{
    uint32_t size = below(c, 100);
    if (size < 10) return below(c, 2);
    if (size < 70) return between(c, 1, 5);
    if (size < 93) return between(c, 6, 12);
    return size < 97 ? between(c, 13, 19) : TRF_MOST_ROUNDS;
}

/* Values whose sum over all rounds can be stated; P now as W and now apart, and X so with D. */
static void draw_values(chance *c, trf_answer *answer)
{
    static const uint32_t COMMON[] = {0, 5, 10, 15, 20, 30};
    uint32_t most = answer->rounds == 0 ? 999 : 999 / answer->rounds;
    int how = (int)below(c, 6);
    for (int i = 0; i < 6; i++) {
        answer->values[i] = DEFAULT_VALUES[i];
        if (how == 4 || (how == 3 && one_in(c, 3))) answer->values[i] = COMMON[below(c, COUNT_OF(COMMON))];
        if (how == 5) answer->values[i] = one_in(c, 4) ? most : below(c, most + 1);
    }
    if (one_in(c, 2)) answer->values[VALUE_P] = answer->values[VALUE_W];
    if (one_in(c, 2)) answer->values[VALUE_X] = answer->values[VALUE_D];
}

static int is_taken(const reading *r, uint32_t players, uint32_t start)
{
    for (uint32_t i = 0; i < players; i++)
        if (r->t.starts[i] == start) return 1;
    return 0;
}

static void draw_starts(chance *c, reading *r)
{
    uint32_t n = r->answer.players, reach = one_in(c, 2) ? 9999 : n + below(c, 20);
    int in_order = one_in(c, 2);
    for (uint32_t i = 0; i < n; i++) {
        uint32_t start = in_order ? i + 1 : one_in(c, 40) ? 9999 : between(c, 1, reach);
        while (is_taken(r, i, start)) start = start % 9999 + 1;
        r->t.starts[i] = start;
        r->t.ranks[i] = one_in(c, 20) ? 9999 : one_in(c, 4) ? between(c, 1, 9999) : i + 1;
    }
}

uint8_t draw_text_byte(chance *c)
{
    switch (below(c, 8)) {
    case 0: return ' ';
    case 1: return (uint8_t)between(c, 128, 255);
    case 2: return (uint8_t)between(c, 32, 126);
    default: return (uint8_t)between(c, 'a', 'z');
    }
}

static void draw_digits(chance *c, uint8_t *to, size_t digits)
{
    for (size_t i = 0; i < digits; i++) to[i] = (uint8_t)between(c, '0', '9');
}

void draw_kept(chance *c, uint8_t *kept)
{
    static const char *const TITLES[] = {"   ", "GM ", "IM ", "WGM", "FM ", "WIM", "CM ", "WFM", "WCM"};
    memset(kept, ' ', KEPT_COLUMNS);
    kept[0] = byte_of(c, " mw");
    memcpy(kept + 1, TITLES[below(c, COUNT_OF(TITLES))], 3);
    uint32_t name = below(c, 34), federation = below(c, 4), number = below(c, 12), rating = below(c, 5);
    for (uint32_t i = 0; i < name; i++) kept[5 + i] = draw_text_byte(c);
    draw_digits(c, kept + 39 + 4 - rating, rating);
    for (uint32_t i = 0; i < federation; i++) kept[44 + i] = draw_text_byte(c);
    draw_digits(c, kept + 48, number);
    if (one_in(c, 2)) return;
    draw_digits(c, kept + 60, 10);
    kept[64] = kept[67] = '/';
}

static void put_entry(reading *r, uint32_t player, uint32_t round, uint32_t opponent, uint8_t colour, uint8_t result)
{
    size_t at = entry_cell(player, round);
    r->t.opponents[at] = opponent;
    r->t.colours[at] = colour;
    r->t.results[at] = result;
}

static void draw_game(chance *c, reading *r, uint32_t one, uint32_t other, uint32_t round, int is_unknown)
{
    const char *fit = is_unknown ? "??" : FITS[below(c, KNOWN_FITTING)];
    int white = one_in(c, 2);
    put_entry(r, one, round, r->t.starts[other], white ? 'w' : 'b', (uint8_t)fit[0]);
    put_entry(r, other, round, r->t.starts[one], white ? 'b' : 'w', (uint8_t)fit[1]);
}

/* When the report is made: with every result, while the last round is played, with games left open in any round. */
enum { ENDED, LAST_ROUND, ANY_ROUND, STAGES };
enum { ALL_GAMES = 8 };

/* Of eight games of a round, how many are unknown. */
static uint32_t draw_unknown(chance *c, int stage, int is_last)
{
    if (stage == ENDED || (stage == LAST_ROUND && !is_last)) return 0;
    return stage == LAST_ROUND && one_in(c, 3) ? ALL_GAMES : below(c, ALL_GAMES);
}

/* Pairs most of the players; the others have byes, at most one of them U. */
static void draw_round(chance *c, reading *r, uint32_t round, uint32_t unknown)
{
    uint16_t order[TRF_MOST_PLAYERS];
    uint32_t n = r->answer.players, byes = one_in(c, 6) ? 2 : 8, next = 0;
    int is_given = 0;
    for (uint32_t i = 0; i < n; i++) {
        uint32_t at = below(c, i + 1);
        order[i] = order[at];
        order[at] = (uint16_t)i;
    }
    while (next < n) {
        if (next + 1 < n && !one_in(c, byes)) {
            draw_game(c, r, order[next], order[next + 1], round, below(c, ALL_GAMES) < unknown);
            next += 2;
            continue;
        }
        uint8_t letter = byte_of(c, is_given ? "HFZZ" : "HFZZU");
        is_given |= letter == 'U';
        put_entry(r, order[next++], round, 0, '-', letter);
    }
}

static void draw_entries(chance *c, reading *r)
{
    int stage = one_in(c, 4) ? ENDED : (int)below(c, STAGES);
    uint32_t rounds = r->answer.rounds;
    for (uint32_t round = 0; round < rounds; round++) draw_round(c, r, round, draw_unknown(c, stage, round + 1 == rounds));
}

/* The greatest X with which every sum can be stated. */
static uint32_t most_x(const reading *r)
{
    uint32_t most = 999;
    for (uint32_t i = 0; i < r->answer.players; i++) {
        uint32_t unknown = 0, known = 0;
        for (uint32_t round = 0; round < r->answer.rounds; round++) {
            uint8_t result = r->t.results[entry_cell(i, round)];
            if (result == '?') unknown++;
            else known += worth(&r->answer, result);
        }
        if (unknown > 0 && (999 - known) / unknown < most) most = (999 - known) / unknown;
    }
    return most;
}

/* Any X, after the entries that earn it and before the points that count it. */
static void draw_x(chance *c, reading *r)
{
    uint32_t most = most_x(r);
    r->answer.values[VALUE_X] = one_in(c, 4) ? most : below(c, most + 1);
}

void fix_points(reading *r)
{
    for (uint32_t i = 0; i < r->answer.players; i++) r->t.points[i] = earned(r, i, r->answer.rounds) % 1000;
}

int overlaps(const trf_acceleration *one, const trf_acceleration *other)
{
    return one->first_round <= other->last_round && other->first_round <= one->last_round &&
           one->first_start <= other->last_start && other->first_start <= one->last_start;
}

/* Near the start numbers of the players, so that questions meet it. */
trf_acceleration draw_acceleration(chance *c, const reading *r)
{
    trf_acceleration a;
    a.points = one_in(c, 5) ? between(c, 1, 999) : between(c, 1, 20);
    a.first_round = between(c, 1, one_in(c, 3) ? 20 : 4);
    a.last_round = one_in(c, 3) ? between(c, a.first_round, 20) : a.first_round;
    a.first_start = one_in(c, 3) ? between(c, 1, 9999) : r->t.starts[below(c, r->answer.players)];
    if (a.first_start < 1 || a.first_start > 9999) a.first_start = 1;
    uint32_t last = a.first_start + below(c, one_in(c, 4) ? 9999 : 6);
    a.last_start = last > 9999 ? 9999 : last;
    return a;
}

static void draw_accelerations(chance *c, reading *r, int is_largest)
{
    uint32_t wanted = is_largest || one_in(c, 24) ? TRF_MOST_ACCELERATIONS : one_in(c, 2) ? between(c, 1, 4) : 0;
    for (uint32_t tries = 0; tries < 4 * wanted && r->answer.accelerations < wanted; tries++) {
        trf_acceleration a = draw_acceleration(c, r);
        if (wanted > 4) a.first_start = a.last_start = tries + 1;
        int is_free = 1;
        for (uint32_t i = 0; i < r->answer.accelerations; i++) is_free &= !overlaps(&a, &r->t.accelerations[i]);
        if (is_free) r->t.accelerations[r->answer.accelerations++] = a;
    }
}

size_t draw_text_line(chance *c, const char *code, size_t length, uint8_t *line)
{
    if (length > TRF_MOST_LINE || length < 3 || length == 4) return 0;
    memcpy(line, code, 3);
    for (size_t i = 4; i < length; i++) line[i] = draw_text_byte(c);
    if (length == 3) return 3;
    line[3] = ' ';
    if (line[length - 1] == ' ') line[length - 1] = 'x';
    return length;
}

int add_text(reading *r, const uint8_t *line, size_t length)
{
    if (length == 0 || r->answer.text + length + 1 > TRF_MOST_TEXT) return 0;
    memcpy(r->t.text + r->answer.text, line, length);
    r->answer.text += length;
    r->t.text[r->answer.text++] = '\r';
    return 1;
}

static size_t draw_length(chance *c)
{
    return one_in(c, 30) ? between(c, 500, TRF_MOST_LINE) : one_in(c, 10) ? between(c, 5, 120) : between(c, 5, 24);
}

/* Fills the text up to its last byte, where that can be. */
static void fill_text(chance *c, reading *r)
{
    uint8_t line[TRF_MOST_LINE];
    size_t most = one_in(c, 4) ? 3 : TRF_MOST_LINE;
    for (int i = 0; i < TRF_MOST_TEXT; i++) {
        size_t left = TRF_MOST_TEXT - r->answer.text;
        size_t length = left <= TRF_MOST_LINE + 1 && one_in(c, 2) ? left - 1 : most == 3 ? 3 : between(c, 5, TRF_MOST_LINE);
        if (left < 4) return;
        add_text(r, line, draw_text_line(c, "112", length, line));
    }
}

/* 012 somewhere among other lines, none of which takes its room. */
static void draw_text(chance *c, reading *r, int is_largest)
{
    uint8_t name[TRF_MOST_LINE], line[TRF_MOST_LINE];
    size_t name_length = draw_text_line(c, "012", draw_length(c), name);
    uint32_t lines = one_in(c, 3) ? 0 : below(c, 8), name_at = one_in(c, 2) ? 0 : below(c, lines + 1), seen = 0;
    for (uint32_t i = 0; i <= lines; i++) {
        uint32_t code = one_in(c, 4) ? 15 : between(c, 1, ONCE_CODES);
        size_t length = one_in(c, 5) ? 3 : draw_length(c);
        if (i == name_at) add_text(r, name, name_length);
        if (code != 15 && (seen >> code & 1)) continue;
        if (i < name_at && r->answer.text + length + name_length + 2 > TRF_MOST_TEXT) continue;
        seen |= 1u << code;
        add_text(r, line, draw_text_line(c, TEXT_CODES[code], length, line));
    }
    if (is_largest || one_in(c, 25)) fill_text(c, r);
}

/* All of the text's bytes in as many lines as can be. */
static void draw_most_lines(chance *c, reading *r)
{
    uint8_t name[TRF_MOST_LINE];
    size_t name_length = draw_text_line(c, "012", 7, name);
    uint32_t name_at = below(c, MOST_TEXT_LINES);
    for (uint32_t i = 0; i < MOST_TEXT_LINES; i++) {
        if (i == name_at) add_text(r, name, name_length);
        else add_text(r, (const uint8_t *)"112", 3);
    }
}

void draw_tournament(chance *c, tournament *to)
{
    reading *r = &to->r;
    int is_largest = one_in(c, 1000); /* full in every table */
    memset(to, 0, sizeof *to);
    to->is_longest = is_largest && one_in(c, 2);
    r->answer.players = is_largest ? TRF_MOST_PLAYERS : draw_players(c);
    r->answer.rounds = is_largest ? TRF_MOST_ROUNDS : draw_rounds(c);
    r->answer.colour = (uint8_t)(!to->is_longest && one_in(c, 2) ? 0 : byte_of(c, "WB"));
    draw_values(c, &r->answer);
    draw_starts(c, r);
    for (uint32_t i = 0; i < r->answer.players; i++) draw_kept(c, r->t.kept + i * KEPT_COLUMNS);
    draw_entries(c, r);
    if (one_in(c, 8)) draw_x(c, r);
    fix_points(r);
    draw_accelerations(c, r, is_largest);
    if (to->is_longest) draw_most_lines(c, r);
    else draw_text(c, r, is_largest);
    to->stated_rounds = one_in(c, 2) ? r->answer.rounds : NOT_STATED;
}
