/* Report files read, written and asked for a score in plain C: written from the same pages as the Rattle code, with the same checks and tables. */
#include "plain.h"

#ifdef PENUMBRICO_NO_HEADERS
enum { false, true };
void *memset(void *to, int byte, size_t bytes);
void *memcpy(void *to, const void *from, size_t bytes);
int memcmp(const void *one, const void *other, size_t bytes);
#else
#include <stdbool.h>
#include <string.h>
#endif

enum {
    CR = 13,
    LF = 10,
    MOST_START = 9999,
    MOST_POINTS = 999, /* tenths */
    KEPT_COLUMNS = 70,
    KEPT_FIRST = 10, /* the first kept column of a 001 line */
    FIRST_ENTRY = 92,
    ENTRY_COLUMNS = 10,
    SLOT_FIRST = 6,
    SLOT_COLUMNS = 9,
    SLOTS = 6,
    NONE = -1 /* no number */
};

/* ---- result codes ---- */

enum { NO_CODE, BYE, GAME };
enum { WIN, DRAW, LOSS, ABSENT, PAIRING_BYE, UNKNOWN };

static const char value_letters[SLOTS + 1] = "WDLAPX";
static const uint32_t default_values[SLOTS] = {10, 5, 0, 0, 10, 5};

typedef struct {
    uint8_t letter; /* as the tables hold it */
    uint8_t kind;
    uint8_t worth; /* the value that it earns */
} code;

/* A blank is a bye's; a game's is ? in the tables, and ? stands in no file. */
static const code codes[256] = {
    [' '] = {'Z', BYE, ABSENT},
    ['H'] = {'H', BYE, DRAW},        ['h'] = {'H', BYE, DRAW},
    ['F'] = {'F', BYE, WIN},         ['f'] = {'F', BYE, WIN},
    ['U'] = {'U', BYE, PAIRING_BYE}, ['u'] = {'U', BYE, PAIRING_BYE},
    ['Z'] = {'Z', BYE, ABSENT},      ['z'] = {'Z', BYE, ABSENT},
    ['1'] = {'1', GAME, WIN},
    ['='] = {'=', GAME, DRAW},
    ['0'] = {'0', GAME, LOSS},
    ['W'] = {'W', GAME, WIN},        ['w'] = {'W', GAME, WIN},
    ['D'] = {'D', GAME, DRAW},       ['d'] = {'D', GAME, DRAW},
    ['L'] = {'L', GAME, LOSS},       ['l'] = {'L', GAME, LOSS},
    ['+'] = {'+', GAME, WIN},
    ['-'] = {'-', GAME, ABSENT},
    ['?'] = {'?', GAME, UNKNOWN},
};

/* By a player's result in a game: what the opponent may have, then 0, which no entry has. */
static const uint8_t fits[256][4] = {
    ['1'] = "0", ['='] = "=0", ['0'] = "1=0", ['W'] = "L", ['D'] = "D", ['L'] = "W", ['+'] = "-", ['-'] = "+-", ['?'] = "?",
};

/* ---- bytes and fields ---- */

static bool is_allowed(uint8_t byte) { return byte >= 32 && byte != 127; }

static bool is_digit(uint8_t byte) { return byte >= '0' && byte <= '9'; }

static bool all_blank(const uint8_t *bytes, size_t length)
{
    for (size_t i = 0; i < length; i++)
        if (bytes[i] != ' ')
            return false;
    return true;
}

static bool all_allowed(const uint8_t *bytes, size_t length)
{
    for (size_t i = 0; i < length; i++)
        if (!is_allowed(bytes[i]))
            return false;
    return true;
}

static bool all_zero(const void *cells, size_t length)
{
    const uint8_t *bytes = cells;
    for (size_t i = 0; i < length; i++)
        if (bytes[i] != 0)
            return false;
    return true;
}

/* Blanks, then digits up to the last column of the field, at least one digit. */
static int number_field(const uint8_t *field, int width)
{
    int i = 0, value = 0;
    while (i < width && field[i] == ' ')
        i++;
    if (i == width)
        return NONE;
    for (; i < width; i++) {
        if (!is_digit(field[i]))
            return NONE;
        value = 10 * value + (field[i] - '0');
    }
    return value;
}

/* A digit or blank, a digit, a point, a digit: tenths. */
static int points_field(const uint8_t *field)
{
    int tens = field[0] == ' ' ? 0 : field[0] - '0';
    if (field[0] != ' ' && !is_digit(field[0]))
        return NONE;
    if (!is_digit(field[1]) || field[2] != '.' || !is_digit(field[3]))
        return NONE;
    return 100 * tens + 10 * (field[1] - '0') + (field[3] - '0');
}

/* The number in columns 1 to 3, which names the record. */
static int record_number(const uint8_t *columns)
{
    if (!is_digit(columns[0]) || !is_digit(columns[1]) || !is_digit(columns[2]))
        return NONE;
    return 100 * (columns[0] - '0') + 10 * (columns[1] - '0') + (columns[2] - '0');
}

/* ---- what a file and the tables have in common ---- */

/* What was read so far, or what a caller lends to the writer and the question. */
typedef struct {
    uint32_t players, rounds, accelerations;
    const uint32_t *values;
    const uint32_t *starts, *points, *ranks;
    const uint8_t *kept;
    const uint32_t *opponents;
    const uint8_t *colours, *results, *text;
    const trf_acceleration *list;
    uint8_t after_place[MOST_START + 1]; /* of a start number: its place and 1 more, or 0 if nobody has it */
} tournament;

/* Where a rule is broken, if the number is not 0. */
typedef struct {
    uint32_t number, place, round;
} fault;

static bool is_text_record(int record)
{
    switch (record) {
    case 12: case 22: case 32: case 42: case 52: case 62: case 72: case 92: case 102:
    case 112: case 122: case 132: case 192: case 202: case 212: case 222:
        return true;
    default:
        return false;
    }
}

static bool is_text_line(int record, const uint8_t *line, size_t length)
{
    if (length > 3 && line[3] != ' ')
        return false;
    return record != 12 || (length > 4 && !all_blank(line + 4, length - 4));
}

static bool is_title(const uint8_t *title)
{
    static const char titles[][4] = {"   ", "GM ", "IM ", "WGM", "FM ", "WIM", "CM ", "WFM", "WCM"};
    for (size_t i = 0; i < sizeof titles / sizeof titles[0]; i++)
        if (memcmp(title, titles[i], 3) == 0)
            return true;
    return false;
}

static bool is_birth_date(const uint8_t *date)
{
    static const char shape[] = "dddd/dd/dd";
    for (int i = 0; i < 10; i++)
        if (shape[i] == 'd' ? !is_digit(date[i]) : date[i] != '/')
            return false;
    return true;
}

/* Columns 10 to 79 of a 001 line. */
static bool is_kept(const uint8_t *kept)
{
    uint8_t sex = kept[10 - KEPT_FIRST];
    const uint8_t *title = kept + 11 - KEPT_FIRST, *rating = kept + 49 - KEPT_FIRST, *birth = kept + 70 - KEPT_FIRST;
    static const uint8_t gaps[] = {14, 48, 53, 57, 69};
    if (sex != 'm' && sex != 'w' && sex != ' ')
        return false;
    for (size_t i = 0; i < sizeof gaps; i++)
        if (kept[gaps[i] - KEPT_FIRST] != ' ')
            return false;
    return is_title(title)
        && (all_blank(rating, 4) || number_field(rating, 4) != NONE)
        && (all_blank(birth, 10) || is_birth_date(birth));
}

static bool is_acceleration(const trf_acceleration *a)
{
    return a->points >= 1 && a->points <= MOST_POINTS
        && a->first_round >= 1 && a->first_round <= a->last_round && a->last_round <= TRF_MOST_ROUNDS
        && a->first_start >= 1 && a->first_start <= a->last_start && a->last_start <= MOST_START;
}

static bool share(const trf_acceleration *a, const trf_acceleration *b)
{
    return a->first_round <= b->last_round && b->first_round <= a->last_round
        && a->first_start <= b->last_start && b->first_start <= a->last_start;
}

/* The first acceleration record that shares a round and a start number with an earlier one, or how many there are. */
static uint32_t first_sharing(const tournament *t)
{
    for (uint32_t i = 1; i < t->accelerations; i++)
        for (uint32_t j = 0; j < i; j++)
            if (share(&t->list[i], &t->list[j]))
                return i;
    return t->accelerations;
}

static size_t cell_of(uint32_t place, uint32_t round) { return (size_t)place * TRF_MOST_ROUNDS + (round - 1); }

/* The opponent's cell in the same round, of an entry that is a game. */
static size_t opponents_cell(const tournament *t, uint32_t opponent, uint32_t round) { return cell_of(t->after_place[opponent] - 1u, round); }

static bool is_bye(const tournament *t, size_t cell)
{
    return t->opponents[cell] == 0 && t->colours[cell] == '-' && codes[t->results[cell]].kind == BYE;
}

static bool is_game(const tournament *t, uint32_t place, size_t cell)
{
    uint32_t opponent = t->opponents[cell];
    return opponent >= 1 && opponent <= MOST_START && opponent != t->starts[place] && t->after_place[opponent] != 0
        && (t->colours[cell] == 'w' || t->colours[cell] == 'b') && codes[t->results[cell]].kind == GAME;
}

static bool is_mutual(const tournament *t, uint32_t place, uint32_t round, size_t cell)
{
    size_t other = opponents_cell(t, t->opponents[cell], round);
    return t->opponents[other] == t->starts[place] && t->colours[other] == (t->colours[cell] == 'w' ? 'b' : 'w');
}

static bool results_fit(const tournament *t, uint32_t round, size_t cell)
{
    const uint8_t *fit = fits[t->results[cell]];
    uint8_t other = t->results[opponents_cell(t, t->opponents[cell], round)];
    return other == fit[0] || other == fit[1] || other == fit[2];
}

static fault no_fault(void) { return (fault){0, 0, 0}; }

static fault find_bad_entry(const tournament *t)
{
    for (uint32_t place = 0; place < t->players; place++)
        for (uint32_t round = 1; round <= t->rounds; round++) {
            size_t cell = cell_of(place, round);
            if (!is_bye(t, cell) && !is_game(t, place, cell))
                return (fault){TRF_NO_ENTRY, place, round};
        }
    return no_fault();
}

static fault find_one_sided(const tournament *t)
{
    for (uint32_t place = 0; place < t->players; place++)
        for (uint32_t round = 1; round <= t->rounds; round++) {
            size_t cell = cell_of(place, round);
            if (t->opponents[cell] != 0 && !is_mutual(t, place, round, cell))
                return (fault){TRF_NOT_MUTUAL, place, round};
        }
    return no_fault();
}

static fault find_unfit_results(const tournament *t)
{
    for (uint32_t place = 0; place < t->players; place++)
        for (uint32_t round = 1; round <= t->rounds; round++) {
            size_t cell = cell_of(place, round);
            if (t->opponents[cell] != 0 && !results_fit(t, round, cell))
                return (fault){TRF_RESULTS, place, round};
        }
    return no_fault();
}

static fault find_second_bye(const tournament *t)
{
    bool given[TRF_MOST_ROUNDS + 1] = {false};
    for (uint32_t place = 0; place < t->players; place++)
        for (uint32_t round = 1; round <= t->rounds; round++)
            if (t->results[cell_of(place, round)] == 'U') {
                if (given[round])
                    return (fault){TRF_SECOND_U, place, round};
                given[round] = true;
            }
    return no_fault();
}

/* What a player earned in rounds before the given one. */
static uint32_t earned_before(const tournament *t, uint32_t place, uint32_t before)
{
    uint32_t sum = 0;
    for (uint32_t round = 1; round < before; round++)
        sum += t->values[codes[t->results[cell_of(place, round)]].worth];
    return sum;
}

static fault find_wrong_points(const tournament *t)
{
    for (uint32_t place = 0; place < t->players; place++)
        if (earned_before(t, place, t->rounds + 1) != t->points[place])
            return (fault){TRF_POINTS, place, 0};
    return no_fault();
}

/* Refusals 12 to 16, each over all players before the next. */
static fault find_fault(const tournament *t)
{
    fault found = find_bad_entry(t);
    if (found.number == 0)
        found = find_one_sided(t);
    if (found.number == 0)
        found = find_unfit_results(t);
    if (found.number == 0)
        found = find_second_bye(t);
    if (found.number == 0)
        found = find_wrong_points(t);
    return found;
}

/* ---- the reader ---- */

typedef struct {
    uint32_t *starts, *points, *ranks;
    uint8_t *kept;
    uint32_t *opponents;
    uint8_t *colours, *results, *text;
    trf_acceleration *accelerations;
    uint32_t *lines;
} tables;

typedef struct {
    tables lent;
    tournament t;
    size_t text;
    uint8_t colour;
    uint32_t values[SLOTS];
    bool seen[256];                   /* the once-only records, by number */
    uint32_t used[TRF_MOST_PLAYERS]; /* bit r for round r: the entry is not blank in the file */
} reader;

/* A record's columns, counted from 1, with blanks past the end of the line. */
typedef struct {
    uint8_t column[1 + TRF_MOST_LINE];
    uint32_t last; /* the last column that stands in the file */
} record;

static bool blank_columns(const record *r, uint32_t from, uint32_t to) { return all_blank(r->column + from, to + 1 - from); }

static bool blank_from(const record *r, uint32_t from) { return r->last < from || blank_columns(r, from, r->last); }

static void clear_tables(const tables *lent)
{
    memset(lent->starts, 0, TRF_PLAYER_CELLS * sizeof *lent->starts);
    memset(lent->points, 0, TRF_PLAYER_CELLS * sizeof *lent->points);
    memset(lent->ranks, 0, TRF_PLAYER_CELLS * sizeof *lent->ranks);
    memset(lent->kept, 0, TRF_KEPT_CELLS);
    memset(lent->opponents, 0, TRF_ENTRY_CELLS * sizeof *lent->opponents);
    memset(lent->colours, 0, TRF_ENTRY_CELLS);
    memset(lent->results, 0, TRF_ENTRY_CELLS);
    memset(lent->text, 0, TRF_TEXT_CELLS);
    memset(lent->accelerations, 0, TRF_ACCELERATION_CELLS * sizeof *lent->accelerations);
    memset(lent->lines, 0, TRF_LINE_CELLS * sizeof *lent->lines);
}

/* Marks a once-only record as seen; false if it stood before. */
static bool first_time(reader *r, int number)
{
    if (r->seen[number])
        return false;
    r->seen[number] = true;
    return true;
}

static uint32_t read_text(reader *r, const record *line, int number)
{
    size_t length = line->last;
    if (!is_text_line(number, line->column + 1, length))
        return TRF_BAD_FIELD;
    if (number != 112 && !first_time(r, number))
        return TRF_AGAIN;
    while (line->column[length] == ' ')
        length--;
    if (r->text + length + 1 > TRF_MOST_TEXT)
        return TRF_TOO_MANY;
    memcpy(r->lent.text + r->text, line->column + 1, length);
    r->lent.text[r->text + length] = CR;
    r->text += length + 1;
    return 0;
}

static uint32_t read_rounds(reader *r, const record *line)
{
    uint32_t value = 0, column = 5;
    while (column <= 7 && is_digit(line->column[column]))
        value = 10 * value + (line->column[column++] - '0');
    if (line->column[4] != ' ' || column == 5 || !blank_from(line, column) || value > TRF_MOST_ROUNDS)
        return TRF_BAD_FIELD;
    if (!first_time(r, 142))
        return TRF_AGAIN;
    r->t.rounds = value;
    return 0;
}

static uint32_t read_colour(reader *r, const record *line)
{
    uint8_t colour = line->column[5];
    if (line->column[4] != ' ' || (colour != 'W' && colour != 'B') || !blank_from(line, 6))
        return TRF_BAD_FIELD;
    if (!first_time(r, 152))
        return TRF_AGAIN;
    r->colour = colour;
    return 0;
}

static int value_of_letter(uint8_t letter)
{
    for (int i = 0; i < SLOTS; i++)
        if (value_letters[i] == letter)
            return i;
    return NONE;
}

static uint32_t read_values(reader *r, const record *line)
{
    uint32_t values[SLOTS];
    bool given[SLOTS] = {false}, ended = false;
    memcpy(values, default_values, sizeof values);
    if (!blank_columns(line, 4, SLOT_FIRST - 1))
        return TRF_BAD_FIELD;
    for (uint32_t i = 0; i < SLOTS; i++) {
        uint32_t at = SLOT_FIRST + i * SLOT_COLUMNS;
        if (i > 0 && !blank_columns(line, at - 4, at - 1))
            return TRF_BAD_FIELD;
        if (blank_columns(line, at, at + 4)) {
            ended = true;
            continue;
        }
        int value = value_of_letter(line->column[at]), points = points_field(line->column + at + 1);
        if (ended || value == NONE || points == NONE || given[value])
            return TRF_BAD_FIELD;
        given[value] = true;
        values[value] = (uint32_t)points;
    }
    if (blank_columns(line, SLOT_FIRST, SLOT_FIRST + 4) || !blank_from(line, SLOT_FIRST + SLOTS * SLOT_COLUMNS - 4))
        return TRF_BAD_FIELD;
    if (!first_time(r, 162))
        return TRF_AGAIN;
    /* After the last slot, since W and D may stand in any of them: a P or X not given takes the event's own W or D, given or default. */
    if (!given[PAIRING_BYE])
        values[PAIRING_BYE] = values[WIN];
    if (!given[UNKNOWN])
        values[UNKNOWN] = values[DRAW];
    memcpy(r->values, values, sizeof values);
    return 0;
}

static uint32_t read_acceleration(reader *r, const record *line, uint32_t line_number)
{
    const uint8_t *column = line->column;
    int points = points_field(column + 10);
    int first_round = number_field(column + 15, 3), last_round = number_field(column + 19, 3);
    int first_start = number_field(column + 23, 4), last_start = number_field(column + 28, 4);
    if (!blank_columns(line, 4, 9) || column[14] != ' ' || column[18] != ' ' || column[22] != ' ' || column[27] != ' ' || !blank_from(line, 32))
        return TRF_BAD_FIELD;
    if (points == NONE || first_round == NONE || last_round == NONE || first_start == NONE || last_start == NONE)
        return TRF_BAD_FIELD;
    trf_acceleration a = {(uint32_t)points, (uint32_t)first_round, (uint32_t)last_round, (uint32_t)first_start, (uint32_t)last_start};
    if (!is_acceleration(&a))
        return TRF_BAD_FIELD;
    if (r->t.accelerations == TRF_MOST_ACCELERATIONS)
        return TRF_TOO_MANY;
    r->lent.lines[TRF_MOST_PLAYERS + r->t.accelerations] = line_number;
    r->lent.accelerations[r->t.accelerations++] = a;
    return 0;
}

/* One round's entry of a 001 line, as the tables hold it. */
typedef struct {
    uint32_t opponent;
    uint8_t colour, result;
    bool is_used;
} entry;

static bool read_entry(const uint8_t *column, entry *e)
{
    uint8_t colour = column[5], result = column[7];
    bool no_id = all_blank(column, 4);
    int id = no_id ? 0 : number_field(column, 4);
    if (id == NONE || column[4] != ' ' || column[6] != ' ')
        return false;
    if (colour != 'w' && colour != 'b' && colour != '-' && colour != ' ')
        return false;
    if (codes[result].kind == NO_CODE || result == '?')
        return false;
    /* An opponent, a colour and a blank result: whether it is a game is seen when all players are known. */
    bool is_unknown = result == ' ' && id != 0 && (colour == 'w' || colour == 'b');
    e->opponent = (uint32_t)id;
    e->colour = colour == ' ' ? '-' : colour;
    e->result = is_unknown ? '?' : codes[result].letter;
    e->is_used = !no_id || colour != ' ' || result != ' ';
    return true;
}

static uint32_t read_player(reader *r, const record *line, uint32_t line_number)
{
    const uint8_t *column = line->column;
    entry entries[TRF_MOST_ROUNDS];
    int start = number_field(column + 5, 4), points = points_field(column + 81), rank = number_field(column + 86, 4);
    if (start == NONE || start == 0 || points == NONE || rank == NONE || rank == 0)
        return TRF_BAD_FIELD;
    if (column[4] != ' ' || column[9] != ' ' || !is_kept(column + KEPT_FIRST) || column[80] != ' ' || column[85] != ' ')
        return TRF_BAD_FIELD;
    for (uint32_t i = 0; i < TRF_MOST_ROUNDS; i++) {
        uint32_t at = FIRST_ENTRY + i * ENTRY_COLUMNS;
        if (at - 2 > line->last)
            entries[i] = (entry){0, '-', 'Z', false};
        else if (column[at - 2] != ' ' || column[at - 1] != ' ' || !read_entry(column + at, &entries[i]))
            return TRF_BAD_FIELD;
    }
    if (!blank_from(line, FIRST_ENTRY + TRF_MOST_ROUNDS * ENTRY_COLUMNS - 2))
        return TRF_BAD_FIELD;
    if (r->t.after_place[start] != 0)
        return TRF_AGAIN;
    if (r->t.players == TRF_MOST_PLAYERS)
        return TRF_TOO_MANY;

    uint32_t place = r->t.players++;
    r->t.after_place[start] = (uint8_t)(place + 1);
    r->lent.starts[place] = (uint32_t)start;
    r->lent.points[place] = (uint32_t)points;
    r->lent.ranks[place] = (uint32_t)rank;
    r->lent.lines[place] = line_number;
    memcpy(r->lent.kept + place * KEPT_COLUMNS, column + KEPT_FIRST, KEPT_COLUMNS);
    for (uint32_t i = 0; i < TRF_MOST_ROUNDS; i++) {
        size_t cell = cell_of(place, i + 1);
        r->lent.opponents[cell] = entries[i].opponent;
        r->lent.colours[cell] = entries[i].colour;
        r->lent.results[cell] = entries[i].result;
        if (entries[i].is_used)
            r->used[place] |= 1u << (i + 1);
    }
    return 0;
}

/* Refusals 6 to 9 of a line without its terminator, of at most 512 allowed bytes. */
static uint32_t read_line(reader *r, const uint8_t *line, size_t length, uint32_t line_number)
{
    record rec;
    if ((length >= 3 && memcmp(line, "###", 3) == 0) || all_blank(line, length))
        return 0;
    memcpy(rec.column + 1, line, length);
    memset(rec.column + 1 + length, ' ', TRF_MOST_LINE - length);
    rec.last = (uint32_t)length;
    int number = record_number(rec.column + 1);
    switch (number) {
    case 1:
        return read_player(r, &rec, line_number);
    case 142:
        return read_rounds(r, &rec);
    case 152:
        return read_colour(r, &rec);
    case 162:
        return read_values(r, &rec);
    case 250:
        return read_acceleration(r, &rec, line_number);
    default:
        return is_text_record(number) ? read_text(r, &rec, number) : TRF_UNLISTED;
    }
}

/* The highest round that some entry uses. */
static uint32_t used_rounds(const reader *r)
{
    uint32_t all = 0, rounds = 0;
    for (uint32_t place = 0; place < r->t.players; place++)
        all |= r->used[place];
    for (uint32_t round = 1; round <= TRF_MOST_ROUNDS; round++)
        if (all & 1u << round)
            rounds = round;
    return rounds;
}

static fault find_past_rounds(const reader *r)
{
    for (uint32_t place = 0; place < r->t.players; place++)
        for (uint32_t round = r->t.rounds + 1; round <= TRF_MOST_ROUNDS; round++)
            if (r->used[place] & 1u << round)
                return (fault){TRF_PAST_ROUNDS, place, round};
    return no_fault();
}

static void clear_past_rounds(reader *r)
{
    size_t unused = TRF_MOST_ROUNDS - r->t.rounds;
    if (unused == 0)
        return;
    for (uint32_t place = 0; place < r->t.players; place++) {
        size_t cell = cell_of(place, r->t.rounds + 1);
        memset(r->lent.opponents + cell, 0, unused * sizeof *r->lent.opponents);
        memset(r->lent.colours + cell, 0, unused);
        memset(r->lent.results + cell, 0, unused);
    }
}

static trf_answer refuse(uint32_t number, uint32_t line, uint32_t round)
{
    trf_answer answer = {0};
    answer.number = number;
    answer.line.line = line;
    answer.round = round;
    return answer;
}

/* Refusals 3 to 9, line by line. */
static trf_answer read_lines(reader *r, const uint8_t *file, size_t file_bytes)
{
    uint32_t line_number = 0;
    for (size_t at = 0; at < file_bytes;) {
        size_t end = at;
        line_number++;
        while (end < file_bytes && file[end] != CR) {
            if (!is_allowed(file[end]))
                return refuse(TRF_BAD_BYTE, line_number, 0);
            end++;
        }
        if (end == file_bytes)
            return refuse(TRF_NO_CR, line_number, 0);
        if (end - at > TRF_MOST_LINE)
            return refuse(TRF_LINE_LONG, line_number, 0);
        uint32_t number = read_line(r, file + at, end - at, line_number);
        if (number != 0)
            return refuse(number, line_number, 0);
        at = end + 1;
        if (at < file_bytes && file[at] == LF)
            at++;
    }
    return refuse(0, 0, 0);
}

/* Refusals 10 to 17, over the whole file. */
static trf_answer check_file(reader *r)
{
    if (!r->seen[12] || r->t.players == 0)
        return refuse(TRF_INCOMPLETE, 0, 0);
    if (!r->seen[142])
        r->t.rounds = used_rounds(r);
    fault found = find_past_rounds(r);
    if (found.number != 0)
        return refuse(found.number, r->lent.lines[found.place], found.round);
    uint32_t sharing = first_sharing(&r->t);
    if (sharing < r->t.accelerations)
        return refuse(TRF_OVERLAP, r->lent.lines[TRF_MOST_PLAYERS + sharing], 0);
    clear_past_rounds(r);
    found = find_fault(&r->t);
    if (found.number != 0)
        return refuse(found.number, r->lent.lines[found.place], found.round);
    return refuse(0, 0, 0);
}

static void start_reader(reader *r, const tables *lent)
{
    memset(r, 0, sizeof *r);
    r->lent = *lent;
    memcpy(r->values, default_values, sizeof r->values);
    r->t.values = r->values;
    r->t.starts = lent->starts;
    r->t.points = lent->points;
    r->t.ranks = lent->ranks;
    r->t.kept = lent->kept;
    r->t.opponents = lent->opponents;
    r->t.colours = lent->colours;
    r->t.results = lent->results;
    r->t.text = lent->text;
    r->t.list = lent->accelerations;
}

trf_answer plain_read(const uint8_t *file, size_t file_bytes,
                      uint32_t *starts, size_t starts_cells,
                      uint32_t *points, size_t points_cells,
                      uint32_t *ranks, size_t ranks_cells,
                      uint8_t *kept, size_t kept_cells,
                      uint32_t *opponents, size_t opponents_cells,
                      uint8_t *colours, size_t colours_cells,
                      uint8_t *results, size_t results_cells,
                      uint8_t *text, size_t text_cells,
                      trf_acceleration *accelerations, size_t accelerations_cells,
                      uint32_t *lines, size_t lines_cells)
{
    const tables lent = {starts, points, ranks, kept, opponents, colours, results, text, accelerations, lines};
    reader r;
    if (starts_cells < TRF_PLAYER_CELLS || points_cells < TRF_PLAYER_CELLS || ranks_cells < TRF_PLAYER_CELLS || kept_cells < TRF_KEPT_CELLS
        || opponents_cells < TRF_ENTRY_CELLS || colours_cells < TRF_ENTRY_CELLS || results_cells < TRF_ENTRY_CELLS || text_cells < TRF_TEXT_CELLS
        || accelerations_cells < TRF_ACCELERATION_CELLS || lines_cells < TRF_LINE_CELLS)
        return refuse(TRF_TABLE_SHORT, 0, 0);
    clear_tables(&lent);
    if (file_bytes > TRF_MOST_FILE)
        return refuse(TRF_FILE_BIG, 0, 0);

    start_reader(&r, &lent);
    trf_answer answer = read_lines(&r, file, file_bytes);
    if (answer.number == 0)
        answer = check_file(&r);
    if (answer.number != 0) {
        clear_tables(&lent);
        return answer;
    }
    answer.players = r.t.players;
    answer.rounds = r.t.rounds;
    answer.accelerations = r.t.accelerations;
    answer.text = r.text;
    answer.colour = r.colour;
    memcpy(answer.values, r.values, sizeof answer.values);
    return answer;
}

/* ---- whether some accepted file has a reading ---- */

static bool is_lawful_answer(const trf_answer *a)
{
    if (a->number != 0 || a->line.line != 0 || a->round != 0)
        return false;
    if (a->players < 1 || a->players > TRF_MOST_PLAYERS || a->rounds > TRF_MOST_ROUNDS)
        return false;
    if (a->accelerations > TRF_MOST_ACCELERATIONS || a->text > TRF_MOST_TEXT)
        return false;
    if (a->colour != 0 && a->colour != 'W' && a->colour != 'B')
        return false;
    for (int i = 0; i < SLOTS; i++)
        if (a->values[i] > MOST_POINTS)
            return false;
    return true;
}

/* A kept line without its CR. */
static bool is_lawful_text_line(const uint8_t *line, size_t length, bool seen[256])
{
    if (length < 3 || length > TRF_MOST_LINE || line[length - 1] == ' ' || !all_allowed(line, length))
        return false;
    int number = record_number(line);
    if (!is_text_record(number) || !is_text_line(number, line, length))
        return false;
    if (number != 112 && seen[number])
        return false;
    seen[number] = true;
    return true;
}

static bool is_lawful_text(const uint8_t *text, size_t length)
{
    bool seen[256] = {false};
    for (size_t at = 0; at < length;) {
        size_t end = at;
        while (end < length && text[end] != CR)
            end++;
        if (end == length || !is_lawful_text_line(text + at, end - at, seen))
            return false;
        at = end + 1;
    }
    return seen[12] && all_zero(text + length, TRF_TEXT_CELLS - length);
}

static bool are_lawful_accelerations(const tournament *t)
{
    for (uint32_t i = 0; i < t->accelerations; i++)
        if (!is_acceleration(&t->list[i]))
            return false;
    return first_sharing(t) == t->accelerations
        && all_zero(t->list + t->accelerations, (TRF_ACCELERATION_CELLS - t->accelerations) * sizeof *t->list);
}

/* What a 001 line says of a player but for the entries; also fills the index of start numbers. */
static bool are_lawful_players(tournament *t)
{
    for (uint32_t place = 0; place < t->players; place++) {
        uint32_t start = t->starts[place];
        const uint8_t *kept = t->kept + place * KEPT_COLUMNS;
        if (start < 1 || start > MOST_START || t->after_place[start] != 0)
            return false;
        t->after_place[start] = (uint8_t)(place + 1);
        if (t->points[place] > MOST_POINTS || t->ranks[place] < 1 || t->ranks[place] > MOST_START)
            return false;
        if (!all_allowed(kept, KEPT_COLUMNS) || !is_kept(kept))
            return false;
    }
    size_t unused = TRF_MOST_PLAYERS - t->players;
    return all_zero(t->starts + t->players, unused * sizeof *t->starts)
        && all_zero(t->points + t->players, unused * sizeof *t->points)
        && all_zero(t->ranks + t->players, unused * sizeof *t->ranks)
        && all_zero(t->kept + t->players * KEPT_COLUMNS, unused * KEPT_COLUMNS);
}

static bool are_zero_entries(const tournament *t, size_t cell, size_t length)
{
    return all_zero(t->opponents + cell, length * sizeof *t->opponents) && all_zero(t->colours + cell, length) && all_zero(t->results + cell, length);
}

/* The cells past the rounds and past the players are zero, and the used ones hold capital letters. */
static bool are_lawful_cells(const tournament *t)
{
    for (uint32_t place = 0; place < t->players; place++) {
        for (uint32_t round = 1; round <= t->rounds; round++) {
            uint8_t result = t->results[cell_of(place, round)];
            if (codes[result].letter != result)
                return false;
        }
        if (!are_zero_entries(t, cell_of(place, t->rounds + 1), TRF_MOST_ROUNDS - t->rounds))
            return false;
    }
    return are_zero_entries(t, cell_of(t->players, 1), (TRF_MOST_PLAYERS - t->players) * TRF_MOST_ROUNDS);
}

static bool is_lawful(const trf_answer *answer, tournament *t)
{
    return is_lawful_answer(answer)
        && is_lawful_text(t->text, answer->text)
        && are_lawful_accelerations(t)
        && are_lawful_players(t)
        && are_lawful_cells(t)
        && find_fault(t).number == 0;
}

/* Gathers what the writer and the question are lent. */
static void start_tournament(tournament *t, const trf_answer *answer, const uint32_t *starts, const uint32_t *points, const uint32_t *ranks, const uint8_t *kept,
                             const uint32_t *opponents, const uint8_t *colours, const uint8_t *results, const uint8_t *text, const trf_acceleration *accelerations)
{
    t->players = answer->players;
    t->rounds = answer->rounds;
    t->accelerations = answer->accelerations;
    t->values = answer->values;
    t->starts = starts;
    t->points = points;
    t->ranks = ranks;
    t->kept = kept;
    t->opponents = opponents;
    t->colours = colours;
    t->results = results;
    t->text = text;
    t->list = accelerations;
    memset(t->after_place, 0, sizeof t->after_place);
}

static bool tables_short(size_t starts_cells, size_t points_cells, size_t ranks_cells, size_t kept_cells, size_t opponents_cells, size_t colours_cells,
                         size_t results_cells, size_t text_cells, size_t accelerations_cells)
{
    return starts_cells < TRF_PLAYER_CELLS || points_cells < TRF_PLAYER_CELLS || ranks_cells < TRF_PLAYER_CELLS || kept_cells < TRF_KEPT_CELLS
        || opponents_cells < TRF_ENTRY_CELLS || colours_cells < TRF_ENTRY_CELLS || results_cells < TRF_ENTRY_CELLS || text_cells < TRF_TEXT_CELLS
        || accelerations_cells < TRF_ACCELERATION_CELLS;
}

/* ---- the writer ---- */

static uint8_t *put_bytes(uint8_t *out, const void *bytes, size_t length)
{
    memcpy(out, bytes, length);
    return out + length;
}

static uint8_t *put_byte(uint8_t *out, uint8_t byte)
{
    *out = byte;
    return out + 1;
}

/* A number to the right in its field, filled on the left. */
static uint8_t *put_number(uint8_t *out, uint32_t value, int width, uint8_t fill)
{
    int i = width;
    do {
        out[--i] = (uint8_t)('0' + value % 10);
        value /= 10;
    } while (value != 0);
    while (i > 0)
        out[--i] = fill;
    return out + width;
}

static uint8_t *put_points(uint8_t *out, uint32_t tenths, uint8_t fill)
{
    out = put_number(out, tenths / 10, 2, fill);
    out = put_byte(out, '.');
    return put_byte(out, (uint8_t)('0' + tenths % 10));
}

static uint8_t *put_line_end(uint8_t *out, bool cr_alone)
{
    out = put_byte(out, CR);
    return cr_alone ? out : put_byte(out, LF);
}

/* The kept lines, which have one CR each. */
static uint8_t *put_text(uint8_t *out, const uint8_t *text, size_t length, bool cr_alone)
{
    if (cr_alone)
        return put_bytes(out, text, length);
    for (size_t i = 0; i < length; i++)
        out = text[i] == CR ? put_line_end(out, cr_alone) : put_byte(out, text[i]);
    return out;
}

static uint8_t *put_rounds(uint8_t *out, uint32_t rounds, bool cr_alone)
{
    out = put_bytes(out, "142 ", 4);
    out = put_number(out, rounds, rounds < 10 ? 1 : 2, ' ');
    return put_line_end(out, cr_alone);
}

static uint8_t *put_colour(uint8_t *out, uint8_t colour, bool cr_alone)
{
    out = put_bytes(out, "152 ", 4);
    out = put_byte(out, colour);
    return put_line_end(out, cr_alone);
}

static uint8_t *put_values(uint8_t *out, const uint32_t *values, bool cr_alone)
{
    out = put_bytes(out, "162 ", 4);
    for (int i = 0; i < SLOTS; i++) {
        out = i == 0 ? put_byte(out, ' ') : put_bytes(out, "    ", 4);
        out = put_byte(out, (uint8_t)value_letters[i]);
        out = put_points(out, values[i], ' ');
    }
    return put_line_end(out, cr_alone);
}

static uint8_t *put_acceleration(uint8_t *out, const trf_acceleration *a, bool cr_alone)
{
    out = put_bytes(out, "250      ", 9);
    out = put_points(out, a->points, '0');
    out = put_byte(out, ' ');
    out = put_number(out, a->first_round, 3, '0');
    out = put_byte(out, ' ');
    out = put_number(out, a->last_round, 3, '0');
    out = put_byte(out, ' ');
    out = put_number(out, a->first_start, 4, '0');
    out = put_byte(out, ' ');
    out = put_number(out, a->last_start, 4, '0');
    return put_line_end(out, cr_alone);
}

static uint8_t *put_entry(uint8_t *out, const tournament *t, size_t cell)
{
    out = put_bytes(out, "  ", 2);
    out = t->opponents[cell] == 0 ? put_bytes(out, "0000", 4) : put_number(out, t->opponents[cell], 4, ' ');
    out = put_byte(out, ' ');
    out = put_byte(out, t->colours[cell]);
    out = put_byte(out, ' ');
    return put_byte(out, t->results[cell] == '?' ? ' ' : t->results[cell]);
}

static uint8_t *put_player(uint8_t *out, const tournament *t, uint32_t place, bool cr_alone)
{
    out = put_bytes(out, "001 ", 4);
    out = put_number(out, t->starts[place], 4, ' ');
    out = put_byte(out, ' ');
    out = put_bytes(out, t->kept + place * KEPT_COLUMNS, KEPT_COLUMNS);
    out = put_byte(out, ' ');
    out = put_points(out, t->points[place], ' ');
    out = put_byte(out, ' ');
    out = put_number(out, t->ranks[place], 4, ' ');
    for (uint32_t round = 1; round <= t->rounds; round++)
        out = put_entry(out, t, cell_of(place, round));
    return put_line_end(out, cr_alone);
}

/* The kept lines, 142, 152 if known, 162, the 250 lines, the 001 lines. */
static size_t written_lines(const trf_answer *a, const uint8_t *text)
{
    size_t text_lines = 0, colour_lines = a->colour == 0 ? 0 : 1;
    for (size_t i = 0; i < a->text; i++)
        if (text[i] == CR)
            text_lines++;
    return text_lines + 1 + colour_lines + 1 + a->accelerations + a->players;
}

/* Every line with its CR, and with CR LF a byte more for each. */
static size_t written_length(const trf_answer *a, const uint8_t *text, bool cr_alone)
{
    size_t rounds_line = a->rounds < 10 ? 6 : 7, colour_line = a->colour == 0 ? 0 : 6, values_line = 56;
    size_t player_line = 89 + (size_t)ENTRY_COLUMNS * a->rounds + 1;
    size_t length = a->text + rounds_line + colour_line + values_line + (size_t)32 * a->accelerations + player_line * a->players;
    return cr_alone ? length : length + written_lines(a, text);
}

trf_written plain_write(trf_answer answer,
                        const uint32_t *starts, size_t starts_cells,
                        const uint32_t *points, size_t points_cells,
                        const uint32_t *ranks, size_t ranks_cells,
                        const uint8_t *kept, size_t kept_cells,
                        const uint32_t *opponents, size_t opponents_cells,
                        const uint8_t *colours, size_t colours_cells,
                        const uint8_t *results, size_t results_cells,
                        const uint8_t *text, size_t text_cells,
                        const trf_acceleration *accelerations, size_t accelerations_cells,
                        bool cr_alone,
                        uint8_t *out, size_t out_bytes)
{
    tournament t;
    trf_written written = {0};
    if (tables_short(starts_cells, points_cells, ranks_cells, kept_cells, opponents_cells, colours_cells, results_cells, text_cells, accelerations_cells)) {
        written.number = TRF_TABLE_SHORT;
        return written;
    }
    start_tournament(&t, &answer, starts, points, ranks, kept, opponents, colours, results, text, accelerations);
    if (!is_lawful(&answer, &t)) {
        written.number = TRF_NO_READING;
        return written;
    }
    size_t length = written_length(&answer, text, cr_alone);
    if (out_bytes < length) {
        written.number = TRF_OUT_SHORT;
        return written;
    }
    out = put_text(out, text, answer.text, cr_alone);
    out = put_rounds(out, answer.rounds, cr_alone);
    if (answer.colour != 0)
        out = put_colour(out, answer.colour, cr_alone);
    out = put_values(out, answer.values, cr_alone);
    for (uint32_t i = 0; i < t.accelerations; i++)
        out = put_acceleration(out, &t.list[i], cr_alone);
    for (uint32_t place = 0; place < t.players; place++)
        out = put_player(out, &t, place, cr_alone);
    written.length = length;
    return written;
}

/* ---- the question ---- */

static uint32_t acceleration_of(const tournament *t, uint32_t start, uint32_t round)
{
    for (uint32_t i = 0; i < t->accelerations; i++) {
        const trf_acceleration *a = &t->list[i];
        if (a->first_round <= round && round <= a->last_round && a->first_start <= start && start <= a->last_start)
            return a->points;
    }
    return 0;
}

trf_score plain_ask(trf_answer answer,
                    const uint32_t *starts, size_t starts_cells,
                    const uint32_t *points, size_t points_cells,
                    const uint32_t *ranks, size_t ranks_cells,
                    const uint8_t *kept, size_t kept_cells,
                    const uint32_t *opponents, size_t opponents_cells,
                    const uint8_t *colours, size_t colours_cells,
                    const uint8_t *results, size_t results_cells,
                    const uint8_t *text, size_t text_cells,
                    const trf_acceleration *accelerations, size_t accelerations_cells,
                    trf_place place, uint32_t round)
{
    tournament t;
    trf_score score = {0};
    if (tables_short(starts_cells, points_cells, ranks_cells, kept_cells, opponents_cells, colours_cells, results_cells, text_cells, accelerations_cells)) {
        score.number = TRF_TABLE_SHORT;
        return score;
    }
    start_tournament(&t, &answer, starts, points, ranks, kept, opponents, colours, results, text, accelerations);
    if (!is_lawful(&answer, &t)) {
        score.number = TRF_NO_READING;
        return score;
    }
    if (place.place >= t.players || round < 1 || round > t.rounds) {
        score.number = TRF_NO_PLACE;
        return score;
    }
    score.points = earned_before(&t, place.place, round);
    score.acceleration = acceleration_of(&t, starts[place.place], round);
    return score;
}
