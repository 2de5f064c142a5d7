/* Damage to a reading that is handed to writer and question: mostly one that no accepted file has (18), now and then another lawful one. */
#include "damage.h"

static uint32_t any_number(chance *c, uint32_t old)
{
    switch (below(c, 8)) {
    case 0: return 0;
    case 1: return old + 1;
    case 2: return old - 1;
    case 3: return (uint32_t)draw(c);
    case 4: return 0xffffffffu;
    case 5: return old ^ (1u << below(c, 32));
    default: return below(c, 10002);
    }
}

static uint8_t any_byte(chance *c, uint8_t old)
{
    switch (below(c, 8)) {
    case 0: return (uint8_t)below(c, 256);
    case 1: return (uint8_t)(old + 1);
    case 2: return (uint8_t)(old ^ 32);
    case 3: return byte_of(c, "wb-WB \r\n");
    case 4: case 5: return byte_of(c, "1=0WDL+-HFUZwdlhfuz ?");
    case 6: return (uint8_t)between(c, 32, 126);
    default: return byte_of(c, "0123456789/ ");
    }
}

static void change_record(chance *c, trf_acceleration *a)
{
    uint32_t *parts[] = {&a->points, &a->first_round, &a->last_round, &a->first_start, &a->last_start};
    uint32_t *part = parts[below(c, 5)];
    *part = any_number(c, *part);
}

static void change_cell_at(chance *c, reading *r, int which, size_t cell)
{
    uint8_t *at = cell_of(&r->t, which, cell);
    if (which == ACCELERATIONS) change_record(c, (trf_acceleration *)at);
    else if (TABLE[which].cell == 1) *at = any_byte(c, *at);
    else *(uint32_t *)at = any_number(c, *(uint32_t *)at);
}

/* A table that writer and question are lent, and one of its used cells. */
static void change_used(chance *c, reading *r)
{
    int which = (int)below(c, LINES);
    size_t used = used_cells(r, which);
    if (used > 0 && used <= TABLE[which].listed) change_cell_at(c, r, which, below(c, (uint32_t)used));
}

/* The first unused cell, the last one, or one between; of an entry table also one past a player's rounds. */
static size_t unused_cell(chance *c, const reading *r, int which)
{
    size_t used = used_cells(r, which), listed = TABLE[which].listed;
    int has_rounds = which == OPPONENTS || which == COLOURS || which == RESULTS;
    if (has_rounds && r->answer.rounds < TRF_MOST_ROUNDS && r->answer.players > 0 && !one_in(c, 3))
        return entry_cell(below(c, r->answer.players), one_in(c, 2) ? r->answer.rounds : between(c, r->answer.rounds, TRF_MOST_ROUNDS - 1));
    if (used >= listed) return listed;
    return one_in(c, 3) ? used : one_in(c, 2) ? listed - 1 : between(c, (uint32_t)used, (uint32_t)listed - 1);
}

static void change_unused(chance *c, reading *r)
{
    int which = (int)below(c, LINES);
    size_t cell = unused_cell(c, r, which);
    if (r->answer.players > TRF_MOST_PLAYERS || r->answer.rounds > TRF_MOST_ROUNDS || cell >= TABLE[which].listed) return;
    if (one_in(c, 2)) change_cell_at(c, r, which, cell);
    else *cell_of(&r->t, which, cell) = byte_of(c, " -0Z?\r\1");
}

static size_t any_length(chance *c, size_t old)
{
    switch (below(c, 5)) {
    case 0: return old + 1;
    case 1: return old - 1;
    case 2: return (size_t)draw(c);
    case 3: return between(c, 2047, 2050);
    default: return below(c, (uint32_t)old + 1);
    }
}

static void change_answer(chance *c, reading *r)
{
    trf_answer *a = &r->answer;
    uint32_t *parts[] = {&a->number, &a->line.line, &a->round, &a->players, &a->rounds, &a->accelerations};
    uint32_t part = below(c, 10);
    if (part < COUNT_OF(parts)) *parts[part] = one_in(c, 3) ? between(c, 0, 33) : any_number(c, *parts[part]);
    else if (part == 6) a->text = any_length(c, a->text);
    else if (part == 7) a->colour = one_in(c, 2) ? byte_of(c, "WBwb-") : (uint8_t)below(c, 256);
    else a->values[below(c, 6)] = one_in(c, 2) ? between(c, 998, 1001) : any_number(c, a->values[0]);
}

static int can_grow(const reading *r, size_t bytes) { return r->answer.text <= TRF_MOST_TEXT && r->answer.text + bytes <= TRF_MOST_TEXT; }

static void insert_text(reading *r, size_t at, const uint8_t *bytes, size_t length)
{
    memmove(r->t.text + at + length, r->t.text + at, r->answer.text - at);
    memcpy(r->t.text + at, bytes, length);
    r->answer.text += length;
}

static void remove_text(reading *r, size_t at, size_t length)
{
    r->answer.text -= length;
    memmove(r->t.text + at, r->t.text + at + length, r->answer.text - at);
    memset(r->t.text + r->answer.text, 0, length);
}

/* The first byte of the line in which a byte of the text stands. */
static size_t line_start(const reading *r, size_t at)
{
    while (at > 0 && r->t.text[at - 1] != '\r') at--;
    return at;
}

static size_t line_bytes(const reading *r, size_t start)
{
    size_t at = start;
    while (at < r->answer.text && r->t.text[at] != '\r') at++;
    return at < r->answer.text ? at + 1 - start : at - start;
}

static void lose_line(reading *r, size_t at)
{
    size_t start = line_start(r, at);
    remove_text(r, start, line_bytes(r, start));
}

static void repeat_line(reading *r, size_t at)
{
    uint8_t copy[TRF_MOST_TEXT];
    size_t start = line_start(r, at), length = line_bytes(r, start);
    memcpy(copy, r->t.text + start, length);
    if (can_grow(r, length)) insert_text(r, start, copy, length);
}

/* A line of any text record, or of none, before another line. */
static void add_line(chance *c, reading *r, size_t at)
{
    uint8_t bytes[TRF_MOST_LINE + 8];
    const char *code = one_in(c, 6) ? "142" : TEXT_CODES[below(c, 16)];
    size_t length = draw_text_line(c, code, one_in(c, 4) ? 3 : one_in(c, 6) ? TRF_MOST_LINE : between(c, 5, 20), bytes);
    if (one_in(c, 5)) bytes[length++] = one_in(c, 2) ? ' ' : 'x'; /* a trailing blank, column 4, or a byte past 512 */
    bytes[length++] = '\r';
    if (can_grow(r, length)) insert_text(r, line_start(r, at), bytes, length);
}

/* A line of the text ends with CR LF, as in a file. */
static void add_lf(reading *r, size_t at)
{
    size_t start = line_start(r, at);
    if (can_grow(r, 1)) insert_text(r, start + line_bytes(r, start), (const uint8_t *)"\n", 1);
}

/* A line of up to 512 bytes and more, by 112 lines that lose the CR between them. */
static void join_lines_of(reading *r, size_t at)
{
    size_t start = line_start(r, at), length = line_bytes(r, start);
    if (start + length < r->answer.text) r->t.text[start + length - 1] = 'x';
}

static void change_text(chance *c, reading *r)
{
    if (r->answer.text == 0 || r->answer.text > TRF_MOST_TEXT) return;
    size_t at = below(c, (uint32_t)r->answer.text);
    uint8_t byte = one_in(c, 3) ? ' ' : any_byte(c, 0);
    switch (below(c, 10)) {
    case 0: r->t.text[at] = byte; break;
    case 1: r->t.text[line_start(r, at) + below(c, 5)] = byte; break;
    case 2: if (can_grow(r, 1)) insert_text(r, at, &byte, 1); break;
    case 3: remove_text(r, at, 1); break;
    case 4: lose_line(r, at); break;
    case 5: repeat_line(r, at); break;
    case 6: join_lines_of(r, at); break;
    case 7: add_lf(r, at); break;
    default: add_line(c, r, at);
    }
}

/* A small letter where the tables have a capital one. */
static void change_case(chance *c, reading *r)
{
    if (r->answer.players == 0 || r->answer.players > TRF_MOST_PLAYERS || r->answer.rounds == 0 || r->answer.rounds > TRF_MOST_ROUNDS) return;
    r->t.results[entry_cell(below(c, r->answer.players), below(c, r->answer.rounds))] |= 32;
}

/* An entry, or both sides of a game, with `?` and its points, and at times a blank in place of it as a file has it. */
static void change_unknown(chance *c, reading *r)
{
    if (r->answer.players == 0 || r->answer.players > TRF_MOST_PLAYERS || r->answer.rounds == 0 || r->answer.rounds > TRF_MOST_ROUNDS) return;
    uint32_t player = below(c, r->answer.players), round = below(c, r->answer.rounds), other = place_of(r, r->t.opponents[entry_cell(player, round)]);
    uint8_t *own = &r->t.results[entry_cell(player, round)], *others = other < r->answer.players && !one_in(c, 3) ? &r->t.results[entry_cell(other, round)] : own;
    *own = *others = '?';
    if (!one_in(c, 4)) fix_points(r);
    if (one_in(c, 3)) *own = *others = ' ';
}

/* Other columns 10 to 79 for a player, all by their rules. */
static void change_kept(chance *c, reading *r)
{
    if (r->answer.players == 0 || r->answer.players > TRF_MOST_PLAYERS) return;
    draw_kept(c, r->t.kept + below(c, r->answer.players) * KEPT_COLUMNS);
}

static void change_tournament(chance *c, reading *r)
{
    static tournament to;
    to.r = *r;
    to.stated_rounds = NOT_STATED;
    damage_tournament(c, &to);
    *r = to.r;
}

/* Every table of chance, the answer as it is. */
static void fill_at_random(chance *c, reading *r)
{
    for (size_t i = 0; i + 8 <= sizeof r->t; i += 8) {
        uint64_t bytes = draw(c);
        memcpy((uint8_t *)&r->t + i, &bytes, 8);
    }
}

void damage_reading(chance *c, reading *r)
{
    if (one_in(c, 300)) {
        fill_at_random(c, r);
        return;
    }
    switch (below(c, 14)) {
    case 13: change_unknown(c, r); break;
    case 12: change_case(c, r); break;
    case 0: case 1: change_used(c, r); break;
    case 2: case 3: change_unused(c, r); break;
    case 4: change_answer(c, r); break;
    case 5: case 6: case 7: change_text(c, r); break;
    case 8: change_kept(c, r); break;
    default: change_tournament(c, r);
    }
}
