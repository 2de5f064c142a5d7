#include "sides.h"
#include "plain.h"
#include "tell.h"

typedef __typeof__(trf_read) read_call;
typedef __typeof__(trf_write) write_call;
typedef __typeof__(trf_ask) ask_call;

typedef struct {
    const char *name;
    read_call *read;
    write_call *write;
    ask_call *ask;
} side;

static const side SIDES[2] = {{"proved", trf_read, trf_write, trf_ask}, {"plain", plain_read, plain_write, plain_ask}};

trial now;
uint64_t counts[CALLS][NUMBERS];

enum { PAST_ROOM = 64, OUT_ROOM = TRF_MOST_WRITTEN + 200 };

static tables found[2], around, wanted;
static uint8_t out[2][OUT_ROOM + PAST_ROOM];
static uint8_t noise[2 * sizeof(tables)];
static uint8_t *bytes_end; /* the byte after it cannot be read */

void prepare_sides(void)
{
    chance c = {1};
    for (size_t i = 0; i < sizeof noise; i++) noise[i] = (uint8_t)draw(&c);
    bytes_end = room_before_a_wall(FILE_ROOM) + FILE_ROOM;
}

static void count_answer(int call, uint32_t number)
{
    if (number >= NUMBERS) disagree("an answer with number %u", number);
    counts[call][number]++;
}

/* Every part of two structs by name, since the bytes between the parts are free. */
#define SAME(one, other, part) \
    if ((one)->part != (other)->part) \
    disagree("answer." #part ": %lu and %lu", (unsigned long)(one)->part, (unsigned long)(other)->part)

static void same_answer(const trf_answer *one, const trf_answer *other)
{
    SAME(one, other, number);
    SAME(one, other, line.line);
    SAME(one, other, round);
    SAME(one, other, players);
    SAME(one, other, rounds);
    SAME(one, other, accelerations);
    SAME(one, other, text);
    SAME(one, other, colour);
    for (int i = 0; i < 6; i++)
        if (one->values[i] != other->values[i]) disagree("answer.values[%d]: %u and %u", i, one->values[i], other->values[i]);
}

/* All bytes of two structs of tables: listed cells, cells past them, the bytes before the first. */
static void same_tables(const tables *one, const tables *other, const char *law)
{
    const uint8_t *a = (const uint8_t *)one, *b = (const uint8_t *)other;
    size_t at = 0;
    if (memcmp(one, other, sizeof *one) == 0) return;
    while (a[at] == b[at]) at++;
    for (int i = ALL_TABLES; i > 0; i--) {
        const table *t = &TABLE[i - 1];
        if (at < t->at) continue;
        size_t cell = (at - t->at) / t->cell;
        disagree("%s: %s[%lu]%s: byte %u and %u", law, t->name, (unsigned long)cell, cell >= t->listed ? ", past the listed size" : "", a[at], b[at]);
    }
    disagree("%s: before the tables, byte %lu", law, (unsigned long)at);
}

/* "Every refusal has zero in every part of its answer but number, line and round. Acceptance has zero in those three." */
static void law_of_answer(const trf_answer *a)
{
    trf_answer bare;
    memset(&bare, 0, sizeof bare);
    bare.number = a->number;
    bare.line = a->line;
    bare.round = a->round;
    if (a->number != 0) same_answer(a, &bare);
    else if (a->line.line != 0 || a->round != 0) disagree("an acceptance with line %u, round %u", a->line.line, a->round);
    int has_line = (a->number >= 3 && a->number <= 9) || (a->number >= 11 && a->number <= 17);
    int has_round = a->number >= 11 && a->number <= 15;
    if ((a->line.line != 0) != has_line || (a->round != 0) != has_round) disagree("number %u at line %u, round %u", a->number, a->line.line, a->round);
}

/* "1 touches no table; 2 to 17 put zero in every listed cell"; "Cells past these sizes are never written." */
static void law_of_tables(const trf_answer *a, const lengths *lent)
{
    if ((a->number == 1) != is_short(lent, ALL_TABLES)) disagree("number %u, and a table is%s short", a->number, is_short(lent, ALL_TABLES) ? "" : " not");
    wanted = around;
    if (a->number > 1) clear_listed(&wanted);
    if (a->number == 0)
        for (int i = 0; i < ALL_TABLES; i++) memcpy(cell_of(&wanted, i, 0), cell_of(&found[0], i, 0), TABLE[i].listed * TABLE[i].cell);
    same_tables(&found[0], &wanted, "cells after a reading, and what they must be");
}

static trf_answer call_read(const side *s, const uint8_t *bytes, size_t length, tables *t, const lengths *lent)
{
    const size_t *n = lent->cells;
    return s->read(bytes, length, t->starts, n[STARTS], t->points, n[POINTS], t->ranks, n[RANKS], t->kept, n[KEPT], t->opponents, n[OPPONENTS],
                   t->colours, n[COLOURS], t->results, n[RESULTS], t->text, n[TEXT], t->accelerations, n[ACCELERATIONS], t->lines, n[LINES]);
}

trf_answer read_both(chance *c, const uint8_t *bytes, size_t length, const lengths *lent, reading *kept)
{
    trf_answer answers[2];
    uint8_t *at = bytes_end - length;
    memcpy(at, bytes, length);
    memcpy(&around, noise + below(c, sizeof noise - sizeof around), sizeof around);
    now.lent = *lent;
    now.read = bytes;
    now.read_length = length;
    for (int i = 0; i < 2; i++) {
        found[i] = around;
        now.step = i == 0 ? "read, proved side" : "read, plain side";
        answers[i] = call_read(&SIDES[i], at, length, &found[i], lent);
    }
    now.step = "read";
    same_answer(&answers[0], &answers[1]);
    same_tables(&found[0], &found[1], "cells after a reading, proved and plain");
    law_of_answer(&answers[0]);
    law_of_tables(&answers[0], lent);
    if (memcmp(at, bytes, length) != 0) disagree("the file was changed");
    count_answer(READS, answers[0].number);
    kept->answer = answers[0];
    kept->t = found[0];
    return answers[0];
}

static trf_written call_write(const side *s, const reading *r, const lengths *lent, bool cr_alone, uint8_t *to, size_t room)
{
    const size_t *n = lent->cells;
    const tables *t = &r->t;
    return s->write(r->answer, t->starts, n[STARTS], t->points, n[POINTS], t->ranks, n[RANKS], t->kept, n[KEPT], t->opponents, n[OPPONENTS],
                    t->colours, n[COLOURS], t->results, n[RESULTS], t->text, n[TEXT], t->accelerations, n[ACCELERATIONS], cr_alone, to, room);
}

static void same_written(const trf_written *one, const trf_written *other)
{
    SAME(one, other, number);
    SAME(one, other, line.line);
    SAME(one, other, round);
    SAME(one, other, length);
}

static void same_output(size_t room)
{
    size_t at = 0;
    if (memcmp(out[0], out[1], room + PAST_ROOM) == 0) return;
    while (out[0][at] == out[1][at]) at++;
    disagree("output byte %lu of %lu: %u and %u", (unsigned long)at, (unsigned long)room, out[0][at], out[1][at]);
}

/* "The bytes after the writer's last one stay as they were"; a refusal changes none and gives no length. */
static void law_of_writing(const trf_written *w, const lengths *lent, bool cr_alone, size_t room, uint8_t byte)
{
    if ((w->number == 1) != is_short(lent, LINES)) disagree("number %u, and a table is%s short", w->number, is_short(lent, LINES) ? "" : " not");
    if (w->number != 0 && w->length != 0) disagree("number %u with length %lu", w->number, (unsigned long)w->length);
    if (w->length > room || w->length > most_written(cr_alone)) disagree("length %lu in room for %lu", (unsigned long)w->length, (unsigned long)room);
    if (w->line.line != 0 || w->round != 0) disagree("a writing with line %u, round %u", w->line.line, w->round);
    for (size_t i = w->length; i < room + PAST_ROOM; i++)
        if (out[0][i] != byte) disagree("output byte %lu, past the last one, changed from %u to %u", (unsigned long)i, byte, out[0][i]);
}

trf_written write_both(chance *c, const reading *given, const lengths *lent, bool cr_alone, size_t room)
{
    static const char *const STEPS[2][3] = {{"write, CR LF, proved side", "write, CR LF, plain side", "write, CR LF"},
                                            {"write, CR alone, proved side", "write, CR alone, plain side", "write, CR alone"}};
    trf_written answers[2];
    uint8_t byte = (uint8_t)draw(c);
    wanted = given->t;
    now.given = given;
    now.lent = *lent;
    now.cr_alone = cr_alone;
    now.room = room;
    for (int i = 0; i < 2; i++) {
        memset(out[i], byte, room + PAST_ROOM);
        now.step = STEPS[cr_alone][i];
        answers[i] = call_write(&SIDES[i], given, lent, cr_alone, out[i], room);
        same_tables(&given->t, &wanted, "a table that a writing changed");
    }
    now.step = STEPS[cr_alone][2];
    same_written(&answers[0], &answers[1]);
    same_output(room);
    law_of_writing(&answers[0], lent, cr_alone, room, byte);
    count_answer(WRITES, answers[0].number);
    return answers[0];
}

static trf_score call_ask(const side *s, const reading *r, const lengths *lent, uint32_t place, uint32_t round)
{
    const size_t *n = lent->cells;
    const tables *t = &r->t;
    return s->ask(r->answer, t->starts, n[STARTS], t->points, n[POINTS], t->ranks, n[RANKS], t->kept, n[KEPT], t->opponents, n[OPPONENTS],
                  t->colours, n[COLOURS], t->results, n[RESULTS], t->text, n[TEXT], t->accelerations, n[ACCELERATIONS], (trf_place){place}, round);
}

static void same_score(const trf_score *one, const trf_score *other)
{
    SAME(one, other, number);
    SAME(one, other, line.line);
    SAME(one, other, round);
    SAME(one, other, points);
    SAME(one, other, acceleration);
}

static int covers(const trf_acceleration *a, uint32_t start, uint32_t round)
{
    return a->first_round <= round && round <= a->last_round && a->first_start <= start && start <= a->last_start;
}

/* "the acceleration for that round, 0 if no record covers it" */
static uint32_t acceleration(const reading *r, uint32_t place, uint32_t round)
{
    uint32_t sum = 0;
    for (uint32_t i = 0; i < r->answer.accelerations; i++)
        if (covers(&r->t.accelerations[i], r->t.starts[place], round)) sum += r->t.accelerations[i].points;
    return sum;
}

/* The sum of the worths before the round; 20 exactly for no such place or round. */
static void law_of_score(const trf_score *s, const reading *r, const lengths *lent, uint32_t place, uint32_t round)
{
    int is_there = place < r->answer.players && round >= 1 && round <= r->answer.rounds;
    if ((s->number == 1) != is_short(lent, LINES)) disagree("number %u, and a table is%s short", s->number, is_short(lent, LINES) ? "" : " not");
    if (s->number == 0 && !is_there) disagree("a score for place %u, round %u", place, round);
    if (s->number == 20 && is_there) disagree("no score for place %u, round %u", place, round);
    if (s->number != 0 && (s->points != 0 || s->acceleration != 0)) disagree("number %u with a score", s->number);
    if (s->line.line != 0 || s->round != 0) disagree("a score with line %u, round %u", s->line.line, s->round);
    if (s->number == 0 && s->points != earned(r, place, round - 1)) disagree("points %u, the worths say %u", s->points, earned(r, place, round - 1));
    if (s->number == 0 && s->acceleration != acceleration(r, place, round)) disagree("acceleration %u, the records say %u", s->acceleration, acceleration(r, place, round));
}

trf_score ask_both(const reading *given, const lengths *lent, uint32_t place, uint32_t round)
{
    trf_score answers[2];
    wanted = given->t;
    now.given = given;
    now.lent = *lent;
    now.place = place;
    now.round = round;
    for (int i = 0; i < 2; i++) {
        now.step = i == 0 ? "ask, proved side" : "ask, plain side";
        answers[i] = call_ask(&SIDES[i], given, lent, place, round);
        same_tables(&given->t, &wanted, "a table that a question changed");
    }
    now.step = "ask";
    same_score(&answers[0], &answers[1]);
    law_of_score(&answers[0], given, lent, place, round);
    count_answer(ASKS, answers[0].number);
    return answers[0];
}

const uint8_t *written_bytes(void) { return out[0]; }

void expect_reading(const reading *got, const reading *expected, int with_lines, const char *law)
{
    int which;
    size_t cell;
    now.step = law;
    same_answer(&got->answer, &expected->answer);
    if (listed_difference(&got->t, &expected->t, with_lines ? ALL_TABLES : LINES, &which, &cell))
        disagree("%s: %s[%lu]", law, TABLE[which].name, (unsigned long)cell);
}
