#include "report.h"

line *insert_line(report *r, size_t at, const uint8_t *bytes, size_t length, int end)
{
    if (r->taken == MOST_LINES) return 0;
    line *l = &r->pool[r->taken];
    l->length = length < LINE_ROOM ? length : LINE_ROOM;
    l->end = end;
    memcpy(l->bytes, bytes, l->length);
    memmove(&r->order[at + 1], &r->order[at], (r->count - at) * sizeof r->order[0]);
    r->order[at] = (uint16_t)r->taken++;
    r->count++;
    return l;
}

void remove_line(report *r, size_t at)
{
    r->count--;
    memmove(&r->order[at], &r->order[at + 1], (r->count - at) * sizeof r->order[0]);
}

void put_column(line *l, size_t column, uint8_t byte)
{
    if (column > LINE_ROOM) return;
    while (l->length < column) l->bytes[l->length++] = ' ';
    l->bytes[column - 1] = byte;
}

void put_number(line *l, size_t first, size_t last, uint32_t number, int zeros)
{
    for (size_t column = last; column >= first; column--) {
        put_column(l, column, (uint8_t)(number == 0 && column < last && !zeros ? ' ' : '0' + number % 10));
        number /= 10;
    }
}

void put_points(line *l, size_t first, uint32_t tenths, int zero)
{
    put_number(l, first, first + 1, tenths / 10 % 100, zero);
    put_column(l, first + 2, '.');
    put_column(l, first + 3, (uint8_t)('0' + tenths % 10));
}

static void put_text(line *l, const char *text)
{
    for (; *text; text++) put_column(l, l->length + 1, (uint8_t)*text);
}

static void put_blanks(line *l, uint32_t blanks)
{
    while (blanks-- > 0 && l->length < TRF_MOST_LINE) put_column(l, l->length + 1, ' ');
}

/* Blanks at the end of a line change nothing. */
static void stretch(chance *c, line *l)
{
    if (one_in(c, 12)) put_blanks(l, between(c, 1, 9));
    if (one_in(c, 120)) put_blanks(l, TRF_MOST_LINE);
}

static void trim(line *l)
{
    while (l->length > 0 && l->bytes[l->length - 1] == ' ') l->length--;
}

static uint8_t any_case(chance *c, uint8_t letter)
{
    return letter >= 'A' && letter <= 'Z' && one_in(c, 2) ? (uint8_t)(letter + 'a' - 'A') : letter;
}

/* How the reports of one tournament are spelled. */
typedef struct {
    int end;         /* of every line, or ENDS for now one and now the other */
    int is_plain;    /* the writer's own spelling of entries */
    int zeros;
    uint32_t passed; /* one line in so many is a comment or blank; 0 for none */
} manner;

static void spell_bye(chance *c, line *l, size_t column, uint8_t letter, int may_be_blank)
{
    int is_z = letter == 'Z';
    if (is_z && may_be_blank && one_in(c, 2)) return;
    if (!one_in(c, 4)) put_number(l, column, column + 3, 0, one_in(c, 2));
    if (!one_in(c, 4)) put_column(l, column + 5, '-');
    if (!is_z || !may_be_blank || one_in(c, 2)) put_column(l, column + 7, any_case(c, letter));
}

/* The blank of an unknown result, which need not stand where the line ends with its entry. */
static void spell_unknown(chance *c, line *l, size_t column, int is_plain)
{
    size_t colour = column + 5, last = is_plain ? column + 7 : between(c, (uint32_t)colour, (uint32_t)colour + 2);
    if (last > colour) put_column(l, last, ' ');
}

static int is_bye(uint32_t opponent, uint8_t colour, uint8_t result)
{
    return opponent == 0 && colour == '-' && (result == 'H' || result == 'F' || result == 'U' || result == 'Z');
}

static void spell_entry(chance *c, line *l, const manner *m, const tournament *to, uint32_t player, uint32_t round)
{
    size_t at = entry_cell(player, round), column = 92 + 10 * (size_t)round;
    uint32_t opponent = to->r.t.opponents[at];
    uint8_t colour = to->r.t.colours[at], result = to->r.t.results[at];
    int is_last_unstated = to->stated_rounds == NOT_STATED && round + 1 == to->r.answer.rounds;
    if (is_bye(opponent, colour, result) && !m->is_plain) {
        spell_bye(c, l, column, result, !is_last_unstated);
        return;
    }
    put_number(l, column, column + 3, opponent, opponent == 0 || m->zeros);
    put_column(l, column + 5, colour);
    if (result == '?') spell_unknown(c, l, column, m->is_plain);
    else put_column(l, column + 7, m->is_plain ? result : any_case(c, result));
}

static void spell_player(chance *c, line *l, const manner *m, const tournament *to, uint32_t player)
{
    const tables *t = &to->r.t;
    put_text(l, "001");
    put_number(l, 5, 8, t->starts[player], m->zeros);
    for (size_t i = 0; i < KEPT_COLUMNS; i++) put_column(l, 10 + i, t->kept[player * KEPT_COLUMNS + i]);
    put_points(l, 81, t->points[player], m->zeros);
    put_number(l, 86, 89, t->ranks[player], m->zeros);
    for (uint32_t round = 0; round < to->r.answer.rounds; round++) spell_entry(c, l, m, to, player, round);
    if (one_in(c, 3)) trim(l);
}

void spell_acceleration(chance *c, line *l, const trf_acceleration *a)
{
    int zeros = one_in(c, 2);
    put_text(l, "250");
    put_points(l, 10, a->points, zeros);
    put_number(l, 15, 17, a->first_round, zeros);
    put_number(l, 19, 21, a->last_round, zeros);
    put_number(l, 23, 26, a->first_start, zeros);
    put_number(l, 28, 31, a->last_start, zeros);
}

/* 142's digits start at column 5, one to three of them. */
static void spell_rounds(chance *c, line *l, uint32_t rounds)
{
    size_t least = rounds > 99 ? 3 : rounds > 9 ? 2 : 1;
    put_text(l, "142 ");
    put_number(l, 5, 4 + between(c, (uint32_t)least, 3), rounds, 1);
}

/* The value of a letter that 162 leaves out: "a P or X not given in 162 takes the event's own W or D", another its default. */
static uint32_t value_not_given(const trf_answer *answer, int letter)
{
    return letter == VALUE_P ? answer->values[VALUE_W] : letter == VALUE_X ? answer->values[VALUE_D] : DEFAULT_VALUES[letter];
}

/* Slots in any order; a letter that has the same value without its slot may be left out. */
static void spell_values(chance *c, line *l, const trf_answer *answer)
{
    int order[6], slots = 0;
    uint32_t leave_out = below(c, 3); /* none, each by chance, all */
    for (int i = 0; i < 6; i++) {
        if (answer->values[i] == value_not_given(answer, i) && below(c, 2) < leave_out) continue;
        int at = (int)below(c, (uint32_t)slots + 1);
        order[slots++] = order[at];
        order[at] = i;
    }
    if (slots == 0) order[slots++] = (int)below(c, 6);
    put_text(l, "162");
    for (int i = 0; i < slots; i++) {
        size_t column = 6 + 9 * (size_t)i;
        put_column(l, column, (uint8_t)"WDLAPX"[order[i]]);
        put_points(l, column + 1, answer->values[order[i]], one_in(c, 2));
    }
}

/* "The same defaults hold with no 162." */
static int states_values(chance *c, const trf_answer *answer)
{
    return one_in(c, 3) || memcmp(answer->values, DEFAULT_VALUES, sizeof DEFAULT_VALUES) != 0;
}

enum { Q_TEXT, Q_ROUNDS, Q_COLOUR, Q_VALUES, Q_ACCELERATIONS, Q_PLAYERS, QUEUES };

/* What is left to spell, in six queues. Each keeps its own order; between them any order will do. */
typedef struct {
    uint32_t left[QUEUES];
    size_t text_at;
} rest;

static rest all_of(chance *c, const tournament *to)
{
    const trf_answer *a = &to->r.answer;
    rest w = {{0, to->stated_rounds != NOT_STATED, a->colour != 0, (uint32_t)states_values(c, a), a->accelerations, a->players}, 0};
    for (size_t i = 0; i < a->text; i++) w.left[Q_TEXT] += to->r.t.text[i] == '\r';
    return w;
}

static int next_queue(chance *c, const rest *w, int in_order)
{
    uint32_t all = 0;
    for (int i = 0; i < QUEUES; i++) {
        all += w->left[i];
        if (in_order && w->left[i] > 0) return i;
    }
    uint32_t at = below(c, all);
    for (int i = 0; i < QUEUES; i++) {
        if (at < w->left[i]) return i;
        at -= w->left[i];
    }
    return QUEUES;
}

static void spell_text(line *l, rest *w, const tournament *to)
{
    const uint8_t *text = to->r.t.text;
    while (w->text_at < to->r.answer.text && text[w->text_at] != '\r') put_column(l, l->length + 1, text[w->text_at++]);
    w->text_at++;
}

static void spell_next(chance *c, line *l, const manner *m, tournament *to, rest *w, int queue, uint32_t number)
{
    uint32_t left = w->left[queue]--, player = to->r.answer.players - left, record = to->r.answer.accelerations - left;
    switch (queue) {
    case Q_TEXT: spell_text(l, w, to); break;
    case Q_ROUNDS: spell_rounds(c, l, to->stated_rounds); break;
    case Q_COLOUR: put_text(l, "152 "); put_column(l, 5, to->r.answer.colour); break;
    case Q_VALUES: spell_values(c, l, &to->r.answer); break;
    case Q_ACCELERATIONS:
        spell_acceleration(c, l, &to->r.t.accelerations[record]);
        to->r.t.lines[TRF_MOST_PLAYERS + record] = number;
        break;
    default:
        spell_player(c, l, m, to, player);
        to->r.t.lines[player] = number;
    }
    stretch(c, l);
}

/* A comment or a line of blanks. */
static void spell_passed(chance *c, line *l)
{
    if (one_in(c, 2)) {
        put_blanks(l, below(c, 5));
        return;
    }
    put_text(l, "###");
    for (uint32_t i = below(c, 20); i > 0; i--) put_column(l, l->length + 1, draw_text_byte(c));
}

static int draw_end(chance *c, const manner *m)
{
    return m->end != ENDS ? m->end : one_in(c, 2) ? END_CR : END_CRLF;
}

static manner draw_manner(chance *c)
{
    static const int THE_ENDS[] = {END_CR, END_CRLF, ENDS};
    manner m = {THE_ENDS[below(c, 3)], one_in(c, 3), one_in(c, 4), one_in(c, 3) ? 4 : 0};
    return m;
}

void spell(chance *c, tournament *to, report *out)
{
    manner m = draw_manner(c);
    rest w = all_of(c, to);
    int in_order = one_in(c, 2);
    out->count = out->taken = 0;
    for (;;) {
        line *l = insert_line(out, out->count, (const uint8_t *)"", 0, draw_end(c, &m));
        if (m.passed > 0 && out->taken + 760 < MOST_LINES && one_in(c, m.passed)) {
            spell_passed(c, l);
            continue;
        }
        int queue = next_queue(c, &w, in_order);
        if (queue == QUEUES) break;
        spell_next(c, l, &m, to, &w, queue, (uint32_t)out->count);
    }
    remove_line(out, out->count - 1);
}

static void add_byte(file *f, uint8_t byte)
{
    if (f->length < FILE_ROOM) f->bytes[f->length++] = byte;
}

void join_lines(report *r, file *out)
{
    static const char *const BYTES[ENDS] = {"\r", "\r\n", "\n", "\n\r", "\r\n\n", ""};
    out->length = 0;
    for (size_t i = 0; i < r->count; i++) {
        const line *l = line_at(r, i);
        size_t room = FILE_ROOM - out->length, taken = l->length < room ? l->length : room;
        memcpy(out->bytes + out->length, l->bytes, taken);
        out->length += taken;
        for (const char *end = BYTES[l->end]; *end; end++) add_byte(out, (uint8_t)*end);
    }
}

void part_lines(const uint8_t *bytes, size_t length, report *out)
{
    size_t at = 0;
    out->count = out->taken = 0;
    while (at < length && out->taken < MOST_LINES - 300) {
        size_t to = at;
        while (to < length && bytes[to] != '\r') to++;
        int end = to == length ? END_NONE : to + 1 < length && bytes[to + 1] == '\n' ? END_CRLF : END_CR;
        insert_line(out, out->count, bytes + at, to - at, end);
        at = end == END_CRLF ? to + 2 : to + 1;
    }
}
