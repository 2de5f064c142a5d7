/* The fuzzer: the proved library and the plain program on the same bytes. Its README says what is made, compared and counted.

   fuzz [seed=N] [first=N] [inputs=N] [seconds=N] [least=N] [found=FOLDER] VECTOR...

   Input N of a seed is the same in every run over the same vectors: each input has a chance of its own. */
#include "damage.h"
#include "tell.h"

int printf(const char *format, ...);
unsigned long strtoul(const char *text, char **end, int base);
void *malloc(size_t bytes);

typedef struct {
    uint64_t seed, first, inputs, seconds, least;
    const char *found;
} options;

static file *vectors;
static size_t vectors_read;

static tournament made;
static report lines;
static file input;
static reading got, again, given;

/* What was written of one reading, by its line end: TRF_CR_LF, TRF_CR. */
typedef struct {
    trf_written answer;
    uint8_t bytes[TRF_MOST_WRITTEN];
} writing;

static writing written[2];
static size_t longest[2];
static uint64_t readings_with[FITTING]; /* by FITS: the lawful readings that have such a game, the result of the earlier player in the file first */

enum { BYTES_AT_RANDOM, A_VECTOR, A_DAMAGED_VECTOR, A_TOURNAMENT, A_DAMAGED_TOURNAMENT, KINDS };
static const char *const KIND[KINDS] = {"bytes at random", "a vector", "a damaged vector", "a tournament", "a damaged tournament"};
static uint64_t kinds[KINDS];

/* Any bytes, bytes of the format's alphabet, or lines that begin as records. */
static void make_at_random(chance *c)
{
    static const char *const BEGINS[] = {"001 ", "012 ", "112", "142 ", "152 ", "162  ", "250      ", "###", "013 ", "222 "};
    int alphabet = (int)below(c, 3);
    uint32_t left = one_in(c, 3) ? below(c, 600) : below(c, 60);
    const char *begin = "";
    input.length = 0;
    for (; left > 0; left--) {
        uint8_t byte = (uint8_t)(alphabet == 0 ? below(c, 256) : byte_of(c, "\r\r\n 0123456789.-=+wbWDLAPXHFUZ#"));
        int is_start = input.length == 0 || input.bytes[input.length - 1] == '\r';
        if (alphabet == 2 && is_start) begin = BEGINS[below(c, COUNT_OF(BEGINS))];
        input.bytes[input.length++] = *begin ? (uint8_t)*begin++ : byte;
    }
}

static void take_vector(chance *c)
{
    const file *v = &vectors[below(c, (uint32_t)vectors_read)];
    input.length = v->length;
    memcpy(input.bytes, v->bytes, v->length);
}

/* Once mostly, at times twice or more, so that one refusal must be given before another. */
static uint32_t draw_times(chance *c)
{
    uint32_t times = 1;
    while (times < 4 && one_in(c, 3)) times++;
    return times;
}

static void damage_lines_and_bytes(chance *c, uint32_t times)
{
    while (times-- > 0) damage_report(c, &lines);
    join_lines(&lines, &input);
    if (one_in(c, 6)) damage_file(c, &input);
}

/* Lines of another vector among those of this one. */
static void splice(chance *c)
{
    static report others;
    const file *v = &vectors[below(c, (uint32_t)vectors_read)];
    part_lines(v->bytes, v->length, &others);
    for (uint32_t left = draw_times(c); left > 0 && others.count > 0; left--) {
        const line *l = line_at(&others, below(c, (uint32_t)others.count));
        insert_line(&lines, below(c, (uint32_t)lines.count + 1), l->bytes, l->length, l->end);
    }
}

static void damage_vector(chance *c)
{
    take_vector(c);
    if (one_in(c, 4)) {
        for (uint32_t left = draw_times(c); left > 0; left--) damage_file(c, &input);
        return;
    }
    part_lines(input.bytes, input.length, &lines);
    if (one_in(c, 5)) splice(c);
    damage_lines_and_bytes(c, draw_times(c));
}

static void make_tournament(chance *c)
{
    draw_tournament(c, &made);
    spell(c, &made, &lines);
    join_lines(&lines, &input);
}

static void make_damaged_tournament(chance *c)
{
    uint32_t in_lines = one_in(c, 2) ? draw_times(c) : 0, in_tournament = in_lines == 0 || one_in(c, 4) ? draw_times(c) : 0;
    draw_tournament(c, &made);
    while (in_tournament-- > 0) damage_tournament(c, &made);
    spell(c, &made, &lines);
    damage_lines_and_bytes(c, in_lines);
}

static int draw_kind(chance *c)
{
    static const int SHARES[KINDS] = {8, 1, 31, 20, 40};
    int at = (int)below(c, 100), kind = 0;
    while (at >= SHARES[kind]) at -= SHARES[kind++];
    return vectors_read == 0 && kind < A_TOURNAMENT ? BYTES_AT_RANDOM : kind;
}

static int make_input(chance *c)
{
    int kind = draw_kind(c);
    switch (kind) {
    case BYTES_AT_RANDOM: make_at_random(c); break;
    case A_VECTOR: take_vector(c); break;
    case A_DAMAGED_VECTOR: damage_vector(c); break;
    case A_TOURNAMENT: make_tournament(c); break;
    default: make_damaged_tournament(c);
    }
    kinds[kind]++;
    return kind;
}

/* The listed sizes mostly; at times more, or one table short. */
static lengths draw_lengths(chance *c)
{
    lengths lent = listed_lengths();
    if (one_in(c, 8))
        for (int i = 0; i < ALL_TABLES; i++) lent.cells[i] += below(c, MORE + 1);
    if (one_in(c, 30)) {
        size_t *cells = &lent.cells[below(c, ALL_TABLES)];
        *cells = one_in(c, 8) ? 0 : one_in(c, 4) ? below(c, (uint32_t)*cells) : *cells;
        if (!one_in(c, 8)) *cells -= *cells > 0;
    }
    return lent;
}

static bool draw_line_end(chance *c) { return one_in(c, 2) ? TRF_CR : TRF_CR_LF; }

/* For one of the line ends exact, one short, none, or more than is wanted; or from what is enough for CR alone up to what is one short for CR LF. */
static size_t draw_room(chance *c)
{
    size_t least = written[TRF_CR].answer.length, most = written[TRF_CR_LF].answer.length, wanted = draw_line_end(c) == TRF_CR ? least : most;
    if (most == 0) return below(c, 3000);
    switch (below(c, 6)) {
    case 0: return wanted;
    case 1: return wanted - 1;
    case 2: return between(c, (uint32_t)least, (uint32_t)most - 1);
    case 3: return below(c, (uint32_t)wanted + 1);
    case 4: return wanted + below(c, 60);
    default: return wanted + 1;
    }
}

static void ask_some(chance *c, const reading *r)
{
    static const uint32_t PLACES[] = {199, 200, 201, 4294967295u}, ROUNDS[] = {0, 20, 21, 4294967295u};
    uint32_t players = r->answer.players, rounds = r->answer.rounds;
    for (uint32_t left = between(c, 1, 3); left > 0; left--) {
        lengths lent = draw_lengths(c);
        uint32_t place = one_in(c, 8) ? PLACES[below(c, 4)] : one_in(c, 8) ? players : below(c, players);
        uint32_t round = one_in(c, 8) ? ROUNDS[below(c, 4)] : one_in(c, 8) ? rounds + 1 : between(c, 1, rounds);
        ask_both(r, &lent, place, round);
    }
}

/* The lines of a written report: text, 142, 152 if known, 162, the 250 lines, the 001 lines. */
static void number_lines(reading *r)
{
    uint32_t before = 2 + (r->answer.colour != 0);
    for (size_t i = 0; i < r->answer.text; i++) before += r->t.text[i] == '\r';
    memset(r->t.lines, 0, TRF_LINE_CELLS * sizeof r->t.lines[0]);
    for (uint32_t i = 0; i < r->answer.accelerations; i++) r->t.lines[TRF_MOST_PLAYERS + i] = before + 1 + i;
    for (uint32_t i = 0; i < r->answer.players; i++) r->t.lines[i] = before + r->answer.accelerations + 1 + i;
}

/* A reading to the writer, in room for every report with this line end. */
static void write_whole(chance *c, const reading *r, bool cr_alone)
{
    lengths lent = listed_lengths();
    writing *w = &written[cr_alone];
    w->answer = write_both(c, r, &lent, cr_alone, most_written(cr_alone));
    if (w->answer.number == 19) disagree("room for every report was too short");
    memcpy(w->bytes, written_bytes(), w->answer.length);
    if (w->answer.length > longest[cr_alone]) longest[cr_alone] = w->answer.length;
}

/* With CR LF the same is answered and written as with CR alone, and an LF after each CR. */
static void law_of_line_ends(void)
{
    static uint8_t wanted[2 * TRF_MOST_WRITTEN_CR];
    const writing *cr = &written[TRF_CR], *cr_lf = &written[TRF_CR_LF];
    size_t length = 0;
    now.step = "write, both line ends";
    if (cr->answer.number != cr_lf->answer.number) disagree("number %u with CR alone, %u with CR LF", cr->answer.number, cr_lf->answer.number);
    for (size_t i = 0; i < cr->answer.length; i++) {
        wanted[length++] = cr->bytes[i];
        if (cr->bytes[i] == '\r') wanted[length++] = '\n';
    }
    if (cr_lf->answer.length != length) disagree("%lu bytes with CR LF, not %lu", (unsigned long)cr_lf->answer.length, (unsigned long)length);
    if (memcmp(cr_lf->bytes, wanted, length) != 0) disagree("with CR LF is not written what is written with CR alone, and an LF after each CR");
}

/* "19: output too short", of the length with this line end: 1, 18 and the bytes are as in room for every report. */
static void law_of_room(chance *c, const reading *r, const lengths *lent, bool cr_alone, size_t room)
{
    const writing *whole = &written[cr_alone];
    size_t length = whole->answer.length;
    trf_written w = write_both(c, r, lent, cr_alone, room);
    uint32_t number = is_short(lent, LINES) ? 1 : whole->answer.number != 0 ? whole->answer.number : room < length ? 19 : 0;
    if (w.number != number) disagree("number %u, not %u, in room for %lu of %lu bytes", w.number, number, (unsigned long)room, (unsigned long)length);
    if (number == 0 && (w.length != length || memcmp(written_bytes(), whole->bytes, length) != 0)) disagree("a report is not written as before");
}

/* What was written reads as the same tournament, and is written again byte by byte. */
static void law_of_round_trip(chance *c, reading *r, bool cr_alone)
{
    lengths lent = listed_lengths();
    const writing *w = &written[cr_alone];
    read_both(c, w->bytes, w->answer.length, &lent, &again);
    number_lines(r);
    expect_reading(&again, r, 1, cr_alone ? "a report written with CR alone, read" : "a report written with CR LF, read");
    law_of_room(c, &again, &lent, cr_alone, w->answer.length);
}

/* The place of two results in FITS; FITTING where they do not fit. */
static int fit_of(uint8_t one, uint8_t other)
{
    int fit = 0;
    while (fit < FITTING && (FITS[fit][0] != one || FITS[fit][1] != other)) fit++;
    return fit;
}

/* "Results that fit", as documents 01 and 02 list them. */
static void law_of_results(const reading *r)
{
    uint8_t is_there[FITTING] = {0};
    now.step = "write, results that fit";
    for (uint32_t place = 0; place < r->answer.players; place++)
        for (uint32_t round = 0; round < r->answer.rounds; round++) {
            uint32_t opponent = r->t.opponents[entry_cell(place, round)], other = place_of(r, opponent);
            if (opponent == 0 || other <= place) continue;
            if (other == r->answer.players) disagree("place %u, round %u: nobody is %u", place, round + 1, opponent);
            uint8_t results[2] = {r->t.results[entry_cell(place, round)], r->t.results[entry_cell(other, round)]};
            int fit = fit_of(results[0], results[1]);
            if (fit == FITTING) disagree("places %u and %u, round %u: byte %u against %u", place, other, round + 1, results[0], results[1]);
            is_there[fit] = 1;
        }
    for (int i = 0; i < FITTING; i++) readings_with[i] += is_there[i];
}

/* "A 001 line has exactly 89+10R bytes for R rounds", and "the writer puts a blank" for an unknown result. These lines stand last. */
static void law_of_player_lines(const reading *r)
{
    const writing *w = &written[TRF_CR];
    size_t line_bytes = 89 + 10 * (size_t)r->answer.rounds + 1, players = r->answer.players;
    now.step = "write, the 001 lines";
    if (w->answer.length < line_bytes * players) disagree("%lu bytes do not hold the 001 lines", (unsigned long)w->answer.length);
    for (uint32_t place = 0; place < players; place++) {
        const uint8_t *line = w->bytes + w->answer.length - line_bytes * (players - place);
        if (memcmp(line, "001 ", 4) != 0 || line[line_bytes - 1] != '\r') disagree("the line of place %u has not %lu bytes", place, (unsigned long)line_bytes - 1);
        for (uint32_t round = 0; round < r->answer.rounds; round++) {
            uint8_t result = r->t.results[entry_cell(place, round)], byte = line[98 + 10 * round];
            if (byte != (result == '?' ? ' ' : result)) disagree("place %u, round %u: byte %u written for %u", place, round + 1, byte, result);
        }
    }
}

/* A reading to writer and question, with both line ends and all kinds of room. Hands back whether it is an accepted file's. */
static int try_reading(chance *c, reading *r)
{
    lengths lent = draw_lengths(c);
    bool first = draw_line_end(c);
    write_whole(c, r, first);
    write_whole(c, r, !first);
    law_of_line_ends();
    int is_accepted = written[first].answer.number == 0;
    if (is_accepted) {
        law_of_results(r);
        law_of_player_lines(r);
        law_of_round_trip(c, r, first);
        law_of_round_trip(c, r, !first);
    }
    size_t room = draw_room(c);
    law_of_room(c, r, &lent, first, room);
    law_of_room(c, r, &lent, !first, room);
    ask_some(c, r);
    return is_accepted;
}

static void try_damaged(chance *c)
{
    given = got;
    for (uint32_t left = draw_times(c); left > 0; left--) damage_reading(c, &given);
    try_reading(c, &given);
}

/* A lawful tournament is read as it was drawn, if its spelling has not made the file too long. */
static void law_of_tournament(void)
{
    if (input.length <= TRF_MOST_FILE) expect_reading(&got, &made.r, 1, "a lawful tournament, read");
    else if (got.answer.number != 2) disagree("number %u for %lu bytes", got.answer.number, (unsigned long)input.length);
}

/* What is full in every table, in as many lines as can be, has the longest report. */
static void law_of_longest(void)
{
    size_t cr_lf = written[TRF_CR_LF].answer.length, cr = written[TRF_CR].answer.length;
    now.step = "write, the longest report";
    if (cr_lf != TRF_MOST_WRITTEN || cr != TRF_MOST_WRITTEN_CR) disagree("%lu bytes with CR LF, %lu with CR alone", (unsigned long)cr_lf, (unsigned long)cr);
}

static void one_input(uint64_t seed, uint64_t number)
{
    chance c = {seed * 0x9e3779b97f4a7c15u ^ (number + 1) * 0xd1342543de82ef95u};
    lengths lent = draw_lengths(&c);
    now = (trial){.seed = seed, .input = number, .kind = "", .step = "making the input", .bytes = input.bytes, .base = &got};
    int kind = make_input(&c);
    now.kind = KIND[kind];
    now.length = input.length;
    trf_answer a = read_both(&c, input.bytes, input.length, &lent, &got);
    if (kind == A_TOURNAMENT && a.number != 1) law_of_tournament();
    if (a.number == 0) {
        given = got;
        if (!try_reading(&c, &given)) disagree("an accepted reading is refused by the writer");
        if (kind == A_TOURNAMENT && made.is_longest) law_of_longest();
        for (uint32_t left = between(&c, 1, 2); left > 0; left--) try_damaged(&c);
    } else if (one_in(&c, 16)) {
        given = got;
        try_reading(&c, &given);
    }
}

static int is_due(int call, int number)
{
    if (call == READS) return number <= 17;
    return number <= 1 || number == 18 || number == (call == WRITES ? 19 : 20);
}

static void print_counts(void)
{
    printf("%6s %12s %12s %12s\n", "answer", "read", "write", "ask");
    for (int number = 0; number < NUMBERS; number++) {
        printf("%6d", number);
        for (int call = 0; call < CALLS; call++) {
            if (is_due(call, number)) printf(" %12lu", (unsigned long)counts[call][number]);
            else printf(" %12s", "-");
        }
        printf("\n");
    }
}

static void print_readings_with(void)
{
    printf("lawful readings with a game of these results, the earlier player's first\n");
    for (int i = 0; i < FITTING; i++) printf("%6s %12lu\n", FITS[i], (unsigned long)readings_with[i]);
}

/* Whether every answer that a call can give, and every two results that fit, came up often enough. */
static int reached_all(uint64_t least)
{
    int all = 1;
    for (int call = 0; call < CALLS; call++)
        for (int number = 0; number < NUMBERS; number++) {
            if (!is_due(call, number) && counts[call][number] > 0) disagree("number %d is not one of this call", number);
            all &= !is_due(call, number) || counts[call][number] >= least;
        }
    for (int i = 0; i < FITTING; i++) all &= readings_with[i] >= least;
    return all;
}

static uint64_t run(const options *o)
{
    double start = seconds_now();
    for (uint64_t i = 0; i < o->inputs; i++) {
        if (i % 256 == 0) still_alive();
        if (i % 256 == 0 && o->seconds > 0 && seconds_now() - start >= (double)o->seconds) return i;
        one_input(o->seed, o->first + i);
    }
    return o->inputs;
}

static int is_option(const char *word, const char *name, uint64_t *value)
{
    size_t length = strlen(name);
    if (strncmp(word, name, length) != 0) return 0;
    *value = strtoul(word + length, 0, 10);
    return 1;
}

static void take_word(options *o, const char *word)
{
    if (is_option(word, "seed=", &o->seed) || is_option(word, "first=", &o->first) || is_option(word, "inputs=", &o->inputs)) return;
    if (is_option(word, "seconds=", &o->seconds) || is_option(word, "least=", &o->least)) return;
    if (strncmp(word, "found=", 6) == 0) o->found = word + 6;
    else vectors[vectors_read].length = load(word, vectors[vectors_read].bytes, TRF_MOST_FILE), vectors_read++;
}

int main(int words, char **word)
{
    options o = {.seed = 1, .inputs = 1000, .found = "."};
    vectors = malloc((size_t)words * sizeof *vectors);
    for (int i = 1; i < words; i++) take_word(&o, word[i]);
    tell_in(o.found);
    prepare_sides();
    double start = seconds_now();
    uint64_t done = run(&o);
    double taken = seconds_now() - start;
    printf("seed %lu, %lu inputs from %lu on, %lu vectors\n", (unsigned long)o.seed, (unsigned long)done, (unsigned long)o.first, (unsigned long)vectors_read);
    for (int kind = 0; kind < KINDS; kind++) printf("%12lu %s\n", (unsigned long)kinds[kind], KIND[kind]);
    print_counts();
    print_readings_with();
    printf("longest report written: %lu bytes with CR LF, %lu with CR alone\n", (unsigned long)longest[TRF_CR_LF], (unsigned long)longest[TRF_CR]);
    printf("%lu inputs in %.1f seconds, %.0f a second\n", (unsigned long)done, taken, (double)done / taken);
    if (!reached_all(o.least)) {
        printf("some answer, or two results that fit, came up fewer than %lu times\n", (unsigned long)o.least);
        return 1;
    }
    printf("no disagreement\n");
    return 0;
}
