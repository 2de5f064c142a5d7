/* The structs of the header against what the library fills in, its words, and the line ends. Sizes, offsets and lengths stand here as numbers. A report in
   which every part of an answer has a value of its own is read, asked and written; each part must then be found at its offset in the bytes that the library
   left, and by its name in the struct. Nothing is asked of the bytes between the parts. What is written must have the line ends that the call names, in exactly
   its room and in no less; so must the longest report. An unknown result is held as the header says, and written as a blank. */
#include "report.h"

#include <stddef.h>
#include <string.h>

#include "penumbrico.h"

/* The three calls as the machine knows them (System V, x86-64): the room of what is answered is lent as a first argument. So plain bytes, which held something
   else before, are seen to be filled in. A bool has the lowest of its argument's eight bytes; the others may hold anything. */
#define LENT_TABLES                                                                                                                                        \
    uint32_t *, size_t, uint32_t *, size_t, uint32_t *, size_t, uint8_t *, size_t, uint32_t *, size_t, uint8_t *, size_t, uint8_t *, size_t, uint8_t *,    \
        size_t, trf_acceleration *, size_t
void *raw_read(uint8_t *, const uint8_t *, size_t, LENT_TABLES, uint32_t *, size_t) __asm__("trf_read");
void *raw_write(uint8_t *, trf_answer, LENT_TABLES, uint64_t, uint8_t *, size_t) __asm__("trf_write");
void *raw_ask(uint8_t *, trf_answer, LENT_TABLES, trf_place, uint32_t) __asm__("trf_ask");

/* Values above 255 wherever the rules allow them, so that a part's width is seen too; the empty lines before the report serve the line numbers. */
enum { EMPTY_LINES = 300, TEXT = 273, WRITTEN_CR = 885, WRITTEN_CR_LF = 896 };

#define X65 "xxxxxxxxxxxxxxxxxxxxxxxxxxxxxxxxxxxxxxxxxxxxxxxxxxxxxxxxxxxxxxxxx"
static const char report[] =
    "012 Cup\r"
    "112 " X65 X65 X65 X65 "\r"
    "142 3\r"
    "152 B\r"
    "162  W30.0    D27.1    L 1.3    A 2.7    P30.9    X99.9\r"
    "250      40.1 001 003 0001 0300\r"
    "250      00.2 004 017 0258 9999\r"
    "001    7 wWGM Roe                               2345 ESP    12345678 1980/01/31 62.2    1   300 w 1  0000 - U   300 b 0\r"
    "001  300      Poe                                                               58.4    2     7 b 0  0000 - H     7 w 1\r"
    "001    2      Moe                                                               87.1  300  9999 w =  9999 w +  0000 - F\r"
    "001 9999      Zoe                                                               32.5    4     2 b =     2 b -  0000 - Z\r";

enum { FILE_BYTES = EMPTY_LINES + sizeof report - 1 };

static trf_tables tables;
static uint8_t file[FILE_BYTES];
static uint8_t out[65536 + 8]; /* the longest report and many bytes after it, more than 65,535 in all */
static int failures;

static void same(const char *what, uint64_t got, uint64_t wanted)
{
    if (got == wanted)
        return;
    failures++;
    printf("layout: %s is %llu, not %llu\n", what, (unsigned long long)got, (unsigned long long)wanted);
}

/* So many bytes as a number, the lowest first. */
static uint64_t number_at(const uint8_t *bytes, size_t width)
{
    return width == 0 ? 0 : bytes[0] + 256 * number_at(bytes + 1, width - 1);
}

/* A part of a struct: where the compiler puts it and how wide, what it reads there, and what the library left in the stated bytes. */
static void part(const char *name, size_t offset, size_t size, uint64_t value, const uint8_t *raw, size_t stated, size_t width, uint64_t wanted)
{
    if (offset == stated && size == width && value == wanted && number_at(raw + stated, width) == wanted)
        return;
    printf("layout: %s\n", name);
    same("    its offset", offset, stated);
    same("    its size", size, width);
    same("    its value by name", value, wanted);
    same("    its value in the library's bytes", number_at(raw + stated, width), wanted);
}

#define PART(type, seen, raw, name, stated, width, wanted) \
    part(#type "." #name, offsetof(type, name), sizeof (seen).name, (seen).name, raw, stated, width, wanted)

/* Room for an answer and what stands behind it, which the library must leave. */
enum { ROOM = 128 };

static void prepare(uint8_t *raw, int pattern)
{
    memset(raw, pattern, ROOM);
    memset(&tables, pattern, sizeof tables);
}

static void left_behind(const char *what, const uint8_t *raw, size_t size, int pattern)
{
    for (size_t i = size; i < ROOM; i++)
        same(what, raw[i], (uint8_t)pattern);
}

static void accelerations(void)
{
    static const uint32_t wanted[2][5] = {{401, 1, 3, 1, 300}, {2, 4, 17, 258, 9999}};
    for (size_t i = 0; i < 2; i++) {
        const trf_acceleration *seen = &tables.accelerations[i];
        const uint8_t *raw = (const uint8_t *)tables.accelerations + 20 * i;
        PART(trf_acceleration, *seen, raw, points, 0, 4, wanted[i][0]);
        PART(trf_acceleration, *seen, raw, first_round, 4, 4, wanted[i][1]);
        PART(trf_acceleration, *seen, raw, last_round, 8, 4, wanted[i][2]);
        PART(trf_acceleration, *seen, raw, first_start, 12, 4, wanted[i][3]);
        PART(trf_acceleration, *seen, raw, last_start, 16, 4, wanted[i][4]);
    }
    same("acceleration records past the second", number_at((const uint8_t *)tables.accelerations + 40, 8), 0);
}

/* Each table in its turn, so that no two of one type have changed places. */
static void cells(void)
{
    static const uint32_t starts[] = {7, 300, 2, 9999, 0}, points[] = {622, 584, 871, 325, 0}, ranks[] = {1, 2, 300, 4, 0}, lines[] = {308, 309, 310, 311, 0};
    static const uint32_t opponents[] = {300, 0, 300, 0, 7, 0, 7, 0, 9999, 9999, 0, 0, 2, 2, 0, 0};
    static const char colours[] = "w-b\0b-w\0ww-\0bb-", results[] = "1U0\0" "0H1\0" "=+F\0" "=-Z";
    for (size_t place = 0; place < 5; place++) {
        same("a start number", tables.starts[place], starts[place]);
        same("points", tables.points[place], points[place]);
        same("a rank", tables.ranks[place], ranks[place]);
        same("a player's line", tables.lines[place], lines[place]);
    }
    for (size_t i = 0; i < 16; i++) {
        size_t cell = 20 * (i / 4) + i % 4;
        same("an opponent", tables.opponents[cell], opponents[i]);
        same("a colour", tables.colours[cell], (uint8_t)colours[i]);
        same("a result", tables.results[cell], (uint8_t)results[i]);
    }
    same("the first 250 record's line", tables.lines[200], 306);
    same("the second 250 record's line", tables.lines[201], 307);
    same("kept columns of the first player", (uint64_t)memcmp(tables.kept, "wWGM Roe", 8), 0);
    same("kept columns of the second player", (uint64_t)memcmp(tables.kept + 70, "     Poe", 8), 0);
    same("kept text", (uint64_t)memcmp(tables.text, report, TEXT), 0);
    same("text past the kept", tables.text[TEXT], 0);
}

/* What the library answers to the file, into bytes and by the struct; every number as stated. */
static trf_answer answers(int pattern, uint32_t number, uint32_t line, uint32_t round, uint32_t players, uint32_t rounds, uint32_t records, size_t text,
                          uint8_t colour, const uint32_t *values)
{
    uint8_t raw[ROOM];
    prepare(raw, pattern);
    raw_read(raw, file, FILE_BYTES, TRF_LENT(tables), tables.lines, TRF_LINE_CELLS);
    trf_answer seen = trf_read(file, FILE_BYTES, TRF_LENT(tables), tables.lines, TRF_LINE_CELLS);
    PART(trf_answer, seen, raw, number, 0, 4, number);
    PART(trf_answer, seen, raw, line.line, 4, 4, line);
    PART(trf_answer, seen, raw, round, 8, 4, round);
    PART(trf_answer, seen, raw, players, 12, 4, players);
    PART(trf_answer, seen, raw, rounds, 16, 4, rounds);
    PART(trf_answer, seen, raw, accelerations, 20, 4, records);
    PART(trf_answer, seen, raw, text, 24, 8, text);
    PART(trf_answer, seen, raw, colour, 32, 1, colour);
    for (size_t i = 0; i < 6; i++)
        part("trf_answer.values[]", offsetof(trf_answer, values) + 4 * i, sizeof seen.values[i], seen.values[i], raw, 36 + 4 * i, 4, values[i]);
    left_behind("a byte behind trf_answer", raw, sizeof seen, pattern);
    return seen;
}

/* The eight bytes of an argument that is a bool, the pattern in all but its own. */
static uint64_t slot_of(bool value, int pattern)
{
    uint64_t bytes;
    memset(&bytes, pattern, sizeof bytes);
    return (bytes & ~(uint64_t)255) | value;
}

static void writes(trf_answer answer, int pattern, bool cr_alone, size_t room, uint32_t number, size_t length)
{
    uint8_t raw[ROOM];
    memset(raw, pattern, ROOM);
    raw_write(raw, answer, TRF_LENT(tables), slot_of(cr_alone, pattern), out, room);
    trf_written seen = trf_write(answer, TRF_LENT(tables), cr_alone, out, room);
    PART(trf_written, seen, raw, number, 0, 4, number);
    PART(trf_written, seen, raw, line.line, 4, 4, 0);
    PART(trf_written, seen, raw, round, 8, 4, 0);
    PART(trf_written, seen, raw, length, 16, 8, length);
    left_behind("a byte behind trf_written", raw, sizeof seen, pattern);
}

static void asks(trf_answer answer, int pattern, uint32_t place, uint32_t round, uint32_t number, uint32_t points, uint32_t acceleration)
{
    uint8_t raw[ROOM];
    memset(raw, pattern, ROOM);
    raw_ask(raw, answer, TRF_LENT(tables), (trf_place){place}, round);
    trf_score seen = trf_ask(answer, TRF_LENT(tables), (trf_place){place}, round);
    PART(trf_score, seen, raw, number, 0, 4, number);
    PART(trf_score, seen, raw, line.line, 4, 4, 0);
    PART(trf_score, seen, raw, round, 8, 4, 0);
    PART(trf_score, seen, raw, points, 12, 4, points);
    PART(trf_score, seen, raw, acceleration, 16, 4, acceleration);
    left_behind("a byte behind trf_score", raw, sizeof seen, pattern);
}

static uint64_t changed_from(size_t first, int pattern)
{
    uint64_t count = 0;
    for (size_t i = first; i < sizeof out; i++)
        count += out[i] != (uint8_t)pattern;
    return count;
}

/* One byte less than the room that a report takes, exactly that room, and more room than any report takes or a file has. */
static void fits(trf_answer answer, int pattern, bool cr_alone, size_t length)
{
    memset(out, pattern, sizeof out);
    writes(answer, pattern, cr_alone, length - 1, TRF_OUT_SHORT, 0);
    same("bytes of the output that a refusal changes", changed_from(0, pattern), 0);
    writes(answer, pattern, cr_alone, length, TRF_ACCEPTED, length);
    same("bytes of the output that change past the report", changed_from(length, pattern), 0);
    writes(answer, pattern, cr_alone, sizeof out, TRF_ACCEPTED, length);
    same("bytes of the output that change past the report, though there is room", changed_from(length, pattern), 0);
}

/* Whether the output is the report with an LF after each CR. */
static int has_lfs(void)
{
    size_t at = 0;
    for (size_t i = 0; i < WRITTEN_CR; i++)
        if (out[at++] != (uint8_t)report[i] || (report[i] == '\r' && out[at++] != '\n'))
            return 0;
    return at == WRITTEN_CR_LF;
}

/* Every number but 0 is TRF_CR, whatever its lowest byte. */
static void other_numbers(trf_answer answer)
{
    static const volatile uint32_t numbers[] = {2, 255, 256, 0x80000000u};
    for (size_t i = 0; i < sizeof numbers / sizeof numbers[0]; i++) {
        memset(out, 0, sizeof out);
        same("the length where another number asks for CR alone", trf_write(answer, TRF_LENT(tables), numbers[i], out, sizeof out).length, WRITTEN_CR);
        same("the report where another number asks for CR alone", (uint64_t)memcmp(out, report, WRITTEN_CR), 0);
    }
}

static void accepted(int pattern)
{
    static const uint32_t values[6] = {300, 271, 13, 27, 309, 999};
    trf_answer answer = answers(pattern, TRF_ACCEPTED, 0, 0, 4, 3, 2, TEXT, 'B', values);
    accelerations();
    cells();
    asks(answer, pattern, 0, 3, TRF_ACCEPTED, 609, 401);
    asks(answer, pattern, 3, 3, TRF_ACCEPTED, 298, 0);
    asks(answer, pattern, 4, 3, TRF_NO_PLACE, 0, 0);
    fits(answer, pattern, TRF_CR, WRITTEN_CR);
    same("the report, written in the spelling in which it was read", (uint64_t)memcmp(out, report, WRITTEN_CR), 0);
    fits(answer, pattern, TRF_CR_LF, WRITTEN_CR_LF);
    same("the report, written so with an LF after each CR", (uint64_t)has_lfs(), 1);
    other_numbers(answer);
}

/* A game that is still being played: TRF_UNKNOWN_RESULT in both cells, a blank at the end of both lines. The report is written as it was read. */
static void unknown(void)
{
    static const char played[] =
        "012 Cup\r"
        "142 1\r"
        "162  W 1.0    D 0.5    L 0.0    A 0.0    P 1.0    X 0.7\r"
        "001    1      Roe                                                                0.7    1     2 w  \r"
        "001    2      Poe                                                                0.7    2     1 b  \r";
    trf_answer answer = trf_read((const uint8_t *)played, sizeof played - 1, TRF_LENT(tables), tables.lines, TRF_LINE_CELLS);
    same("the answer to a report of an event that is being played", answer.number, TRF_ACCEPTED);
    same("an unknown result of White", tables.results[0], TRF_UNKNOWN_RESULT);
    same("an unknown result of Black", tables.results[20], TRF_UNKNOWN_RESULT);
    memset(out, 0, sizeof out);
    same("the length of such a report", trf_write(answer, TRF_LENT(tables), TRF_CR, out, sizeof out).length, sizeof played - 1);
    same("such a report, written in the spelling in which it was read", (uint64_t)memcmp(out, played, sizeof played - 1), 0);
}

/* Every table full, in as many lines as can be: byes in all rounds, and records of one start number each. */
static trf_answer fill_tables(void)
{
    trf_answer answer = {.players = 200, .rounds = 20, .accelerations = 32, .text = 2048, .colour = 'W', .values = {10, 5, 0, 0, 10, 5}};
    memset(&tables, 0, sizeof tables);
    memset(tables.kept, ' ', sizeof tables.kept);
    memset(tables.colours, '-', sizeof tables.colours);
    memset(tables.results, 'Z', sizeof tables.results);
    memcpy(tables.text, "012 xyz\r", 8);
    for (size_t i = 8; i < sizeof tables.text; i += 4)
        memcpy(tables.text + i, "112\r", 4);
    for (uint32_t i = 0; i < 200; i++)
        tables.starts[i] = tables.ranks[i] = i + 1;
    for (uint32_t i = 0; i < 32; i++)
        tables.accelerations[i] = (trf_acceleration){1, 1, 20, i + 1, i + 1};
    return answer;
}

static uint64_t count_of(uint8_t byte)
{
    uint64_t count = 0;
    for (size_t i = 0; i < sizeof out; i++)
        count += out[i] == byte;
    return count;
}

static void longest(int pattern)
{
    trf_answer answer = fill_tables();
    fits(answer, pattern, TRF_CR, 61141);
    same("CRs of the longest report with CR alone", count_of('\r'), 746);
    same("its LFs", count_of('\n'), 0);
    fits(answer, pattern, TRF_CR_LF, 61887);
    same("CRs of the longest report with CR LF", count_of('\r'), 746);
    same("its LFs", count_of('\n'), 746);
    same("TRF_MOST_WRITTEN_CR", TRF_MOST_WRITTEN_CR, 61141);
    same("TRF_MOST_WRITTEN", TRF_MOST_WRITTEN, 61887);
}

/* The second player's last result no longer fits the first one's; the tables are cleared. */
static void refused(int pattern)
{
    static const uint32_t none[6] = {0};
    uint8_t *last = file + FILE_BYTES - 2 * 120 - 2;
    *last = 'L';
    answers(pattern, TRF_RESULTS, 308, 3, 0, 0, 0, 0, 0, none);
    uint64_t used = 0;
    for (size_t i = 0; i < sizeof tables; i++)
        used += ((const uint8_t *)&tables)[i] != 0;
    same("bytes of the tables that are not cleared after a refusal", used, 0);
    *last = '1';
}

/* The header says its version twice, and has words for each refusal and for no number past the last. */
static void words(void)
{
    uint32_t parts[3] = {0};
    size_t at = 0;
    for (const char *c = TRF_VERSION; *c && at < 3; c++) {
        if (*c == '.')
            at++;
        else
            parts[at] = 10 * parts[at] + (uint32_t)(*c - '0');
    }
    same("the version's number", TRF_VERSION_NUMBER, 10000 * parts[0] + 100 * parts[1] + parts[2]);
    same("the version", TRF_VERSION_NUMBER, 20200);
    same("an acceptance in words", (uint64_t)strcmp(trf_words(TRF_ACCEPTED), "accepted"), 0);
    for (uint32_t number = 1; number <= TRF_NO_PLACE; number++)
        same("a refusal without words", strcmp(trf_words(number), trf_words(TRF_NO_PLACE + 1)) == 0, 0);
}

static void sizes(void)
{
    same("size of trf_place", sizeof(trf_place), 4);
    same("size of trf_line", sizeof(trf_line), 4);
    same("size of trf_acceleration", sizeof(trf_acceleration), 20);
    same("size of trf_answer", sizeof(trf_answer), 64);
    same("size of trf_answer.values", sizeof((trf_answer *)0)->values, 24);
    same("size of trf_written", sizeof(trf_written), 24);
    same("size of trf_score", sizeof(trf_score), 20);
}

int check_layout(void)
{
    static const int patterns[] = {0xA5, 0x5A};
    sizes();
    words();
    if (failures != 0)
        return FAILED; /* a call would write past what is answered */
    memset(file, '\r', EMPTY_LINES);
    memcpy(file + EMPTY_LINES, report, FILE_BYTES - EMPTY_LINES);
    unknown();
    for (size_t i = 0; i < 2; i++) {
        accepted(patterns[i]);
        refused(patterns[i]);
        longest(patterns[i]);
    }
    if (failures == 0)
        printf("layout: every part of trf_acceleration, trf_answer, trf_written and trf_score stands where the library puts it, and lines end as the call says\n");
    return failures == 0 ? DONE : FAILED;
}
