/* The library used from C: a report is read and listed, asked for a score, and written again.

       report list [FILE]..           what ./list prints; of several files each after a line with its name
       report ask START ROUND [FILE]  a player's start number, the points earned before the round and the acceleration for it, in tenths
       report write [--cr] [FILE]     the report in the writer's spelling, in lines that end with CR LF or, with --cr, with CR alone
       report layout                  test: the structs of the header against what the library fills in, and the line ends
       report refuse NUMBER [FILE]    test: a refusal that no file gives (1, 18, 19 or 20), over an accepted report

   Without FILE the report stands on standard input. Of a refused report standard error has the words. Status: 0 done, 1 refused, 2 trouble.

   With the kit alone: tools/link-c report examples/report.c examples/layout.c examples/refuse.c; then tools/run-x86 report list FILE. */
#include "report.h"

#include <string.h>

#include "penumbrico.h"

/* Too large for a small stack. The file has room for one byte more than the largest, so that a larger one is seen to be larger. */
static trf_tables tables;
static uint8_t file[TRF_MOST_FILE + 1];
static uint8_t out[TRF_MOST_WRITTEN];

void print_refused(FILE *to, uint32_t number, uint32_t line, uint32_t round)
{
    fprintf(to, "refused\t%u\t%u\t%u\n", (unsigned)number, (unsigned)line, (unsigned)round);
    fflush(to);
    fprintf(stderr, "report: %s\n", trf_words(number));
}

/* The bytes of a file into `file`, and how many there are. */
static int load(const char *name, size_t *n)
{
    FILE *from = name ? fopen(name, "rb") : stdin;
    *n = from ? fread(file, 1, sizeof file, from) : 0;
    int failed = !from || ferror(from);
    if (failed) {
        fflush(stdout);
        fprintf(stderr, "report: cannot read %s\n", name ? name : "standard input");
    }
    if (from && name)
        fclose(from);
    return failed ? UNUSABLE : DONE;
}

/* A report into the tables, and what the library answers. */
static int take(const char *name, trf_answer *answer)
{
    size_t n;
    if (load(name, &n) != DONE)
        return UNUSABLE;
    *answer = trf_read(file, n, TRF_LENT(tables), tables.lines, TRF_LINE_CELLS);
    return answer->number == TRF_ACCEPTED ? DONE : REFUSED;
}

static void print_player(uint32_t place, uint32_t rounds)
{
    printf("%u\t%u\t%u", (unsigned)tables.starts[place], (unsigned)tables.points[place], (unsigned)tables.ranks[place]);
    for (uint32_t round = 1; round <= rounds; round++) {
        size_t cell = TRF_MOST_ROUNDS * place + round - 1;
        printf("\t%u%c%c", (unsigned)tables.opponents[cell], tables.colours[cell], tables.results[cell]);
    }
    putchar('\n');
}

static int list(const char *name)
{
    trf_answer answer;
    int status = take(name, &answer);
    if (status == REFUSED)
        print_refused(stdout, answer.number, answer.line.line, answer.round);
    if (status != DONE)
        return status;
    printf("accepted\t%u\t%u\t%u\n", (unsigned)answer.players, (unsigned)answer.rounds, (unsigned)answer.accelerations);
    for (uint32_t place = 0; place < answer.players; place++)
        print_player(place, answer.rounds);
    return DONE;
}

/* Of several files the worst status counts. */
static int list_all(int n, char **names)
{
    if (n < 2)
        return list(n == 1 ? names[0] : NULL);
    int worst = DONE;
    for (int i = 0; i < n; i++) {
        printf("%s\n", names[i]);
        int status = list(names[i]);
        if (status > worst)
            worst = status;
    }
    return worst;
}

/* The place of a start number. Where nobody has it that is the one past the last player, which the library refuses by 20. */
static trf_place place_of(uint32_t start, uint32_t players)
{
    trf_place at = {0};
    while (at.place < players && tables.starts[at.place] != start)
        at.place++;
    return at;
}

static int ask(uint32_t start, uint32_t round, const char *name)
{
    trf_answer answer;
    int status = take(name, &answer);
    if (status == REFUSED)
        print_refused(stderr, answer.number, answer.line.line, answer.round);
    if (status != DONE)
        return status;
    trf_score score = trf_ask(answer, TRF_LENT(tables), place_of(start, answer.players), round);
    if (score.number != TRF_ACCEPTED) {
        print_refused(stderr, score.number, score.line.line, score.round);
        return REFUSED;
    }
    printf("%u\t%u\t%u\n", (unsigned)start, (unsigned)score.points, (unsigned)score.acceleration);
    return DONE;
}

static int write_again(const char *name, bool cr_alone)
{
    trf_answer answer;
    int status = take(name, &answer);
    if (status == REFUSED)
        print_refused(stderr, answer.number, answer.line.line, answer.round);
    if (status != DONE)
        return status;
    trf_written written = trf_write(answer, TRF_LENT(tables), cr_alone, out, sizeof out);
    if (written.number != TRF_ACCEPTED) {
        print_refused(stderr, written.number, written.line.line, written.round);
        return REFUSED;
    }
    fwrite(out, 1, written.length, stdout);
    return DONE;
}

static int refuse(uint32_t number, const char *name)
{
    size_t n;
    return load(name, &n) == DONE ? provoke(number, file, n) : UNUSABLE;
}

/* A number of one to nine digits. */
static int is_number(const char *word, uint32_t *number)
{
    size_t n = strlen(word);
    if (n < 1 || n > 9)
        return 0;
    *number = 0;
    for (size_t i = 0; i < n; i++) {
        if (word[i] < '0' || word[i] > '9')
            return 0;
        *number = 10 * *number + (uint32_t)(word[i] - '0');
    }
    return 1;
}

/* The words end with NULL, which stands for standard input where a file may be named. */
static int run(int n, char **words)
{
    uint32_t first, second;
    if (n >= 2 && strcmp(words[1], "list") == 0)
        return list_all(n - 2, words + 2);
    if ((n == 4 || n == 5) && strcmp(words[1], "ask") == 0 && is_number(words[2], &first) && is_number(words[3], &second))
        return ask(first, second, words[4]);
    if ((n == 3 || n == 4) && strcmp(words[1], "write") == 0 && strcmp(words[2], "--cr") == 0)
        return write_again(words[3], TRF_CR);
    if ((n == 2 || n == 3) && strcmp(words[1], "write") == 0)
        return write_again(words[2], TRF_CR_LF);
    if (n == 2 && strcmp(words[1], "layout") == 0)
        return check_layout();
    if ((n == 3 || n == 4) && strcmp(words[1], "refuse") == 0 && is_number(words[2], &first))
        return refuse(first, words[3]);
    fputs("usage: report list [FILE].. | ask START ROUND [FILE] | write [--cr] [FILE] | layout | refuse NUMBER [FILE]\n", stderr);
    return UNUSABLE;
}

int main(int n, char **words)
{
    int status = run(n, words);
    if (fflush(stdout) != 0 || ferror(stdout)) {
        fputs("report: cannot write to standard output\n", stderr);
        return UNUSABLE;
    }
    return status;
}
