/* Runs the Rattle calls and the plain C ones over one file: driver count|time|stack|bytes FILE [LENT].

   Both must give the same answers, tables and bytes, with either line end, before anything is measured. The writer and the question are lent the reading
   of FILE, or that of LENT with the last player's points wrong, which only their last check sees. Of a refused file without LENT only the reading is
   measured. */
#include "plain.h"

/* The kit has no C headers. */
typedef struct file_handle file_handle;
file_handle *fopen(const char *name, const char *mode);
size_t fread(void *to, size_t size, size_t count, file_handle *from);
int printf(const char *format, ...);
int strcmp(const char *one, const char *other);
int memcmp(const void *one, const void *other, size_t bytes);
void *memset(void *to, int byte, size_t bytes);
void qsort(void *base, size_t count, size_t size, int (*order)(const void *, const void *));
struct timespec {
    long seconds, nanoseconds;
};
int clock_gettime(int clock, struct timespec *now);
enum { PROCESS_TIME = 2 }; /* the processor's time for this process: others that run meanwhile do not count */

typedef struct {
    uint32_t starts[TRF_PLAYER_CELLS], points[TRF_PLAYER_CELLS], ranks[TRF_PLAYER_CELLS];
    uint8_t kept[TRF_KEPT_CELLS];
    uint32_t opponents[TRF_ENTRY_CELLS];
    uint8_t colours[TRF_ENTRY_CELLS], results[TRF_ENTRY_CELLS], text[TRF_TEXT_CELLS];
    trf_acceleration accelerations[TRF_ACCELERATION_CELLS];
    uint32_t lines[TRF_LINE_CELLS];
} tables;

enum { OURS, PLAIN, MAKERS };
enum { READ, WRITE, WRITE_CR, ASK, CALLS }; /* the lines that are written end with CR LF, or with CR alone */
static const char *const maker_names[MAKERS] = {"ours", "plain"};
static const char *const call_names[CALLS] = {"read", "write", "write_cr", "ask"};

static __typeof__(trf_read) *const readers[MAKERS] = {trf_read, plain_read};
static __typeof__(trf_write) *const writers[MAKERS] = {trf_write, plain_write};
static __typeof__(trf_ask) *const askers[MAKERS] = {trf_ask, plain_ask};

static uint8_t file[TRF_MOST_FILE + 1];
static size_t file_bytes;
static tables read_into[MAKERS]; /* what each reader fills */
static tables lent;              /* what the writers and the questions are lent */
static trf_answer answers[MAKERS], lent_answer;
static uint8_t out[MAKERS][TRF_MOST_WRITTEN];
static trf_written written[MAKERS];
static trf_score scores[MAKERS];
static size_t bytes[CALLS]; /* read or written */

static void run_read(int maker)
{
    tables *t = &read_into[maker];
    answers[maker] = readers[maker](file, file_bytes, t->starts, TRF_PLAYER_CELLS, t->points, TRF_PLAYER_CELLS, t->ranks, TRF_PLAYER_CELLS,
                                    t->kept, TRF_KEPT_CELLS, t->opponents, TRF_ENTRY_CELLS, t->colours, TRF_ENTRY_CELLS, t->results, TRF_ENTRY_CELLS,
                                    t->text, TRF_TEXT_CELLS, t->accelerations, TRF_ACCELERATION_CELLS, t->lines, TRF_LINE_CELLS);
}

static void write_by(int maker, bool cr_alone)
{
    const tables *t = &lent;
    written[maker] = writers[maker](lent_answer, t->starts, TRF_PLAYER_CELLS, t->points, TRF_PLAYER_CELLS, t->ranks, TRF_PLAYER_CELLS,
                                    t->kept, TRF_KEPT_CELLS, t->opponents, TRF_ENTRY_CELLS, t->colours, TRF_ENTRY_CELLS, t->results, TRF_ENTRY_CELLS,
                                    t->text, TRF_TEXT_CELLS, t->accelerations, TRF_ACCELERATION_CELLS, cr_alone, out[maker], TRF_MOST_WRITTEN);
}

static void run_write(int maker) { write_by(maker, TRF_CR_LF); }
static void run_write_cr(int maker) { write_by(maker, TRF_CR); }

/* The last player and the last round. */
static void run_ask(int maker)
{
    const tables *t = &lent;
    trf_place last = {lent_answer.players - 1};
    scores[maker] = askers[maker](lent_answer, t->starts, TRF_PLAYER_CELLS, t->points, TRF_PLAYER_CELLS, t->ranks, TRF_PLAYER_CELLS,
                                  t->kept, TRF_KEPT_CELLS, t->opponents, TRF_ENTRY_CELLS, t->colours, TRF_ENTRY_CELLS, t->results, TRF_ENTRY_CELLS,
                                  t->text, TRF_TEXT_CELLS, t->accelerations, TRF_ACCELERATION_CELLS, last, lent_answer.rounds);
}

static void (*const runs[CALLS])(int maker) = {run_read, run_write, run_write_cr, run_ask};

/* ---- both say the same ---- */

static int same_answers(const trf_answer *a, const trf_answer *b)
{
    return a->number == b->number && a->line.line == b->line.line && a->round == b->round && a->players == b->players && a->rounds == b->rounds
        && a->accelerations == b->accelerations && a->text == b->text && a->colour == b->colour && memcmp(a->values, b->values, sizeof a->values) == 0;
}

static int same_writing(void)
{
    const trf_written *a = &written[OURS], *b = &written[PLAIN];
    return a->number == b->number && a->line.line == b->line.line && a->round == b->round && a->length == b->length && memcmp(out[OURS], out[PLAIN], sizeof out[OURS]) == 0;
}

static int same_scores(void)
{
    const trf_score *a = &scores[OURS], *b = &scores[PLAIN];
    return a->number == b->number && a->line.line == b->line.line && a->round == b->round && a->points == b->points && a->acceleration == b->acceleration;
}

/* Whether both readers make the same of a file; its reading is then lent to the others. */
static int read_both(const char *name)
{
    file_handle *from = fopen(name, "rb");
    if (!from)
        return 0;
    file_bytes = fread(file, 1, sizeof file, from);
    bytes[READ] = file_bytes;
    memset(read_into, 0xee, sizeof read_into);
    for (int maker = 0; maker < MAKERS; maker++)
        run_read(maker);
    lent = read_into[PLAIN];
    lent_answer = answers[PLAIN];
    return same_answers(&answers[OURS], &answers[PLAIN]) && memcmp(&read_into[OURS], &read_into[PLAIN], sizeof lent) == 0;
}

/* Whether both writers make the same of what they are lent, with the line end of this call. */
static int write_both(int call)
{
    memset(out, 0xee, sizeof out);
    for (int maker = 0; maker < MAKERS; maker++)
        runs[call](maker);
    bytes[call] = written[PLAIN].length;
    return same_writing();
}

static int ask_both(void)
{
    for (int maker = 0; maker < MAKERS; maker++)
        run_ask(maker);
    return same_scores();
}

/* How many of the calls there are to measure, or -1 if the two programs differ. */
static int prepare(const char *name, const char *lent_name)
{
    if (lent_name) {
        if (!read_both(lent_name) || lent_answer.number != 0)
            return -1;
        tables kept_lent = lent;
        trf_answer kept_answer = lent_answer;
        if (!read_both(name))
            return -1;
        lent = kept_lent;
        lent_answer = kept_answer;
        lent.points[lent_answer.players - 1] ^= 1;
    } else if (!read_both(name)) {
        return -1;
    } else if (lent_answer.number != 0) {
        return WRITE;
    }
    return write_both(WRITE) && write_both(WRITE_CR) && ask_both() ? CALLS : -1;
}

/* ---- instructions: a profiler counts what runs inside this call ---- */

__attribute__((noinline)) void measured(int call, int maker)
{
    runs[call](maker);
    __asm__ volatile("" ::: "memory");
}

static void count(int calls)
{
    for (int call = 0; call < calls; call++)
        for (int maker = 0; maker < MAKERS; maker++)
            measured(call, maker);
}

/* ---- times ---- */

enum { BATCHES = 15 };
static const double least_batch = 2e6; /* nanoseconds */

static double now(void)
{
    struct timespec t;
    clock_gettime(PROCESS_TIME, &t);
    return (double)t.seconds * 1e9 + (double)t.nanoseconds;
}

static double batch(int call, int maker, int times)
{
    double before = now();
    for (int i = 0; i < times; i++)
        measured(call, maker);
    return (now() - before) / times;
}

static int by_size(const void *one, const void *other)
{
    double a = *(const double *)one, b = *(const double *)other;
    return a < b ? -1 : a > b;
}

/* The median of batches that take turns. */
static void time_calls(int calls)
{
    for (int call = 0; call < calls; call++) {
        double taken[MAKERS][BATCHES];
        int times = 1;
        while (batch(call, PLAIN, times) * times < least_batch)
            times *= 2;
        for (int i = 0; i < BATCHES; i++)
            for (int maker = 0; maker < MAKERS; maker++)
                taken[maker][i] = batch(call, maker, times);
        for (int maker = 0; maker < MAKERS; maker++) {
            qsort(taken[maker], BATCHES, sizeof(double), by_size);
            printf("%s %s %.1f\n", call_names[call], maker_names[maker], taken[maker][BATCHES / 2]);
        }
    }
}

/* ---- stack: the call runs on a painted stack, and the lowest byte that changed tells ---- */

enum { STACK = 1 << 20 };
static uint8_t stack[STACK] __attribute__((aligned(4096)));
static int stack_call, stack_maker;

static void run_on_stack(void) { runs[stack_call](stack_maker); }
static void run_nothing(void) {}

__attribute__((naked, noinline)) static void switch_stack(void *top, void (*run)(void))
{
    __asm__("push %rbp\n mov %rsp, %rbp\n mov %rdi, %rsp\n call *%rsi\n mov %rbp, %rsp\n pop %rbp\n ret");
}

/* Two paints, since a call may write the byte that one of them has. */
static size_t depth(void (*run)(void))
{
    size_t deepest = 0;
    for (int paint = 0x5a; paint <= 0x5b; paint++) {
        size_t clean = 0;
        memset(stack, paint, STACK);
        switch_stack(stack + STACK, run);
        while (clean < STACK && stack[clean] == paint)
            clean++;
        if (STACK - clean > deepest)
            deepest = STACK - clean;
    }
    return deepest;
}

static void measure_stack(int calls)
{
    for (int call = 0; call < calls; call++)
        for (int maker = 0; maker < MAKERS; maker++) {
            stack_call = call;
            stack_maker = maker;
            printf("%s %s %lu\n", call_names[call], maker_names[maker], depth(run_on_stack) - depth(run_nothing));
        }
}

/* ---- bytes: those of the file, and those written; a question has none ---- */

static void tell_bytes(int calls)
{
    for (int call = 0; call < calls && call < ASK; call++)
        for (int maker = 0; maker < MAKERS; maker++)
            printf("%s %s %lu\n", call_names[call], maker_names[maker], (unsigned long)bytes[call]);
}

int main(int argc, char **argv)
{
    if (argc != 3 && argc != 4) {
        printf("usage: driver count|time|stack|bytes FILE [LENT]\n");
        return 2;
    }
    int calls = prepare(argv[2], argc == 4 ? argv[3] : 0);
    if (calls < 0) {
        printf("%s: missing, or the two programs differ\n", argv[2]);
        return 1;
    }
    if (strcmp(argv[1], "count") == 0)
        count(calls);
    else if (strcmp(argv[1], "time") == 0)
        time_calls(calls);
    else if (strcmp(argv[1], "stack") == 0)
        measure_stack(calls);
    else
        tell_bytes(calls);
    return 0;
}
