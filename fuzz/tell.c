#include "tell.h"

/* Of the C library on x86-64 Linux, for which alone the fuzzer is built. */
typedef struct FILE FILE;
FILE *fopen(const char *path, const char *mode);
size_t fread(void *to, size_t size, size_t count, FILE *from);
size_t fwrite(const void *from, size_t size, size_t count, FILE *to);
int fclose(FILE *file);
int fprintf(FILE *to, const char *format, ...);
int vfprintf(FILE *to, const char *format, __builtin_va_list words);
int snprintf(char *to, size_t room, const char *format, ...);
int vsnprintf(char *to, size_t room, const char *format, __builtin_va_list words);
int printf(const char *format, ...);
int fflush(FILE *file);
void exit(int status) __attribute__((noreturn));
void _exit(int status) __attribute__((noreturn));
void *mmap(void *at, size_t bytes, int protection, int flags, int file, long offset);
int mprotect(void *at, size_t bytes, int protection);
typedef void on_signal(int number);
on_signal *signal(int number, on_signal *to);
unsigned alarm(unsigned seconds);
struct timespec { long seconds, nanoseconds; };
int clock_gettime(int clock, struct timespec *now);

enum { READ_AND_WRITE = 3, PRIVATE_ANONYMOUS = 0x22, PAGE = 4096, MONOTONIC = 1 };
enum { PATIENCE = 120 }; /* seconds in which a few hundred inputs must be done */

static char folder[2048]; /* a copy: a broken program may overwrite the words that it was called with */

uint8_t *room_before_a_wall(size_t bytes)
{
    size_t whole = (bytes + PAGE - 1) / PAGE * PAGE;
    uint8_t *at = mmap(0, whole + PAGE, READ_AND_WRITE, PRIVATE_ANONYMOUS, -1, 0);
    if (at == (uint8_t *)-1 || mprotect(at + whole, PAGE, 0) != 0) {
        printf("no memory\n");
        exit(2);
    }
    return at + whole - bytes;
}

double seconds_now(void)
{
    struct timespec t;
    clock_gettime(MONOTONIC, &t);
    return (double)t.seconds + (double)t.nanoseconds / 1e9;
}

size_t load(const char *path, uint8_t *to, size_t room)
{
    FILE *f = fopen(path, "rb");
    if (!f) {
        printf("cannot read %s\n", path);
        exit(2);
    }
    size_t length = fread(to, 1, room, f);
    fclose(f);
    return length;
}

static FILE *open_in_folder(const char *name)
{
    char path[4096];
    snprintf(path, sizeof path, "%s/%s", folder, name);
    FILE *f = fopen(path, "wb");
    printf(f ? "put in %s\n" : "cannot write %s\n", path);
    return f;
}

static void save_bytes(const char *name, const uint8_t *bytes, size_t length)
{
    FILE *f = open_in_folder(name);
    if (!f) return;
    fwrite(bytes, 1, length, f);
    fclose(f);
}

static void save_cell(FILE *f, int which, size_t cell)
{
    const uint8_t *a = (const uint8_t *)&now.base->t + TABLE[which].at + cell * TABLE[which].cell;
    const uint8_t *b = (const uint8_t *)&now.given->t + TABLE[which].at + cell * TABLE[which].cell;
    if (memcmp(a, b, TABLE[which].cell) == 0) return;
    fprintf(f, "%s[%lu]", TABLE[which].name, (unsigned long)cell);
    for (size_t i = 0; i < TABLE[which].cell; i += TABLE[which].cell == 1 ? 1 : 4) {
        unsigned old = TABLE[which].cell == 1 ? *a : *(const uint32_t *)(a + i);
        unsigned fresh = TABLE[which].cell == 1 ? *b : *(const uint32_t *)(b + i);
        fprintf(f, " %u->%u", old, fresh);
    }
    fprintf(f, "\n");
}

static void save_answer(FILE *f, const char *name, const trf_answer *a)
{
    fprintf(f, "%s: number %u line %u round %u players %u rounds %u accelerations %u text %lu colour %u values", name, a->number, a->line.line, a->round,
            a->players, a->rounds, a->accelerations, (unsigned long)a->text, a->colour);
    for (int i = 0; i < 6; i++) fprintf(f, " %u", a->values[i]);
    fprintf(f, "\n");
}

/* How the reading that was handed over differs from the one that the input gave. */
static void save_given(FILE *f)
{
    if (!now.base || !now.given) return;
    save_answer(f, "answer of the input", &now.base->answer);
    save_answer(f, "answer handed over", &now.given->answer);
    for (int which = 0; which < LINES; which++)
        for (size_t cell = 0; cell < TABLE[which].listed; cell++) save_cell(f, which, cell);
    fprintf(f, "lines ended by %s, output room %lu, ", now.cr_alone ? "CR alone" : "CR LF", (unsigned long)now.room);
    fprintf(f, "place %u, round %u\n", now.place, now.round);
}

static void save_words(const char *words)
{
    FILE *f = open_in_folder("disagreement.txt");
    if (!f) return;
    fprintf(f, "seed=%lu first=%lu inputs=1\n%s\n%s: %s\n", (unsigned long)now.seed, (unsigned long)now.input, now.kind, now.step, words);
    fprintf(f, "cells lent:");
    for (int i = 0; i < ALL_TABLES; i++) fprintf(f, " %s %lu", TABLE[i].name, (unsigned long)now.lent.cells[i]);
    fprintf(f, "\n");
    save_given(f);
    fclose(f);
}

static void tell(const char *words)
{
    printf("disagreement at input %lu of seed %lu (%s)\n%s: %s\n", (unsigned long)now.input, (unsigned long)now.seed, now.kind, now.step, words);
    save_bytes("disagreement.trf", now.bytes, now.length);
    if (now.read && now.read != now.bytes) save_bytes("disagreement-written.trf", now.read, now.read_length);
    save_words(words);
    fflush(0);
}

void disagree(const char *what, ...)
{
    char words[1000];
    __builtin_va_list parts;
    __builtin_va_start(parts, what);
    vsnprintf(words, sizeof words, what, parts);
    __builtin_va_end(parts);
    tell(words);
    exit(1);
}

static void tell_of_signal(int number)
{
    char words[60];
    signal(number, 0);
    snprintf(words, sizeof words, number == 14 ? "does not come back (signal %d)" : "signal %d", number);
    tell(words);
    _exit(1);
}

void tell_in(const char *path)
{
    static const int SIGNALS[] = {4, 6, 7, 8, 11, 14};
    snprintf(folder, sizeof folder, "%s", path);
    for (size_t i = 0; i < COUNT_OF(SIGNALS); i++) signal(SIGNALS[i], tell_of_signal);
}

void still_alive(void) { alarm(PATIENCE); }
