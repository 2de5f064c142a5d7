#ifndef STDIO_H
#define STDIO_H

#include <stddef.h>

typedef struct _IO_FILE FILE;
extern FILE *stdin;
extern FILE *stdout;
extern FILE *stderr;

FILE *fopen(const char *name, const char *mode);
int fclose(FILE *stream);
int ferror(FILE *stream);
int fflush(FILE *stream);
size_t fread(void *to, size_t size, size_t n, FILE *stream);
size_t fwrite(const void *from, size_t size, size_t n, FILE *stream);
int fputs(const char *text, FILE *stream);
int putchar(int byte);
int printf(const char *format, ...) __attribute__((format(printf, 1, 2)));
int fprintf(FILE *stream, const char *format, ...) __attribute__((format(printf, 2, 3)));

#endif
