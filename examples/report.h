/* What the parts of the example share. */
#ifndef REPORT_H
#define REPORT_H

#include <stdint.h>
#include <stdio.h>

/* How the program ends: a report that is refused, or a test that fails, is 1; a file that cannot be read, output that is lost, or wrong words, 2. */
enum { DONE = 0, REFUSED = 1, FAILED = 1, UNUSABLE = 2 };

/* A refusal in one line, as the lister prints it; its words go to standard error. */
void print_refused(FILE *to, uint32_t number, uint32_t line, uint32_t round);

/* Whether the structs of the header have the layout that the library fills in, and lines end as each call says; prints what differs. */
int check_layout(void);

/* Brings the library to a refusal that no file gives (1, 18, 19, 20), over an accepted report, and prints it. */
int provoke(uint32_t number, const uint8_t *file, size_t file_bytes);

#endif
