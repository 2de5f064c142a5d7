/* Damage: to a tournament before it is spelled, to the lines of a report, to the bytes of a file, and to a reading that is handed to writer and question. */
#ifndef FUZZ_DAMAGE_H
#define FUZZ_DAMAGE_H

#include "report.h"

/* Entries, points, start numbers, values, acceleration records. */
void damage_tournament(chance *c, tournament *to);
/* Columns, lengths, line ends, codes, lines too many or missing. */
void damage_report(chance *c, report *r);
void damage_file(chance *c, file *f);
/* Cells, unused cells, parts of the answer, the kept text. */
void damage_reading(chance *c, reading *r);

#endif
