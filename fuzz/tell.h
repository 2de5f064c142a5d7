/* What the fuzzer asks of the system: files, time, memory with a wall behind it, and a word when something went wrong. */
#ifndef FUZZ_TELL_H
#define FUZZ_TELL_H

#include "sides.h"

/* Memory whose next byte cannot be read or written. */
uint8_t *room_before_a_wall(size_t bytes);
double seconds_now(void);
/* The bytes of a file, or how many there were room for. Ends the program if it cannot be read. */
size_t load(const char *path, uint8_t *to, size_t room);
/* Where the input of a disagreement is put, and who tells of a crash or of a call that does not come back. */
void tell_in(const char *folder);
void still_alive(void);

#endif
