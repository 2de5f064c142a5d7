/* The plain C program that the Rattle code is measured against: the calls of include/penumbrico.h under other names, with the same promises. */
#ifndef PLAIN_H
#define PLAIN_H

#include "penumbrico.h"

trf_answer plain_read(const uint8_t *file, size_t file_bytes,
                      uint32_t *starts, size_t starts_cells,
                      uint32_t *points, size_t points_cells,
                      uint32_t *ranks, size_t ranks_cells,
                      uint8_t *kept, size_t kept_cells,
                      uint32_t *opponents, size_t opponents_cells,
                      uint8_t *colours, size_t colours_cells,
                      uint8_t *results, size_t results_cells,
                      uint8_t *text, size_t text_cells,
                      trf_acceleration *accelerations, size_t accelerations_cells,
                      uint32_t *lines, size_t lines_cells);

trf_written plain_write(trf_answer answer,
                        const uint32_t *starts, size_t starts_cells,
                        const uint32_t *points, size_t points_cells,
                        const uint32_t *ranks, size_t ranks_cells,
                        const uint8_t *kept, size_t kept_cells,
                        const uint32_t *opponents, size_t opponents_cells,
                        const uint8_t *colours, size_t colours_cells,
                        const uint8_t *results, size_t results_cells,
                        const uint8_t *text, size_t text_cells,
                        const trf_acceleration *accelerations, size_t accelerations_cells,
                        bool cr_alone,
                        uint8_t *out, size_t out_bytes);

trf_score plain_ask(trf_answer answer,
                    const uint32_t *starts, size_t starts_cells,
                    const uint32_t *points, size_t points_cells,
                    const uint32_t *ranks, size_t ranks_cells,
                    const uint8_t *kept, size_t kept_cells,
                    const uint32_t *opponents, size_t opponents_cells,
                    const uint8_t *colours, size_t colours_cells,
                    const uint8_t *results, size_t results_cells,
                    const uint8_t *text, size_t text_cells,
                    const trf_acceleration *accelerations, size_t accelerations_cells,
                    trf_place place, uint32_t round);

#endif
