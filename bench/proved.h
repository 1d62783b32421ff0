/* The proved readers of the static library linebench. They do what the
 * readers in plain.h do, with the same arguments and results. */
#ifndef PROVED_H
#define PROVED_H

#include <stddef.h>
#include <stdint.h>

int64_t bench_read_order(const uint8_t *line, size_t length,
                         int32_t *values, size_t places);

int64_t bench_read_hierarchy(const uint8_t *line, size_t length,
                             int32_t *coordinates, size_t coordinate_places,
                             int32_t *corners, size_t corner_places,
                             int32_t *replacements, size_t replacement_places,
                             int32_t *taken, size_t taken_places);

#endif
