/* A plain reader of the two kinds of line, written by hand in C. */
#ifndef PLAIN_H
#define PLAIN_H

#include <stddef.h>
#include <stdint.h>

/*
 * Both functions judge the whole line first and write only when it is
 * accepted, so a refusal leaves every list as it was. A refusal is returned
 * as -(number * 1000000 + place):
 *
 *   18  more than 65536 bytes; place 65536
 *    1  not of the form; place of the first byte that cannot continue any
 *       line of the form (the length, if the line ends too early)
 *    2  a number beyond +-999999999; place of its first byte
 *    3  a count out of bounds, or a list without room; the place says which:
 *       0 vertices, 1 cells, 2 replacements, 3 taken numbers, 4 order values
 *
 * Places in a list are counted in int32_t.
 */

/* `[1,2,3]`. Returns how many values were written, from the first place on. */
int64_t plain_read_order(const uint8_t *line, size_t length,
                         int32_t *values, size_t places);

/*
 * `[kind,[vertices],[base cells],[replacements]]`. Returns the number of
 * cells. Writes 3 coordinates per vertex; the corners of the base cells, then
 * of the made cells; 3 numbers per replacement (its error, how many cells it
 * takes, how many it makes); and the taken numbers.
 */
int64_t plain_read_hierarchy(const uint8_t *line, size_t length,
                             int32_t *coordinates, size_t coordinate_places,
                             int32_t *corners, size_t corner_places,
                             int32_t *replacements, size_t replacement_places,
                             int32_t *taken, size_t taken_places);

#endif
